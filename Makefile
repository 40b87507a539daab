# The program, the library for C, its example, and the tests and measurements of it.
#
#   make bin                     target/bin/dovrelzi, proved and built by rt
#   make lib                     target/lib/libdovrelzi.a, proved and built by rt
#   make install PREFIX=/usr     library and header below PREFIX
#   make example                 builds and runs examples/c/example.c
#   make harness                 builds harness/target/release/harness: 'harness test', 'harness bench'
PREFIX ?= /usr/local
CC ?= cc
CFLAGS ?= -O2
WARNINGS = -std=c11 -Wall -Wextra -Wpedantic -Werror

bin := target/bin/dovrelzi
lib := target/lib/libdovrelzi.a
# What the library needs of the program that it is linked into, as its header says: these and nothing else.
needs := memcpy memset
example := target/example/example
sources := crates.txt $(shell find crates -path '*/out' -prune -o \( -name '*.rt' -o -name '*.antt' \) -print)

.PHONY: all bin lib install example harness clean

all: bin lib

bin: $(bin)

# rt builds a program when it runs it.
$(bin): $(sources)
	cd crates/dovrelzi && rt run -- --help >/dev/null
	mkdir -p $(@D)
	cp crates/dovrelzi/out/dovrelzi $@

lib: $(lib)

$(lib): $(sources)
	cd crates/capi && rt lib
	mkdir -p $(@D)
	test "$$(nm -u crates/capi/out/libcapi.a | awk '$$1 == "U" { print $$2 }' | sort | xargs)" = "$(needs)"
	cp crates/capi/out/libcapi.a $@

install: $(lib)
	install -d $(DESTDIR)$(PREFIX)/lib $(DESTDIR)$(PREFIX)/include
	install -m 644 $(lib) $(DESTDIR)$(PREFIX)/lib/
	install -m 644 include/dovrelzi.h $(DESTDIR)$(PREFIX)/include/

$(example): examples/c/example.c include/dovrelzi.h $(lib)
	mkdir -p $(@D)
	$(CC) $(CFLAGS) $(WARNINGS) -Iinclude -o $@ $< $(lib)

# The program prints the same for the same example.
example: $(example)
	./$(example) > $(example).out
	cat $(example).out
	cmp $(example).out examples/served.out

harness: $(lib)
	cargo build --quiet --release --offline --manifest-path harness/Cargo.toml

clean:
	rm -rf target harness/target crates/*/out
