/*
 * The worked example of docs/RULES.md and README.md from C: a memory of 65 bytes with a ring of two places at 0, one chain that asks for
 * block 1, and a device that keeps 32 bytes. Prints what the program prints for examples/served.txt, and ends with 1 if anything is not
 * as it should be.
 */
#include <dovrelzi.h>
#include <inttypes.h>
#include <stdio.h>
#include <stdlib.h>
#include <string.h>

enum { MEMORY = 65, KEPT = 32, PLACES = 2, BEGINS = 0, USED_COUNT = 22, USED_ENTRY = 24, RESPONSE = 48 };

/* Ends the program if something is not as it should be. */
static void expect(int holds, const char *what)
{
    if (!holds) {
        fprintf(stderr, "example: not so: %s\n", what);
        exit(1);
    }
}

static void put_number(uint8_t *memory, size_t at, unsigned value)
{
    memory[at] = (uint8_t)(value & 255);
    memory[at + 1] = (uint8_t)(value >> 8);
}

static unsigned number(const uint8_t *memory, size_t at)
{
    return memory[at] + 256u * memory[at + 1];
}

static void put_descriptor(uint8_t *memory, size_t index, unsigned address, unsigned length, unsigned flags, unsigned next)
{
    size_t at = BEGINS + 8 * index;
    put_number(memory, at, address);
    put_number(memory, at + 2, length);
    put_number(memory, at + 4, flags);
    put_number(memory, at + 6, next);
}

/* The guest's side: a chain of two descriptors, of which one head is available. */
static void set_up_guest(uint8_t *memory)
{
    memset(memory, 0, MEMORY);
    put_descriptor(memory, 0, 40, 2, 1, 1);         /* two readable bytes at 40, and descriptor 1 follows */
    put_descriptor(memory, 1, RESPONSE, 17, 2, 0);  /* seventeen writable bytes at 48 */
    put_number(memory, BEGINS + 8 * PLACES, 1);     /* one chain is available .. */
    put_number(memory, BEGINS + 8 * PLACES + 2, 0); /* .. and its head is 0 */
    memory[40] = 0;                                 /* the request: read .. */
    memory[41] = 1;                                 /* .. block 1 */
}

static void print_changes(const char *name, const uint8_t *before, const uint8_t *after, size_t len)
{
    for (size_t i = 0; i < len; i++)
        if (before[i] != after[i])
            printf("%s %zu: %u -> %u\n", name, i, (unsigned)before[i], (unsigned)after[i]);
}

/* What the guest then finds: the chain is used, with a response of status 0 and the block. */
static void check_memory(const uint8_t *memory, const uint8_t *kept)
{
    expect(number(memory, USED_COUNT) == 1, "the used count is 1");
    expect(number(memory, USED_ENTRY) == 0, "the used entry has head 0");
    expect(number(memory, USED_ENTRY + 2) == 17, "the used entry has a response of 17 bytes");
    expect(memory[RESPONSE] == 0, "the status is 0");
    expect(memcmp(memory + RESPONSE + 1, kept + 16, 16) == 0, "the response has block 1");
}

static void check_part(const uint8_t *memory)
{
    DovrelziPart part = dovrelzi_piece(PLACES, BEGINS, memory, MEMORY, 1);
    expect(part.present == 1 && part.at == RESPONSE && part.len == 17, "descriptor 1 names 17 bytes at 48");
    part = dovrelzi_piece(PLACES, BEGINS, memory, MEMORY, 2);
    expect(part.present == 0 && part.at == 0 && part.len == 0, "there is no descriptor 2");
    part = dovrelzi_piece(PLACES, BEGINS, NULL, 0, 0);
    expect(part.present == 0, "no ring stands in a memory of no bytes");
}

static void check_reset(uint32_t *state)
{
    DovrelziDone done = dovrelzi_begin_anew(state, 1);
    expect(done.kind == DOVRELZI_REFUSED && done.value == DOVRELZI_REFUSED_STATE, "a state of one number is refused");
    expect(state[0] == 1 && state[1] == 0, "a refusal changes nothing");
    done = dovrelzi_begin_anew(NULL, 0);
    expect(done.kind == DOVRELZI_REFUSED && done.value == DOVRELZI_REFUSED_STATE, "a state of no numbers is refused");
    done = dovrelzi_begin_anew(state, 2);
    expect(done.kind == DOVRELZI_ANEW && done.value == 0, "the device is reset");
    expect(state[0] == 0 && state[1] == 0, "the state is new");
}

/* A device that keeps nothing: no pointer is needed for its contents. */
static void check_no_contents(void)
{
    uint8_t memory[MEMORY];
    uint32_t state[2] = {0, 0};
    set_up_guest(memory);
    DovrelziDone done = dovrelzi_serve(PLACES, BEGINS, memory, MEMORY, state, 2, NULL, 0, 5);
    expect(done.kind == DOVRELZI_SERVED && done.value == 0, "the chain is served without contents");
    expect(memory[RESPONSE] == 255, "block 1 is past the contents");
}

int main(void)
{
    uint8_t memory[MEMORY], memory_before[MEMORY], kept[KEPT], kept_before[KEPT];
    uint32_t state[2] = {0, 0};

    set_up_guest(memory);
    for (size_t i = 0; i < KEPT; i++)
        kept[i] = (uint8_t)i;
    memcpy(memory_before, memory, MEMORY);
    memcpy(kept_before, kept, KEPT);

    DovrelziDone done = dovrelzi_serve(PLACES, BEGINS, memory, MEMORY, state, 2, kept, KEPT, DOVRELZI_MAX_TIMES + 1);
    expect(done.kind == DOVRELZI_REFUSED && done.value == DOVRELZI_REFUSED_TIMES, "1,001 servings are refused");
    expect(memcmp(memory, memory_before, MEMORY) == 0, "a refusal changes nothing");

    done = dovrelzi_serve(PLACES, BEGINS, memory, MEMORY, state, 2, kept, KEPT, 5);
    expect(done.kind == DOVRELZI_SERVED, "chains were served");
    expect(state[0] == 1 && state[1] == 0, "one chain was served");
    check_memory(memory, kept);

    print_changes("memory", memory_before, memory, MEMORY);
    print_changes("kept", kept_before, kept, KEPT);
    printf("waiting %" PRIu64 "\n", done.value);

    check_part(memory);
    check_reset(state);
    check_no_contents();
    return 0;
}
