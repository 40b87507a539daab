// Links the proved library: target/lib/libdovrelzi.a, or the folder that DOVRELZI_LIB names.
use std::env;
use std::path::PathBuf;

fn main() {
    let default = PathBuf::from(env::var("CARGO_MANIFEST_DIR").unwrap()).join("../target/lib");
    let folder = env::var("DOVRELZI_LIB").map_or(default, PathBuf::from);
    println!("cargo:rerun-if-env-changed=DOVRELZI_LIB");
    println!("cargo:rerun-if-changed={}", folder.join("libdovrelzi.a").display());
    println!("cargo:rustc-link-search=native={}", folder.display());
    println!("cargo:rustc-link-lib=static=dovrelzi");
}
