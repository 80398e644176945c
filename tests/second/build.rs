//! Names the engine's static library to the linker.

use std::env;

fn main() {
    println!("cargo:rerun-if-env-changed=CANYONSIEVE_LIB_DIR");
    let folder = env::var("CANYONSIEVE_LIB_DIR")
        .expect("set CANYONSIEVE_LIB_DIR to the folder that holds libcanyonsieve.a");
    println!("cargo:rerun-if-changed={folder}/libcanyonsieve.a");
    println!("cargo:rustc-link-search=native={folder}");
    println!("cargo:rustc-link-lib=static=canyonsieve");
}
