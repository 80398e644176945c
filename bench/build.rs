//! Names the static library of the changes to the linker, for the one program that calls it.

use std::env;

fn main() {
    println!("cargo:rerun-if-env-changed=CANYONSIEVE_LIB_DIR");
    let folder = env::var("CANYONSIEVE_LIB_DIR")
        .expect("set CANYONSIEVE_LIB_DIR to the folder that holds libtiming.a");
    // The folder and not the file, which is there only once the changes are to be timed.
    println!("cargo:rerun-if-changed={folder}");
    println!("cargo:rustc-link-arg-bin=changes={folder}/libtiming.a");
}
