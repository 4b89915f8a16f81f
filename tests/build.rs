//! Links the programs, and only them, with the engine's library: the model and its examples build without it.

use std::env;
use std::path::PathBuf;

fn main() {
    let library = env::var("UVE_LIBRARY")
        .map_or_else(|_| PathBuf::from(env::var("CARGO_MANIFEST_DIR").unwrap()).join("../target/staticlib/libuve.a"), PathBuf::from);
    println!("cargo:rerun-if-env-changed=UVE_LIBRARY");
    println!("cargo:rerun-if-changed={}", library.display());
    println!("cargo:rustc-link-arg-bins={}", library.display());
}
