//! Tells the linker where the port's static library lies.

use std::env;
use std::path::PathBuf;

/// Where `bin/staticlib` leaves it, seen from here; WULDAZIN_LIB_DIR overrides it.
const DEFAULT_LIB_DIR: &str = "../target/staticlib";

fn main() {
    println!("cargo::rerun-if-env-changed=WULDAZIN_LIB_DIR");
    if env::var_os("CARGO_FEATURE_MOCK").is_some() {
        return;
    }
    let here = PathBuf::from(env::var_os("CARGO_MANIFEST_DIR").unwrap());
    let folder = match env::var_os("WULDAZIN_LIB_DIR") {
        Some(path) => PathBuf::from(path),
        None => here.join(DEFAULT_LIB_DIR),
    };
    let library = folder.join("libdoors.a");
    println!("cargo::rerun-if-changed={}", library.display());
    if !library.exists() {
        panic!(
            "no {}: build it, or use the feature mock",
            library.display()
        );
    }
    println!("cargo::rustc-link-search=native={}", folder.display());
    println!("cargo::rustc-link-lib=static=doors");
}
