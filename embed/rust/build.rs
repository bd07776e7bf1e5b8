//! Tells the linker where libdoors.a lies.

use std::env;
use std::path::PathBuf;

/// Where `bin/staticlib` leaves it, seen from here; WULDAZIN_LIB_DIR overrides it.
const DEFAULT_LIB_DIR: &str = "../../target/staticlib";

fn main() {
    println!("cargo::rerun-if-env-changed=WULDAZIN_LIB_DIR");
    let here = PathBuf::from(env::var_os("CARGO_MANIFEST_DIR").unwrap());
    let folder = here.join(env::var_os("WULDAZIN_LIB_DIR").unwrap_or(DEFAULT_LIB_DIR.into()));
    let library = folder.join("libdoors.a");
    println!("cargo::rerun-if-changed={}", library.display());
    if !library.exists() {
        panic!(
            "no {}: run `bin/staticlib`, or set WULDAZIN_LIB_DIR",
            library.display()
        );
    }
    println!("cargo::rustc-link-search=native={}", folder.display());
    println!("cargo::rustc-link-lib=static=doors");
}
