//! Links `libsnowpulley.a` from SNOWPULLEY_LIB_DIR, or else from where
//! `make library` leaves it.

use std::env;
use std::path::{Path, PathBuf};

fn main() {
    let dir = library_dir();
    let archive = dir.join("libsnowpulley.a");
    if !archive.exists() {
        // No failure yet: checking the code needs no library.
        println!(
            "cargo:warning={} is missing: make library",
            archive.display()
        );
    }
    println!("cargo:rerun-if-env-changed=SNOWPULLEY_LIB_DIR");
    println!("cargo:rerun-if-changed={}", archive.display());
    println!("cargo:rustc-link-search=native={}", dir.display());
    println!("cargo:rustc-link-lib=static=snowpulley");
    // The C example's test links the same archive.
    println!("cargo:rustc-env=SNOWPULLEY_ARCHIVE={}", archive.display());
}

fn library_dir() -> PathBuf {
    match env::var_os("SNOWPULLEY_LIB_DIR") {
        Some(dir) => PathBuf::from(dir),
        None => {
            let here = env::var_os("CARGO_MANIFEST_DIR").expect("cargo sets this");
            Path::new(&here).join("../../target")
        }
    }
}
