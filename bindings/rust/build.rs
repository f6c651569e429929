//! Links `libshex.a` from the folder that SHEX_LIB_DIR names, or from the repository's target/staticlib.
use std::env;
use std::path::Path;

fn main() {
    println!("cargo:rerun-if-env-changed=SHEX_LIB_DIR");
    let folder = match env::var("SHEX_LIB_DIR") {
        Ok(folder) => folder,
        Err(_) => format!("{}/../../target/staticlib", env::var("CARGO_MANIFEST_DIR").unwrap()),
    };
    let archive = Path::new(&folder).join("libshex.a");
    if !archive.exists() {
        panic!("{} is missing: run bindings/run, or set SHEX_LIB_DIR", archive.display());
    }
    println!("cargo:rerun-if-changed={}", archive.display());
    println!("cargo:rustc-link-search=native={folder}");
    println!("cargo:rustc-link-lib=static=shex");
}
