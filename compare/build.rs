//! Links the proved static libraries, which `tools/make NAME` writes: the product, the calls with large arcs, and the functions
//! that only the comparison calls.

use std::env;
use std::path::PathBuf;
use std::process::exit;

fn main() {
    println!("cargo:rerun-if-env-changed=VONJEKONA_LIB");
    let here = PathBuf::from(env::var_os("CARGO_MANIFEST_DIR").expect("cargo sets it"));
    let folder = match env::var_os("VONJEKONA_LIB") {
        Some(folder) => PathBuf::from(folder),
        None => here.join("../target/staticlib"),
    };
    println!("cargo:rustc-link-search=native={}", folder.display());
    for name in ["capi", "probe", "capi_large"] {
        let archive = folder.join(format!("lib{name}.a"));
        println!("cargo:rerun-if-changed={}", archive.display());
        if !archive.is_file() {
            eprintln!(
                "{} is missing: run `tools/make {name}`",
                archive.display()
            );
            exit(1);
        }
        println!("cargo:rustc-link-lib=static={name}");
    }
}
