//! Links the two static libraries: from the folder that `VONJEKONA_LIB` names, else from the
//! repository's `target/staticlib`. Where the latter lacks them they are made there, by `tools/make`.

use std::env;
use std::path::{Path, PathBuf};
use std::process::{Command, exit};

/// The calls, and those with large arcs.
const LIBRARIES: [&str; 2] = ["capi", "capi_large"];

fn main() {
    println!("cargo:rerun-if-env-changed=VONJEKONA_LIB");
    println!("cargo:rerun-if-changed=build.rs");
    let folder = match env::var_os("VONJEKONA_LIB") {
        Some(folder) => named(Path::new(&folder)),
        None => of_the_repository(),
    };
    println!("cargo:rustc-link-search=native={}", folder.display());
    for name in LIBRARIES {
        println!("cargo:rerun-if-changed={}", archive(&folder, name).display());
        println!("cargo:rustc-link-lib=static={name}");
    }
}

fn archive(folder: &Path, name: &str) -> PathBuf {
    folder.join(format!("lib{name}.a"))
}

fn stop(why: &str) -> ! {
    eprintln!("vonjekona: {why}");
    exit(1);
}

/// The caller's own folder: nothing is made there.
fn named(folder: &Path) -> PathBuf {
    for name in LIBRARIES {
        let archive = archive(folder, name);
        if !archive.is_file() {
            stop(&format!(
                "VONJEKONA_LIB is set, and {} is missing. Unset it, or copy the library there.",
                archive.display()
            ));
        }
    }
    // cargo runs a build script in the package's folder, and the linker elsewhere
    folder.canonicalize().unwrap_or_else(|e| stop(&format!("{}: {e}", folder.display())))
}

fn of_the_repository() -> PathBuf {
    let here = PathBuf::from(env::var_os("CARGO_MANIFEST_DIR").expect("cargo sets it"));
    let root = here.join("../..");
    let folder = root.join("target/staticlib");
    for name in LIBRARIES {
        if !archive(&folder, name).is_file() {
            make(&root, name);
        }
        if !archive(&folder, name).is_file() {
            stop(&format!(
                "`tools/make {name}` ran, and {} is missing all the same.",
                archive(&folder, name).display()
            ));
        }
    }
    folder
}

/// Makes a library. The first time this takes a while.
fn make(root: &Path, name: &str) {
    let help = format!(
        "lib{name}.a is missing. Put the Rattle kit's `rt` on the PATH and run `tools/make {name}` \
         at the repository's root, or set VONJEKONA_LIB to a folder that has the libraries."
    );
    match Command::new(root.join("tools/make")).arg(name).status() {
        Ok(status) if status.success() => {}
        Ok(status) => stop(&format!("`tools/make {name}` failed, {status}. {help}")),
        Err(e) => stop(&format!("`tools/make` cannot be run: {e}. {help}")),
    }
}
