//! Finds the Rust text: in the folder that CAVALIER_SRC names, or else beside the repository. A relative path starts at the root
//! of the repository. The text stays as it is; of the pair function a copy with a log is made.

mod insertions;

use std::env;
use std::fs;
use std::path::PathBuf;
use std::process::exit;

const FILES: [&str; 6] = [
    "src/core/math/base_math.rs",
    "src/core/math/line_line_intersect.rs",
    "src/core/math/line_circle_intersect.rs",
    "src/core/math/circle_circle_intersect.rs",
    "src/polyline/pline_seg.rs",
    PAIRS,
];
const PAIRS: &str = "src/polyline/pline_seg_intersect.rs";

fn main() {
    println!("cargo:rerun-if-env-changed=CAVALIER_SRC");
    let here = PathBuf::from(env::var_os("CARGO_MANIFEST_DIR").expect("cargo sets it"));
    let named = env::var_os("CAVALIER_SRC").unwrap_or_else(|| "../shared/docs/src".into());
    let text = here.join("../..").join(named);
    for file in FILES {
        let path = text.join(file);
        println!("cargo:rerun-if-changed={}", path.display());
        if !path.is_file() {
            eprintln!("no Rust text: {} is missing", path.display());
            exit(1);
        }
    }
    println!("cargo:rustc-env=RUST_TEXT={}", text.display());
    let pairs = fs::read_to_string(text.join(PAIRS)).expect("the file is there");
    let copy = insertions::noted(&pairs).unwrap_or_else(|why| {
        eprintln!("no log can be put into {PAIRS}: {why}");
        exit(1);
    });
    let out = PathBuf::from(env::var_os("OUT_DIR").expect("cargo sets it"));
    fs::write(out.join("pairs_with_log.rs"), copy).expect("cargo's own folder can be written to");
}
