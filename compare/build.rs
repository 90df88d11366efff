//! Finds the two files of the original.
//!
//! Nothing is copied: the program includes the original's text from where it stands. Where it is
//! missing, `cfg(original)` stays unset and the program does without it.

use std::env;
use std::path::{Path, PathBuf};

/// The files as a checkout of semiexp/cspuz_core has them, and as a folder of single files has them.
const FILES: [[&str; 2]; 2] = [
    [
        "cspuz_rs_puzzles/src/puzzles/evolmino.rs",
        "cspuz_rs_puzzles/src/util.rs",
    ],
    [
        "src--cspuz_rs_puzzles--src--puzzles--evolmino.rs.txt",
        "src--cspuz_rs_puzzles--src--util.rs.txt",
    ],
];

fn main() {
    println!("cargo:rerun-if-changed=build.rs");
    println!("cargo:rustc-check-cfg=cfg(original)");
    find_original(&folder("EVOLMINO_ORIGINAL", "../../shared/docs"));
}

/// The folder that an environment variable names, or a default; relative ones start at compare/.
fn folder(variable: &str, default: &str) -> PathBuf {
    println!("cargo:rerun-if-env-changed={variable}");
    let manifest = env::var_os("CARGO_MANIFEST_DIR").expect("cargo sets CARGO_MANIFEST_DIR");
    let named = env::var_os(variable).unwrap_or_else(|| default.into());
    Path::new(&manifest).join(named)
}

fn find_original(folder: &Path) {
    for files in FILES {
        let [evolmino, util] = files.map(|file| folder.join(file));
        println!("cargo:rerun-if-changed={}", evolmino.display());
        println!("cargo:rerun-if-changed={}", util.display());
        if evolmino.is_file() && util.is_file() {
            println!("cargo:rustc-cfg=original");
            println!("cargo:rustc-env=EVOLMINO_RS={}", evolmino.display());
            println!("cargo:rustc-env=EVOLMINO_UTIL_RS={}", util.display());
            return;
        }
    }
    println!(
        "cargo:warning=the original is not in {}: set EVOLMINO_ORIGINAL",
        folder.display()
    );
}
