//! Links `libhost.a`, the proved library that `.ci/built` writes.

use std::path::{Path, PathBuf};
use std::{env, fs, process};

fn main() {
    println!("cargo:rerun-if-env-changed=EVOLMINO_HOST");
    let folder = match env::var_os("EVOLMINO_HOST") {
        Some(folder) => PathBuf::from(folder),
        None => Path::new(&set_by_cargo("CARGO_MANIFEST_DIR")).join("../target/staticlib"),
    };
    let library = folder.join("libhost.a");
    println!("cargo:rerun-if-changed={}", library.display());
    let target = (
        set_by_cargo("CARGO_CFG_TARGET_ARCH"),
        set_by_cargo("CARGO_CFG_TARGET_OS"),
    );
    if target != ("x86_64".into(), "linux".into()) {
        fail("`.ci/built` writes the library for x86-64 Linux only, and this build is for another machine.");
    }
    if !library.is_file() {
        fail(&format!(
            "{} is not there. Run `.ci/built` in the root of the repository, or set EVOLMINO_HOST to the folder that has libhost.a.",
            library.display()
        ));
    }
    // Linked under a name of its own: another package may have a library called host.
    let out = set_by_cargo("OUT_DIR");
    if let Err(error) = fs::copy(&library, Path::new(&out).join("libevolmino_host.a")) {
        fail(&format!(
            "{} can't be copied to {out}: {error}",
            library.display()
        ));
    }
    println!("cargo:rustc-link-search=native={out}");
    println!("cargo:rustc-link-lib=static=evolmino_host");
}

fn set_by_cargo(variable: &str) -> String {
    env::var(variable).unwrap_or_else(|_| panic!("cargo sets {variable}"))
}

fn fail(why: &str) -> ! {
    eprintln!("{why}");
    process::exit(1)
}
