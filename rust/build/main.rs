//! Links the proved code: the folder of its libraries is `SILVERPOISE_LIB`, or else `rt` makes them (tools/libraries).

mod prove;

use std::{env, path::Path, path::PathBuf};

/// Lines of one form, lines of commands, many lines in one call; the careful run of a line, and why a place was left over.
const LIBRARIES: [&str; 4] = ["exports", "exports_commands", "exports_batch", "exports_why"];

fn main() {
    println!("cargo::rerun-if-env-changed=SILVERPOISE_LIB");
    let folder = env::var_os("SILVERPOISE_LIB").map_or_else(build, given);
    println!("cargo::rustc-link-search=native={}", folder.display());
    for library in LIBRARIES {
        println!("cargo::rustc-link-lib=static={library}");
    }
}

fn given(folder: std::ffi::OsString) -> PathBuf {
    for library in LIBRARIES {
        let archive = Path::new(&folder).join(format!("lib{library}.a"));
        assert!(archive.is_file(), "SILVERPOISE_LIB: there is no {}", archive.display());
        println!("cargo::rerun-if-changed={}", archive.display());
    }
    PathBuf::from(folder)
}

/// Proves and builds the libraries in the project's root; their folder. The archives are newer than this run, and so is what `rt`
/// leaves beside the sources, so cargo is told to look at the sources alone.
fn build() -> PathBuf {
    let manifest = env::var_os("CARGO_MANIFEST_DIR").expect("cargo sets CARGO_MANIFEST_DIR");
    let root = Path::new(&manifest).parent().expect("the crate stands in the project's root");
    for source in prove::sources(root, &LIBRARIES) {
        println!("cargo::rerun-if-changed={}", source.display());
    }
    prove::side_by_side(root, &LIBRARIES);
    root.join("target/staticlib")
}
