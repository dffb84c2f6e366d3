//! Links the library's C archive, which `c/build` leaves under the repository's target folder, and with the feature `lines` that of
//! `timed_lines`, which `conformance/timings` leaves beside it.

use std::path::Path;

fn main() {
    let manifest = std::env::var("CARGO_MANIFEST_DIR").expect("cargo names the manifest's folder");
    let folder = Path::new(&manifest).join("../target/staticlib");
    println!("cargo:rustc-link-search=native={}", folder.display());
    link(&folder, "dushemqa");
    if std::env::var_os("CARGO_FEATURE_LINES").is_some() {
        link(&folder, "timed_lines");
    }
    println!("cargo:rerun-if-changed=build.rs");
}

fn link(folder: &Path, name: &str) {
    println!("cargo:rustc-link-lib=static={name}");
    println!("cargo:rerun-if-changed={}", folder.join(format!("lib{name}.a")).display());
}
