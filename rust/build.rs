//! Links the proved library, which `.ci/library` puts into target/staticlib of the repository.

use std::env;
use std::path::PathBuf;

fn main() {
    let project = PathBuf::from(env::var_os("CARGO_MANIFEST_DIR").expect("cargo sets it"));
    let folder = project.join("../target/staticlib");
    let library = folder.join("libboard_c.a");
    println!("cargo:rerun-if-changed=build.rs");
    println!("cargo:rerun-if-changed={}", library.display());
    assert!(library.exists(), "no {}: run `.ci/library` first", library.display());
    println!("cargo:rustc-link-search=native={}", folder.display());
    println!("cargo:rustc-link-lib=static=board_c");
}
