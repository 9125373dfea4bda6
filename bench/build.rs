//! Links the proved library, where the feature `proved` asks for it: `bench/run` builds it first.

use std::path::{Path, PathBuf};
use std::process::Command;

fn main() {
    println!("cargo:rerun-if-changed=build.rs");
    if std::env::var_os("CARGO_FEATURE_PROVED").is_none() {
        return;
    }
    let library = Path::new(env!("CARGO_MANIFEST_DIR")).join("../crates/export/out");
    println!(
        "cargo:rerun-if-changed={}",
        library.join("libexport.a").display()
    );
    println!("cargo:rustc-link-search=native={}", library.display());
    println!("cargo:rustc-link-lib=static=export");
    // What the proved library calls for memory, as the kit has it compiled.
    println!(
        "cargo:rustc-link-search=native={}",
        kit().join("c").display()
    );
    println!("cargo:rustc-link-lib=static=libc_c");
}

/// The kit's folder: `rt doc` prints a page in it.
fn kit() -> PathBuf {
    let page = Command::new("rt")
        .arg("doc")
        .output()
        .expect("`rt` stands in the path");
    let page = String::from_utf8(page.stdout).expect("the path of a page");
    Path::new(page.trim())
        .parent()
        .expect("the page stands in a folder")
        .to_path_buf()
}
