//! Links the proved engine where the feature `proved` asks for it.

use std::env;
use std::path::{Path, PathBuf};
use std::process::Command;

/// The folder of the kit's C code, which has the memory calls of a proved library; `rt doc` says where the kit is.
fn kit_library() -> PathBuf {
    let said = Command::new("rt").arg("doc").output().expect("rt says where its guides are");
    let guide = String::from_utf8(said.stdout).expect("a path");
    let docs = Path::new(guide.trim()).parent().expect("the guides' folder");
    docs.parent().expect("the kit's folder").join("lib")
}

fn main() {
    println!("cargo:rerun-if-changed=build.rs");
    if env::var_os("CARGO_FEATURE_PROVED").is_none() {
        return;
    }
    let root = env::var("CARGO_MANIFEST_DIR").expect("cargo names the folder of the package");
    let folder = Path::new(&root).join("../target/staticlib");
    println!("cargo:rerun-if-changed={}", folder.join("libbatch.a").display());
    println!("cargo:rustc-link-search=native={}", folder.display());
    println!("cargo:rustc-link-search=native={}", kit_library().display());
    println!("cargo:rustc-link-lib=static=batch");
    println!("cargo:rustc-link-lib=static=rattle_c");
}
