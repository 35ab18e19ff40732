//! Links the proved library and the kit's heap code, where the feature `proved` asks for them.

use std::path::{Path, PathBuf};
use std::process::Command;

fn main() {
    println!("cargo::rerun-if-changed=build.rs");
    if std::env::var_os("CARGO_FEATURE_PROVED").is_none() {
        return;
    }
    let folder = PathBuf::from(env!("CARGO_MANIFEST_DIR")).join("../crates/exports/out");
    link(&folder, "exports", "run `rt lib` in crates/exports first");
    let kit = kit().unwrap_or_else(|| panic!("no kit: `rt doc` must print the path of its guide"));
    for name in ["os_c", "libc_c"] {
        link(&kit.join("c"), name, "the kit must have its C code there, which allocates and frees");
    }
}

/// Links libNAME.a of a folder, or stops with advice where it is missing.
fn link(folder: &Path, name: &str, advice: &str) {
    let archive = folder.join(format!("lib{name}.a"));
    println!("cargo::rerun-if-changed={}", archive.display());
    assert!(archive.exists(), "{} is missing: {advice}", archive.display());
    println!("cargo::rustc-link-search=native={}", folder.display());
    println!("cargo::rustc-link-lib=static={name}");
}

/// The kit's folder, which has the guide that `rt doc` names.
fn kit() -> Option<PathBuf> {
    let output = Command::new("rt").arg("doc").output().ok()?;
    let guide = String::from_utf8(output.stdout).ok()?;
    Some(Path::new(guide.trim_end()).parent()?.to_path_buf())
}
