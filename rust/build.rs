//! Finds `libgateway.a`: in the folder that `KEY_AGENT_LIB` names, else where `rust/archive` writes the one for the target's architecture.
use std::env::{var, var_os};
use std::path::PathBuf;
use std::process::exit;

fn main() {
    println!("cargo:rerun-if-env-changed=KEY_AGENT_LIB");
    let here = PathBuf::from(var("CARGO_MANIFEST_DIR").expect("cargo sets it"));
    let arch = var("CARGO_CFG_TARGET_ARCH").expect("cargo sets it");
    let dir = match (var_os("KEY_AGENT_LIB"), arch.as_str()) {
        (Some(dir), _) => here.join(dir),
        (None, "x86_64" | "aarch64") => here.join("../target").join(&arch),
        (None, _) => {
            eprintln!("No archive is made for {arch}, only for x86_64 and aarch64.");
            exit(1);
        }
    };
    let archive = dir.join("libgateway.a");
    println!("cargo:rerun-if-changed={}", archive.display());
    if !archive.is_file() {
        eprintln!("{} is not there.", archive.display());
        eprintln!("Run `rust/archive {arch}` in the repository, or name the folder of an archive for {arch} in KEY_AGENT_LIB.");
        exit(1);
    }
    println!("cargo:rustc-link-search=native={}", dir.display());
    println!("cargo:rustc-link-lib=static=gateway");
}
