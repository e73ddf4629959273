//! For the feature `piermint`: links the proved engine's static library of the repository above. For
//! the feature `before`: links an earlier engine too, the object that PIERMINT_BEFORE names.

use std::env;
use std::path::PathBuf;

fn main() {
    println!("cargo::rerun-if-changed=build.rs");
    if env::var_os("CARGO_FEATURE_PIERMINT").is_some() {
        link_present();
    }
    if env::var_os("CARGO_FEATURE_BEFORE").is_some() {
        link_before();
    }
}

fn link_present() {
    let package = PathBuf::from(env::var_os("CARGO_MANIFEST_DIR").expect("cargo sets it"));
    let folder = package.join("../crates/piermint/out");
    let library = folder.join("libpiermint.a");
    println!("cargo::rerun-if-changed={}", library.display());
    if !library.is_file() {
        println!(
            "cargo::error=crates/piermint/out/libpiermint.a is missing; run `rt lib` in crates/piermint"
        );
    }
    println!("cargo::rustc-link-search=native={}", folder.display());
    println!("cargo::rustc-link-lib=static=piermint");
}

fn link_before() {
    println!("cargo::rerun-if-env-changed=PIERMINT_BEFORE");
    let object = PathBuf::from(env::var_os("PIERMINT_BEFORE").unwrap_or_default());
    println!("cargo::rerun-if-changed={}", object.display());
    if !object.is_file() {
        println!("cargo::error=PIERMINT_BEFORE names no object; run `./bench --before REV`");
    }
    println!("cargo::rustc-link-arg={}", object.display());
}
