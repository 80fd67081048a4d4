//! Links the proved archive, `libexports.a`, when the feature `proved` asks for it.

use std::env;
use std::path::PathBuf;

fn main() {
    println!("cargo::rerun-if-changed=build.rs");
    println!("cargo::rerun-if-env-changed=LEVEEHUM_STATICLIB");
    if env::var_os("CARGO_FEATURE_PROVED").is_none() {
        return;
    }
    let folder = archive_folder();
    let archive = folder.join("libexports.a");
    println!("cargo::rerun-if-changed={}", archive.display());
    println!("cargo::rustc-link-search=native={}", folder.display());
    println!("cargo::rustc-link-lib=static=exports");
    if !archive.exists() {
        println!("cargo::error={} is missing", archive.display());
        println!("cargo::error=run `bash .ci/programs exports` at the repository root first,");
        println!("cargo::error=or set LEVEEHUM_STATICLIB to the folder that has it");
    }
}

/// The folder that `.ci/programs` puts the archive into, unless the caller names another.
fn archive_folder() -> PathBuf {
    match env::var_os("LEVEEHUM_STATICLIB") {
        Some(folder) => PathBuf::from(folder),
        None => PathBuf::from(env!("CARGO_MANIFEST_DIR")).join("../target/staticlib"),
    }
}
