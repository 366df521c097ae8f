//! Finds the archive of the proved core, libexport.a: in the folder that DEPOT_STATICLIB names, else in target/staticlib of
//! the repository.

use std::env;
use std::path::PathBuf;
use std::process::exit;

fn main() {
    println!("cargo:rerun-if-env-changed=DEPOT_STATICLIB");
    let folder = match env::var_os("DEPOT_STATICLIB") {
        Some(folder) => PathBuf::from(folder),
        None => PathBuf::from(env::var_os("CARGO_MANIFEST_DIR").unwrap()).join("../../target/staticlib"),
    };
    let archive = folder.join("libexport.a");
    println!("cargo:rerun-if-changed={}", archive.display());
    if !archive.is_file() {
        eprintln!("no archive {}", archive.display());
        eprintln!("`tools/rust.sh archive` makes target/staticlib/libexport.a; DEPOT_STATICLIB names another folder");
        exit(1);
    }
    println!("cargo:rustc-link-search=native={}", folder.display());
    println!("cargo:rustc-link-lib=static=export");
}
