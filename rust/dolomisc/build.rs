//! Finds `libdolomisc.a`: in the folder that DOLOMISC_LIB_DIR names, or where `tools/archive` puts it in this repository.
use std::env;
use std::path::PathBuf;

fn main() {
    println!("cargo:rerun-if-env-changed=DOLOMISC_LIB_DIR");
    let here = PathBuf::from(env::var("CARGO_MANIFEST_DIR").unwrap());
    let folder = match env::var_os("DOLOMISC_LIB_DIR") {
        Some(named) => PathBuf::from(named),
        None => here.join("../../target/staticlib"),
    };
    let archive = folder.join("libdolomisc.a");
    println!("cargo:rerun-if-changed={}", archive.display());
    if !archive.exists() {
        panic!("{} is not there: run `tools/archive` in the repository, or set DOLOMISC_LIB_DIR to the folder of the archive", archive.display());
    }
    println!("cargo:rustc-link-search=native={}", folder.display());
    println!("cargo:rustc-link-lib=static=dolomisc");
}
