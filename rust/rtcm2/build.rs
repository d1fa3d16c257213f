//! Links librtcm2.a from the folder in RTCM2_LIBRARY, or from target/staticlib of the repository.

use std::path::Path;

fn main() {
    let usual = concat!(env!("CARGO_MANIFEST_DIR"), "/../../target/staticlib");
    let folder = std::env::var("RTCM2_LIBRARY").unwrap_or_else(|_| usual.to_string());
    println!("cargo:rerun-if-env-changed=RTCM2_LIBRARY");
    println!("cargo:rerun-if-changed={folder}/librtcm2.a");
    if !Path::new(&folder).join("librtcm2.a").exists() {
        println!("cargo:warning={folder}/librtcm2.a is not there: `make` makes it, or RTCM2_LIBRARY names its folder");
    }
    println!("cargo:rustc-link-search=native={folder}");
    println!("cargo:rustc-link-lib=static=rtcm2");
}
