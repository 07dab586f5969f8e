//! Says where libudphost.a is: in the folder that UDPHOST_LIB names, else in
//! the repository's target/staticlib.

use std::env;
use std::path::{Path, PathBuf};

fn main() {
    let folder = folder();
    let library = folder.join("libudphost.a");
    if !library.is_file() {
        panic!(
            "there is no {}: make it with bindings/library, or name its folder in UDPHOST_LIB",
            library.display()
        );
    }
    println!("cargo:rerun-if-env-changed=UDPHOST_LIB");
    println!("cargo:rerun-if-changed={}", library.display());
    println!("cargo:rustc-link-search=native={}", folder.display());
    println!("cargo:rustc-link-lib=static=udphost");
}

fn folder() -> PathBuf {
    let here = env::var_os("CARGO_MANIFEST_DIR").expect("cargo says where the crate is");
    match env::var_os("UDPHOST_LIB") {
        Some(folder) => PathBuf::from(folder),
        None => Path::new(&here).join("../../target/staticlib"),
    }
}
