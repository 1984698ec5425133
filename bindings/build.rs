//! Links the proved static library.

use std::env;
use std::path::PathBuf;

/// The library is in LIB_DIR, or in the project's own folder of results.
fn main() {
    println!("cargo:rerun-if-changed=build.rs");
    println!("cargo:rerun-if-env-changed=LIB_DIR");
    let package = PathBuf::from(env::var("CARGO_MANIFEST_DIR").expect("set by cargo"));
    let folder = match env::var_os("LIB_DIR") {
        Some(folder) => PathBuf::from(folder),
        None => package.join("../target/staticlib"),
    };
    let library = folder.join("libexports.a");
    println!("cargo:rerun-if-changed={}", library.display());
    println!("cargo:rustc-link-search=native={}", folder.display());
    println!("cargo:rustc-link-lib=static=exports");
}
