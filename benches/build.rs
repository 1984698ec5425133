//! Compiles the C peer, where there is a C compiler.

use std::env;
use std::path::{Path, PathBuf};
use std::process::Command;

/// Whether a command ran and was successful.
fn done(command: &mut Command) -> bool {
    command.status().is_ok_and(|status| status.success())
}

/// `libpeer.a` in a folder.
fn compiled(folder: &Path) -> bool {
    let (object, library) = (folder.join("peer.o"), folder.join("libpeer.a"));
    let compile = ["-O3", "-c", "peer/peer.c", "-o"];
    done(Command::new("cc").args(compile).arg(&object))
        && done(Command::new("ar").arg("rcs").arg(library).arg(object))
}

fn main() {
    println!("cargo:rerun-if-changed=build.rs");
    println!("cargo:rerun-if-changed=peer");
    println!("cargo:rustc-check-cfg=cfg(peer)");
    let folder = PathBuf::from(env::var("OUT_DIR").expect("set by cargo"));
    if compiled(&folder) {
        println!("cargo:rustc-cfg=peer");
        println!("cargo:rustc-link-search=native={}", folder.display());
        println!("cargo:rustc-link-lib=static=peer");
    }
}
