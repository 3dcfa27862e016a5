//! Where `gate/library tuyrashka` writes the library.

use std::env::var;
use std::path::Path;

fn main() {
    let root = var("CARGO_MANIFEST_DIR").expect("cargo names the folder");
    let folder = Path::new(&root).join("../target/staticlib");
    let archive = folder.join("libtuyrashka.a");
    println!("cargo::rerun-if-changed={}", archive.display());
    println!("cargo::rustc-link-search=native={}", folder.display());
    if var("CARGO_CFG_TARGET_ARCH").as_deref() != Ok("x86_64") || var("CARGO_CFG_TARGET_OS").as_deref() != Ok("linux") {
        println!("cargo::error=libtuyrashka.a is for x86-64 Linux");
    } else if !archive.exists() {
        println!("cargo::error=there is no {}; run: gate/library tuyrashka", archive.display());
    }
}
