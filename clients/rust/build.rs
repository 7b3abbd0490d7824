//! Links libwalrus.a: that in the folder of the variable WALRUS_LIBRARY_DIR, or what `./walrus --library` builds here.

use std::env;
use std::path::PathBuf;

fn main() {
    println!("cargo:rerun-if-env-changed=WALRUS_LIBRARY_DIR");
    let top = PathBuf::from(env::var("CARGO_MANIFEST_DIR").expect("cargo names the folder"));
    let folder = match env::var("WALRUS_LIBRARY_DIR") {
        Ok(folder) => PathBuf::from(folder),
        Err(_) => top.join("../c/out"),
    };
    let archive = folder.join("libwalrus.a");
    if !archive.exists() {
        panic!(
            "{} is not there: build it with ./walrus --library, or name its folder by WALRUS_LIBRARY_DIR",
            archive.display()
        );
    }
    println!("cargo:rerun-if-changed={}", archive.display());
    println!("cargo:rustc-link-search=native={}", folder.display());
    println!("cargo:rustc-link-lib=static=walrus");
}
