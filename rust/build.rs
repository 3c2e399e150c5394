//! Links the static library that `rt lib --cpu=x86-64` leaves in the folder out of crates/tilljingle, or the one of the folder TILLJINGLE_LIB.

use std::env::var;

fn main() {
    let root = var("CARGO_MANIFEST_DIR").expect("cargo says where the package is") + "/..";
    let folder = var("TILLJINGLE_LIB").unwrap_or(root + "/crates/tilljingle/out");
    println!("cargo:rustc-link-search=native={folder}");
    println!("cargo:rustc-link-lib=static=tilljingle");
    println!("cargo:rerun-if-env-changed=TILLJINGLE_LIB");
    println!("cargo:rerun-if-changed={folder}/libtilljingle.a");
}
