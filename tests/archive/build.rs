//! Links with crates/gateway/out/libgateway.a, which has to be built before.

use std::env;
use std::path::Path;

fn main() {
    let here = env::var("CARGO_MANIFEST_DIR").expect("cargo says where the package is");
    let folder = Path::new(&here).join("../../crates/gateway/out");
    let folder = folder.display();
    println!("cargo:rerun-if-changed={folder}/libgateway.a");
    println!("cargo:rustc-link-search=native={folder}");
    println!("cargo:rustc-link-lib=static=gateway");
}
