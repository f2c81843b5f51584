//! Tells the linker where the static library is, if it is asked for.

use std::env;

fn main() {
    println!("cargo::rerun-if-changed=build.rs");
    if env::var_os("CARGO_FEATURE_LIBRARY").is_none() {
        return;
    }
    let package = env::var("CARGO_MANIFEST_DIR").expect("cargo gives the folder of the package");
    println!("cargo::rustc-link-search=native={package}/../target/staticlib");
    println!("cargo::rerun-if-changed={package}/../target/staticlib/libcapi.a");
}
