//! Names the shared library as callers ask for it: while the first number of the version is 0, they go
//! by the second one too.

use std::env;

fn main() {
    println!("cargo:rerun-if-changed=build.rs");
    let of = |name: &str| env::var(name).unwrap_or_default();
    if of("CARGO_CFG_TARGET_OS") == "linux" {
        let (first, second) = (of("CARGO_PKG_VERSION_MAJOR"), of("CARGO_PKG_VERSION_MINOR"));
        let name = format!("libbradovusc_asking.so.{first}.{second}");
        println!("cargo:rustc-cdylib-link-arg=-Wl,-soname,{name}");
    }
}
