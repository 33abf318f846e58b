//! Tells the tests whether an archive is linked: YARVELOW_LIB names its directory.

use std::env;

fn main() {
    println!("cargo:rerun-if-env-changed=YARVELOW_LIB");
    println!("cargo:rustc-check-cfg=cfg(archive)");
    if env::var_os("YARVELOW_LIB").is_some() {
        println!("cargo:rustc-cfg=archive");
    }
}
