//! Links the archive `libyarvelow.a` from the directory that YARVELOW_LIB names.

use std::env;

fn main() {
    println!("cargo:rerun-if-env-changed=YARVELOW_LIB");
    match env::var("YARVELOW_LIB") {
        Ok(directory) => {
            println!("cargo:rerun-if-changed={directory}/libyarvelow.a");
            println!("cargo:rustc-link-search=native={directory}");
            println!("cargo:rustc-link-lib=static=yarvelow");
        }
        Err(_) => println!(
            "cargo:warning=YARVELOW_LIB is not set: nothing links without the directory of libyarvelow.a"
        ),
    }
}
