//! Links each program with its archive from the directory that YARVELOW_LIB names.

use std::env;

fn main() {
    println!("cargo:rerun-if-env-changed=YARVELOW_LIB");
    let Ok(directory) = env::var("YARVELOW_LIB") else {
        return;
    };
    for (program, archive) in [("engine", "libbench.a"), ("boundary", "libyarvelow.a")] {
        println!("cargo:rerun-if-changed={directory}/{archive}");
        println!("cargo:rustc-link-arg-bin={program}={directory}/{archive}");
    }
}
