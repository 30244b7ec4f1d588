//! Links the proved library into the tests: IXOHUEMIL_LIB names its archive. Where it is not set, a test
//! fails.

use std::env;

fn main() {
    println!("cargo:rerun-if-changed=build.rs");
    println!("cargo:rerun-if-env-changed=IXOHUEMIL_LIB");
    println!("cargo:rustc-check-cfg=cfg(linked)");
    let Ok(library) = env::var("IXOHUEMIL_LIB") else {
        return;
    };
    println!("cargo:rerun-if-changed={library}");
    println!("cargo:rustc-link-arg-tests={library}");
    println!("cargo:rustc-cfg=linked");
}
