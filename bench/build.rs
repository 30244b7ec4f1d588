//! Links the proved library: IXOHUEMIL_LIB names its archive, or it stands where `rt staticlib ixohuemil`
//! writes it.

use std::env;
use std::path::Path;

fn main() {
    println!("cargo:rerun-if-changed=build.rs");
    println!("cargo:rerun-if-env-changed=IXOHUEMIL_LIB");
    let library = env::var("IXOHUEMIL_LIB").unwrap_or("../crates/ixohuemil/out/libixohuemil.a".into());
    let path = Path::new(&library);
    if !path.is_file() {
        println!("cargo:warning={library} is not there: tools/build writes it");
    }
    let folder = path.parent().expect("a path to a file");
    let stem = path.file_stem().and_then(|stem| stem.to_str());
    let name = stem.and_then(|stem| stem.strip_prefix("lib"));
    println!("cargo:rerun-if-changed={library}");
    println!("cargo:rustc-link-search=native={}", folder.display());
    println!("cargo:rustc-link-lib=static={}", name.expect("lib*.a"));
}
