//! Links libixohuemil.a: the archive that IXOHUEMIL_LIB names by its whole path, else the repository's.

use std::env;
use std::path::{Path, PathBuf};

fn main() {
    println!("cargo:rerun-if-changed=build.rs");
    println!("cargo:rerun-if-env-changed=IXOHUEMIL_LIB");
    let archive = match env::var_os("IXOHUEMIL_LIB") {
        Some(path) => PathBuf::from(path),
        None => {
            let root = env::var_os("CARGO_MANIFEST_DIR").expect("cargo names the crate's folder");
            Path::new(&root).join("../../crates/ixohuemil/out/libixohuemil.a")
        }
    };
    match linked(&archive) {
        Ok(lines) => println!("{lines}"),
        Err(fault) => {
            eprintln!("{}: {fault}", archive.display());
            eprintln!("Build it by `tools/build`, or set IXOHUEMIL_LIB to the whole path of libixohuemil.a.");
            std::process::exit(1);
        }
    }
}

/// What cargo is told of the archive, or what is wrong with it.
fn linked(archive: &Path) -> Result<String, &'static str> {
    if !archive.is_absolute() {
        return Err("this is not a whole path");
    }
    if !archive.is_file() {
        return Err("there is no such archive");
    }
    let name = archive.file_name().and_then(|name| name.to_str());
    let name = name.and_then(|name| name.strip_prefix("lib")?.strip_suffix(".a"));
    let (Some(name), Some(folder)) = (name, archive.parent()) else {
        return Err("an archive's name is libNAME.a");
    };
    Ok(format!(
        "cargo:rerun-if-changed={}\ncargo:rustc-link-search=native={}\ncargo:rustc-link-lib=static={name}",
        archive.display(),
        folder.display()
    ))
}
