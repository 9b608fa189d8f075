//! Links the proved archive: the file that `TULONKASA_ARCHIVE` names, or the one in the repository's target/staticlib that is for the
//! processor which the crate is compiled for.
use std::env;
use std::path::{Path, PathBuf};

fn main() {
    println!("cargo:rerun-if-env-changed=TULONKASA_ARCHIVE");
    let archive = match env::var_os("TULONKASA_ARCHIVE") {
        Some(path) => PathBuf::from(path),
        None => made_here(),
    };
    let archive = archive.canonicalize().unwrap_or_else(|error| {
        panic!("{}: {error}. Make it with host/archive, or name it by TULONKASA_ARCHIVE.", archive.display())
    });
    let name = archive
        .file_name()
        .and_then(|name| name.to_str())
        .and_then(|name| name.strip_prefix("lib")?.strip_suffix(".a"))
        .expect("the archive's name is libNAME.a");
    let directory = archive.parent().expect("a file stands in a directory");
    println!("cargo:rerun-if-changed={}", archive.display());
    println!("cargo:rustc-link-search=native={}", directory.display());
    println!("cargo:rustc-link-lib=static={name}");
}

/// Where host/archive puts the archive for the processor: the product, which is x86-64 code, or else the one for tests.
fn made_here() -> PathBuf {
    let folder = Path::new(&env::var_os("CARGO_MANIFEST_DIR").expect("cargo sets it")).join("../../target/staticlib");
    let processor = env::var("CARGO_CFG_TARGET_ARCH").expect("cargo sets it");
    if processor == "x86_64" {
        folder.join("libtulonkasa.a")
    } else {
        folder.join(processor).join("libtulonkasa.a")
    }
}
