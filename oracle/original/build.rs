//! Names the original's files to the compiler, where they stand: TULONKASA_ORACLE_SOURCE, or shared/docs/src beside the
//! repository. Copies are made in the build's own directory of tmem.rs, with src/behind_tmem.rs behind its text; of texdec.rs, without the
//! lines that keep its linear decoders for the original's own tests; and of one function of combiner.rs, on which these decoders call.
use std::env;
use std::fs;
use std::path::{Path, PathBuf};

fn main() {
    println!("cargo:rerun-if-env-changed=TULONKASA_ORACLE_SOURCE");
    let source = match env::var_os("TULONKASA_ORACLE_SOURCE") {
        Some(path) => PathBuf::from(path),
        None => Path::new(&variable("CARGO_MANIFEST_DIR")).join("../../../shared/docs/src"),
    };
    let source = source
        .join("ultragfx/src")
        .canonicalize()
        .unwrap_or_else(|error| panic!("{}: {error}. Name it by TULONKASA_ORACLE_SOURCE.", source.display()));
    let hle = source.join("hle");
    let files = |directory: &Path, names: &[&str]| -> Vec<_> {
        names.iter().map(|name| directory.join(name).with_extension("rs")).collect()
    };
    declare("root.rs", &files(&source, &["diag"]));
    let mut modules = files(&hle, &["rdp", "tile_sampling"]);
    modules.push(extended(&hle.join("tmem.rs"), Path::new("src/behind_tmem.rs")));
    modules.push(copied(&hle.join("texdec.rs"), |text| text.replace("#[cfg(test)]\n", "")));
    modules.push(copied(&hle.join("combiner.rs"), |text| function(&text, "pub fn decode_rgba16(")));
    declare("hle.rs", &modules);
}

fn variable(name: &str) -> String {
    env::var(name).unwrap_or_else(|error| panic!("{name}: {error}"))
}

/// Writes a file of module declarations, each by its path.
fn declare(name: &str, paths: &[PathBuf]) {
    let mut text = String::new();
    for path in paths {
        println!("cargo:rerun-if-changed={}", path.display());
        let module = path.file_stem().and_then(|stem| stem.to_str()).expect("a module's file has a name");
        text += &format!("#[path = {path:?}]\npub mod {module};\n");
    }
    write(name, &text);
}

/// Copies a file with another one behind its text, and gives back where the copy is.
fn extended(file: &Path, more: &Path) -> PathBuf {
    copied(file, |text| text + &read(more))
}

/// Copies a file with its text changed, and gives back where the copy is.
fn copied(file: &Path, change: impl Fn(String) -> String) -> PathBuf {
    let name = file.file_name().and_then(|name| name.to_str()).expect("a module's file has a name");
    write(name, &change(read(file)))
}

/// The text of one function that stands outside of all others, by how it begins.
fn function(text: &str, beginning: &str) -> String {
    let start = text.find(beginning).unwrap_or_else(|| panic!("{beginning} is not there"));
    let end = text[start..].find("\n}\n").expect("a function ends");
    text[start..start + end + 3].into()
}

fn read(path: &Path) -> String {
    println!("cargo:rerun-if-changed={}", path.display());
    fs::read_to_string(path).unwrap_or_else(|error| panic!("{}: {error}", path.display()))
}

fn write(name: &str, text: &str) -> PathBuf {
    let path = Path::new(&variable("OUT_DIR")).join(name);
    fs::write(&path, text).expect("the build's own directory can be written");
    path
}
