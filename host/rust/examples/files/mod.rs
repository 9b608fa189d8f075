//! What the example programs share: their ends, and files by name.
use std::ffi::OsString;
use std::fmt::Display;
use std::fs::{self, File};
use std::io::{self, Read, Write};
use std::path::Path;
use std::process::ExitCode;

/// The name of standard input and output.
pub const STANDARD: &str = "-";

/// Why nothing came of it.
pub enum Failure {
    /// The arguments are none of those that the program takes.
    Use,
    /// What is wrong with a file or a record.
    Said(String),
}

/// Runs a program on its arguments. What fails is said on standard error.
pub fn run(name: &str, how_to_use: &str, program: impl FnOnce(&[OsString]) -> Result<(), Failure>) -> ExitCode {
    let arguments: Vec<OsString> = std::env::args_os().skip(1).collect();
    match program(&arguments) {
        Ok(()) => ExitCode::SUCCESS,
        Err(Failure::Use) => {
            eprintln!("{how_to_use}");
            ExitCode::from(2)
        }
        Err(Failure::Said(what)) => {
            eprintln!("{name}: {what}");
            ExitCode::FAILURE
        }
    }
}

/// The next so many bytes of a file; none at its end. They are a thing of this name and number.
pub fn next_bytes<const N: usize>(
    input: &mut dyn Read,
    file: &Path,
    name: &str,
    number: u64,
) -> Result<Option<[u8; N]>, Failure> {
    let mut bytes = Vec::new();
    input.take(N as u64).read_to_end(&mut bytes).map_err(|error| said(file, error))?;
    match <[u8; N]>::try_from(&bytes[..]) {
        Ok(whole) => Ok(Some(whole)),
        Err(_) if bytes.is_empty() => Ok(None),
        Err(_) => Err(said(file, format_args!("the file ends inside {name} {number}"))),
    }
}

pub fn is_standard(file: &Path) -> bool {
    file == Path::new(STANDARD)
}

/// What is wrong with an input, or with a named file.
pub fn said(file: &Path, what: impl Display) -> Failure {
    let name = if is_standard(file) { "standard input".into() } else { file.display().to_string() };
    Failure::Said(format!("{name}: {what}"))
}

pub fn open(file: &Path) -> Result<Box<dyn Read>, Failure> {
    if is_standard(file) {
        return Ok(Box::new(io::stdin().lock()));
    }
    let opened = File::open(file).map_err(|error| said(file, error))?;
    Ok(Box::new(opened))
}

pub fn write(file: &Path, bytes: &[u8]) -> Result<(), Failure> {
    if !is_standard(file) {
        return fs::write(file, bytes).map_err(|error| said(file, error));
    }
    let mut output = io::stdout().lock();
    output
        .write_all(bytes)
        .and_then(|()| output.flush())
        .map_err(|error| Failure::Said(format!("standard output: {error}")))
}
