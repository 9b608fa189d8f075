//! Turns a record of a capture into a PAM file, and a PAM file into its texels.
mod captures;
mod files;

use captures::next_record;
use files::{is_standard, open, said, write, Failure, STANDARD};
use std::ffi::OsStr;
use std::io::{self, Read};
use std::path::Path;
use std::process::ExitCode;
use tulonkasa::{Picture, Record};

const USE: &str = "\
use: pam out CAPTURE NUMBER FILE
         makes the plain picture of a capture's record, and writes it as a PAM file. The first record has the number 0.
     pam back FILE OUT
         reads a PAM file, and writes its texels: four bytes each, red, green, blue, alpha. Prints width and height.
`-` stands for standard input or standard output. With the texels there, the size goes to standard error.";

fn main() -> ExitCode {
    files::run("pam", USE, |arguments| match arguments {
        [verb, capture, number, file] if verb == "out" => out(capture.as_ref(), number, file.as_ref()),
        [verb, file, texels] if verb == "back" => back(file.as_ref(), texels.as_ref()),
        _ => Err(Failure::Use),
    })
}

/// A record's picture, as a file.
fn out(capture: &Path, number: &OsStr, file: &Path) -> Result<(), Failure> {
    let number = number.to_str().and_then(|number| number.parse().ok()).ok_or(Failure::Use)?;
    let Record { tile, bank } = read_record(capture, number)?;
    let pam = bank
        .picture(&tile, 0)
        .and_then(|picture| picture.to_pam())
        .map_err(|refusal| said(capture, format_args!("record {number}: {refusal}")))?;
    write(file, &pam)
}

/// The texels of a file.
fn back(file: &Path, texels: &Path) -> Result<(), Failure> {
    let mut pam = Vec::new();
    open(file)?.read_to_end(&mut pam).map_err(|error| said(file, error))?;
    let picture = Picture::from_pam(&pam).map_err(|refusal| said(file, refusal))?;
    write(texels, &picture.texels)?;
    let size = format!("{} {}\n", picture.width, picture.height);
    if is_standard(texels) {
        eprint!("{size}"); // standard output has the texels
        return Ok(());
    }
    write(STANDARD.as_ref(), size.as_bytes())
}

/// A record of a capture, which may be a pipe: those before it are read too.
fn read_record(capture: &Path, number: u64) -> Result<Record, Failure> {
    let mut input = open(capture)?;
    let before = number.saturating_mul(Record::BYTES as u64);
    let skipped = io::copy(&mut input.by_ref().take(before), &mut io::sink()).map_err(|error| said(capture, error))?;
    let record = if skipped == before { next_record(&mut input, capture, number)? } else { None };
    record.ok_or_else(|| said(capture, format_args!("there is no record {number}")))
}
