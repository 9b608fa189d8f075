//! Checks keys that were made elsewhere, each with the bank that it was cut from.
mod files;

use files::{is_standard, next_bytes, open, said, write, Failure, STANDARD};
use std::path::Path;
use std::process::ExitCode;
use tulonkasa::{Bank, Checked, Entry, Refusal, BANK_BYTES, ENTRY_BYTES};

const USE: &str = "\
use: check ENTRIES BANKS
         checks the keys of a file of entries. An entry has 4,117 bytes, as the splitter takes it: capture number, tile
         and mode, lane, key. The second file has the bank of each, 4,096 bytes, in the same order.
         Prints a line each, after a first line that names the columns, with tabs between them:
             entry     the entry's number; the first one has the number 0
             capture   its capture number
             key       right; or the lowest wrong address, and whether that byte is missing, left over or has another
                       value; or why the entry is refused
         The last line has the totals.
`-` stands for standard input, for one of the two.";

fn main() -> ExitCode {
    files::run("check", USE, |arguments| match arguments {
        [entries, banks] => check(entries.as_ref(), banks.as_ref()),
        _ => Err(Failure::Use),
    })
}

/// What was found of how many entries.
#[derive(Default)]
struct Totals {
    right: u64,
    wrong: u64,
    refused: u64,
}

fn check(entries: &Path, banks: &Path) -> Result<(), Failure> {
    if is_standard(entries) && is_standard(banks) {
        return Err(Failure::Use);
    }
    let (mut entry_input, mut bank_input) = (open(entries)?, open(banks)?);
    let (mut lines, mut totals) = (vec![String::from("entry\tcapture\tkey\n")], Totals::default());
    for number in 0.. {
        let entry = next_bytes::<ENTRY_BYTES>(&mut entry_input, entries, "entry", number)?.map(Entry::from);
        let bank = next_bytes::<BANK_BYTES>(&mut bank_input, banks, "bank", number)?.map(Bank::from);
        let (entry, bank) = match (entry, bank) {
            (Some(entry), Some(bank)) => (entry, bank),
            (None, None) => break,
            (Some(_), None) => return Err(said(banks, format_args!("there is no bank {number}"))),
            (None, Some(_)) => return Err(said(entries, format_args!("there is no entry {number}"))),
        };
        let checked = bank.check_key(&entry.tile(), entry.lane(), entry.key());
        totals.add(checked);
        lines.push(format!("{number}\t{}\t{}\n", entry.capture(), words(checked)));
    }
    let Totals { right, wrong, refused } = totals;
    lines.push(format!("all\t\t{right} right, {wrong} wrong, {refused} refused\n"));
    write(STANDARD.as_ref(), lines.concat().as_bytes())
}

impl Totals {
    fn add(&mut self, checked: Result<Checked, Refusal>) {
        match checked {
            Ok(Checked::Right) => self.right += 1,
            Ok(_) => self.wrong += 1,
            Err(_) => self.refused += 1,
        }
    }
}

fn words(checked: Result<Checked, Refusal>) -> String {
    match checked {
        Ok(checked) => checked.to_string(),
        Err(refusal) => refusal.to_string(),
    }
}
