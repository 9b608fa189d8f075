//! Splits the records of a capture into tuning and held-out ones by their keys.
mod captures;
mod files;

use captures::next_record;
use files::{open, said, write, Failure, STANDARD};
use std::collections::HashMap;
use std::path::Path;
use std::process::ExitCode;
use tulonkasa::{Entry, Record, Refusal, Split, ENTRIES_MOST};

const USE: &str = "\
use: split CAPTURE
         cuts the key of each record of a capture, in lane 0, and splits the records into tuning and held-out ones.
         Prints a line each, after a first line that names the columns, with tabs between them:
             capture   the record's number; the first one has the number 0
             side      tuning, held out, or refused
             group     the number of its group; of a refused record, why it is refused
         Records with the same tile, mode and key are a group. Groups are numbered from 0, in the order of their first
         records. Of every five groups the fifth (4, 9, 14 and so on) is held out. A refused record is in none.
         The last line has the totals.
`-` stands for standard input.";

/// The lane of every key.
const LANE: u32 = 0;

fn main() -> ExitCode {
    files::run("split", USE, |arguments| match arguments {
        [capture] => split(capture.as_ref()),
        _ => Err(Failure::Use),
    })
}

fn split(capture: &Path) -> Result<(), Failure> {
    let (entries, refused) = read(capture)?;
    let split = tulonkasa::split(&entries).map_err(|refusal| said(capture, refusal))?;
    write(STANDARD.as_ref(), table(&entries, &refused, &split).as_bytes())
}

/// A record that has no key, by its number.
type Refused = (u32, Refusal);

/// The entries of a capture's records, and the records that have none. It reads no further once the entries are too many.
fn read(capture: &Path) -> Result<(Vec<Entry>, Vec<Refused>), Failure> {
    let mut input = open(capture)?;
    let (mut entries, mut refused) = (Vec::new(), Vec::new());
    for number in 0.. {
        let Some(record) = next_record(&mut input, capture, number.into())? else { break };
        match entry(number, &record) {
            Ok(entry) => entries.push(entry),
            Err(refusal) => refused.push((number, refusal)),
        }
        if entries.len() > ENTRIES_MOST {
            break;
        }
    }
    Ok((entries, refused))
}

fn entry(number: u32, Record { tile, bank }: &Record) -> Result<Entry, Refusal> {
    Entry::new(number, tile, LANE, &bank.key(tile, LANE)?)
}

fn table(entries: &[Entry], refused: &[Refused], split: &Split) -> String {
    let groups = groups(entries);
    let sides = entries.iter().zip(&split.sides).zip(&groups);
    let sides = sides.map(|((entry, side), group)| (entry.capture(), format!("{side}\t{group}")));
    let refusals = refused.iter().map(|(number, refusal)| (*number, format!("refused\t{refusal}")));
    let mut lines: Vec<(u32, String)> = sides.chain(refusals).collect();
    lines.sort();

    let mut text = String::from("capture\tside\tgroup\n");
    text.extend(lines.iter().map(|(number, cells)| format!("{number}\t{cells}\n")));
    let (tuning, held_out) = (split.totals.tuning, split.totals.held_out);
    let (refused, groups) = (refused.len(), groups.iter().max().map_or(0, |last| last + 1));
    text + &format!("all\t{tuning} tuning, {held_out} held out, {refused} refused\t{groups} groups\n")
}

/// The number of each entry's group.
fn groups(entries: &[Entry]) -> Vec<usize> {
    let mut numbers = HashMap::new();
    let group = |entry| {
        let next = numbers.len();
        *numbers.entry(Entry::body(entry)).or_insert(next)
    };
    entries.iter().map(group).collect()
}
