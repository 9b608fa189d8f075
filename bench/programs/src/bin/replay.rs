//! The replay over the original Rust: the same records and companion file in, the same lines out.
use original::calls::{Load, Memory};
use programs::{answer_all, refusal, two, Head};
use std::{env, fs, io};

const RECORD: usize = 48;

/// A load's source has at most this many bytes.
const SOURCE_MOST: usize = 65536;

/// So many loads have numbers.
const LOADS_MOST: u32 = 65535;

fn main() -> io::Result<()> {
    let path = env::args_os().nth(1).expect("the companion file's name");
    let companion = fs::read(path)?;
    let (mut memory, mut loads) = (Memory::fresh(), 0);
    answer_all(|record| replay(record, &companion, &mut memory, &mut loads).map(|count| [count]))
}

/// Does a record. The count of its stores, or for a key of its kept bytes, or the refusal.
fn replay(record: &[u8; RECORD], companion: &[u8], memory: &mut Memory, loads: &mut u32) -> Result<u32, u32> {
    let (kind, lane, head) = (record[0], record[1], Head::new(&record[2..]));
    if kind == 3 {
        return head.kept(&memory.bytes(), lane);
    }
    let load = load(kind, record).ok_or(refusal::KIND)?;
    if !head.is_load_inside() {
        return Err(refusal::TILE);
    }
    let image_siz = two(record, 18);
    let (offset, length) = (four(record, 30), four(record, 34));
    if image_siz > 3 || length > SOURCE_MOST || !is_inside(load) {
        return Err(refusal::LOAD);
    }
    let source = companion.get(offset..offset + length).ok_or(refusal::BEYOND)?;
    if *loads == LOADS_MOST {
        return Err(refusal::NUMBER);
    }
    *loads += 1;
    memory.load(source, &head.tile, image_siz as u8, load);
    Ok(stores(load, image_siz) as u32)
}

/// The load that a record asks for; none if its kind is unknown.
fn load(kind: u8, record: &[u8]) -> Option<Load> {
    let number = |at| usize::from(two(record, at));
    let (words, rows, stride) = (number(22), number(24), number(28));
    match kind {
        0 => Some(Load::Block { dxt: two(record, 20).into(), words }),
        1 => Some(Load::Tile { rows, words, stride }),
        2 => Some(Load::Tlut { count: number(26), rows, stride }),
        _ => None,
    }
}

fn is_inside(load: Load) -> bool {
    match load {
        Load::Block { dxt, words } => dxt <= 4095 && words <= 2048,
        Load::Tile { rows, words, .. } => rows <= 1024 && words <= 512,
        Load::Tlut { count, rows, .. } | Load::TlutRows { count, rows, .. } => count <= 1024 && (1..=1024).contains(&rows),
    }
}

/// How often a load stores. The original does not say; each of its words, and of a palette's steps, is eight stores.
fn stores(load: Load, image_siz: u16) -> usize {
    8 * match load {
        Load::Block { words, .. } => words,
        Load::Tile { rows, words, .. } => rows * words,
        Load::Tlut { count, rows: 1, .. } if image_siz == 1 || image_siz == 3 => count.div_ceil(16 >> image_siz),
        Load::Tlut { count, rows, .. } | Load::TlutRows { count, rows, .. } => rows * count,
    }
}

/// A number of four bytes.
fn four(bytes: &[u8], at: usize) -> usize {
    usize::from(two(bytes, at)) << 16 | usize::from(two(bytes, at + 2))
}
