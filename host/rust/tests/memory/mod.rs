//! Lent buffers for the tests of loads, and a load of each kind.
use std::ops::Range;
use tulonkasa::{slices, Loaded, Refusal, Tile, BANK_BYTES, REASON_BYTES, WRITTEN_BYTES};

/// The buffers that a load changes, each of any length.
#[derive(Clone, PartialEq, Eq)]
pub struct Memory {
    pub bank: Vec<u8>,
    pub written: Vec<u8>,
    pub reasons: Vec<u8>,
}

impl Memory {
    pub fn fresh() -> Self {
        Self { bank: vec![0; BANK_BYTES], written: vec![0; WRITTEN_BYTES], reasons: vec![0; REASON_BYTES] }
    }
}

/// A word of eight bytes at address 16.
pub const WORD: Tile = Tile {
    fmt: 0,
    siz: 2,
    palette: 0,
    mode: 0,
    cms: 0,
    cmt: 0,
    masks: 0,
    maskt: 0,
    line: 1,
    tmem_addr: 2,
    width: 0,
    height: 0,
};

/// The addresses of that word.
pub const STORED: Range<usize> = 16..24;

/// A load of some bytes into a memory by a tile; with a reason it is a rejected one.
pub type Load = fn(&mut Memory, &[u8], &Tile, Option<u32>, &mut u32) -> Result<Loaded, Refusal>;

/// Each load: of one word or palette entry, eight bytes at the tile's address.
pub const LOADS: [Load; 4] = [
    |Memory { bank, written, reasons }, source, tile, reason, last| match reason {
        None => slices::load_block(bank, written, reasons, source, tile, 2, 0, 1, last),
        Some(reason) => slices::reject_block(bank, written, reasons, source, tile, 2, 0, 1, reason, last),
    },
    |Memory { bank, written, reasons }, source, tile, reason, last| match reason {
        None => slices::load_tile(bank, written, reasons, source, tile, 2, 1, 1, 0, last),
        Some(reason) => slices::reject_tile(bank, written, reasons, source, tile, 2, 1, 1, 0, reason, last),
    },
    |Memory { bank, written, reasons }, source, tile, reason, last| match reason {
        None => slices::load_tlut_hardware(bank, written, reasons, source, tile, 2, 1, 1, 0, last),
        Some(reason) => slices::reject_tlut_hardware(bank, written, reasons, source, tile, 2, 1, 1, 0, reason, last),
    },
    |Memory { bank, written, reasons }, source, tile, reason, last| match reason {
        None => slices::load_tlut_rows(bank, written, reasons, source, tile, 0, 1, 1, 0, last),
        Some(reason) => slices::reject_tlut_rows(bank, written, reasons, source, tile, 0, 1, 1, 0, reason, last),
    },
];

/// A record that loads so many words to a word address; a kind of 3 asks for a key of one texel instead.
pub fn record(kind: u8, words: u8, tmem_addr: u8) -> [u8; 48] {
    let mut record = [0; 48];
    for (place, byte) in [(0, kind), (3, 2), (13, tmem_addr), (15, 1), (17, 1), (19, 2), (23, words)] {
        record[place] = byte;
    }
    record
}
