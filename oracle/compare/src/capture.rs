//! A run's input: the records of a capture, and what stands in their companion file.
use crate::buffers::found_reasons;
use crate::case::{Call, Case, Fill};
use original::calls::{Bytes, Load};
use std::fmt;
use std::ops::Range;
use tulonkasa::Tile;

/// The kinds of a record.
pub const BLOCK: u32 = 0;
pub const TILE: u32 = 1;
pub const TLUT: u32 = 2;
pub const KEY: u32 = 3;

/// The bytes of a record.
pub const RECORD_BYTES: usize = 48;

/// Where a record's numbers stand. Those before `LINE` have a byte, offset and length four, the others two, big end first.
pub mod place {
    pub const KIND: usize = 0;
    pub const LANE: usize = 1;
    pub const FMT: usize = 2;
    pub const SIZ: usize = 3;
    pub const PALETTE: usize = 4;
    pub const MODE: usize = 5;
    pub const CMS: usize = 6;
    pub const CMT: usize = 7;
    pub const MASKS: usize = 8;
    pub const MASKT: usize = 9;
    pub const LINE: usize = 10;
    pub const TMEM_ADDR: usize = 12;
    pub const WIDTH: usize = 14;
    pub const HEIGHT: usize = 16;
    pub const IMAGE_SIZ: usize = 18;
    pub const DXT: usize = 20;
    pub const WORDS: usize = 22;
    pub const ROWS: usize = 24;
    pub const COUNT: usize = 26;
    pub const STRIDE: usize = 28;
    pub const OFFSET: usize = 30;
    pub const LENGTH: usize = 34;
}

/// A record, how much of the companion is lent with it, and whether its load is rejected.
#[derive(Clone, Copy)]
pub struct Record {
    pub bytes: [u8; RECORD_BYTES],
    /// How many bytes more than the stated ones are lent, -1 for one fewer. The program is lent none.
    pub surplus: i32,
    /// The reason with which its load is rejected, by its own call alone.
    pub reason: Option<u32>,
}

impl Record {
    pub fn kind(&self) -> u32 {
        self.get(place::KIND)
    }

    pub fn lane(&self) -> u32 {
        self.get(place::LANE)
    }

    pub fn image_siz(&self) -> u32 {
        self.get(place::IMAGE_SIZ)
    }

    pub fn tile(&self) -> Tile {
        Tile {
            fmt: self.get(place::FMT),
            siz: self.get(place::SIZ),
            palette: self.get(place::PALETTE),
            mode: self.get(place::MODE),
            cms: self.get(place::CMS),
            cmt: self.get(place::CMT),
            masks: self.get(place::MASKS),
            maskt: self.get(place::MASKT),
            line: self.get(place::LINE),
            tmem_addr: self.get(place::TMEM_ADDR),
            width: self.get(place::WIDTH),
            height: self.get(place::HEIGHT),
        }
    }

    /// Sets the tile and its mode.
    pub fn set_tile(&mut self, tile: &Tile) {
        self.set(&[(place::FMT, tile.fmt), (place::SIZ, tile.siz), (place::PALETTE, tile.palette)]);
        self.set(&[(place::MODE, tile.mode), (place::CMS, tile.cms), (place::CMT, tile.cmt)]);
        self.set(&[(place::MASKS, tile.masks), (place::MASKT, tile.maskt), (place::LINE, tile.line)]);
        self.set(&[(place::TMEM_ADDR, tile.tmem_addr), (place::WIDTH, tile.width), (place::HEIGHT, tile.height)]);
    }

    /// What it asks for, as a case of the own call of that; none if its kind is unknown.
    pub fn case(&self) -> Option<Case> {
        let (words, rows, stride) = (self.get(place::WORDS), self.get(place::ROWS), self.get(place::STRIDE));
        let (call, numbers) = match self.kind() {
            BLOCK => (Call::LoadBlock, [self.get(place::DXT), words, 0]),
            TILE => (Call::LoadTile, [rows, words, stride]),
            TLUT => (Call::LoadTlut, [self.get(place::COUNT), rows, stride]),
            KEY => (Call::Key, [0; 3]),
            _ => return None,
        };
        let (lane, image_siz, reason) = (self.lane(), self.image_siz(), self.reason);
        Some(Case { lane, image_siz, numbers, reason, ..Case::new(call, self.tile()) })
    }

    /// The load's own numbers; none if it is no load.
    pub fn load(&self) -> Option<Load> {
        self.case().filter(|case| case.call != Call::Key).map(|case| case.load())
    }

    pub fn offset(&self) -> u64 {
        self.get(place::OFFSET).into()
    }

    pub fn length(&self) -> u64 {
        self.get(place::LENGTH).into()
    }

    fn get(&self, place: usize) -> u32 {
        self.bytes[field(place)].iter().fold(0, |number, &byte| number << 8 | u32::from(byte))
    }

    /// Sets numbers, each given with its place.
    pub fn set(&mut self, numbers: &[(usize, u32)]) {
        for &(place, number) in numbers {
            let field = &mut self.bytes[field(place)];
            field.copy_from_slice(&number.to_be_bytes()[4 - field.len()..]);
        }
    }
}

/// The bytes of the number at a place.
fn field(place: usize) -> Range<usize> {
    let bytes = match place {
        place::OFFSET.. => 4,
        place::LINE.. => 2,
        _ => 1,
    };
    place..place + bytes
}

/// What a companion file holds: so many bytes, filled at both ends. Between them it is zero, so that it may be long.
#[derive(Clone, Copy, Debug)]
pub struct Companion {
    pub length: u64,
    pub fill: Fill,
    pub seed: u64,
}

/// So many bytes are filled at each end of a companion.
pub const END_BYTES: u64 = 1 << 17;

/// By what a run is replayed.
#[derive(Clone, Copy, Debug, PartialEq, Eq)]
pub enum By {
    /// The own call of each load and key; and at each key the question whether the tile touches a rejected load. Records that no such
    /// call stands for are left out: of an unknown kind, and with a source beyond the companion.
    OwnCalls,
    /// A call of the archive for each record.
    Call,
    /// The compiled program.
    Program,
}

/// A capture, to be replayed from a fresh bank on.
#[derive(Clone)]
pub struct Run {
    pub by: By,
    pub records: Vec<Record>,
    /// The bytes of a torn record behind them, fewer than [`RECORD_BYTES`].
    pub tail: Vec<u8>,
    /// The number of the load before the first. The program begins with 0.
    pub last: u32,
    pub companion: Companion,
}

impl Run {
    /// The capture as a file.
    pub fn bytes(&self) -> Vec<u8> {
        let mut bytes: Vec<u8> = self.records.iter().flat_map(|record| record.bytes).collect();
        bytes.extend(&self.tail);
        bytes
    }

    /// The reasons that it finds, by calls. The program finds none.
    pub fn reasons(&self) -> Bytes {
        found_reasons(self.companion.fill, self.companion.seed + 2)
    }

    /// How large its numbers are, to print the smallest of several.
    pub fn size(&self) -> u64 {
        self.bytes().iter().map(|&byte| u64::from(byte) + 1).sum()
    }
}

impl fmt::Display for Run {
    fn fmt(&self, f: &mut fmt::Formatter<'_>) -> fmt::Result {
        writeln!(f, "  replayed by: {:?}, last: {}", self.by, self.last)?;
        for (i, record) in self.records.iter().enumerate() {
            writeln!(f, "  record {i}: {record}")?;
        }
        if !self.tail.is_empty() {
            writeln!(f, "  torn: {:?}", self.tail)?;
        }
        write!(f, "  {:?}", self.companion)
    }
}

impl fmt::Display for Record {
    fn fmt(&self, f: &mut fmt::Formatter<'_>) -> fmt::Result {
        let number = |place| self.get(place);
        writeln!(f, "kind {}, lane {}, {:?}", self.kind(), self.lane(), self.tile())?;
        write!(f, "    image_siz {}, dxt {}, ", number(place::IMAGE_SIZ), number(place::DXT))?;
        write!(f, "words {}, rows {}, ", number(place::WORDS), number(place::ROWS))?;
        write!(f, "count {}, stride {}, ", number(place::COUNT), number(place::STRIDE))?;
        write!(f, "offset {}, length {}, surplus {}, ", self.offset(), self.length(), self.surplus)?;
        write!(f, "reason {:?}", self.reason)
    }
}
