//! One comparison's input: plain numbers, so that a failing one can be printed and made smaller.
use crate::linear;
use original::calls::{Load, Picture};
use original::TileDescriptor;
use std::fmt;
use tulonkasa::Tile;

/// What is compared. `LoadTlut` is the one of the two palette loads that the original picks; `LoadTlutRows` is the one by rows, also where
/// the original picks the other.
#[derive(Clone, Copy, Debug, PartialEq, Eq)]
pub enum Call {
    LoadBlock,
    LoadTile,
    LoadTlut,
    LoadTlutRows,
    Sampling,
    Picture {
        which: Picture,
        observed: bool,
    },
    Reach,
    TileHasLoad,
    Rejection,
    PaletteNonreplicated,
    Key,
    /// A source decoded without a bank.
    Linear,
    /// The same, of a source whose tile load and picture give the same.
    RoundTrip,
    CheckKey,
}

/// A key that is offered.
#[derive(Clone, Copy, Debug, PartialEq, Eq)]
pub enum Offer {
    Right,
    /// With the tile's masks taken as 0: the bytes that the whole picture reads, or, of a lookup, some others.
    Whole,
    Bank,
    Zero,
}

pub const OFFERS: [Offer; 4] = [Offer::Right, Offer::Whole, Offer::Bank, Offer::Zero];

/// How a byte of an offer is changed; any further number changes nothing.
#[derive(Clone, Copy, Debug, PartialEq, Eq)]
pub enum Change {
    ToZero,
    ToTheBanks,
    ByABit,
}

pub const CHANGES: [Change; 3] = [Change::ToZero, Change::ToTheBanks, Change::ByABit];

/// What a buffer that is lent to be read holds.
#[derive(Clone, Copy, Debug, PartialEq, Eq)]
pub enum Fill {
    Zero,
    Rising,
    Random,
    /// Random, but each palette slot is four times one pair, save for a few bytes.
    Palette,
}

#[derive(Clone, Copy, Debug)]
pub struct Case {
    pub call: Call,
    pub tile: Tile,
    pub lane: u32,
    /// For `CheckKey`: what is offered, by its place in [`OFFERS`].
    pub image_siz: u32,
    /// dxt and words; or rows, words and stride; or count, rows and stride. For `TileHasLoad`: the word address, words and
    /// rows of the tile load that writes before the question. For `Rejection`: three addresses that have a reason; a larger number
    /// for none. For `Linear` and `RoundTrip`: the stride. For `CheckKey`: three bytes of the offer that are changed, each 4,096 times the
    /// [`Change`] and its address.
    pub numbers: [u32; 3],
    /// With a reason a load is a rejected one.
    pub reason: Option<u32>,
    /// The number of the load before.
    pub last: u32,
    pub source_length: u32,
    /// How many bytes longer than needed picture and trail are; -1 for a picture one byte short, -2 for a trail.
    pub surplus: i32,
    pub fill: Fill,
    pub seed: u64,
}

/// How a load, or the decoding of a source, goes through it: so many pieces of so many bytes, each so far behind the one before. Sources
/// are chosen by it; nothing is compared with it.
#[derive(Clone, Copy)]
pub struct Pieces {
    pub count: u32,
    pub bytes: u32,
    pub apart: u32,
}

impl Pieces {
    /// How many bytes a source must have for all of them.
    pub fn end(self) -> u32 {
        match self.count.checked_sub(1) {
            Some(before) if self.bytes > 0 => before * self.apart + self.bytes,
            _ => 0,
        }
    }
}

impl Case {
    pub fn new(call: Call, tile: Tile) -> Self {
        Self {
            call,
            tile,
            lane: 0,
            image_siz: 0,
            numbers: [0; 3],
            reason: None,
            last: 0,
            source_length: 0,
            surplus: 0,
            fill: Fill::Random,
            seed: 1,
        }
    }

    /// The load's own numbers as the original takes them.
    pub fn load(&self) -> Load {
        let [a, b, c] = self.numbers.map(|number| number as usize);
        match self.call {
            Call::LoadBlock => Load::Block { dxt: self.numbers[0], words: b },
            Call::LoadTlut => Load::Tlut { count: a, rows: b, stride: c },
            Call::LoadTlutRows => Load::TlutRows { count: a, rows: b, stride: c },
            _ => Load::Tile { rows: a, words: b, stride: c },
        }
    }

    /// The bytes of the offer that are changed, with their addresses.
    pub fn changes(&self) -> impl Iterator<Item = (Change, usize)> + '_ {
        self.numbers.iter().filter_map(|&number| {
            let (change, address) = (number as usize / 4096, number as usize % 4096);
            Some((*CHANGES.get(change)?, address))
        })
    }

    /// Whether the load is a palette's, which has a row at least.
    pub fn is_tlut(&self) -> bool {
        matches!(self.call, Call::LoadTlut | Call::LoadTlutRows)
    }

    /// Whether the palette load that the original picks is the hardware's. A replay picks likewise.
    pub fn picks_hardware(&self) -> bool {
        self.numbers[1] == 1 && self.image_siz > 0
    }

    /// How the source is gone through.
    pub fn pieces(&self) -> Pieces {
        let [a, b, c] = self.numbers;
        let (count, bytes, apart) = match (self.call, self.image_siz) {
            (Call::LoadBlock, _) => (b, 8, 8),
            (Call::LoadTlut, 1 | 3) if b == 1 => (a.div_ceil(16 >> self.image_siz), 2, 8),
            (Call::LoadTlut | Call::LoadTlutRows, _) => (b, 2 * a, c),
            (Call::Linear | Call::RoundTrip, _) => (self.tile.height, linear::row_bytes(&self.tile), a),
            _ => (a, 8 * b, c),
        };
        Pieces { count, bytes, apart }
    }

    /// Every number, to be made smaller.
    pub fn numbers_mut(&mut self) -> Vec<&mut u32> {
        let Tile { fmt, siz, palette, mode, cms, cmt, masks, maskt, line, tmem_addr, width, height } = &mut self.tile;
        let mut numbers = vec![
            width,
            height,
            line,
            tmem_addr,
            masks,
            maskt,
            cms,
            cmt,
            palette,
            mode,
            fmt,
            siz,
            &mut self.lane,
            &mut self.image_siz,
            &mut self.last,
            &mut self.source_length,
        ];
        numbers.extend(self.numbers.iter_mut());
        numbers.extend(self.reason.as_mut());
        numbers
    }

    /// How large its numbers are, to print the smallest of several.
    pub fn size(&self) -> u64 {
        self.clone().numbers_mut().into_iter().map(|number| u64::from(*number)).sum()
    }
}

/// The tile as the original has it. Its numbers are in range.
pub fn descriptor(tile: &Tile) -> TileDescriptor {
    TileDescriptor {
        fmt: tile.fmt as u8,
        siz: tile.siz as u8,
        palette: tile.palette as u8,
        cms: tile.cms as u8,
        cmt: tile.cmt as u8,
        masks: tile.masks as u8,
        maskt: tile.maskt as u8,
        line: tile.line as u16,
        tmem_addr: tile.tmem_addr as u16,
        width: tile.width as u16,
        height: tile.height as u16,
        ..TileDescriptor::default()
    }
}

impl fmt::Display for Case {
    fn fmt(&self, f: &mut fmt::Formatter<'_>) -> fmt::Result {
        let [a, b, c] = self.numbers;
        writeln!(f, "  call: {:?}", self.call)?;
        writeln!(f, "  {:?}", self.tile)?;
        writeln!(f, "  lane: {}, image_siz: {}, numbers: {a}, {b}, {c}", self.lane, self.image_siz)?;
        writeln!(f, "  reason: {:?}, last: {}", self.reason, self.last)?;
        writeln!(f, "  source: {} bytes, surplus: {}", self.source_length, self.surplus)?;
        write!(f, "  bank, source and reasons: {:?}, seed {}", self.fill, self.seed)
    }
}
