//! What the programs over the original Rust share: records in and lines out, and the tile of a record.
use original::calls::{self, Bytes};
use original::TileDescriptor;
use std::io::{self, BufWriter, Read, Write};

/// The refusals.
pub mod refusal {
    pub const TILE: u32 = 2;
    pub const MODE_OR_LANE: u32 = 3;
    pub const LOAD: u32 = 4;
    pub const PAIR: u32 = 5;
    pub const TORN: u32 = 8;
    pub const KIND: u32 = 10;
    pub const BEYOND: u32 = 11;
    pub const NUMBER: u32 = 18;
}

/// The largest width and height.
const SIDE_MOST: u16 = 4096;

/// The numbers of a record's line after its refusal, or the refusal.
pub type Answer<const NUMBERS: usize> = Result<[u32; NUMBERS], u32>;

/// Reads records from standard input to its end, and writes a line for each.
pub fn answer_all<const RECORD: usize, const NUMBERS: usize>(
    mut answer: impl FnMut(&[u8; RECORD]) -> Answer<NUMBERS>,
) -> io::Result<()> {
    let mut input = io::stdin().lock();
    let mut output = BufWriter::with_capacity(65536, io::stdout().lock());
    let mut record = [0; RECORD];
    let mut got = fill(&mut input, &mut record)?;
    while got == RECORD {
        write_line(&mut output, answer(&record))?;
        got = fill(&mut input, &mut record)?;
    }
    if got != 0 {
        write_line::<NUMBERS>(&mut output, Err(refusal::TORN))?;
    }
    output.flush()
}

/// Reads until the record is full or the input ends, and says how many bytes there are.
fn fill(input: &mut impl Read, record: &mut [u8]) -> io::Result<usize> {
    let mut done = 0;
    while done < record.len() {
        match input.read(&mut record[done..])? {
            0 => break,
            more => done += more,
        }
    }
    Ok(done)
}

fn write_line<const NUMBERS: usize>(output: &mut impl Write, answer: Answer<NUMBERS>) -> io::Result<()> {
    write!(output, "{}", answer.err().unwrap_or(0))?;
    for number in answer.unwrap_or([0; NUMBERS]) {
        write!(output, " {number}")?;
    }
    writeln!(output)
}

/// A number of two bytes.
pub fn two(bytes: &[u8], at: usize) -> u16 {
    u16::from_be_bytes([bytes[at], bytes[at + 1]])
}

/// A tile and its mode.
pub struct Head {
    pub tile: TileDescriptor,
    pub mode: u8,
}

impl Head {
    pub const BYTES: usize = 16;

    /// What stands at the start of these bytes.
    pub fn new(bytes: &[u8]) -> Self {
        let [fmt, siz, palette, mode, cms, cmt, masks, maskt] = bytes[..8].try_into().expect("eight bytes");
        let tile = TileDescriptor {
            fmt,
            siz,
            palette,
            cms,
            cmt,
            masks,
            maskt,
            line: two(bytes, 8),
            tmem_addr: two(bytes, 10),
            width: two(bytes, 12),
            height: two(bytes, 14),
            ..TileDescriptor::default()
        };
        Self { tile, mode }
    }

    /// Whether the fields that a load takes are in range.
    pub fn is_load_inside(&self) -> bool {
        let TileDescriptor { fmt, siz, line, tmem_addr, .. } = self.tile;
        fmt <= 7 && siz <= 3 && line <= 511 && tmem_addr <= 511
    }

    /// Whether all are.
    fn is_inside(&self) -> bool {
        let TileDescriptor { palette, cms, cmt, masks, maskt, width, height, .. } = self.tile;
        let others = palette <= 15 && cms <= 3 && cmt <= 3 && masks <= 15 && maskt <= 15;
        self.is_load_inside() && others && width <= SIDE_MOST && height <= SIDE_MOST
    }

    /// The count of bytes that the picture's key keeps, or the refusal.
    pub fn kept(&self, bank: &Bytes, lane: u8) -> Result<u32, u32> {
        if !self.is_inside() {
            return Err(refusal::TILE);
        }
        if self.mode > 3 || lane > 3 {
            return Err(refusal::MODE_OR_LANE);
        }
        calls::key(bank, &self.tile, self.mode, lane.into()).map(|(_, kept)| kept).ok_or(refusal::PAIR)
    }
}
