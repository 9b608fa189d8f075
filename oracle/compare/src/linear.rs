//! Sources decoded without a bank: a plain model of document 02's item 11, the original's linear decoders as far as they go, and which
//! tiles give the same picture by a load.
use crate::case::{descriptor, Case};
use original::calls;
use tulonkasa::{Tile, SIDE_MOST};

/// What a decoding is held against, besides the model.
#[derive(Clone, Copy, Debug, PartialEq, Eq)]
pub enum Against {
    /// One call of the original's decoder.
    Whole,
    /// The original's decoder, row by row.
    Rows,
    /// Nothing: the original has no decoder for (0,3).
    Nothing,
}

/// The bytes of a source's row.
pub fn row_bytes(tile: &Tile) -> u32 {
    (tile.width << tile.siz).div_ceil(2)
}

/// The words of eight bytes that a row's width needs.
pub fn row_words(tile: &Tile) -> u32 {
    row_bytes(tile).div_ceil(8)
}

/// What the case is held against. The original's decoders take no stride, so rows have to follow each other; they go on in the middle of a
/// byte where a row of 4-bit texels ends there; and that of (0,2) gives as many texels as the source has.
pub fn against(case: &Case) -> Against {
    let Case { tile, numbers: [stride, ..], source_length, .. } = *case;
    let follow = tile.height <= 1 || stride == row_bytes(&tile);
    let whole_bytes = tile.siz > 0 || tile.width % 2 == 0 || tile.height <= 1;
    let as_long = (tile.fmt, tile.siz) != (0, 2) || source_length == 2 * tile.width * tile.height;
    match (tile.fmt, tile.siz) {
        (0, 3) => Against::Nothing,
        _ if follow && whole_bytes && as_long => Against::Whole,
        _ => Against::Rows,
    }
}

/// The original's picture, or none where it has no decoder for the pair.
pub fn original(case: &Case, source: &[u8]) -> Option<Vec<u8>> {
    if against(case) == Against::Whole {
        return calls::linear(source, &descriptor(&case.tile));
    }
    let row = descriptor(&Tile { height: 1, ..case.tile });
    let decoded = |y: u32| {
        let rest = source.get((y * case.numbers[0]) as usize..).unwrap_or(&[]);
        let mut bytes = rest[..rest.len().min(row_bytes(&case.tile) as usize)].to_vec();
        // Only that of (0,2) does not make up what a source lacks.
        bytes.resize(row_bytes(&case.tile) as usize, 0);
        calls::linear(&bytes, &row)
    };
    calls::linear(&[], &row)?;
    (0..case.tile.height).map(decoded).collect::<Option<Vec<_>>>().map(|rows| rows.concat())
}

/// The picture by the model, and the count of reads; none where the pair has no linear reading.
pub fn model(tile: &Tile, stride: u32, source: &[u8]) -> Option<(Vec<u8>, u32)> {
    let reads = match (tile.fmt, tile.siz) {
        (2..=4, 0 | 1) => 1,
        (0 | 2 | 3, 2) => 2,
        (0, 3) => 4,
        _ => return None,
    };
    let bits = 4 << tile.siz;
    let places = (0..tile.height).flat_map(|y| (0..tile.width).map(move |x| (x, y)));
    let numbers = places.map(|(x, y)| number(source, 8 * u64::from(y) * u64::from(stride) + u64::from(x * bits), bits));
    let texels = numbers.flat_map(|number| texel(tile, number)).collect();
    Some((texels, reads * tile.width * tile.height))
}

/// The number that so many bits of a source write from a place on, counted in bits; past its end they are zero.
fn number(source: &[u8], place: u64, bits: u32) -> u32 {
    let bit = |i: u64| source.get((i / 8) as usize).map_or(0, |byte| u32::from(byte >> (7 - i % 8) & 1));
    (place..place + u64::from(bits)).fold(0, |number, i| number << 1 | bit(i))
}

/// A texel's channels, by its number.
fn texel(tile: &Tile, number: u32) -> [u8; 4] {
    // So many bits of the number, above so many others, as eight: of fewer their largest number stands for 255.
    let channel = |above: u32, bits: u32| {
        let part = number >> above & ((1 << bits) - 1);
        let twice = part << bits | part;
        (match bits {
            1 => 255 * part,
            3 => (twice << 3 | part) >> 1,
            4 => twice,
            5 => twice >> 2,
            _ => part,
        }) as u8
    };
    let gray = |intensity: u8, alpha: u8| [intensity, intensity, intensity, alpha];
    match (tile.fmt, tile.siz) {
        (0, 2) => [channel(11, 5), channel(6, 5), channel(1, 5), channel(0, 1)],
        (0, _) => [channel(24, 8), channel(16, 8), channel(8, 8), channel(0, 8)],
        (2, 0) => [(16 * tile.palette + number) as u8; 4],
        (2, 2) => [channel(8, 8), channel(0, 8), channel(8, 8), channel(0, 8)],
        (3, 0) => gray(channel(1, 3), channel(0, 1)),
        (3, 1) => gray(channel(4, 4), channel(0, 4)),
        (3, _) => gray(channel(8, 8), channel(0, 8)),
        (_, 0) => [channel(0, 4); 4],
        _ => [channel(0, 8); 4],
    }
}

/// Pairs of format and size that have a linear reading.
pub const PAIRS: [(u32, u32); 10] = [(0, 2), (0, 3), (2, 0), (2, 1), (2, 2), (3, 0), (3, 1), (3, 2), (4, 0), (4, 1)];

/// So many lines there are: of (0,3) each takes a word of both halves.
pub fn lines_most(fmt: u32, siz: u32) -> u32 {
    if (fmt, siz) == (0, 3) {
        256
    } else {
        512
    }
}

/// The most texels that fit a line.
pub fn width_most(siz: u32, line: u32) -> u32 {
    (line * [16, 8, 4, 4][siz as usize]).min(SIDE_MOST)
}

/// Whether what goes in comes out: the conditions of the item.
pub fn fits(tile: &Tile) -> bool {
    let Tile { fmt, siz, mode, line, tmem_addr, width, height, .. } = *tile;
    let inside = tmem_addr + height * line <= lines_most(fmt, siz);
    PAIRS.contains(&(fmt, siz)) && mode < 2 && height <= 256 && width <= width_most(siz, line) && inside
}
