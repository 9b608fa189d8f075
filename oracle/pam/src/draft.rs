//! A file in the making, as lines, so that they can be changed one by one; and what to change them to.
use pam::{header, spelling, texel_bytes};
use tulonkasa::SIDE_MOST;

/// White space, newline among it, and bytes that are beside it or that other rules take for it.
pub const SPACES: [u8; 12] = [9, 10, 11, 12, 13, 32, 0, 8, 14, 31, 33, 160];

pub const TYPES: [&str; 12] = [
    "RGB_ALPHA",
    "RGB",
    "RGB_ALPH",
    "RGB_ALPHAA",
    "RGB_ALPHB",
    "rgb_alpha",
    "RGB ALPHA",
    "RGB_ALPHA RGB_ALPHA",
    "RGB_ALPHA #",
    "GRAYSCALE_ALPHA",
    "\"RGB_ALPHA\"",
    "",
];

/// Ends, comments and lines that are neither.
pub const LINES: [&[u8]; 20] = [
    b"ENDHDR",
    b" ENDHDR",
    b"ENDHDR\t",
    b"ENDHDR\r",
    b"ENDHDR 1",
    b"#ENDHDR",
    b" #ENDHDR",
    b"ENDHD",
    b"ENDHDRS",
    b"endhdr",
    b"ENDHDR\x00",
    b"END HDR",
    b"",
    b" \t",
    b"\r",
    b"# by hand",
    b"#",
    b"\x0b# by hand",
    b"P7",
    b"AUTHOR me",
];

/// Numbers on both sides of every limit, and those that come near one where a counter wraps.
pub fn numbers() -> Vec<String> {
    let limits = [0, 4, 10, 255, 256, SIDE_MOST.into(), 65535, 65536, 1 << 31, 1 << 32, 1 << 63, 1 << 64, 1 << 127];
    let around = |limit: u128| [limit.saturating_sub(1), limit, limit + 1, limit + 2, limit + 4, limit + 255];
    limits.into_iter().flat_map(around).map(|number| number.to_string()).collect()
}

/// Headers as other programs write them, of this kind and of others.
pub fn others(width: u32, height: u32) -> [String; 6] {
    let header = |depth, maxval, name| {
        format!("P7\nWIDTH {width}\nHEIGHT {height}\nDEPTH {depth}\nMAXVAL {maxval}\nTUPLTYPE {name}\nENDHDR\n")
    };
    [
        spelling(width, height).replacen('\n', "\n# Created by a painter's program\n", 1),
        header(3, 255, "RGB"),
        header(2, 255, "GRAYSCALE_ALPHA"),
        header(1, 1, "BLACKANDWHITE"),
        header(4, 65535, "RGB_ALPHA"),
        format!("P6\n{width} {height}\n255\n"),
    ]
}

/// Lines without their newlines, and what stands behind them.
#[derive(Clone)]
pub struct Draft {
    pub lines: Vec<Vec<u8>>,
    pub texels: Vec<u8>,
}

impl Draft {
    /// The lines of a header. Where there is none, all that are in the file.
    pub fn new(file: &[u8]) -> Self {
        let end = file.iter().rposition(|&byte| byte == b'\n').map_or(0, |last| last + 1);
        let (text, texels) = file.split_at(header(file).map_or(end, |header| header.texels));
        let lines = text.split_inclusive(|&byte| byte == b'\n').map(|line| line[..line.len() - 1].to_vec());
        Self { lines: lines.collect(), texels: texels.to_vec() }
    }

    pub fn file(&self) -> Vec<u8> {
        let lines = self.lines.iter().flat_map(|line| line.iter().chain(b"\n"));
        lines.chain(&self.texels).copied().collect()
    }
}

/// Makes a line and the next one line, with something between them.
pub fn join(lines: &mut Vec<Vec<u8>>, i: usize, between: &[u8]) {
    let line = lines.remove(i);
    if let Some(next) = lines.get_mut(i) {
        *next = [&line, between, next].concat();
    }
}

/// Makes a line two.
pub fn split(lines: &mut Vec<Vec<u8>>, i: usize, place: usize) {
    let rest = lines[i].split_off(place);
    lines.insert(i + 1, rest);
}

/// How many bytes a picture for this file must have; 0 if none will do.
pub fn needed(file: &[u8]) -> usize {
    header(file).map_or(0, |header| texel_bytes(header.width, header.height))
}
