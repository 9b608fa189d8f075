//! Random numbers by a seed, and random cases and runs: near the limits as often as not.
use crate::capture::place::*;
use crate::capture::{By, Companion, Record, Run, BLOCK, END_BYTES, KEY, RECORD_BYTES, TILE, TLUT};
use crate::case::{Call, Case, Fill, Pieces, CHANGES};
use crate::input::Input;
use crate::linear;
use original::calls::Picture;
use tulonkasa::{Tile, SIDE_MOST};

/// SplitMix64.
pub struct Random(u64);

impl Random {
    pub fn new(seed: u64) -> Self {
        Self(seed)
    }

    pub fn next(&mut self) -> u64 {
        self.0 = self.0.wrapping_add(0x9e37_79b9_7f4a_7c15);
        let mut z = self.0;
        z = (z ^ (z >> 30)).wrapping_mul(0xbf58_476d_1ce4_e5b9);
        z = (z ^ (z >> 27)).wrapping_mul(0x94d0_49bb_1331_11eb);
        z ^ (z >> 31)
    }

    /// 0 to `most`.
    pub fn to(&mut self, most: u32) -> u32 {
        (self.next() % (u64::from(most) + 1)) as u32
    }

    pub fn pick<T: Copy>(&mut self, choices: &[T]) -> T {
        choices[self.to(choices.len() as u32 - 1) as usize]
    }

    /// 0 to `most`, and half of the time a number beside a limit or a power of two.
    fn near(&mut self, most: u32) -> u32 {
        match self.to(7) {
            0 => 0,
            1 => 1.min(most),
            2 => most,
            3 => ((1 << self.to(16)) - 1 + self.to(2)).min(most),
            _ => self.to(most),
        }
    }

    pub fn fill(&mut self, bytes: &mut [u8]) {
        for chunk in bytes.chunks_mut(8) {
            chunk.copy_from_slice(&self.next().to_le_bytes()[..chunk.len()]);
        }
    }

    /// A tile of a picture of at most so many texels. A quarter of the tiles may have the longest sides.
    fn tile(&mut self, texels: u32) -> Tile {
        let most = self.pick(&[1024, 1024, 1024, SIDE_MOST]);
        let width = self.near(most);
        let height = self.near(most);
        Tile {
            fmt: self.pick(&[0, 0, 1, 2, 2, 3, 3, 4, 4, 5, 6, 7]),
            siz: self.to(3),
            palette: self.near(15),
            mode: self.to(3),
            cms: self.to(3),
            cmt: self.to(3),
            masks: self.pick(&[0, 0, 0, 1, 2, 5, 6, 10, 15, 4]),
            maskt: self.pick(&[0, 0, 0, 1, 2, 5, 6, 10, 15, 4]),
            line: self.near(511),
            tmem_addr: self.near(511),
            width,
            height: texels.checked_div(width).map_or(height, |most| height.min(most)),
        }
    }

    /// A case or a run; by the program only if there is one.
    pub fn input(&mut self, program: bool) -> Input {
        match self.to(4095) {
            0 if program => Input::Run(self.run(By::Program)),
            0..=31 => Input::Run(self.run(By::Call)),
            32..=47 => Input::Run(self.run(By::OwnCalls)),
            _ => {
                let call = self.pick(&CALLS);
                Input::Case(self.case(call))
            }
        }
    }

    /// A case of a call.
    fn case(&mut self, call: Call) -> Case {
        let texels = match self.to(4095) {
            0 => SIDE_MOST * SIDE_MOST,
            1..=16 => 1 << 20,
            _ => 1 << 14,
        };
        let mut case = Case::new(call, self.tile(texels));
        if call == Call::RoundTrip {
            case.tile = self.fitting_tile(case.tile.palette);
        }
        if call == Call::Linear && self.to(7) != 0 {
            (case.tile.fmt, case.tile.siz) = self.pick(&linear::PAIRS);
        }
        case.lane = self.to(3);
        case.image_siz = self.to(3);
        case.surplus = self.pick(&[0, 0, 0, 1, 2, 7, 64, -1, -2]);
        case.fill = self.filling();
        case.seed = self.next();
        let few = self.to(127) != 0;
        case.numbers = match call {
            Call::LoadBlock => [self.near(4095), self.near(2048), 0],
            Call::LoadTile if few => [self.near(64), self.near(32), self.near(65535)],
            Call::LoadTile => [self.near(1024), self.near(512), self.near(65535)],
            Call::LoadTlut | Call::LoadTlutRows if few => [self.near(256), 1 + self.near(7), self.near(65535)],
            Call::LoadTlut | Call::LoadTlutRows => [self.near(1024), 1 + self.near(1023), self.near(65535)],
            Call::TileHasLoad => [self.near(511), self.near(3), self.near(2)],
            Call::Rejection => std::array::from_fn(|_| self.reasoned_address(&case.tile)),
            Call::Linear | Call::RoundTrip => [self.stride(&case.tile), 0, 0],
            Call::CheckKey => std::array::from_fn(|_| self.change(&case.tile)),
            _ => [0; 3],
        };
        if case.is_tlut() && self.to(1) == 0 {
            case.numbers[1] = 1;
        }
        if call == Call::Rejection && self.to(7) != 0 {
            case.fill = Fill::Zero;
        }
        if matches!(call, Call::LoadBlock | Call::LoadTile) || case.is_tlut() {
            case.reason = self.reason();
        }
        if call == Call::CheckKey {
            case.image_siz = self.pick(&[0, 0, 0, 0, 1, 1, 2, 3]);
        }
        case.last = match call {
            Call::TileHasLoad => self.near(65534),
            _ => self.last(),
        };
        case.source_length = self.source_length(case.pieces());
        if call == Call::Linear && self.to(1) == 0 {
            case.source_length = case.pieces().end().min(65536);
        }
        case
    }

    /// A tile whose picture after a load is that of its source.
    fn fitting_tile(&mut self, palette: u32) -> Tile {
        let (fmt, siz) = self.pick(&linear::PAIRS);
        let lines = linear::lines_most(fmt, siz);
        let line = self.near(lines.min(511));
        let height = self.near(lines.checked_div(line).map_or(256, |most| most.min(256)));
        let tmem_addr = self.near((lines - height * line).min(511));
        let width = self.near(linear::width_most(siz, line));
        Tile { fmt, siz, palette, mode: self.to(1), line, tmem_addr, width, height, ..Tile::default() }
    }

    /// A source's stride: mostly about a row's bytes, rows one behind the other as often as not; else any.
    fn stride(&mut self, tile: &Tile) -> u32 {
        let row = linear::row_bytes(tile);
        match self.to(7) {
            0 => self.near(65535),
            1 => self.to(row),
            2 => row + self.to(16),
            3 => linear::row_words(tile) * 8,
            _ => row,
        }
    }

    /// The number of the load before: mostly one that leaves some, else one that leaves few or none.
    fn last(&mut self) -> u32 {
        match self.to(7) {
            0 => 65536 - self.to(32),
            1 => 65535 + self.near(u32::MAX - 65535),
            _ => self.near(65534),
        }
    }

    /// None of an ordinary load, else mostly one that is taken.
    fn reason(&mut self) -> Option<u32> {
        match self.to(15) {
            0..=7 => None,
            8 => Some(0),
            9 => Some(256 + self.near(u32::MAX - 256)),
            _ => Some(1 + self.near(254)),
        }
    }

    /// An address for a reason: one that the tile reaches or one close by, in its palette or beside it, any, or none.
    fn reasoned_address(&mut self, tile: &Tile) -> u32 {
        let row_bytes = (tile.width << tile.siz.min(2)) / 2;
        let row = tile.tmem_addr + self.to(tile.height.min(3)) * tile.line;
        match self.to(7) {
            0..=2 => 4096,
            3 => self.to(4095),
            4 => (2047 + 128 * tile.palette + self.near(129)).min(4095),
            _ => (8 * row + self.near(row_bytes + 1) + self.pick(&[0, 0, 0, 2048])) % 4096,
        }
    }

    /// A changed byte of an offer: at an address as of a reason, or none.
    fn change(&mut self, tile: &Tile) -> u32 {
        match self.reasoned_address(tile) {
            4096 => 4096 * CHANGES.len() as u32,
            address => 4096 * self.to(CHANGES.len() as u32 - 1) + address,
        }
    }

    /// A source's length: beside what the load asks for, at or inside one of its pieces, or any.
    fn source_length(&mut self, pieces: Pieces) -> u32 {
        let length = match self.to(3) {
            0 => (pieces.end() + self.to(4)).saturating_sub(2),
            1 => self.to(pieces.count) * pieces.apart + self.to(pieces.bytes),
            _ => self.near(65536),
        };
        length.min(65536)
    }

    fn filling(&mut self) -> Fill {
        self.pick(&[Fill::Random, Fill::Random, Fill::Random, Fill::Palette, Fill::Rising, Fill::Zero])
    }

    /// A run of some tens of records. Now and then the program gets more than it reads at a time.
    fn run(&mut self, by: By) -> Run {
        let length = match self.to(7) {
            0 => self.pick(&[0, 1, 1 << 32, (1 << 32) + 65535, 5 << 30]),
            1 => (1 << 32) - END_BYTES + self.next() % (2 * END_BYTES),
            _ => u64::from(self.near(3 * END_BYTES as u32)),
        };
        let companion = Companion { length, fill: self.filling(), seed: self.next() };
        let count = if by == By::Program && self.to(15) == 0 { 1300 + self.to(100) } else { self.near(60) };
        let records = (0..count).map(|_| self.record(by, length)).collect();
        let torn = if self.to(1) == 0 { 0 } else { self.near(RECORD_BYTES as u32 - 1) as usize };
        let tail = self.record(by, length).bytes[..torn].to_vec();
        let last = if by == By::Program { 0 } else { self.last() };
        Run { by, records, tail, last, companion }
    }

    /// A record: any bytes, then numbers in range in the fields that its kind takes, then a byte or more changed in some.
    fn record(&mut self, by: By, companion_length: u64) -> Record {
        let mut record = Record { bytes: [0; RECORD_BYTES], surplus: 0, reason: None };
        self.fill(&mut record.bytes);
        let kind = self.pick(&[BLOCK, TILE, TLUT, KEY]);
        let tile = self.tile(1 << 10);
        record.set(&[(KIND, kind)]);
        if kind == KEY {
            record.set(&[(LANE, self.to(3))]);
            record.set_tile(&tile);
        } else {
            record.set(&[(FMT, tile.fmt), (SIZ, tile.siz), (LINE, tile.line), (TMEM_ADDR, tile.tmem_addr)]);
            let (offset, length) = self.source(companion_length);
            record.set(&[(IMAGE_SIZ, self.to(3)), (STRIDE, self.near(65535)), (OFFSET, offset), (LENGTH, length)]);
            record.set(&match kind {
                BLOCK => [(DXT, self.near(4095)), (WORDS, self.near(512))],
                TILE => [(ROWS, self.near(32)), (WORDS, self.near(32))],
                _ => [(COUNT, self.near(256)), (ROWS, 1 + self.near(3))],
            });
            if by == By::Call {
                record.surplus = self.pick(&[0, 0, 0, 1, 7, 64, -1]);
            }
            if by == By::OwnCalls {
                record.reason = self.reason();
            }
        }
        while self.to(7) == 0 {
            let changed = self.to(RECORD_BYTES as u32 - 1) as usize;
            record.bytes[changed] = self.pick(&[0, 1, 2, 4, 8, 16, 255]);
        }
        record
    }

    /// Offset and length of a source: mostly inside the companion, near its start or its end, else beyond it or too long.
    fn source(&mut self, companion_length: u64) -> (u32, u32) {
        let length = match self.to(15) {
            0 => 65536 + self.to(1),
            1 => self.next() as u32,
            _ => self.near(companion_length.min(65536) as u32),
        };
        let last = companion_length.saturating_sub(length.into());
        let offset = match self.to(15) {
            0 => companion_length,
            1 => companion_length + 1,
            2 => last + 1,
            3..=5 => last,
            6..=8 => last - self.next() % (last.min(END_BYTES) + 1),
            9 => self.next() & u64::from(u32::MAX),
            _ => self.next() % (last.min(END_BYTES) + 1),
        };
        (u32::try_from(offset).unwrap_or(u32::MAX), length)
    }
}

/// The calls, each as often as it is to be tried.
const CALLS: [Call; 22] = [
    Call::LoadBlock,
    Call::LoadTile,
    Call::LoadTlut,
    Call::LoadTlutRows,
    Call::Sampling,
    Call::Picture { which: Picture::Plain, observed: false },
    Call::Picture { which: Picture::Plain, observed: false },
    Call::Picture { which: Picture::Plain, observed: false },
    Call::Picture { which: Picture::Plain, observed: true },
    Call::Picture { which: Picture::Lookup, observed: false },
    Call::Picture { which: Picture::Lookup, observed: false },
    Call::Picture { which: Picture::Lookup, observed: true },
    Call::Reach,
    Call::TileHasLoad,
    Call::Rejection,
    Call::Rejection,
    Call::PaletteNonreplicated,
    Call::Key,
    Call::Linear,
    Call::RoundTrip,
    Call::CheckKey,
    Call::CheckKey,
];
