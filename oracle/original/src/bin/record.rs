//! Writes the stored answers to standard output: cases of every call, and what the original answers and leaves.
//! oracle/answers/README.md says how they are laid out.
use original::calls::{self, Bytes, Load, Map, Memory, Picture, Reach};
use original::TileDescriptor;
use std::io::Write;

/// What a buffer that is lent to be written holds before.
const BEFORE: u8 = 165;

const KIND_BLOCK: u8 = 1;
const KIND_TILE: u8 = 2;
const KIND_TLUT: u8 = 3;
const KIND_SAMPLING: u8 = 4;
const KIND_SAMPLE_TILE: u8 = 5;
const KIND_LOOKUP: u8 = 7;
const KIND_REACH: u8 = 9;
const KIND_HAS_LOAD: u8 = 10;
const KIND_LANES: u8 = 11;
const KIND_KEY: u8 = 12;
const KIND_END: u8 = 255;

/// Inputs of a case.
#[derive(Clone, Default)]
struct Input {
    kind: u8,
    lane: u8,
    tile: TileDescriptor,
    mode: u8,
    image_siz: u8,
    numbers: [u16; 3],
    poke_place: u16,
    poke_value: u8,
    seed: u32,
    source_length: u32,
    picture_length: u32,
    trail_length: u32,
}

/// What the original answers and leaves.
#[derive(Default)]
struct Outcome {
    refusal: u16,
    number: u32,
    /// A load's made-up count; or an extent, the width in the high half.
    second: u32,
    digests: [u32; 2],
}

/// Refusal 5: the original does not accept the pair.
const PAIR: u16 = 5;

fn digest(bytes: &[u8]) -> u32 {
    bytes.iter().fold(1, |d, &byte| (d as u64 * 31 + u64::from(byte)) as u32)
}

/// The bytes made from a seed; all zero where the record's own seed is 0.
fn made(record_seed: u32, plus: u32, length: usize) -> Vec<u8> {
    if record_seed == 0 {
        return vec![0; length];
    }
    let mut n = record_seed + plus;
    let next = || {
        n = (u64::from(n) * 1_664_525 + 1_013_904_223) as u32;
        (n >> 24) as u8
    };
    std::iter::repeat_with(next).take(length).collect()
}

impl Input {
    fn bank(&self) -> Bytes {
        let mut bank: Bytes = made(self.seed, 0, 4096).try_into().expect("4,096 bytes");
        bank[usize::from(self.poke_place)] = self.poke_value;
        bank
    }

    fn written(&self) -> Map {
        made(self.seed, 1, 512).try_into().expect("512 bytes")
    }

    fn outcome(&self, reach: &Reach) -> Outcome {
        let lane = usize::from(self.lane);
        match self.kind {
            KIND_BLOCK | KIND_TILE | KIND_TLUT => self.load(),
            KIND_SAMPLING => {
                let (flag, [width, height]) = calls::sampling(&self.tile, self.mode);
                Outcome { number: flag, second: width << 16 | height, ..Outcome::default() }
            }
            KIND_SAMPLE_TILE..KIND_REACH => self.picture(),
            KIND_REACH => {
                let digests = [digest(&reach.of(&self.tile, self.mode)), 0];
                Outcome { digests, ..Outcome::default() }
            }
            KIND_HAS_LOAD => {
                let mut written = self.written();
                written[usize::from(self.poke_place)] = self.poke_value;
                let meets = reach.of(&self.tile, self.mode).iter().zip(written).any(|(a, b)| a & b != 0);
                Outcome { number: meets.into(), ..Outcome::default() }
            }
            KIND_LANES => {
                let digests = [digest(&calls::palette_nonreplicated(&self.bank())), 0];
                Outcome { digests, ..Outcome::default() }
            }
            _ => match calls::key(&self.bank(), &self.tile, self.mode, lane) {
                Some((key, kept)) => Outcome { number: kept, digests: [digest(&key), 0], ..Outcome::default() },
                None => Outcome { refusal: PAIR, digests: [digest(&[BEFORE; 4096]), 0], ..Outcome::default() },
            },
        }
    }

    fn load(&self) -> Outcome {
        let [a, b, c] = self.numbers.map(usize::from);
        let load = match self.kind {
            KIND_BLOCK => Load::Block { dxt: a as u32, words: b },
            KIND_TILE => Load::Tile { rows: a, words: b, stride: c },
            _ => Load::Tlut { count: a, rows: b, stride: c },
        };
        let source = made(self.seed, 2, self.source_length as usize);
        let mut memory = Memory::new(&self.bank());
        let counted = memory.load_counted(&source, &self.tile, self.image_siz, load, None);
        let mut written = self.written();
        written.iter_mut().zip(counted.marks).for_each(|(byte, mark)| *byte |= mark);
        let digests = [digest(&memory.bytes()[..]), digest(&written)];
        Outcome { number: counted.stores, second: counted.made_up, digests, ..Outcome::default() }
    }

    fn picture(&self) -> Outcome {
        let which = if self.kind < KIND_LOOKUP { Picture::Plain } else { Picture::Lookup };
        let mut read = Vec::new();
        let lane = usize::from(self.lane);
        let given = calls::picture_observed(&self.bank(), &self.tile, self.mode, lane, which, &mut read);
        let mut picture = vec![BEFORE; self.picture_length as usize];
        let mut trail = vec![BEFORE; self.trail_length as usize];
        if let Some(given) = &given {
            picture[..given.len()].copy_from_slice(given);
        }
        let trail_digest = if self.observed() {
            trail[..read.len()].copy_from_slice(&read);
            digest(&trail)
        } else {
            0
        };
        Outcome {
            refusal: if given.is_some() { 0 } else { PAIR },
            number: read.len() as u32 / 2,
            digests: [digest(&picture), trail_digest],
            ..Outcome::default()
        }
    }

    /// Of a picture: with its trail.
    fn observed(&self) -> bool {
        self.kind.is_multiple_of(2)
    }

    /// Sets the lengths of picture and trail: what is needed, and more.
    fn with_lengths(mut self, surplus: u32) -> Self {
        let texels = if self.kind < KIND_LOOKUP { u32::from(self.tile.width) * u32::from(self.tile.height) } else { 16384 };
        let reads = match (self.mode, self.tile.fmt, self.tile.siz) {
            (2.., _, _) => 3,
            (_, 0, 3) => 4,
            (_, 0 | 2 | 3, 2 | 3) => 2,
            _ => 1,
        };
        self.picture_length = 4 * texels + surplus;
        self.trail_length = if self.observed() { 2 * reads * texels + surplus } else { 0 };
        self
    }
}

/// The 64 bytes of a case.
fn record(input: &Input, outcome: &Outcome) -> [u8; 64] {
    let tile = &input.tile;
    let mut bytes = vec![input.kind, input.lane, tile.fmt, tile.siz, tile.palette, input.mode];
    bytes.extend([tile.cms, tile.cmt, tile.masks, tile.maskt]);
    let halves = [tile.line, tile.tmem_addr, tile.width, tile.height, input.image_siz.into()];
    halves.iter().chain(&input.numbers).for_each(|half| bytes.extend(half.to_be_bytes()));
    bytes.extend(input.poke_place.to_be_bytes());
    bytes.extend(u16::from(input.poke_value).to_be_bytes());
    let words = [input.seed, input.source_length, input.picture_length, input.trail_length];
    words.iter().for_each(|word| bytes.extend(word.to_be_bytes()));
    bytes.extend(outcome.refusal.to_be_bytes());
    [outcome.number, outcome.second].iter().chain(&outcome.digests).for_each(|word| bytes.extend(word.to_be_bytes()));
    bytes.try_into().expect("64 bytes")
}

/// The list of cases. Numbers that nothing else fixes go through their range by the count of cases so far.
#[derive(Default)]
struct List {
    inputs: Vec<Input>,
}

/// Width, height, line, word address: nothing, one texel, odd rows, the largest sides, a wrap past the bank's end.
const SHAPES: [[u16; 4]; 12] = [
    [0, 7, 1, 0],
    [9, 0, 511, 511],
    [1, 1, 0, 0],
    [1, 2, 1, 511],
    [5, 3, 1, 255],
    [16, 16, 2, 256],
    [4096, 2, 255, 1],
    [2, 4096, 511, 300],
    [1, 257, 1, 0],
    [3, 300, 2, 77],
    [33, 9, 9, 128],
    [1024, 16, 129, 500],
];

/// cms, cmt, masks, maskt.
const REPEATS: [[u8; 4]; 6] = [[0, 0, 0, 0], [0, 0, 1, 1], [1, 1, 4, 3], [0, 1, 15, 0], [0, 0, 0, 15], [2, 3, 15, 15]];

/// Format, size and mode of the keys of tiles that repeat.
const REPEATING: [[u8; 3]; 6] = [[4, 1, 0], [0, 2, 0], [0, 3, 1], [4, 0, 1], [2, 1, 2], [2, 0, 3]];

/// cms, cmt, masks and maskt; width, height, line. One wall under several widths; an axis alone, and both; mirrored, clamped; at the
/// size, one above, no size; tall ones; and lookups by one axis or by an odd line, where an axis repeats inside its size.
const WALLS: [([u8; 4], [u16; 3]); 17] = [
    ([0, 0, 4, 0], [16, 3, 4]),
    ([0, 0, 4, 0], [32, 3, 4]),
    ([0, 0, 4, 0], [64, 3, 4]),
    ([0, 0, 4, 0], [128, 3, 4]),
    ([0, 0, 0, 4], [3, 64, 2]),
    ([0, 0, 4, 5], [64, 64, 4]),
    ([1, 1, 2, 3], [9, 11, 3]),
    ([2, 0, 2, 3], [9, 11, 3]),
    ([0, 3, 2, 3], [9, 11, 3]),
    ([3, 2, 2, 3], [9, 11, 3]),
    ([0, 0, 3, 2], [8, 4, 2]),
    ([1, 0, 3, 2], [9, 5, 2]),
    ([0, 0, 1, 1], [0, 9, 2]),
    ([0, 0, 1, 6], [3, 256, 1]),
    ([0, 0, 5, 1], [20, 9, 4]),
    ([0, 0, 1, 5], [9, 20, 4]),
    ([0, 0, 0, 1], [1, 257, 1]),
];

/// Small loads: kind, image size, the load's own numbers, and how many source bytes it asks for. A block of even and odd rows;
/// tiles whose rows share bytes, follow each other and stand apart; palettes step by step; and by rows, one and two.
const SMALL_LOADS: [(u8, u8, [u16; 3], u32); 9] = [
    (KIND_BLOCK, 2, [2048, 3, 0], 24),
    (KIND_TILE, 2, [2, 1, 3], 11),
    (KIND_TILE, 2, [2, 1, 8], 16),
    (KIND_TILE, 2, [2, 1, 10], 18),
    (KIND_TLUT, 1, [9, 1, 0], 10),
    (KIND_TLUT, 2, [3, 1, 0], 6),
    (KIND_TLUT, 3, [3, 1, 0], 10),
    (KIND_TLUT, 0, [3, 1, 0], 6),
    (KIND_TLUT, 2, [2, 2, 3], 7),
];

/// The place in [`SHAPES`] for a count.
fn shape(count: usize) -> usize {
    (count + count / SHAPES.len()) % SHAPES.len()
}

impl List {
    fn count(&self) -> usize {
        self.inputs.len()
    }

    /// Adds a case with a seed of its own and a poke. One bank in sixteen is empty, and two written maps in three.
    fn push(&mut self, mut input: Input) {
        let count = self.count() as u32;
        let empty = if input.kind == KIND_HAS_LOAD { !count.is_multiple_of(3) } else { count.is_multiple_of(16) };
        input.seed = if empty { 0 } else { 1 + count * 1_000_003 };
        if !matches!(input.kind, KIND_SAMPLING | KIND_REACH) {
            let places = if input.kind == KIND_HAS_LOAD { 512 } else { 4096 };
            input.poke_place = (count * 2_477 % places) as u16;
            input.poke_value = (count * 7 % 255 + 1) as u8;
        } else {
            input.seed = 0;
        }
        self.inputs.push(input);
    }

    /// A tile of a pair, its shape and way to repeat by the count so far.
    fn tile(&self, pair: u8) -> TileDescriptor {
        let count = self.count();
        let [width, height, line, tmem_addr] = SHAPES[shape(count)];
        let [cms, cmt, masks, maskt] = REPEATS[count / 5 % REPEATS.len()];
        let (fmt, siz, palette) = (pair / 4, pair % 4, (count % 16) as u8);
        TileDescriptor { fmt, siz, palette, cms, cmt, masks, maskt, line, tmem_addr, width, height, ..Default::default() }
    }

    /// Every pair and mode: flags, reaches, has-loads, keys, pictures with and without trail.
    fn tiles(&mut self) {
        for pair in 0..32 {
            for mode in 0..4 {
                for kind in [KIND_SAMPLING, KIND_REACH, KIND_HAS_LOAD, KIND_KEY, KIND_SAMPLE_TILE, KIND_SAMPLE_TILE + 1] {
                    for round in 0..3 {
                        let lane = if matches!(kind, KIND_KEY | KIND_SAMPLE_TILE | 6) { (pair + round) % 4 } else { 0 };
                        let input = Input { kind, lane, tile: self.tile(pair), mode, ..Input::default() };
                        let whole = shape(self.count()) == SHAPES.len() - 1;
                        let pictures = matches!(kind, KIND_SAMPLE_TILE | 6);
                        let surplus = if whole { 0 } else { u32::from(round) };
                        self.push(if pictures { input.with_lengths(surplus) } else { input });
                    }
                }
            }
        }
    }

    /// Keys of tiles that repeat, in every lane by turns.
    fn repeating(&mut self) {
        for [fmt, siz, mode] in REPEATING {
            for ([cms, cmt, masks, maskt], [width, height, line]) in WALLS {
                let (lane, tmem_addr) = ((self.count() % 4) as u8, 300);
                let tile = TileDescriptor { cms, cmt, masks, maskt, line, width, height, tmem_addr, ..Default::default() };
                let tile = TileDescriptor { fmt, siz, palette: 9, ..tile };
                self.push(Input { kind: KIND_KEY, lane, tile, mode, ..Input::default() });
            }
        }
    }

    /// Lookups: every pair, mode and lane, turn by turn with and without trail.
    fn lookups(&mut self) {
        for pair in 0..32 {
            for mode in 0..4 {
                for lane in 0..if mode < 2 { 1 } else { 4 } {
                    let kind = KIND_LOOKUP + (pair + mode + lane) % 2;
                    self.push(Input { kind, lane, tile: self.tile(pair), mode, ..Input::default() }.with_lengths(0));
                }
            }
        }
    }

    /// Loads: every pair and image size.
    fn loads(&mut self) {
        for pair in 0..32 {
            for image_siz in 0..4 {
                let count = self.count() as u16 % 1000;
                self.load(KIND_BLOCK, pair, image_siz, [0, 1 + count % 3, 0], 24);
                self.load(KIND_BLOCK, pair, image_siz, [count * 61 % 4096, count * 37 % 151, 0], 800);
                self.load(KIND_BLOCK, pair, image_siz, [2048, 9, 0], 65);
                self.load(KIND_TILE, pair, image_siz, [count % 7, 1 + count % 5, count % 50], 100);
                self.load(KIND_TILE, pair, image_siz, [33, 3, 24], 792);
                self.load(KIND_TLUT, pair, image_siz, [count * 11 % 257, 1, count], 514);
                self.load(KIND_TLUT, pair, image_siz, [count % 33, 2 + count % 3, count % 70], 130);
            }
        }
        for image_siz in 0..4 {
            self.load(KIND_BLOCK, 2, image_siz, [4095, 2048, 0], 65536);
            self.load(KIND_BLOCK, 3, image_siz, [0, 0, 0], 0);
            self.load(KIND_TILE, 2, image_siz, [1024, 5, 65535], 65536);
            self.load(KIND_TILE, 1, image_siz, [3, 512, 4096], 12287);
            self.load(KIND_TLUT, 2, image_siz, [1024, 1, 0], 2048);
            self.load(KIND_TLUT, 0, image_siz, [7, 1024, 64], 65536);
            self.load(KIND_TLUT, 2, image_siz, [0, 1, 65535], 0);
        }
    }

    /// Small loads from sources of every length, to a byte more than they ask for, in pairs whose words stay together (0,2) and go
    /// to both halves (0,3), (1,2). And loads that ask for bytes past the longest source.
    fn cut_sources(&mut self) {
        for pair in [2, 3, 6] {
            for (kind, image_siz, numbers, asked) in SMALL_LOADS {
                for source_length in 0..=asked + 1 {
                    self.load(kind, pair, image_siz, numbers, source_length);
                }
            }
        }
        for source_length in 65534..=65536 {
            self.load(KIND_TILE, 2, 2, [2, 1, 65529], source_length);
            self.load(KIND_TLUT, 2, 2, [4, 2, 65529], source_length);
        }
    }

    fn load(&mut self, kind: u8, pair: u8, image_siz: u8, numbers: [u16; 3], source_length: u32) {
        let count = self.count() as u16;
        let line = [0, 1, 511, count % 512][usize::from(count % 4)];
        let tmem_addr = [0, 255, 256, 511, count * 3 % 512][usize::from(count % 5)];
        let tile = TileDescriptor { fmt: pair / 4, siz: pair % 4, line, tmem_addr, ..Default::default() };
        self.push(Input { kind, tile, image_siz, numbers, source_length, ..Input::default() });
    }

    fn lanes(&mut self) {
        for place in (2048..4096).step_by(37) {
            self.push(Input { kind: KIND_LANES, ..Input::default() });
            let last = self.inputs.last_mut().expect("just added");
            last.poke_place = place;
            if place % 4 != 0 {
                last.seed = 0;
            }
        }
    }
}

fn main() -> std::io::Result<()> {
    let mut list = List::default();
    list.tiles();
    list.lookups();
    list.loads();
    list.lanes();
    list.cut_sources();
    list.repeating();

    let reach = Reach::default();
    let title = "tulonkasa answers, by oracle/record from fast3d-rs dbd8d8c9d8\n";
    let mut file = format!("{title:<64}").into_bytes();
    for input in &list.inputs {
        file.extend(record(input, &input.outcome(&reach)));
    }
    file.push(KIND_END);
    file.extend([0; 59]);
    file.extend(digest(&file).to_be_bytes());
    std::io::stdout().write_all(&file)
}
