//! The original Rust and the archive side by side, in one process and on the same inputs, as Markdown tables. Where the original has
//! no such call, plain Rust stands for it.
//!
//!     bench ROUNDS            # all tables but the next
//!     bench ROUNDS growth     # how pictures, trails, keys and files grow, up to the longest sides
//!     bench ROUNDS questions  # the question for a reason, on tiles of many sides
mod timing;

use original::calls::{self, Load, Memory, Picture};
use original::TileDescriptor;
use std::hint::black_box;
use std::process::ExitCode;
use timing::{race, Pair};
use tulonkasa::{slices, Tile, LOOKUP_TEXELS, REASON_BYTES, SIDE_MOST, WRITTEN_BYTES};

/// The goals for the ratios of archive to original.
const GOAL: f64 = 0.5;
const GOAL_LOADS: f64 = 0.25;

/// For pictures and lookups, alone and with the trail; and for pictures by their sides.
const GOAL_LARGE_PICTURES: (f64, f64) = (0.25, 0.33);
const GOAL_PICTURES: [(u32, (f64, f64)); 4] =
    [(1, (1.0, 1.0)), (8, (0.5, 0.5)), (32, GOAL_LARGE_PICTURES), (64, GOAL_LARGE_PICTURES)];

const GOAL_SPLITS: f64 = 2.0;

/// Those for keys, by the side of a square picture; the last serves larger ones and lookups too.
const GOAL_LARGE_KEYS: f64 = 0.1;
const GOAL_KEYS: [(u32, f64); 4] = [(1, 1.0), (8, 0.5), (32, GOAL_LARGE_KEYS), (64, GOAL_LARGE_KEYS)];

/// The goal for the ratio of a check of a key to the key call itself.
const GOAL_CHECKS: f64 = 1.2;

/// No split should take longer, in nanoseconds.
const SPLIT_MOST: f64 = 100e6;

/// Pairs of format and size that modes 0 and 1 accept.
const DIRECT: [(u32, u32); 11] = [(0, 2), (0, 3), (2, 0), (2, 1), (2, 2), (2, 3), (3, 0), (3, 1), (3, 2), (4, 0), (4, 1)];

struct Bench {
    rounds: u32,
    bank: [u8; 4096],
    picture: Vec<u8>,
    trail: Vec<u8>,
    above: Vec<String>,
}

fn main() -> ExitCode {
    let words: Vec<_> = std::env::args().skip(1).collect();
    let (rounds, tables) = match &words[..] {
        [rounds] => (rounds.parse().ok(), ""),
        [rounds, tables] if ["growth", "questions"].contains(&&tables[..]) => (rounds.parse().ok(), &tables[..]),
        _ => (None, ""),
    };
    let Some(rounds) = rounds else {
        eprintln!("usage: bench ROUNDS [growth | questions]");
        return ExitCode::from(2);
    };
    let texels = if tables == "growth" { (SIDE_MOST * SIDE_MOST) as usize } else { LOOKUP_TEXELS };
    let mut bench = Bench {
        rounds,
        bank: bytes(4096).try_into().expect("4,096 bytes"),
        picture: vec![0; 4 * texels],
        trail: vec![0; 8 * texels],
        above: Vec::new(),
    };
    match tables {
        "growth" => bench.growth(),
        "questions" => bench.questions(),
        _ => bench.all(),
    }
    ExitCode::SUCCESS
}

/// Bytes without a pattern.
fn bytes(count: usize) -> Vec<u8> {
    let mut n = 1u32;
    let next = || {
        n = n.wrapping_mul(1_664_525).wrapping_add(1_013_904_223);
        (n >> 24) as u8
    };
    std::iter::repeat_with(next).take(count).collect()
}

/// As many entries as can be split, of which each body is made from the one before.
fn entries(change: impl Fn(usize, &mut [u8])) -> Vec<u8> {
    let mut entry = bytes(split::ENTRY);
    let next = |number| {
        change(number, &mut entry[split::NUMBER..]);
        entry.clone()
    };
    (0..split::MOST as usize).flat_map(next).collect()
}

/// A bank whose slot is uneven, at one of its bytes, where its pick is above 127.
fn uneven_at(picks: &[u8]) -> [u8; 4096] {
    let mut bank = [7; 4096];
    for (slot, pick) in bank[2048..].chunks_exact_mut(8).zip(picks) {
        slot[2 + usize::from(*pick) % 6] ^= pick >> 7;
    }
    bank
}

fn descriptor(tile: &Tile) -> TileDescriptor {
    TileDescriptor {
        fmt: tile.fmt as u8,
        siz: tile.siz as u8,
        palette: tile.palette as u8,
        cms: tile.cms as u8,
        cmt: tile.cmt as u8,
        masks: tile.masks as u8,
        maskt: tile.maskt as u8,
        line: tile.line as u16,
        tmem_addr: tile.tmem_addr as u16,
        width: tile.width as u16,
        height: tile.height as u16,
        ..TileDescriptor::default()
    }
}

/// A tile of 64 by 64 texels, rows one behind the other.
fn square(fmt: u32, siz: u32, mode: u32) -> Tile {
    Tile { fmt, siz, mode, palette: 3, line: 4 << siz.min(2), width: 64, height: 64, ..Tile::default() }
}

/// Tiles whose keys are checked.
fn keyed() -> [(&'static str, Tile); 6] {
    [
        ("16-bit tile of 64 by 64", square(0, 2, 0)),
        ("8-bit tile of 64 by 64", square(4, 1, 0)),
        ("32-bit tile of 64 by 64", square(0, 3, 0)),
        ("palette tile of 64 by 64", square(2, 1, 2)),
        ("lookup, palette", square(1, 1, 2)),
        ("8-bit tile of 1,024 by 1,024", Tile { width: 1024, height: 1024, ..square(4, 1, 0) }),
    ]
}

/// Every pair that a mode accepts.
fn accepted(mode: u32) -> Vec<(u32, u32)> {
    if mode < 2 {
        DIRECT.to_vec()
    } else {
        (0..32).map(|pair| (pair / 4, pair % 4)).collect()
    }
}

/// Keeps the compiler from leaving out what makes a value.
fn used<T>(value: T) {
    black_box(value);
}

fn cells(pair: Pair) -> String {
    format!("{:.0} | {:.0} | {:.2}", pair.original, pair.archive, pair.ratio())
}

impl Bench {
    fn all(&mut self) {
        self.pictures();
        self.sizes();
        self.lookups();
        self.linear();
        self.loads();
        self.others();
        self.keys();
        self.checks();
        println!();
        self.files(&[64, 1024]);
        self.splits();
        self.conclude();
    }

    /// Notes a ratio above its goal.
    fn judge(&mut self, name: String, pair: Pair, goal: f64) -> String {
        if pair.ratio() > goal {
            self.above.push(format!("{name}: {:.2}, goal {goal}", pair.ratio()));
        }
        cells(pair)
    }

    /// Every pair that a mode accepts, at the sides that have goals.
    fn pictures(&mut self) {
        println!("Pictures by their sides: the ratio alone, and with the trail. At 64 by 64, nanoseconds a picture too.\n");
        let sides = GOAL_PICTURES.map(|(side, _)| format!("{side} by {side} | trail")).join(" | ");
        println!("| mode | pair | {sides} | Rust | archive | Rust, trail | archive, trail |");
        println!("|---|---|{}---|---|---|---|", "---|---|".repeat(GOAL_PICTURES.len()));
        for mode in 0..4 {
            accepted(mode).into_iter().for_each(|(fmt, siz)| self.picture_row(square(fmt, siz, mode)));
        }
    }

    fn picture_row(&mut self, tile: Tile) {
        let Tile { mode, fmt, siz, .. } = tile;
        let [mut ratios, mut times] = [String::new(), String::new()];
        for (side, goals) in GOAL_PICTURES {
            let name = format!("picture of {side} by {side}, mode {mode}, ({fmt},{siz})");
            let sized = Tile { width: side, height: side, ..tile };
            let (alone, observed) = self.judge_picture(name, &sized, Picture::Plain, goals);
            ratios += &format!(" {:.2} | {:.2} |", alone.ratio(), observed.ratio());
            times = [alone.original, alone.archive, observed.original, observed.archive]
                .map(|time| format!(" {time:.0} |"))
                .concat();
        }
        println!("| {mode} | ({fmt},{siz}) |{ratios}{times}");
    }

    fn sizes(&mut self) {
        println!("\nPictures of some kinds, nanoseconds a picture.\n");
        println!("| texels | mode | pair | Rust | archive | ratio | Rust, trail | archive, trail | ratio |");
        println!("|---|---|---|---|---|---|---|---|---|");
        for side in [1, 8, 16, 32, 128] {
            for (mode, (fmt, siz)) in [(0, (0, 2)), (0, (4, 1)), (2, (2, 0)), (2, (2, 1))] {
                let tile = Tile { width: side, height: side, ..square(fmt, siz, mode) };
                let alone = cells(self.race_picture(&tile, Picture::Plain));
                let observed = cells(self.race_observed(&tile, Picture::Plain));
                println!("| {side} by {side} | {mode} | ({fmt},{siz}) | {alone} | {observed} |");
            }
        }
    }

    /// Squares and a strip, of an even line, so that a key is that of the plain picture.
    fn growth(&mut self) {
        println!("Pictures alone, with their trails, and keys, by the count of texels. Nanoseconds a call.\n");
        println!(
            "| texels | mode | pair | Rust | archive | ratio | Rust, trail | archive, trail | ratio | Rust, key | archive, key | ratio |"
        );
        println!("|---|---|---|---|---|---|---|---|---|---|---|---|");
        for (mode, (fmt, siz)) in [(0, (0, 2)), (0, (0, 3)), (0, (4, 1)), (2, (2, 1))] {
            for (width, height) in [(64, 64), (256, 256), (1024, 1024), (SIDE_MOST, SIDE_MOST), (64, SIDE_MOST)] {
                let tile = Tile { width, height, ..square(fmt, siz, mode) };
                let alone = cells(self.race_picture(&tile, Picture::Plain));
                let observed = cells(self.race_observed(&tile, Picture::Plain));
                let key = cells(self.race_key(&tile));
                println!("| {width} by {height} | {mode} | ({fmt},{siz}) | {alone} | {observed} | {key} |");
            }
        }
        println!();
        self.files(&[64, 256, 1024, SIDE_MOST]);
    }

    fn lookups(&mut self) {
        println!("\nLookups of 16,384 texels, nanoseconds a lookup.\n");
        let direct = DIRECT.iter().map(|&pair| (0, pair));
        let paletted = [2, 3].into_iter().flat_map(|mode| [(2, 0), (2, 1)].map(|pair| (mode, pair)));
        println!("| mode | pair | Rust | archive | ratio | Rust, trail | archive, trail | ratio |");
        println!("|---|---|---|---|---|---|---|---|");
        for (mode, (fmt, siz)) in direct.chain(paletted) {
            let name = format!("lookup, mode {mode}, ({fmt},{siz})");
            let tile = square(fmt, siz, mode);
            let (alone, observed) = self.judge_picture(name, &tile, Picture::Lookup, GOAL_LARGE_PICTURES);
            println!("| {mode} | ({fmt},{siz}) | {} | {} |", cells(alone), cells(observed));
        }
    }

    /// A picture alone, and with its trail.
    fn judge_picture(&mut self, name: String, tile: &Tile, which: Picture, goals: (f64, f64)) -> (Pair, Pair) {
        let (alone, observed) = (self.race_picture(tile, which), self.race_observed(tile, which));
        self.judge(name.clone(), alone, goals.0);
        self.judge(name + " with trail", observed, goals.1);
        (alone, observed)
    }

    fn race_picture(&mut self, tile: &Tile, which: Picture) -> Pair {
        let Self { rounds, bank, picture, .. } = self;
        let (old, mode) = (descriptor(tile), tile.mode as u8);
        race(
            *rounds,
            || used(calls::picture(black_box(bank), black_box(&old), mode, 1, which)),
            || {
                let picture = black_box(&mut picture[..]);
                black_box(match which {
                    Picture::Plain => slices::sample_tile(black_box(bank), black_box(tile), 1, picture),
                    Picture::Lookup => slices::sampling_lookup(black_box(bank), black_box(tile), 1, picture),
                })
                .expect("accepted");
            },
        )
    }

    fn race_observed(&mut self, tile: &Tile, which: Picture) -> Pair {
        let Self { rounds, bank, picture, trail, .. } = self;
        let (old, mode) = (descriptor(tile), tile.mode as u8);
        let mut old_trail = Vec::with_capacity(trail.len());
        race(
            *rounds,
            || {
                old_trail.clear();
                let trail = black_box(&mut old_trail);
                used(calls::picture_observed(black_box(bank), black_box(&old), mode, 1, which, trail));
            },
            || {
                let (picture, trail) = (black_box(&mut picture[..]), black_box(&mut trail[..]));
                black_box(match which {
                    Picture::Plain => slices::sample_tile_observed(black_box(bank), black_box(tile), 1, picture, trail),
                    Picture::Lookup => {
                        slices::sampling_lookup_observed(black_box(bank), black_box(tile), 1, picture, trail)
                    }
                })
                .expect("accepted");
            },
        )
    }

    /// Rows one behind the other, and of 4-bit texels of an even width, since the original takes no others.
    fn linear(&mut self) {
        println!("\nSources decoded without a bank, nanoseconds a picture. Of (0,3), which the original does not have, beside a copy.\n");
        println!("| texels | pair | source | Rust | archive | ratio |");
        println!("|---|---|---|---|---|---|");
        let pairs = DIRECT.into_iter().filter(|&pair| pair != (2, 3));
        let whole = pairs.map(|pair| (pair, 64, "whole"));
        let some = [(0, 2), (2, 0), (3, 1), (4, 1)];
        let sizes = [1, 8, 16, 128].into_iter().flat_map(|side| some.map(|pair| (pair, side, "whole")));
        let cut = some[1..].iter().map(|&pair| (pair, 64, "half"));
        for (pair, side, source) in whole.chain(sizes).chain(cut) {
            self.linear_row(pair, side, source);
        }
    }

    fn linear_row(&mut self, (fmt, siz): (u32, u32), side: u32, of_source: &str) {
        let tile = Tile { width: side, height: side, ..square(fmt, siz, 0) };
        let old = descriptor(&tile);
        let stride = (side << siz).div_ceil(2);
        let whole = bytes((side * stride) as usize);
        let source = &whole[..if of_source == "half" { whole.len() / 2 } else { whole.len() }];
        let plain =
            |source: &[u8]| if siz == 3 { source.to_vec() } else { calls::linear(source, &old).expect("a decoder") };
        let (rounds, picture) = (self.rounds, &mut self.picture);
        slices::decode_linear(source, &tile, stride, picture).expect("in range");
        assert_eq!(picture[..4 * (side * side) as usize], plain(source)[..]);
        let pair = race(
            rounds,
            || used(plain(black_box(source))),
            || {
                let picture = black_box(&mut picture[..]);
                black_box(slices::decode_linear(black_box(source), black_box(&tile), stride, picture)).expect("in range");
            },
        );
        let name = format!("linear, {side} by {side}, ({fmt},{siz}), {of_source} source");
        let cells = if siz == 3 { cells(pair) } else { self.judge(name, pair, GOAL) };
        println!("| {side} by {side} | ({fmt},{siz}) | {of_source} | {cells} |");
    }

    fn loads(&mut self) {
        println!("\nLoads, nanoseconds a load.\n");
        println!("| load | pair | image size | Rust | archive | ratio |");
        println!("|---|---|---|---|---|---|");
        let block = Load::Block { dxt: 256, words: 2048 };
        let tile = Load::Tile { rows: 64, words: 16, stride: 128 };
        let steps = Load::Tlut { count: 256, rows: 1, stride: 512 };
        let row = Load::TlutRows { count: 256, rows: 1, stride: 512 };
        let rows = Load::TlutRows { count: 16, rows: 16, stride: 32 };
        for (name, load) in [("block of 2,048 words", block), ("tile of 64 rows by 16 words", tile)] {
            for (fmt, siz, image_siz) in [(0, 2, 2), (0, 3, 3), (1, 2, 2), (4, 1, 1), (4, 0, 0)] {
                self.load_row(name, load, fmt, siz, image_siz);
            }
        }
        for (name, load, image_siz) in [
            ("TLUT of 256, hardware", steps, 2),
            ("TLUT of 256, hardware", steps, 1),
            ("TLUT of 256, row", row, 0),
            ("TLUT of 16 rows by 16", rows, 2),
        ] {
            self.load_row(name, load, 0, 2, image_siz);
        }
    }

    fn load_row(&mut self, name: &str, load: Load, fmt: u32, siz: u32, image_siz: u32) {
        let tile = Tile { fmt, siz, line: 16, ..Tile::default() };
        let old = descriptor(&tile);
        let source = bytes(16384);
        let mut memory = Memory::new(&self.bank);
        let (mut bank, mut written, mut reasons) = (self.bank, [0; WRITTEN_BYTES], [0; REASON_BYTES]);
        let number = |number: usize| number as u32;
        let pair = race(
            self.rounds,
            || black_box(&mut memory).load(black_box(&source), black_box(&old), image_siz as u8, load),
            || {
                let (bank, written, reasons) = (black_box(&mut bank), black_box(&mut written), black_box(&mut reasons));
                let (source, tile, last) = (black_box(&source), black_box(&tile), &mut black_box(1000));
                black_box(match load {
                    Load::Block { dxt, words } => {
                        slices::load_block(bank, written, reasons, source, tile, image_siz, dxt, number(words), last)
                    }
                    Load::Tile { rows, words, stride } => {
                        let (rows, words, stride) = (number(rows), number(words), number(stride));
                        slices::load_tile(bank, written, reasons, source, tile, image_siz, rows, words, stride, last)
                    }
                    Load::Tlut { count, rows, stride } => {
                        let (count, rows, stride) = (number(count), number(rows), number(stride));
                        slices::load_tlut_hardware(
                            bank, written, reasons, source, tile, image_siz, count, rows, stride, last,
                        )
                    }
                    Load::TlutRows { count, rows, stride } => {
                        let (count, rows, stride) = (number(count), number(rows), number(stride));
                        slices::load_tlut_rows(bank, written, reasons, source, tile, image_siz, count, rows, stride, last)
                    }
                })
                .expect("in range");
            },
        );
        let cells = self.judge(format!("{name}, ({fmt},{siz}), image size {image_siz}"), pair, GOAL_LOADS);
        println!("| {name} | ({fmt},{siz}) | {image_siz} | {cells} |");
    }

    fn others(&mut self) {
        println!("\nThe other calls, nanoseconds a call.\n");
        println!("| call | Rust | archive | ratio |");
        println!("|---|---|---|---|");
        self.lanes();
        for (name, tile) in [
            ("16-bit tile of 64 by 64", square(0, 2, 0)),
            ("8-bit tile of 64 by 64", square(4, 1, 0)),
            ("palette tile of 64 by 64", square(2, 1, 2)),
            ("repeating tile", Tile { masks: 10, ..square(0, 2, 0) }),
        ] {
            self.reach_and_has_load(name, &tile);
        }
        self.rejections();
    }

    /// Mode 1 reads as mode 0. In modes 2 and 3 format 2 stands for all but 1, whose picture is the lookup, and size 2 for 3.
    fn keys(&mut self) {
        println!("\nKeys, nanoseconds a key.\n");
        println!("| picture | mode | pair | Rust | archive | ratio |");
        println!("|---|---|---|---|---|---|");
        let direct = || DIRECT.into_iter().map(|(fmt, siz)| square(fmt, siz, 0));
        let paletted = |fmt| [2, 3].into_iter().flat_map(move |mode| [0, 1, 2].map(|siz| square(fmt, siz, mode)));
        for (side, goal) in GOAL_KEYS {
            for tile in direct().chain(paletted(2)) {
                self.key_row(format!("{side} by {side}"), Tile { width: side, height: side, ..tile }, goal);
            }
        }
        let large = Tile { width: 1024, height: 1024, ..square(4, 1, 0) };
        self.key_row("1,024 by 1,024".into(), large, GOAL_LARGE_KEYS);
        for tile in direct().map(|tile| Tile { masks: 10, ..tile }).chain(paletted(1)) {
            self.key_row("lookup".into(), tile, GOAL_LARGE_KEYS);
        }
    }

    fn key_row(&mut self, picture: String, tile: Tile, goal: f64) {
        let Tile { fmt, siz, mode, .. } = tile;
        let pair = self.race_key(&tile);
        let cells = self.judge(format!("key, {picture}, mode {mode}, ({fmt},{siz})"), pair, goal);
        println!("| {picture} | {mode} | ({fmt},{siz}) | {cells} |");
    }

    /// The archive's own key call stands beside its check.
    fn checks(&mut self) {
        println!("\nChecks of offered keys, nanoseconds a check, beside the archive's own key call.\n");
        println!("| offer | key | check | ratio |");
        println!("|---|---|---|---|");
        let one = Tile { width: 1, height: 1, ..square(4, 1, 0) };
        for (name, tile) in [("8-bit tile of one texel", one)].into_iter().chain(keyed()) {
            let mut right = [0; 4096];
            slices::key(&self.bank, &tile, 1, &mut right).expect("accepted");
            self.check_row(format!("right, {name}"), &tile, &right);
            for address in [0, 4095] {
                let mut offer = right;
                offer[address] ^= 1;
                self.check_row(format!("wrong at {address}, {name}"), &tile, &offer);
            }
        }
    }

    fn check_row(&mut self, name: String, tile: &Tile, offer: &[u8; 4096]) {
        let (bank, mut key) = (self.bank, [0; 4096]);
        let pair = race(
            self.rounds,
            || used(slices::key(black_box(&bank), black_box(tile), 1, black_box(&mut key)).expect("accepted")),
            || used(slices::check_key(black_box(&bank), black_box(tile), 1, black_box(offer)).expect("accepted")),
        );
        let cells = self.judge(format!("check, {name}"), pair, GOAL_CHECKS);
        println!("| {name} | {cells} |");
    }

    fn row(&mut self, name: String, pair: Pair) {
        let cells = self.judge(name.clone(), pair, GOAL);
        println!("| {name} | {cells} |");
    }

    /// One bank again and again, whose slots the processor learns to foretell; or many in turn.
    fn lanes(&mut self) {
        let halves: Vec<_> = bytes(64 * 256).chunks_exact(256).map(uneven_at).collect();
        for (name, banks) in [
            ("no slot uneven", &[[7; 4096]][..]),
            ("all uneven", &[self.bank]),
            ("a random half uneven", &halves[..1]),
            ("a random half uneven, 64 banks in turn", &halves),
        ] {
            let (mut old, mut new) = (banks.iter().cycle(), banks.iter().cycle());
            let mut map = [0; 32];
            let pair = race(
                self.rounds,
                || used(calls::palette_nonreplicated(black_box(old.next().expect("a bank")))),
                || {
                    let bank = black_box(new.next().expect("a bank"));
                    slices::palette_nonreplicated(bank, black_box(&mut map)).expect("in range");
                },
            );
            self.row(format!("lane check, {name}"), pair);
        }
    }

    /// The original has no call that lists a reach. Its walk with a test at each address, which is has-load where nothing is
    /// written, stands for it.
    fn reach_and_has_load(&mut self, name: &str, tile: &Tile) {
        let (old, mode) = (descriptor(tile), tile.mode as u8);
        let memory = Memory::new(&[0; 4096]);
        let mut map = [0; 512];
        let walk = || used(black_box(&memory).tile_has_load(black_box(&old), mode));
        let pair = race(self.rounds, walk, || {
            slices::reach(black_box(tile), black_box(&mut map)).expect("in range");
        });
        self.row(format!("reach, {name}"), pair);
        let written = [0; WRITTEN_BYTES];
        let pair = race(self.rounds, walk, || {
            black_box(slices::tile_has_load(black_box(tile), black_box(&written))).expect("in range");
        });
        self.row(format!("has-load, nothing written, {name}"), pair);
    }

    /// Maps in which all is asked: without reasons; with one at the last address that is asked; and with reasons where the tile does not
    /// reach, in words of which it reaches other bytes. Then what is dearest beside the original: narrow rows, and a reason found at once.
    fn rejections(&mut self) {
        let whole =
            [("16-bit tile of 64 by 64", square(0, 2, 0), 4091), ("palette tile of 64 by 64", square(2, 1, 2), 4095)];
        for (name, tile, last) in whole {
            self.rejection(&format!("no reasons, {name}"), &tile, |_| false);
            self.rejection(&format!("a reason at the end, {name}"), &tile, |address| address == last);
        }
        let narrow = |fmt, mode| Tile { line: 2, width: 13, height: 256, ..square(fmt, 1, mode) };
        let tiles = [("8-bit tile of 13 by 256", narrow(4, 0)), ("palette tile of 13 by 256", narrow(2, 2))];
        for (name, tile) in tiles {
            let reach = tile.reach().expect("in range");
            let beside = |address: usize| !reach.is_marked(address) && (tile.mode < 2 || address < 2048);
            self.rejection(&format!("reasons beside the reach, {name}"), &tile, beside);
        }
        let between = |address| address < 2048 && address % 2 == 1;
        self.rejection("reasons between the indices, 16-bit palette tile of 64 by 64", &square(2, 2, 2), between);
        let strip = |width, height| Tile { line: 1, width, height, ..square(4, 1, 0) };
        for (width, height) in [(8, 256), (5, 256), (1, 256), (1, 16), (1, 1)] {
            let name = format!("no reasons, 8-bit tile of {width} by {height}");
            self.rejection(&name, &strip(width, height), |_| false);
        }
        self.rejection("a reason in the last row, 8-bit tile of 1 by 256", &strip(1, 256), |address| address == 2044);
        self.rejection("a reason at the first address, 16-bit tile of 64 by 64", &square(0, 2, 0), |address| address == 0);
        self.refused_question(&strip(1, 1));
    }

    /// What a call costs that does nothing: one that is refused for the length of its map, before all else.
    fn refused_question(&mut self, tile: &Tile) {
        let (old, mode) = (descriptor(tile), tile.mode as u8);
        let memory = Memory::fresh();
        let pair = race(
            self.rounds,
            || used(black_box(&memory).rejection(black_box(&old), mode)),
            || {
                black_box(slices::rejection(black_box(tile), black_box(&[]))).expect_err("no map");
            },
        );
        println!("| a question that is refused at once, beside one of 1 by 1 | {} |", cells(pair));
    }

    /// The question on tiles of every kind of row and many sides, by the original's time: what a call costs at all shows in the short ones.
    fn questions(&self) {
        let sides = [1, 2, 4, 8, 16, 32, 64];
        let pairs = [(0, 2, 0), (0, 3, 0), (4, 1, 0), (2, 0, 0), (2, 0, 2), (2, 1, 2), (2, 2, 2)];
        let narrow = |tile: Tile, width: u32| Tile { line: (width * tile.line).div_ceil(64), width, ..tile };
        let sized = |(fmt, siz, mode)| {
            let tiles = sides.map(|width| narrow(square(fmt, siz, mode), width));
            tiles.into_iter().flat_map(move |tile| sides.map(|height| Tile { height, ..tile }))
        };
        let asked: Vec<_> = pairs.into_iter().flat_map(sized).flat_map(|tile| self.asked(tile)).collect();
        println!("Questions by the Rust's time in nanoseconds.\n");
        println!("| Rust | questions | at most {GOAL} | highest ratio | at |");
        println!("|---|---|---|---|---|");
        for (from, to) in [(0.0, 16.0), (16.0, 32.0), (32.0, 64.0), (64.0, 128.0), (128.0, f64::MAX)] {
            let those: Vec<_> = asked.iter().filter(|(pair, _)| (from..to).contains(&pair.original)).collect();
            let few = those.iter().filter(|(pair, _)| pair.ratio() <= GOAL).count();
            let worst = those.iter().max_by(|(one, _), (other, _)| one.ratio().total_cmp(&other.ratio()));
            let (ratio, name) = worst.map_or((0.0, ""), |(pair, name)| (pair.ratio(), name));
            let band = if to < f64::MAX { format!("{from} to {to}") } else { format!("from {from} on") };
            println!("| {band} | {} | {few} | {ratio:.2} | {name} |", those.len());
        }
    }

    /// Without reasons; with one at the highest address that the tile reaches; and with reasons at all that it does not.
    fn asked(&self, tile: Tile) -> [(Pair, String); 3] {
        let reach = tile.reach().expect("in range");
        let last = (0..4096).rev().find(|&address| reach.is_marked(address));
        let beside = |address| !reach.is_marked(address) && (tile.mode < 2 || address < 2048);
        let Tile { fmt, siz, mode, width, height, .. } = tile;
        let name = |map| format!("{map}, ({fmt},{siz}) in mode {mode}, {width} by {height}");
        [
            (self.race_rejection(&tile, |_| false), name("no reasons")),
            (self.race_rejection(&tile, |address| Some(address) == last), name("one at the highest address")),
            (self.race_rejection(&tile, beside), name("all beside the reach")),
        ]
    }

    fn rejection(&mut self, name: &str, tile: &Tile, chosen: impl Fn(usize) -> bool) {
        let pair = self.race_rejection(tile, chosen);
        self.row(format!("rejection, {name}"), pair);
    }

    /// With a reason at each address that is chosen.
    fn race_rejection(&self, tile: &Tile, chosen: impl Fn(usize) -> bool) -> Pair {
        let (old, mode) = (descriptor(tile), tile.mode as u8);
        let reasons = std::array::from_fn(|address| u8::from(chosen(address)));
        let mut memory = Memory::fresh();
        memory.set_reasons(&reasons);
        assert_eq!(slices::rejection(tile, &reasons), Ok(memory.rejection(&old, mode)));
        race(
            self.rounds,
            || used(black_box(&memory).rejection(black_box(&old), mode)),
            || {
                black_box(slices::rejection(black_box(tile), black_box(&reasons))).expect("in range");
            },
        )
    }

    fn race_key(&self, tile: &Tile) -> Pair {
        let (old, mode, bank) = (descriptor(tile), tile.mode as u8, self.bank);
        let mut key = [0; 4096];
        race(
            self.rounds,
            || used(calls::key(black_box(&bank), black_box(&old), mode, 1)),
            || {
                black_box(slices::key(black_box(&bank), black_box(tile), 1, black_box(&mut key))).expect("accepted");
            },
        )
    }

    /// The original has no files. The second writer and reader stand for it, and a copy of the texels alone.
    fn files(&self, sides: &[u32]) {
        println!("PAM files, nanoseconds a file, beside the plain Rust of `oracle/pam` and a copy of the texels alone. No goal.\n");
        println!("| call | texels | Rust | archive | ratio | copy | archive | ratio |");
        println!("|---|---|---|---|---|---|---|---|");
        sides.iter().for_each(|&side| self.write_row(side));
        sides.iter().for_each(|&side| self.read_row(side));
    }

    fn write_row(&self, side: u32) {
        let texels = bytes(pam::texel_bytes(side, side));
        let empty = vec![0; pam::spelling(side, side).len() + texels.len()];
        let [mut plain, mut proved, mut copied] = [empty.clone(), empty.clone(), empty];
        self.file_row(
            "write",
            side,
            || used(pam::write(side, side, black_box(&texels), black_box(&mut plain)).expect("in range")),
            || used(slices::write_pam(side, side, black_box(&texels), black_box(&mut proved)).expect("in range")),
            || black_box(&mut copied)[..texels.len()].copy_from_slice(black_box(&texels)),
        );
    }

    fn read_row(&self, side: u32) {
        let texels = bytes(pam::texel_bytes(side, side));
        let file = [pam::spelling(side, side).as_bytes(), &texels].concat();
        let empty = vec![0; texels.len()];
        let [mut plain, mut proved, mut copied] = [empty.clone(), empty.clone(), empty];
        self.file_row(
            "read",
            side,
            || used(pam::read(black_box(&file), black_box(&mut plain)).expect("good")),
            || used(slices::read_pam(black_box(&file), black_box(&mut proved)).expect("good")),
            || black_box(&mut copied).copy_from_slice(black_box(&texels)),
        );
    }

    fn file_row(&self, name: &str, side: u32, plain: impl FnMut(), mut proved: impl FnMut(), copy: impl FnMut()) {
        let beside_plain = cells(race(self.rounds, plain, &mut proved));
        let beside_copy = cells(race(self.rounds, copy, &mut proved));
        println!("| {name} | {side} by {side} | {beside_plain} | {beside_copy} |");
    }

    /// The original does not split. The second splitter, a hash map over the bodies, stands for it.
    fn splits(&mut self) {
        println!("\nSplits of 4,096 entries, nanoseconds a split, beside the hash map of `oracle/split`.\n");
        println!("| entries | Rust | archive | ratio |");
        println!("|---|---|---|---|");
        let few = bytes(16 * split::ENTRY).repeat(split::MOST as usize / 16);
        let last = entries(|number, body| body[split::BODY - 2..].copy_from_slice(&(number as u16).to_be_bytes()));
        let stairs = entries(|number, body| body[split::BODY - 1 - number] ^= 1);
        for (name, entries) in [
            ("random bodies", bytes(split::MOST as usize * split::ENTRY)),
            ("sixteen groups", few),
            ("bodies that differ in the last two bytes", last),
            ("a staircase: each body differs from the one before in one more place, from the last one on", stairs),
        ] {
            self.split_row(name, &entries);
        }
    }

    fn split_row(&mut self, name: &str, entries: &[u8]) {
        let [mut plain, mut proved] = [vec![0; split::MOST as usize], vec![0; split::MOST as usize]];
        let pair = race(
            self.rounds,
            || used(split::split(split::MOST, black_box(entries), black_box(&mut plain)).expect("in range")),
            || used(slices::split(split::MOST, black_box(entries), black_box(&mut proved)).expect("in range")),
        );
        let cells = self.judge(format!("split, {name}"), pair, GOAL_SPLITS);
        if pair.archive > SPLIT_MOST {
            self.above.push(format!("split, {name}: {:.0} ns, goal {SPLIT_MOST}", pair.archive));
        }
        println!("| {name} | {cells} |");
    }

    fn conclude(&self) {
        println!(
            "\nGoals: {} for pictures alone and with the trail, as the last of them for lookups, {GOAL_LOADS} for loads, {} \
             for keys, {GOAL_CHECKS} for checks beside keys, {GOAL_SPLITS} for splits and {} ms, {GOAL} for the others. Above them: {}.",
            GOAL_PICTURES.map(|(side, (alone, trail))| format!("{alone} and {trail} at {side} by {side}")).join(", "),
            GOAL_KEYS.map(|(side, goal)| format!("{goal} at {side} by {side}")).join(", "),
            SPLIT_MOST / 1e6,
            self.above.len()
        );
        if !self.above.is_empty() {
            println!();
            self.above.iter().for_each(|line| println!("- {line}"));
        }
    }
}
