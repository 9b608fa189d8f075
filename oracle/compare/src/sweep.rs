//! Cases by structure: every pair, mode and lane with the limits of the sizes, tiles that repeat, the limits of every load, small loads
//! from sources of every length, with every kind of last number and of reason, reasons about what a tile reaches, sources decoded without
//! a bank, those of which a load and its picture give the same, and offered keys.
//! Runs of records: the limits of every number, several faults at a time, palettes about the pick between the two loads, keys of tiles that
//! repeat, sources at the companion's end, and loads over each other's bytes until no number is left.
use crate::capture::place::*;
use crate::capture::{By, Companion, Record, Run, BLOCK, KEY, RECORD_BYTES, TILE, TLUT};
use crate::case::{Call, Case, Fill, CHANGES, OFFERS};
use crate::linear;
use original::calls::Picture;
use std::collections::BTreeSet;
use tulonkasa::{Tile, SIDE_MOST};

/// Width, height, line, word address.
const SHAPES: [[u32; 4]; 14] = [
    [0, 0, 0, 0],
    [0, SIDE_MOST, 1, 0],
    [SIDE_MOST, 0, 1, 0],
    [1, 1, 0, 0],
    [1, 1, 511, 511],
    [1, 2, 1, 255],
    [2, 1, 1, 256],
    [3, 3, 1, 511],
    [16, 4, 8, 128],
    [SIDE_MOST, 2, 511, 511],
    [2, SIDE_MOST, 511, 1],
    [1, 257, 1, 0],
    [5, 258, 3, 300],
    [64, 64, 16, 0],
];

/// Large and largest pictures, one for each of the byte counts that a texel takes.
const LARGEST: [[u32; 3]; 4] = [[0, 3, 0], [0, 2, 1], [4, 0, 0], [2, 1, 2]];

/// cms, cmt, masks, maskt: no repeating, repeating inside the size, at it, past it, and past it but clamped.
const REPEATS: [[u32; 4]; 7] =
    [[0, 0, 0, 0], [0, 0, 1, 1], [1, 1, 6, 6], [0, 0, 15, 0], [0, 1, 0, 15], [2, 3, 15, 15], [2, 0, 5, 0]];

/// Format, size and mode of tiles that repeat: each way to read a texel, and one that always calls for a lookup.
const REPEATING: [[u32; 3]; 9] =
    [[0, 2, 0], [0, 3, 1], [2, 2, 0], [3, 1, 1], [4, 0, 0], [4, 1, 0], [2, 0, 2], [2, 1, 3], [1, 2, 2]];

/// Width, height, line, masks, maskt. One wall of sixteen columns under several widths; axes inside their sizes; one past its size,
/// which calls for a lookup, beside one inside; and tall ones, for which an odd line does, beside an even one.
const WALLS: [[u32; 5]; 13] = [
    [16, 16, 4, 4, 0],
    [32, 16, 4, 4, 0],
    [64, 16, 4, 4, 0],
    [128, 16, 4, 4, 0],
    [64, 64, 4, 4, 4],
    [9, 11, 3, 2, 3],
    [3, 129, 1, 0, 7],
    [20, 9, 4, 5, 1],
    [9, 20, 4, 1, 5],
    [1, 257, 1, 0, 1],
    [1, 257, 2, 0, 1],
    [257, 300, 3, 8, 8],
    [257, 300, 2, 8, 8],
];

/// Small loads by their own numbers: a block of even and odd rows, and one of no words; tiles whose rows are the same, share bytes,
/// follow each other and stand apart; palettes of one row, which go step by step or as entries, and of several, by the pick and by rows.
const SMALL_LOADS: [(Call, [u32; 3]); 12] = [
    (Call::LoadBlock, [2048, 3, 0]),
    (Call::LoadBlock, [2048, 0, 0]),
    (Call::LoadTile, [3, 2, 0]),
    (Call::LoadTile, [3, 2, 5]),
    (Call::LoadTile, [3, 2, 16]),
    (Call::LoadTile, [3, 2, 19]),
    (Call::LoadTlut, [9, 1, 0]),
    (Call::LoadTlut, [3, 3, 4]),
    (Call::LoadTlut, [3, 3, 6]),
    (Call::LoadTlut, [3, 3, 9]),
    (Call::LoadTlutRows, [9, 1, 0]),
    (Call::LoadTlutRows, [3, 3, 4]),
];

/// Palette loads, with their rows.
const PALETTES: [(Call, u32); 4] =
    [(Call::LoadTlut, 1), (Call::LoadTlut, 2), (Call::LoadTlutRows, 1), (Call::LoadTlutRows, 2)];

/// Loads that ask for bytes on both sides of the longest source's end.
const FAR_LOADS: [(Call, [u32; 3]); 2] = [(Call::LoadTile, [2, 2, 65525]), (Call::LoadTlut, [8, 2, 65525])];

/// Numbers of the load before.
const LASTS: [u32; 13] = [0, 1, 254, 255, 256, 257, 65278, 65279, 65533, 65534, 65535, 65536, u32::MAX];

/// Reasons of a rejected load, with numbers of the load before it. Both are refused in some.
const REASONS: [(u32, u32); 8] =
    [(0, 0), (1, 0), (254, 9), (255, 65534), (256, 0), (0, 65535), (255, 65535), (u32::MAX, u32::MAX)];

/// Width, height, line, word address and masks of tiles that are asked for reasons: of parts of words, of whole ones, past the end of
/// the bank and of its halves; the last calls for a lookup.
const REASONED: [[u32; 5]; 8] = [
    [1, 1, 0, 0, 0],
    [2, 2, 1, 100, 0],
    [9, 3, 2, 100, 0],
    [3, 3, 1, 511, 0],
    [16, 4, 8, 254, 0],
    [33, 5, 5, 60, 0],
    [5, 258, 3, 300, 0],
    [5, 2, 1, 7, 15],
];

/// Width and height of sources that are decoded.
const LINEAR: [[u32; 2]; 13] =
    [[0, 0], [0, 3], [3, 0], [1, 1], [1, 2], [2, 2], [3, 3], [8, 2], [17, 5], [33, 4], [5, 257], [1024, 2], [2, 1024]];

pub const PICTURES: [Call; 4] = [
    Call::Picture { which: Picture::Plain, observed: false },
    Call::Picture { which: Picture::Plain, observed: true },
    Call::Picture { which: Picture::Lookup, observed: false },
    Call::Picture { which: Picture::Lookup, observed: true },
];

/// Every case of the sweep, in order.
pub fn cases() -> Vec<Case> {
    let mut cases = Vec::new();
    tiles(&mut cases);
    repeating_tiles(&mut cases);
    buffers(&mut cases);
    loads(&mut cases);
    cut_sources(&mut cases);
    last_numbers(&mut cases);
    rejected_loads(&mut cases);
    loads_in_reach(&mut cases);
    reasons_in_reach(&mut cases);
    reasons_in_palettes(&mut cases);
    banks(&mut cases);
    linear_sources(&mut cases);
    round_trips(&mut cases);
    offers(&mut cases);
    cases
}

/// All pairs and modes; with the shapes, the ways to repeat, and the lanes.
fn tiles(cases: &mut Vec<Case>) {
    for pair in 0..32 {
        for mode in 0..4 {
            let tile = Tile { fmt: pair / 4, siz: pair % 4, mode, palette: pair % 16, ..Tile::default() };
            for lane in 0..4 {
                for which in [Picture::Plain, Picture::Lookup] {
                    for observed in [false, true] {
                        let tile = Tile { width: 33, height: 5, line: 5, tmem_addr: 60 * lane + pair, ..tile };
                        cases.push(Case { lane, ..Case::new(Call::Picture { which, observed }, tile) });
                    }
                }
            }
            for [width, height, line, tmem_addr] in SHAPES {
                for [cms, cmt, masks, maskt] in REPEATS {
                    let tile = Tile { width, height, line, tmem_addr, cms, cmt, masks, maskt, ..tile };
                    cases.extend([Call::Sampling, Call::Reach, Call::Key].map(|call| Case::new(call, tile)));
                }
                let tile = Tile { width, height, line, tmem_addr, ..tile };
                cases.extend(PICTURES[..2].iter().map(|&call| Case { lane: 3, ..Case::new(call, tile) }));
            }
        }
    }
    for [fmt, siz, mode] in LARGEST {
        for side in [1024, SIDE_MOST] {
            let tile = Tile { fmt, siz, mode, width: side, height: side, line: 257, tmem_addr: 77, ..Tile::default() };
            cases.extend(PICTURES[..2].iter().map(|&call| Case::new(call, tile)));
            // Of an even line the key is that of the plain picture.
            let tile = Tile { line: 258, ..tile };
            cases.extend([Call::Sampling, Call::Reach, Call::Key].map(|call| Case::new(call, tile)));
        }
    }
}

/// Tiles that repeat. Their keys are cut to what is visible; flags, reaches and pictures are as ever, and are compared as well.
fn repeating_tiles(cases: &mut Vec<Case>) {
    for texel in REPEATING {
        for tile in repeating(texel) {
            let of = |call| Case { lane: 2, ..Case::new(call, tile) };
            cases.extend([Call::Sampling, Call::Reach, Call::Key].map(of));
            if tile.width * tile.height <= 5 * SIDE_MOST {
                cases.push(of(PICTURES[1]));
            }
        }
    }
}

/// Tiles of a format, size and mode, in every way to clamp and mirror: every mask with sizes about what it repeats, across, down and,
/// up to 1,024 texels a side, both; and the walls.
fn repeating([fmt, siz, mode]: [u32; 3]) -> Vec<Tile> {
    let small = Tile { fmt, siz, mode, palette: 9, line: 2, tmem_addr: 300, width: 3, height: 5, ..Tile::default() };
    let mut tiles = Vec::new();
    for mask in 0..16 {
        for cm in 0..4 {
            let across = Tile { cms: cm, masks: mask, ..small };
            let down = Tile { cmt: cm, maskt: mask, ..small };
            let both = Tile { cms: cm, masks: mask, ..down };
            for size in sizes(mask, SIDE_MOST) {
                tiles.extend([Tile { width: size, ..across }, Tile { height: size, ..down }]);
            }
            tiles.extend(sizes(mask, 1024).into_iter().map(|size| Tile { width: size, height: size, ..both }));
        }
    }
    for [width, height, line, masks, maskt] in WALLS {
        for cms in 0..4 {
            let wall = Tile { cms, masks, maskt, line, width, height, ..small };
            tiles.extend((0..4).map(|cmt| Tile { cmt, ..wall }));
        }
    }
    tiles
}

/// Sizes about 2^mask: below, equal, one above, and several times, each up to the most; and none and one.
fn sizes(mask: u32, most: u32) -> BTreeSet<u32> {
    let period = 1 << mask;
    [0, 1, period - 1, period, period + 1, 3 * period + 1].map(|size| size.min(most)).into()
}

/// Picture and trail: one byte short, exactly full, and longer by an odd and an even number.
fn buffers(cases: &mut Vec<Case>) {
    for [fmt, siz, mode] in LARGEST {
        let tile = Tile { fmt, siz, mode, width: 7, height: 3, line: 2, ..Tile::default() };
        for surplus in [-2, -1, 0, 1, 2, 3] {
            cases.extend(PICTURES.map(|call| Case { surplus, ..Case::new(call, tile) }));
        }
    }
}

/// Each load, all pairs and image sizes, at the limits of its numbers and of the source's length.
fn loads(cases: &mut Vec<Case>) {
    for pair in 0..32 {
        for image_siz in 0..4 {
            for (line, tmem_addr) in [(0, 0), (1, 255), (511, 511), (3, 256)] {
                let tile = Tile { fmt: pair / 4, siz: pair % 4, line, tmem_addr, ..Tile::default() };
                let mut push = |call, numbers, source_length| {
                    cases.push(Case { image_siz, numbers, source_length, ..Case::new(call, tile) });
                };
                for dxt in [0, 1, 2047, 2048, 2049, 4095] {
                    push(Call::LoadBlock, [dxt, 1, 0], 8);
                    push(Call::LoadBlock, [dxt, 5, 0], 39);
                    push(Call::LoadBlock, [dxt, 64, 0], 512);
                }
                push(Call::LoadBlock, [2048, 0, 0], 8);
                push(Call::LoadBlock, [700, 2048, 0], 16384);
                push(Call::LoadTile, [0, 1, 8], 8);
                push(Call::LoadTile, [1, 0, 8], 8);
                push(Call::LoadTile, [2, 1, 0], 8);
                push(Call::LoadTile, [3, 2, 17], 51);
                push(Call::LoadTile, [2, 3, 65535], 65536);
                push(Call::LoadTile, [33, 9, 72], 0);
                for (call, rows) in PALETTES {
                    for count in [0, 1, 2, 15, 16, 17, 256] {
                        push(call, [count, rows, 2 * count], 2 * count * rows);
                    }
                    push(call, [1024, rows, 65535], 65536);
                    push(call, [9, rows, 3], 5);
                }
            }
        }
    }
    for image_siz in 0..4 {
        let tile = Tile { siz: 2, line: 129, tmem_addr: 9, ..Tile::default() };
        let largest = |call, numbers| Case { image_siz, numbers, source_length: 65536, ..Case::new(call, tile) };
        cases.push(largest(Call::LoadBlock, [4095, 2048, 0]));
        cases.push(largest(Call::LoadTile, [1024, 512, 64]));
        cases.push(largest(Call::LoadTlut, [1024, 1024, 31]));
        cases.push(largest(Call::LoadTlutRows, [1024, 1024, 31]));
    }
}

/// Small loads in all pairs and image sizes, from sources of every length up to some bytes more than they ask for; and from the two
/// longest, which other loads ask for more than.
fn cut_sources(cases: &mut Vec<Case>) {
    for pair in 0..32 {
        for image_siz in 0..4 {
            let tile = Tile { fmt: pair / 4, siz: pair % 4, line: 2, tmem_addr: 250, ..Tile::default() };
            let of = |(call, numbers)| Case { image_siz, numbers, ..Case::new(call, tile) };
            for case in SMALL_LOADS.map(of) {
                let lengths = 0..case.pieces().end() + 4;
                cases.extend(lengths.map(|source_length| Case { source_length, ..case }));
            }
            for case in SMALL_LOADS.into_iter().chain(FAR_LOADS).map(of) {
                cases.extend([65535, 65536].map(|source_length| Case { source_length, ..case }));
            }
        }
    }
}

/// Small loads after loads of numbers at which a byte of the next is full or zero, of the last ones, and past them; in a fresh record
/// and in one of any numbers.
fn last_numbers(cases: &mut Vec<Case>) {
    for pair in [1, 2, 3, 6] {
        for image_siz in 0..4 {
            let tile = Tile { fmt: pair / 4, siz: pair % 4, line: 2, tmem_addr: 250, ..Tile::default() };
            for (call, numbers) in SMALL_LOADS {
                for fill in [Fill::Zero, Fill::Random] {
                    let case = Case { image_siz, numbers, fill, source_length: 20, ..Case::new(call, tile) };
                    cases.extend(LASTS.map(|last| Case { last, ..case }));
                }
            }
        }
    }
}

/// One word loaded before, at the start of, inside, at the end of and behind what a tile reaches.
fn loads_in_reach(cases: &mut Vec<Case>) {
    for pair in 0..32 {
        for mode in 0..4 {
            for (tmem_addr, height) in [(100, 1), (100, 3), (511, 2)] {
                let (width, line) = (9, 2);
                let tile = Tile { fmt: pair / 4, siz: pair % 4, mode, tmem_addr, width, height, line, ..Tile::default() };
                for word in (0..9).map(|ahead| (tmem_addr + 511 + ahead) % 512) {
                    let case = Case { image_siz: 2, numbers: [word, 1, 1], ..Case::new(Call::TileHasLoad, tile) };
                    cases.extend([0, 255].map(|last| Case { last, ..case }));
                }
            }
        }
    }
}

/// Small loads in all pairs and image sizes, with reasons at their limits and past them.
fn rejected_loads(cases: &mut Vec<Case>) {
    for pair in 0..32 {
        for image_siz in 0..4 {
            let tile = Tile { fmt: pair / 4, siz: pair % 4, line: 2, tmem_addr: 250, ..Tile::default() };
            for (call, numbers) in SMALL_LOADS {
                let case = Case { image_siz, numbers, source_length: 20, ..Case::new(call, tile) };
                cases.extend(REASONS.map(|(reason, last)| Case { reason: Some(reason), last, ..case }));
            }
        }
    }
}

/// In place of an address that has a reason.
const NONE: u32 = 4096;

/// No reason, one, or two at the ends of what a tile touches, in every pair and mode.
fn reasons_in_reach(cases: &mut Vec<Case>) {
    for pair in 0..32 {
        for mode in 0..4 {
            for [width, height, line, tmem_addr, masks] in REASONED {
                let (fmt, siz, palette) = (pair / 4, pair % 4, pair % 16);
                let tile = Tile { fmt, siz, palette, mode, masks, line, tmem_addr, width, height, ..Tile::default() };
                cases.push(question(tile, [NONE; 3]));
                let places = ends(&tile);
                for (i, &one) in places.iter().enumerate() {
                    cases.push(question(tile, [one, NONE, NONE]));
                    // The larger reason stands at the one or at the other.
                    cases.extend(places[..i].iter().enumerate().map(|(j, &other)| match (i + j) % 2 {
                        0 => question(tile, [one, other, NONE]),
                        _ => question(tile, [other, one, NONE]),
                    }));
                }
            }
        }
    }
}

/// Addresses at the ends of a tile's words, rows and halves, and of its palette.
fn ends(tile: &Tile) -> Vec<u32> {
    let (start, row, row_bytes) = (8 * tile.tmem_addr, 8 * tile.line, (tile.width << tile.siz.min(2)).div_ceil(2));
    let (second, own) = (start + row, 2048 + 128 * tile.palette);
    let reached = [0, 1, 3, 4, row_bytes - 1, row_bytes, row, 2 * row, 2048].map(|ahead| start + ahead);
    let others = [second + 3, second + 4, second + row_bytes - 1, 0, 2048, own, own + 127, 4095];
    reached.into_iter().chain(others).map(|address| address % 4096).collect()
}

/// The question of a tile, with reasons at some addresses alone.
fn question(tile: Tile, numbers: [u32; 3]) -> Case {
    Case { fill: Fill::Zero, numbers, ..Case::new(Call::Rejection, tile) }
}

/// One reason at each end of every palette and beside it, in every size and mode.
fn reasons_in_palettes(cases: &mut Vec<Case>) {
    for palette in 0..16 {
        let own = 2048 + 128 * palette;
        for (siz, mode) in (0..16).map(|both| (both / 4, both % 4)) {
            let tile = Tile { fmt: 2, siz, palette, mode, width: 3, height: 2, line: 1, ..Tile::default() };
            let places = [own - 1, own, own + 63, own + 64, own + 127, own + 128];
            cases.extend(places.map(|place| question(tile, [place, NONE, NONE])));
        }
    }
}

/// The lane check on banks of each kind.
fn banks(cases: &mut Vec<Case>) {
    for fill in [Fill::Zero, Fill::Rising, Fill::Random, Fill::Palette] {
        for seed in 0..64 {
            cases.push(Case { fill, seed, ..Case::new(Call::PaletteNonreplicated, Tile::default()) });
        }
    }
}

/// Strides about a row's bytes, and the longest; and none.
fn strides(tile: &Tile) -> BTreeSet<u32> {
    let row = linear::row_bytes(tile);
    [0, 1, row / 2, row.saturating_sub(1), row, row + 1, row + 8, 65535].into()
}

/// Cases of a source that is decoded: cut at its start, inside, at its end and beside that; and the longest.
fn decodings(case: Case) -> impl Iterator<Item = Case> {
    let end = case.pieces().end();
    let lengths = BTreeSet::from([0, 1, end / 2, end.saturating_sub(1), end, end + 1, 65535, 65536]);
    lengths.into_iter().filter(|&length| length <= 65536).map(move |source_length| Case { source_length, ..case })
}

/// Every pair, those that are refused as well, in fewer sizes; even and odd sizes and the largest, strides and sources about what they
/// need; and pictures that are one byte short, full and longer.
fn linear_sources(cases: &mut Vec<Case>) {
    for pair in 0..32 {
        let sizes = if linear::PAIRS.contains(&(pair / 4, pair % 4)) { LINEAR.len() } else { 5 };
        for [width, height] in LINEAR.into_iter().take(sizes) {
            let tile =
                Tile { fmt: pair / 4, siz: pair % 4, palette: (pair + width) % 16, width, height, ..Tile::default() };
            for stride in strides(&tile) {
                let case = Case { numbers: [stride, 0, 0], ..Case::new(Call::Linear, tile) };
                cases.extend(decodings(case));
            }
            let case =
                Case { numbers: [linear::row_bytes(&tile), 0, 0], source_length: 99, ..Case::new(Call::Linear, tile) };
            cases.extend([-1, 1, 2, 64].map(|surplus| Case { surplus, ..case }));
        }
    }
}

/// Tiles whose lines fit, in every pair: of no line, one, several and all; at the bank's start and up to its end; of widths up to the
/// line's.
fn round_trips(cases: &mut Vec<Case>) {
    for (fmt, siz) in linear::PAIRS {
        let most = linear::lines_most(fmt, siz);
        let shapes = [[0, 7], [1, 0], [1, 1], [1, 3], [1, 256], [2, most / 2], [3, 5], [most / 2, 2], [most - 1, 1]];
        for [line, height] in shapes {
            let (last, widest) = ((most - line * height).min(511), linear::width_most(siz, line));
            for tmem_addr in BTreeSet::from([0, last / 2, last]) {
                for width in BTreeSet::from([0, 1, 2, widest / 2 + 1, widest.saturating_sub(1), widest]) {
                    let tile = Tile { fmt, siz, palette: 13, line, tmem_addr, width, height, ..Tile::default() };
                    for stride in strides(&tile).into_iter().filter(|_| width <= widest) {
                        let case = Case { numbers: [stride, 0, 0], ..Case::new(Call::RoundTrip, tile) };
                        cases.extend(decodings(case).zip([0, 1].iter().cycle()).map(|(case, &mode)| Case {
                            tile: Tile { mode, ..tile },
                            lane: width % 4,
                            ..case
                        }));
                    }
                }
            }
        }
    }
}

/// Offered keys: in every pair and mode the right one and others; and the right one with a byte changed in each way at the ends of what the
/// tile touches, alone and with another byte changed beside it. Then those of tiles that repeat.
fn offers(cases: &mut Vec<Case>) {
    for pair in 0..32 {
        for mode in 0..4 {
            for (lane, [width, height, line, tmem_addr, masks]) in (0..4).cycle().zip(REASONED) {
                let (fmt, siz, palette) = (pair / 4, pair % 4, pair % 16);
                let tile = Tile { fmt, siz, palette, mode, masks, line, tmem_addr, width, height, ..Tile::default() };
                cases.extend((0..OFFERS.len()).map(|which| Case { lane, ..check(tile, which, [UNCHANGED; 3]) }));
                let fill = [Fill::Random, Fill::Zero, Fill::Rising][pair as usize % 3];
                for (i, address) in ends(&tile).into_iter().enumerate() {
                    let changed = (0..CHANGES.len() as u32).map(|change| 4096 * change + address);
                    cases.extend(changed.map(|one| Case { fill, lane, ..check(tile, 0, [one, UNCHANGED, UNCHANGED]) }));
                    let other = [0, 63, 64, 2047, 2048, 4031, 4032, 4095][i % 8];
                    cases.push(Case { lane, ..check(tile, 0, [address, 4096 * 2 + other, UNCHANGED]) });
                }
            }
        }
    }
    for texel in REPEATING {
        for tile in repeating(texel) {
            cases.extend([0, 1].map(|which| Case { lane: 2, ..check(tile, which, [UNCHANGED; 3]) }));
        }
    }
}

/// In place of a changed byte.
const UNCHANGED: u32 = 4096 * CHANGES.len() as u32;

/// The check of an offer, by its place among them.
fn check(tile: Tile, which: usize, numbers: [u32; 3]) -> Case {
    Case { image_siz: which as u32, numbers, ..Case::new(Call::CheckKey, tile) }
}

/// The most that some kind takes of each of a record's numbers.
const MOST: [(usize, u32); 20] = [
    (LANE, 3),
    (FMT, 7),
    (SIZ, 3),
    (PALETTE, 15),
    (MODE, 3),
    (CMS, 3),
    (CMT, 3),
    (MASKS, 15),
    (MASKT, 15),
    (LINE, 511),
    (TMEM_ADDR, 511),
    (WIDTH, SIDE_MOST),
    (HEIGHT, SIDE_MOST),
    (IMAGE_SIZ, 3),
    (DXT, 4095),
    (WORDS, 512),
    (WORDS, 2048),
    (ROWS, 1024),
    (COUNT, 1024),
    (STRIDE, 65534),
];

/// Faults of a record, each with its own refusal: 10, 2 of every kind, 2 of a key, 3 and 3, 4 and 4, 11, 5.
const FAULTS: [&[(usize, u32)]; 9] = [
    &[(KIND, 4)],
    &[(SIZ, 4)],
    &[(PALETTE, 16)],
    &[(LANE, 4)],
    &[(MODE, 4)],
    &[(IMAGE_SIZ, 4)],
    &[(LENGTH, 65537)],
    &[(OFFSET, u32::MAX)],
    &[(FMT, 5), (MODE, 0)],
];

/// Companions' lengths, and the offsets and lengths of sources in them.
const ENDS: [u64; 6] = [0, 8, 65536, (1 << 32) - 1, 1 << 32, (1 << 32) + 65535];
const LENGTHS: [u32; 7] = [0, 1, 8, 65535, 65536, 65537, u32::MAX];

/// Every run of the sweep.
pub fn runs(by: By) -> Vec<Run> {
    let run = |records, length, torn| {
        let companion = Companion { length, fill: Fill::Random, seed: 7 };
        Run { by, records, tail: vec![0; torn], last: 0, companion }
    };
    let mut runs = vec![run(vec![], 8, 0), run(vec![], 8, 1)];
    for kind in [BLOCK, TILE, TLUT, KEY] {
        runs.push(run(limits(kind), 1000, 47));
        runs.push(run(faults(kind), 1000, 24));
    }
    runs.push(run(palettes(), 1000, 0));
    runs.push(run(repeating_keys(), 5000, 0));
    runs.extend(ENDS.map(|end| run(sources(end), end, 0)));
    if by == By::Program {
        runs.push(run(in_turns(65535 + 20), 1000, 1));
    } else {
        if by == By::OwnCalls {
            runs.push(run(rejected_in_turns(120), 1000, 0));
        }
        runs.extend(LASTS.map(|last| Run { last, ..run(in_turns(30), 1000, 1) }));
        for kind in [BLOCK, TILE, TLUT, KEY] {
            runs.extend([65534, 65535, u32::MAX].map(|last| Run { last, ..run(faults(kind), 1000, 24) }));
        }
    }
    runs
}

/// So many loads of all kinds, which store over each other's bytes, and of which some store nothing; with keys and refused records
/// among them.
fn in_turns(loads: u32) -> Vec<Record> {
    let turn = |i: u32| {
        let kind = i % 3;
        let place = (TMEM_ADDR, i * 7 % 61);
        let load = match i % 5 {
            0 => plain(BLOCK, &[place, (WORDS, 0)]),
            _ => plain(kind, &[place, (WORDS, 1 + i % 3)]),
        };
        let refused = plain(kind, &[place, (IMAGE_SIZ, 4)]);
        match i % 8 {
            3 => vec![refused, load],
            6 => vec![load, plain(KEY, &[])],
            _ => vec![load],
        }
    };
    (0..loads).flat_map(turn).collect()
}

/// The same, of which most are rejected, and some for reasons that are refused.
fn rejected_in_turns(loads: u32) -> Vec<Record> {
    let reasons = [None, Some(1), Some(200), Some(0), Some(255), None, Some(256)].into_iter().cycle();
    in_turns(loads).into_iter().zip(reasons).map(|(record, reason)| Record { reason, ..record }).collect()
}

/// A record whose numbers suit every kind.
fn plain(kind: u32, numbers: &[(usize, u32)]) -> Record {
    let mut record = Record { bytes: [0; RECORD_BYTES], surplus: 0, reason: None };
    record.set(&[(KIND, kind), (LANE, 1), (FMT, 2), (SIZ, 1), (MODE, 2), (LINE, 1), (WIDTH, 9), (HEIGHT, 3)]);
    record.set(&[(IMAGE_SIZ, 2), (DXT, 1024), (WORDS, 3), (ROWS, 2), (COUNT, 5), (STRIDE, 11), (OFFSET, 6), (LENGTH, 40)]);
    record.set(numbers);
    record
}

/// Each number at its limits and past them; and a key after each.
fn limits(kind: u32) -> Vec<Record> {
    let numbers = MOST.iter().flat_map(|&(place, most)| [0, most, most + 1, u32::MAX].map(|number| (place, number)));
    numbers.flat_map(|number| [plain(kind, &[number]), plain(KEY, &[])]).collect()
}

/// Every choice of faults.
fn faults(kind: u32) -> Vec<Record> {
    let choices = 0..1 << FAULTS.len();
    let chosen = |choice: u32| (0..FAULTS.len()).filter(move |i| choice >> i & 1 == 1);
    choices.map(|choice| plain(kind, &chosen(choice).flat_map(|i| FAULTS[i]).copied().collect::<Vec<_>>())).collect()
}

/// Palettes about the pick between the two loads: of no row, one and several, and of every image size; and a key after each.
fn palettes() -> Vec<Record> {
    let pairs = (0..5).flat_map(|image_siz| (0..4).map(move |rows| (image_siz, rows)));
    let numbers =
        pairs.flat_map(|(image_siz, rows)| (0..4).map(move |siz| [(IMAGE_SIZ, image_siz), (ROWS, rows), (SIZ, siz)]));
    numbers.flat_map(|numbers| [plain(TLUT, &numbers), plain(KEY, &[])]).collect()
}

/// A bank full of bytes, and then keys of tiles that repeat.
fn repeating_keys() -> Vec<Record> {
    let load = plain(BLOCK, &[(WORDS, 512), (LENGTH, 4096)]);
    let keys = repeating([2, 1, 2]).into_iter().map(|tile| {
        let mut record = plain(KEY, &[]);
        record.set_tile(&tile);
        record
    });
    std::iter::once(load).chain(keys).collect()
}

/// Sources that end in a companion of a length, at its end, one byte past it, and far past it.
fn sources(end: u64) -> Vec<Record> {
    let mut records = Vec::new();
    for length in LENGTHS {
        let last = end.saturating_sub(length.into());
        let offsets = [0, 1, last, last + 1, end, end + 1, u32::MAX.into()];
        for offset in offsets.into_iter().filter_map(|offset| u32::try_from(offset).ok()) {
            let source = [(OFFSET, offset), (LENGTH, length)];
            records.extend([BLOCK, TILE, TLUT].map(|kind| plain(kind, &source)));
        }
        records.push(plain(KEY, &[]));
    }
    records
}
