//! What goes in comes out: pictures drawn in every format, decoded straight from their source, and loaded into banks full of other bytes
//! and sampled there. And what the decoding of a source takes, refuses, answers and leaves.
#![allow(clippy::cast_possible_truncation, reason = "the numbers of these tests fit, or are cut to bytes on purpose")]
use tulonkasa::{ffi, slices, Bank, Refusal, Tile, BANK_BYTES, SIDE_MOST};

/// Every pair of format and size that has a linear reading.
const PAIRS: [(u32, u32); 10] = [(0, 2), (0, 3), (2, 0), (2, 1), (2, 2), (3, 0), (3, 1), (3, 2), (4, 0), (4, 1)];

/// What a source holds where nothing is drawn.
const BETWEEN: u8 = 0xee;

/// What a picture holds before.
const BEFORE: u8 = 0xa5;

/// Bytes without a pattern.
fn junk(count: usize, seed: u32) -> Vec<u8> {
    let mut n = seed;
    let next = || {
        n = n.wrapping_mul(1_664_525).wrapping_add(1_013_904_223);
        (n >> 24) as u8
    };
    std::iter::repeat_with(next).take(count).collect()
}

/// The bits of a texel.
fn bits(siz: u32) -> u32 {
    4 << siz
}

/// The bytes of a row.
fn row_bytes(tile: &Tile) -> u32 {
    (tile.width * bits(tile.siz)).div_ceil(8)
}

/// As many words of eight bytes as a row's width needs.
fn row_words(tile: &Tile) -> u32 {
    row_bytes(tile).div_ceil(8)
}

/// What is drawn at (x, y): a number of as many bits as a texel has. No two columns or rows are alike.
fn drawn(siz: u32, x: u32, y: u32) -> u32 {
    let mixed = (x + 1).wrapping_mul(0x9e37_79b9) ^ (y + 1).wrapping_mul(0x85eb_ca6b);
    let mixed = (mixed ^ mixed >> 15).wrapping_mul(0x2c1b_3c6d);
    mixed >> (32 - bits(siz))
}

/// The picture's source: rows so far apart, which is at least a row's bytes.
fn draw(tile: &Tile, stride: u32) -> Vec<u8> {
    let mut source = vec![BETWEEN; (tile.height * stride.max(1)) as usize];
    for y in 0..tile.height {
        let row = &mut source[(y * stride) as usize..];
        for x in 0..tile.width {
            let (number, byte) = (drawn(tile.siz, x, y), (x * bits(tile.siz) / 8) as usize);
            match (tile.siz, x % 2) {
                (0, 0) => row[byte] = (number as u8) << 4,
                (0, _) => row[byte] |= number as u8,
                _ => {
                    let bytes = (bits(tile.siz) / 8) as usize;
                    row[byte..byte + bytes].copy_from_slice(&number.to_be_bytes()[4 - bytes..]);
                }
            }
        }
    }
    source
}

/// The channels that a drawn number is shown as.
fn shown(tile: &Tile, number: u32) -> [u8; 4] {
    let [_, _, high, low] = number.to_be_bytes();
    let five = |shift: u32| ((number >> shift & 31) << 3 | (number >> shift & 31) >> 2) as u8;
    let opaque = if number & 1 == 1 { 255 } else { 0 };
    match (tile.fmt, tile.siz) {
        (0, 2) => [five(11), five(6), five(1), opaque],
        (0, 3) => number.to_be_bytes(),
        (2, 0) => [16 * tile.palette as u8 + low; 4],
        (2 | 4, 1) => [low; 4],
        (2, 2) => [high, low, high, low],
        (3, 0) => {
            let three = low >> 1;
            let intensity = three << 5 | three << 2 | three >> 1;
            [intensity, intensity, intensity, opaque]
        }
        (3, 1) => [17 * (low >> 4), 17 * (low >> 4), 17 * (low >> 4), 17 * (low & 15)],
        (3, 2) => [high, high, high, low],
        (4, 0) => [17 * low; 4],
        other => panic!("{other:?} has no linear reading"),
    }
}

/// The whole picture as it was drawn.
fn picture(tile: &Tile) -> Vec<u8> {
    let places = (0..tile.height).flat_map(|y| (0..tile.width).map(move |x| (x, y)));
    places.flat_map(|(x, y)| shown(tile, drawn(tile.siz, x, y))).collect()
}

#[test]
fn a_source_decodes_to_what_was_drawn() {
    for (fmt, siz) in PAIRS {
        for width in [0, 1, 2, 3, 4, 5, 7, 8, 15, 16, 17, 33, 64] {
            for height in [0, 1, 2, 3, 20, 256, 257] {
                let tile = Tile { fmt, siz, palette: (width + height) % 16, width, height, ..Tile::default() };
                for stride in [0, 1, 7, 8, 100].map(|apart| row_bytes(&tile) + apart) {
                    let source = draw(&tile, stride);
                    if source.len() <= 65536 {
                        assert_eq!(tile.decode_linear(&source, stride), Ok(picture(&tile)), "{tile:?}, stride {stride}");
                    }
                }
            }
        }
    }
}

#[test]
fn the_longest_sides_decode() {
    for (fmt, siz) in PAIRS {
        let across = Tile { fmt, siz, width: SIDE_MOST, height: 3, ..Tile::default() };
        let down = Tile { fmt, siz, width: 3, height: SIDE_MOST, ..Tile::default() };
        for tile in [across, down] {
            let source = draw(&tile, row_bytes(&tile));
            assert_eq!(tile.decode_linear(&source, row_bytes(&tile)), Ok(picture(&tile)), "{tile:?}");
        }
    }
}

/// The most lines that a tile may have, of which each is a word of eight bytes; (0,3) takes one of each half of the bank.
fn lines_most(fmt: u32, siz: u32) -> u32 {
    if (fmt, siz) == (0, 3) {
        256
    } else {
        512
    }
}

/// How many texels fit a line.
fn width_most(siz: u32, line: u32) -> u32 {
    (line * [16, 8, 4, 4][siz as usize]).min(SIDE_MOST)
}

/// Tiles of a pair whose lines fit: at the bank's start, in it, and up to its end; of one line, of several, and of 256; and of widths up to
/// the whole line.
fn fitting(fmt: u32, siz: u32) -> Vec<Tile> {
    let most = lines_most(fmt, siz);
    let few = [(0, 0), (0, 256), (1, 0), (1, 1), (1, 2), (1, 255), (1, 256), (2, 5), (3, 4), (7, 9)];
    let full = [(2, most / 2), (most / 4, 4), (most / 2, 2), (most - 1, 1)];
    let mut tiles = Vec::new();
    for (line, height) in few.into_iter().chain(full) {
        let (last, widest) = (most - height * line, width_most(siz, line));
        for tmem_addr in [0, 1, last / 2, last].map(|address| address.min(last).min(511)) {
            for width in [0, 1, 2, 3, widest / 2 + 1, widest.saturating_sub(1), widest] {
                let tile = Tile { fmt, siz, palette: 11, line, tmem_addr, width, height, ..Tile::default() };
                tiles.extend((width <= widest && !tiles.contains(&tile)).then_some(tile));
            }
        }
    }
    tiles
}

/// Banks full of bytes, no two alike.
fn banks() -> [Bank; 2] {
    [1, 2].map(|seed| Bank::from(<[u8; BANK_BYTES]>::try_from(junk(BANK_BYTES, seed)).expect("as many bytes")))
}

/// Loads a source into a copy of a bank, and gives the plain picture of it.
fn loaded(bank: &Bank, tile: &Tile, source: &[u8], stride: u32, lane: u32) -> Vec<u8> {
    let mut bank = bank.clone();
    bank.load_tile(source, tile, tile.siz, tile.height, row_words(tile), stride).expect("in range");
    bank.sample_tile(tile, lane).expect("accepted")
}

#[test]
fn what_goes_in_comes_out() {
    let banks = banks();
    for (fmt, siz) in PAIRS {
        for (i, tile) in (0..).zip(fitting(fmt, siz)) {
            let tile = Tile { mode: i % 2, ..tile };
            for stride in [0, 3, 64].map(|apart| row_bytes(&tile) + apart) {
                let (source, due) = (draw(&tile, stride), picture(&tile));
                for bank in &banks {
                    assert_eq!(loaded(bank, &tile, &source, stride, i / 2 % 4), due, "{tile:?}, stride {stride}");
                }
                assert_eq!(tile.decode_linear(&source, stride), Ok(due), "{tile:?}, stride {stride}");
            }
        }
    }
}

#[test]
fn cut_sources_and_rows_that_share_bytes_come_out_too() {
    let (bytes, banks) = (junk(65536, 9), banks());
    for (fmt, siz) in PAIRS {
        for (i, tile) in (0..).zip(fitting(fmt, siz)) {
            let row = row_bytes(&tile);
            for stride in [0, 1, row / 2, row.saturating_sub(1), row + 5, 65535] {
                let end = (tile.height.saturating_sub(1) * stride + row) as usize;
                for length in [0, 1, end / 2 + 1, end.saturating_sub(1)] {
                    let source = &bytes[..length.min(65536)];
                    let picture = loaded(&banks[i % 2], &tile, source, stride, i as u32 % 4);
                    assert_eq!(
                        tile.decode_linear(source, stride),
                        Ok(picture),
                        "{tile:?}, stride {stride}, {length} bytes"
                    );
                }
            }
        }
    }
}

#[test]
fn a_picture_wraps_with_its_lines_and_comes_out() {
    // Not asked for: lines that go past the bank's end and begin again at its start, as far as they do not meet.
    let tile = Tile { fmt: 4, siz: 1, line: 1, tmem_addr: 511, width: 8, height: 3, ..Tile::default() };
    assert_eq!(loaded(&banks()[0], &tile, &draw(&tile, 8), 8, 0), picture(&tile));
}

#[test]
fn each_condition_is_needed() {
    let i8 = Tile { fmt: 4, siz: 1, line: 1, width: 8, height: 4, ..Tile::default() };
    let comes_out = |tile: &Tile, image_siz, rows, words| {
        let (source, mut bank) = (draw(tile, row_bytes(tile)), Bank::from([BETWEEN; BANK_BYTES]));
        bank.load_tile(&source, tile, image_siz, rows, words, row_bytes(tile)).expect("in range");
        bank.sample_tile(tile, 0) == tile.decode_linear(&source, row_bytes(tile))
    };
    let as_asked = |tile: &Tile| comes_out(tile, tile.siz, tile.height, row_words(tile));
    let wide = Tile { siz: 2, fmt: 0, line: 2, ..i8 };
    assert!(as_asked(&i8) && as_asked(&wide));
    // The image's size; fewer rows or words, and so many more that the last of them come again to the first line.
    assert!(!comes_out(&wide, 1, 4, 2));
    assert!(!comes_out(&wide, 2, 3, 2));
    assert!(!comes_out(&wide, 2, 4, 1));
    assert!(!comes_out(&i8, 1, 513, 1));
    assert!(!comes_out(&Tile { line: 256, height: 2, ..i8 }, 1, 2, 257));
    // The height: row 256 of a picture is read where row 0 is.
    assert!(as_asked(&Tile { height: 256, ..i8 }));
    assert!(!as_asked(&Tile { height: 257, ..i8 }));
    // The width.
    assert!(!as_asked(&Tile { width: 9, ..i8 }));
    assert!(!as_asked(&Tile { width: 9, ..wide }));
    // The lines: a third one comes again to the first.
    let tall = Tile { line: 256, height: 3, ..i8 };
    assert!(as_asked(&Tile { height: 2, ..tall }));
    assert!(!as_asked(&tall));
    let half = Tile { fmt: 0, siz: 3, line: 128, height: 3, ..i8 };
    assert!(as_asked(&Tile { height: 2, ..half }));
    assert!(!as_asked(&half));
    // The mode.
    assert!(!as_asked(&Tile { mode: 2, ..i8 }));
    // The pair (2,3), of which every second word is stored over the one before: not its bytes, two a texel, and not half of them, four.
    let ci32 = Tile { fmt: 2, siz: 3, width: 3, height: 1, ..i8 };
    let source: Vec<u8> = (1..=16).collect();
    let mut bank = Bank::new();
    bank.load_tile(&source, &ci32, 3, 1, row_words(&ci32), 16).expect("in range");
    assert_eq!(bank.sample_tile(&ci32, 0), Tile { siz: 2, ..ci32 }.decode_linear(&source[8..], 16));
}

/// A decoding into a picture of so many bytes: its answer, and the picture.
fn decoded(source: &[u8], tile: &Tile, stride: u32, length: usize) -> (Result<u32, Refusal>, Vec<u8>) {
    let mut picture = vec![BEFORE; length];
    (slices::decode_linear(source, tile, stride, &mut picture), picture)
}

#[test]
fn it_answers_the_bytes_that_were_asked_for() {
    let reads = [2, 4, 1, 1, 2, 1, 1, 2, 1, 1];
    for ((fmt, siz), reads) in PAIRS.into_iter().zip(reads) {
        let tile = Tile { fmt, siz, width: 5, height: 3, ..Tile::default() };
        for length in [0, 1, 100] {
            let (answer, picture) = decoded(&[1; 100][..length], &tile, 20, 4 * 15 + 7);
            assert_eq!(answer, Ok(15 * reads), "{tile:?}");
            assert_eq!(picture[4 * 15..], [BEFORE; 7], "{tile:?}");
        }
        for (width, height) in [(0, 3), (5, 0), (0, 0)] {
            assert_eq!(decoded(&[1; 100], &Tile { width, height, ..tile }, 20, 3), (Ok(0), vec![BEFORE; 3]));
        }
    }
}

/// A tile that can be decoded, in 24 bytes.
const GOOD: Tile = Tile {
    fmt: 4,
    siz: 1,
    palette: 0,
    mode: 0,
    cms: 0,
    cmt: 0,
    masks: 0,
    maskt: 0,
    line: 0,
    tmem_addr: 0,
    width: 3,
    height: 2,
};

#[test]
fn it_refuses_2_then_4_then_5_then_6() {
    let bad_tiles = [
        Tile { fmt: 8, ..GOOD },
        Tile { siz: 4, ..GOOD },
        Tile { palette: 16, ..GOOD },
        Tile { width: SIDE_MOST + 1, ..GOOD },
        Tile { height: SIDE_MOST + 1, ..GOOD },
        Tile { fmt: u32::MAX, ..GOOD },
        Tile { width: u32::MAX, height: u32::MAX, ..GOOD },
    ];
    let bad_pair = Tile { fmt: 1, ..GOOD };
    let long = vec![0; 65537];
    let refused = |source: &[u8], tile: &Tile, stride, length| {
        let (answer, picture) = decoded(source, tile, stride, length);
        assert_eq!(picture, vec![BEFORE; length], "{tile:?}");
        answer.expect_err("a refusal")
    };
    for tile in bad_tiles {
        for stride in [3, 65536] {
            for length in [0, 24] {
                assert_eq!(refused(&[], &tile, stride, length), Refusal::Tile, "{tile:?}");
                assert_eq!(refused(&long, &Tile { fmt: tile.fmt.max(1), ..tile }, stride, length), Refusal::Tile);
            }
        }
        assert_eq!(tile.decode_linear(&[], 3), Err(Refusal::Tile));
    }
    for tile in [GOOD, bad_pair] {
        for length in [0, 24] {
            assert_eq!(refused(&long, &tile, 3, length), Refusal::Load);
            assert_eq!(refused(&[], &tile, 65536, length), Refusal::Load);
            assert_eq!(refused(&[], &tile, u32::MAX, length), Refusal::Load);
        }
    }
    for length in [0, 23, 24] {
        assert_eq!(refused(&[], &bad_pair, 3, length), Refusal::Pair);
    }
    for length in [0, 1, 23] {
        assert_eq!(refused(&[], &GOOD, 3, length), Refusal::Picture);
    }
    assert_eq!(decoded(&long[..65536], &GOOD, 65535, 24), (Ok(6), vec![0; 24]));
}

#[test]
fn no_other_pair_is_taken_and_no_other_field_counts() {
    for (fmt, siz) in (0..32).map(|pair| (pair / 4, pair % 4)) {
        let due = if PAIRS.contains(&(fmt, siz)) { Ok(()) } else { Err(Refusal::Pair) };
        let tile = Tile { fmt, siz, ..GOOD };
        assert_eq!(tile.decode_linear(&[1, 2, 3], 1).map(|_| ()), due, "{tile:?}");
        let wild = Tile { mode: 4, cms: 9, cmt: 9, masks: 99, maskt: 99, line: 512, tmem_addr: u32::MAX, ..tile };
        assert_eq!(wild.decode_linear(&[1, 2, 3], 1), tile.decode_linear(&[1, 2, 3], 1), "{tile:?}");
    }
}

#[test]
fn a_refusal_answers_no_count() {
    let mut picture = [BEFORE; 24];
    let mut answer = |fmt, stride, length| {
        // SAFETY: no more of the picture is lent than it has, and a length of 0 allows any pointer.
        unsafe { ffi::tk_decode_linear(std::ptr::null(), 0, fmt, 1, 0, 3, 2, stride, picture.as_mut_ptr(), length) }
    };
    assert_eq!(answer(8, 3, 24), ffi::Answer { refusal: 2, count: 0 });
    assert_eq!(answer(4, 65536, 24), ffi::Answer { refusal: 4, count: 0 });
    assert_eq!(answer(1, 3, 24), ffi::Answer { refusal: 5, count: 0 });
    assert_eq!(answer(4, 3, 23), ffi::Answer { refusal: 6, count: 0 });
    assert_eq!(picture, [BEFORE; 24]);
}
