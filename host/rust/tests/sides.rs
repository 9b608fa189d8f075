//! The longest sides, document 02's item 12: each call takes 4,096 and refuses 4,097; pictures of 4,096 by 4,096 with and without their
//! trail, in buffers of 64 and 128 MiB that are lent; their keys; and files of them there and back.
#![allow(clippy::cast_possible_truncation, reason = "the numbers of these tests fit, or are cut to bytes on purpose")]
use tulonkasa::{slices, Bank, Picture, Refusal, Tile, BANK_BYTES, LOOKUP_TEXELS, REASON_BYTES, SIDE_MOST, WRITTEN_BYTES};

/// The texels of the largest picture.
const TEXELS: usize = (SIDE_MOST * SIDE_MOST) as usize;

/// What was in a buffer before a call.
const OLD: u8 = 0xa5;

/// Intensities of eight bits. Of an even line a key is that of the plain picture, however tall it is.
fn intensities(width: u32, height: u32) -> Tile {
    Tile { fmt: 4, siz: 1, line: 258, tmem_addr: 77, width, height, ..Tile::default() }
}

/// A bank in which no two parts look alike.
fn bank() -> Bank {
    Bank::from(std::array::from_fn::<u8, BANK_BYTES, _>(|place| ((place as u32).wrapping_mul(2_654_435_761) >> 24) as u8))
}

/// The record that asks for the key of such a tile in a mode.
fn key_record(tile: &Tile) -> [u8; 48] {
    let mut record = [0; 48];
    record[..6].copy_from_slice(&[3, 0, tile.fmt as u8, tile.siz as u8, 0, tile.mode as u8]);
    let wide = [tile.line, tile.tmem_addr, tile.width, tile.height].map(|number| (number as u16).to_be_bytes());
    record[10..18].copy_from_slice(wide.as_flattened());
    record
}

/// What every call answers that takes the sides of a tile. The picture has room for a row or a column.
fn refusals(tile: &Tile) -> [Option<Refusal>; 10] {
    let (bank, mut out) = (bank(), vec![OLD; 4 * LOOKUP_TEXELS]);
    let (mut trail, mut key, mut map) = (vec![OLD; 2 * LOOKUP_TEXELS], [OLD; BANK_BYTES], [OLD; 512]);
    [
        slices::sampling(tile).err(),
        slices::sample_tile(bank.bytes(), tile, 0, &mut out).err(),
        slices::sample_tile_observed(bank.bytes(), tile, 0, &mut out, &mut trail).err(),
        slices::sampling_lookup(bank.bytes(), tile, 0, &mut out).err(),
        slices::sampling_lookup_observed(bank.bytes(), tile, 0, &mut out, &mut trail).err(),
        slices::reach(tile, &mut map).err(),
        slices::tile_has_load(tile, &[0; WRITTEN_BYTES]).err(),
        slices::rejection(tile, &[0; REASON_BYTES]).err(),
        slices::key(bank.bytes(), tile, 0, &mut key).err(),
        bank.clone().replay_record(&key_record(tile), 0, &[]).err(),
    ]
}

#[test]
fn sides_are_taken_to_4096_and_refused_from_4097_on() {
    assert_eq!(SIDE_MOST, 4096);
    for side in [0, 1, 1023, 1024, 1025, 4095, 4096] {
        assert_eq!(refusals(&intensities(side, 1)), [None; 10], "width {side}");
        assert_eq!(refusals(&intensities(1, side)), [None; 10], "height {side}");
    }
    for side in [4097, 8192, 65535] {
        assert_eq!(refusals(&intensities(side, 1)), [Some(Refusal::Tile); 10], "width {side}");
        assert_eq!(refusals(&intensities(1, side)), [Some(Refusal::Tile); 10], "height {side}");
        assert_eq!(refusals(&Tile { mode: 4, ..intensities(side, 0) }), [Some(Refusal::Tile); 10], "2 before 3");
    }
}

#[test]
fn a_load_takes_any_side() {
    for side in [0, 1024, 4096, 4097, u32::MAX] {
        let tile = Tile { siz: 2, line: 1, width: side, height: side, ..Tile::default() };
        assert_eq!(Bank::new().load_block(&[1; 8], &tile, 2, 0, 1).map(|loaded| loaded.count), Ok(8), "{side}");
        assert_eq!(Bank::new().load_tile(&[], &tile, 2, 1024, 0, 0).map(|loaded| loaded.count), Ok(0), "{side}");
        assert_eq!(Bank::new().load_tile(&[], &tile, 2, 1025, 0, 0), Err(Refusal::Load), "{side}");
        assert_eq!(Bank::new().load_tlut_rows(&[], &tile, 2, 1025, 1, 0), Err(Refusal::Load), "{side}");
    }
}

/// The address that an 8-bit texel is read from. Rows repeat every 256.
fn address(tile: &Tile, x: u32, y: u32) -> u16 {
    let start = 8 * (tile.tmem_addr + y % 256 * tile.line);
    ((start + x) % 4096) as u16 ^ if y % 2 == 1 { 4 } else { 0 }
}

/// Row y of a picture is `due(y)`, for every row.
fn rows_are(what: &str, bytes: &[u8], due: impl Fn(u32) -> Vec<u8>) {
    let rows: Vec<_> = (0..256).map(due).collect();
    assert_eq!(bytes.len(), rows[0].len() * SIDE_MOST as usize, "{what}");
    for (y, row) in bytes.chunks_exact(rows[0].len()).enumerate() {
        assert!(row == rows[y % 256], "{what}, row {y}");
    }
}

#[test]
fn the_largest_picture_with_and_without_its_trail() {
    let (bank, tile) = (bank(), intensities(SIDE_MOST, SIDE_MOST));
    let texels = |y| (0..SIDE_MOST).flat_map(|x| [bank.bytes()[address(&tile, x, y) as usize]; 4]).collect();
    let reads = |y| (0..SIDE_MOST).flat_map(|x| address(&tile, x, y).to_be_bytes()).collect();
    // One byte short, then just long enough, then with two bytes more, which stay.
    let mut picture = vec![OLD; 4 * TEXELS + 2];
    assert_eq!(slices::sample_tile(bank.bytes(), &tile, 0, &mut picture[..4 * TEXELS - 1]), Err(Refusal::Picture));
    assert!(picture.iter().all(|&byte| byte == OLD));
    assert_eq!(slices::sample_tile(bank.bytes(), &tile, 0, &mut picture[..4 * TEXELS]), Ok(TEXELS as u32));
    rows_are("alone", &picture[..4 * TEXELS], texels);
    assert_eq!(picture[4 * TEXELS..], [OLD; 2]);

    let mut trail = vec![OLD; 2 * TEXELS + 2];
    picture.fill(OLD);
    let short = slices::sample_tile_observed(bank.bytes(), &tile, 0, &mut picture, &mut trail[..2 * TEXELS - 1]);
    assert_eq!(short, Err(Refusal::Trail));
    assert!(picture.iter().chain(&trail).all(|&byte| byte == OLD));
    assert_eq!(slices::sample_tile_observed(bank.bytes(), &tile, 0, &mut picture, &mut trail), Ok(TEXELS as u32));
    rows_are("with a trail", &picture[..4 * TEXELS], texels);
    rows_are("its trail", &trail[..2 * TEXELS], reads);
    assert_eq!((&picture[4 * TEXELS..], &trail[2 * TEXELS..]), (&[OLD; 2][..], &[OLD; 2][..]));
}

#[test]
fn the_longest_trail() {
    // Texels of four bytes, two of them in the bank's upper half.
    let (bank, tile) = (bank(), Tile { fmt: 0, siz: 3, ..intensities(SIDE_MOST, SIDE_MOST) });
    let mut picture = vec![OLD; 4 * TEXELS];
    let mut trail = vec![OLD; 8 * TEXELS];
    assert_eq!(slices::sample_tile_observed(bank.bytes(), &tile, 0, &mut picture, &mut trail), Ok(4 * TEXELS as u32));
    let (period, width) = (Tile { height: 256, ..tile }, SIDE_MOST as usize);
    let few = bank.sample_tile_observed(&period, 0).unwrap();
    let reads: Vec<_> = few.trail.iter().flat_map(|address| address.to_be_bytes()).collect();
    rows_are("texels of four bytes", &picture, |y| few.picture[4 * width * y as usize..][..4 * width].to_vec());
    rows_are("their trail", &trail, |y| reads[8 * width * y as usize..][..8 * width].to_vec());
}

#[test]
fn keys_of_the_largest_pictures() {
    let bank = bank();
    let key = |tile: Tile| bank.key(&tile, 0).unwrap();
    let largest = intensities(SIDE_MOST, SIDE_MOST);
    assert_eq!((key(largest).kept, &key(largest).bytes[..]), (4096, &bank.bytes()[..]));
    // Rows repeat every 256, so a strip has the key of its first 256 rows; of an odd line it is a lookup.
    let strip = Tile { line: 2, width: 3, ..largest };
    assert_eq!(key(strip), key(Tile { height: 256, ..strip }));
    assert_eq!(key(strip).kept, 3 * 256);
    assert_eq!(key(Tile { line: 1, ..strip }).kept, 4096);
    assert_eq!(key(Tile { line: 1, height: 256, ..strip }).kept, 3 * 256);
    // A wall that repeats shows its first columns and rows alone.
    let wall = Tile { masks: 4, maskt: 3, line: 4, ..largest };
    assert_eq!(key(wall), key(Tile { width: 16, height: 8, ..wall }));
    assert_eq!(key(wall).kept, 16 * 8);
}

#[test]
fn the_largest_file_there_and_back() {
    let picture = bank().picture(&intensities(SIDE_MOST, SIDE_MOST), 0).unwrap();
    let file = picture.to_pam().unwrap();
    assert_eq!(file.len(), 63 + 2 * 4 + 4 * TEXELS);
    assert!(file.starts_with(b"P7\nWIDTH 4096\nHEIGHT 4096\nDEPTH 4\n"));
    assert!(file.ends_with(&picture.texels));
    assert!(Picture::from_pam(&file) == Ok(picture));
    assert!(Picture::from_pam(&file[..file.len() - 1]) == Err(Refusal::Texels));
}
