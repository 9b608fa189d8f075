//! Pictures as files, through the Rust calls: what is taken, each refusal, the buffers that are lent, and the way there and back.
//! The table of all cases is oracle/pam/src/cases.rs.
#![allow(clippy::cast_possible_truncation, reason = "the numbers of these tests fit, or are cut to bytes on purpose")]
use tulonkasa::{slices, Bank, Picture, Refusal, Tile, SIDE_MOST};

/// A file as the writer spells it. The others are this one with something changed.
const USUAL: &str = "P7\nWIDTH 2\nHEIGHT 1\nDEPTH 4\nMAXVAL 255\nTUPLTYPE RGB_ALPHA\nENDHDR\nabcdEFGH";

/// Its texel bytes.
const TEXELS: &str = "abcdEFGH";

/// What was in a buffer before a call.
const OLD: u8 = 0xa5;

/// The usual file with `from`, which it has once, changed to `to`.
fn edited(from: &str, to: &str) -> Vec<u8> {
    assert_eq!(USUAL.matches(from).count(), 1, "{from:?}");
    USUAL.replace(from, to).into_bytes()
}

/// The header of a file of so many texels, as it is to be written.
fn header(width: u32, height: u32) -> String {
    format!("P7\nWIDTH {width}\nHEIGHT {height}\nDEPTH 4\nMAXVAL 255\nTUPLTYPE RGB_ALPHA\nENDHDR\n")
}

/// Files that are taken, each with its size. Their texels are the usual ones, or the first of them.
fn taken() -> [(Vec<u8>, (u32, u32)); 5] {
    let lines = "WIDTH 2\nHEIGHT 1\nDEPTH 4\nMAXVAL 255\nTUPLTYPE RGB_ALPHA\n";
    let others = "# by hand\n\nTUPLTYPE  RGB_ALPHA\nMAXVAL 255\nDEPTH 4\n HEIGHT 01\nWIDTH\t2 \n";
    [
        (edited("P7", "P7"), (2, 1)),
        (edited("WIDTH 2\nHEIGHT 1", "WIDTH 1\nHEIGHT 2"), (1, 2)),
        (edited("WIDTH 2", "WIDTH 1"), (1, 1)),
        (edited(lines, others), (2, 1)),
        (edited("ENDHDR", "ENDHDR of header"), (2, 1)),
    ]
}

/// Reads to a picture of so many bytes. It then holds the texels of the size that is due, and else what it held before.
fn reads(file: &[u8], room: usize, due: Result<(u32, u32), Refusal>) {
    let name = format!("{:?} to {room} bytes", String::from_utf8_lossy(file));
    let mut picture = vec![OLD; room];
    assert_eq!(slices::read_pam(file, &mut picture), due, "{name}");
    let texels = &TEXELS.as_bytes()[..due.map_or(0, |(width, height)| 4 * width as usize * height as usize)];
    assert_eq!(picture[..texels.len()], *texels, "{name}");
    assert!(picture[texels.len()..].iter().all(|&byte| byte == OLD), "{name}: the rest of the picture");
    if due != Err(Refusal::Picture) {
        let due = due.map(|(width, height)| Picture { width, height, texels: texels.to_vec() });
        assert_eq!(Picture::from_pam(file), due, "{name}");
    }
}

#[test]
fn files_are_read_and_not_what_follows() {
    for (file, size) in taken() {
        for more in [&b""[..], b"\n", b"P7\n", b"WIDTH 3\nENDHDR\n", &[0; 100]] {
            for room in [8, 100] {
                reads(&[&file, more].concat(), room, Ok(size));
            }
        }
    }
}

#[test]
fn files_are_refused() {
    let [wide, high] = ["WIDTH", "HEIGHT"].map(|name| format!("{name} {}", SIDE_MOST + 1));
    reads(b"", 8, Err(Refusal::Header));
    reads(&edited("P7", "P6"), 8, Err(Refusal::Header));
    reads(&edited("DEPTH 4", "DEPTH 3"), 8, Err(Refusal::Tuples));
    reads(&edited("TUPLTYPE RGB_ALPHA\n", ""), 8, Err(Refusal::Tuples));
    reads(&edited("WIDTH 2", &wide), 8, Err(Refusal::Tile));
    reads(&edited("HEIGHT 1", &high), 8, Err(Refusal::Tile));
    reads(&edited("HEIGHT 1", "HEIGHT 2"), 16, Err(Refusal::Texels));
    reads(&edited("P7", "P7"), 7, Err(Refusal::Picture));
    reads(&edited("P7", "P7"), 0, Err(Refusal::Picture));
}

#[test]
fn a_file_cut_anywhere_is_refused() {
    for length in 0..USUAL.len() {
        let due = if length < USUAL.len() - TEXELS.len() { Refusal::Header } else { Refusal::Texels };
        reads(&USUAL.as_bytes()[..length], 8, Err(due));
    }
}

#[test]
fn pictures_are_written_or_refused() {
    // width, height, the bytes of picture and file, and the answer
    let cases = [
        (2, 1, 8, 73, Ok(73)),
        (1, 1, 8, 100, Ok(69)),
        (SIDE_MOST + 1, 1, 8, 100, Err(Refusal::Tile)),
        (1, u32::MAX, 8, 100, Err(Refusal::Tile)),
        (0, 1, 8, 100, Err(Refusal::ZeroSide)),
        (1, 0, 0, 0, Err(Refusal::ZeroSide)),
        (2, 1, 7, 100, Err(Refusal::Picture)),
        (2, 1, 8, 72, Err(Refusal::Picture)),
    ];
    for (width, height, length, room, due) in cases {
        let mut file = vec![OLD; room];
        let answer = slices::write_pam(width, height, &TEXELS.as_bytes()[..length], &mut file);
        assert_eq!(answer, due, "{width} by {height}");
        let (front, rest) = file.split_at(due.unwrap_or(0) as usize);
        assert!((header(width, height) + TEXELS).as_bytes().starts_with(front), "{width} by {height}");
        assert!(rest.iter().all(|&byte| byte == OLD), "{width} by {height}: the rest of the file");
    }
}

#[test]
fn what_was_written_is_read() {
    // The largest picture is in sides.rs.
    let sides = [1, 2, 9, 10, 99, 100, 256, 1023, 1024, SIDE_MOST - 1, SIDE_MOST];
    let pictures = sides.into_iter().flat_map(|width| sides.map(|height| (width, height)));
    for (width, height) in pictures.filter(|(width, height)| width * height <= 1 << 20) {
        let texels = (0..4 * width * height).map(|place| (place.wrapping_mul(2_654_435_761) >> 24) as u8).collect();
        let picture = Picture { width, height, texels };
        let file = picture.to_pam().unwrap();
        assert!(file == [header(width, height).as_bytes(), &picture.texels].concat(), "{width} by {height}");
        assert!(Picture::from_pam(&file) == Ok(picture), "{width} by {height}");
    }
}

#[test]
fn a_tile_has_its_picture() {
    let tile = Tile { fmt: 4, siz: 1, line: 1, width: 3, height: 2, ..Tile::default() };
    let mut bank = Bank::new();
    bank.bytes_mut().iter_mut().enumerate().for_each(|(place, byte)| *byte = place as u8);
    let picture = bank.picture(&tile, 0).unwrap();
    assert_eq!((picture.width, picture.height), (3, 2));
    assert_eq!(picture.texels, bank.sample_tile(&tile, 0).unwrap());
    assert_eq!(Picture::from_pam(&picture.to_pam().unwrap()), Ok(picture));
    let empty = bank.picture(&Tile { height: 0, ..tile }, 0).unwrap();
    assert_eq!(empty.to_pam(), Err(Refusal::ZeroSide));
    assert_eq!(bank.picture(&Tile { width: SIDE_MOST + 1, ..tile }, 0), Err(Refusal::Tile));
    assert_eq!(bank.picture(&Tile { fmt: 1, ..tile }, 0), Err(Refusal::Pair));
}
