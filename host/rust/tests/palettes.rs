//! The two palette loads: what each takes, where both store alike and where not, and the replay's pick between them.
#![allow(clippy::cast_possible_truncation, reason = "the numbers of these tests fit, or are cut to bytes on purpose")]
use tulonkasa::{Bank, Loaded, Refusal, Tile};

/// Image size, count, rows and stride.
type Numbers = [u32; 4];

/// A palette load, ordinary or rejected.
type Load = fn(&mut Bank, &[u8], &Tile, Numbers) -> Result<Loaded, Refusal>;

const HARDWARE: [Load; 2] = [
    |bank, source, tile, [size, count, rows, stride]| bank.load_tlut_hardware(source, tile, size, count, rows, stride),
    |bank, source, tile, [size, count, rows, stride]| bank.reject_tlut_hardware(source, tile, size, count, rows, stride, 7),
];
const ROWS: [Load; 2] = [
    |bank, source, tile, [size, count, rows, stride]| bank.load_tlut_rows(source, tile, size, count, rows, stride),
    |bank, source, tile, [size, count, rows, stride]| bank.reject_tlut_rows(source, tile, size, count, rows, stride, 7),
];

/// A place for palettes, at address 16.
const PLACE: Tile = Tile {
    fmt: 0,
    siz: 0,
    palette: 0,
    mode: 0,
    cms: 0,
    cmt: 0,
    masks: 0,
    maskt: 0,
    line: 1,
    tmem_addr: 2,
    width: 0,
    height: 0,
};

/// 1, 2, 3 and so on: each byte tells its place.
fn source() -> Vec<u8> {
    (1..=200).collect()
}

/// The bank after a load, from a fresh one.
fn loaded(load: Load, tile: &Tile, numbers: Numbers) -> Bank {
    let mut bank = Bank::new();
    load(&mut bank, &source(), tile, numbers).unwrap();
    bank
}

/// Tries numbers about every limit. A load is refused by 4 unless all are taken, and then changes nothing.
fn takes(load: Load, is_taken: impl Fn(Numbers) -> bool) {
    let before = Bank::from([9; 4096]);
    for size in [0, 1, 2, 3, 4, u32::MAX] {
        for rows in [0, 1, 2, 3, 1023, 1024, 1025, u32::MAX] {
            for count in [0, 1, 1024, 1025, u32::MAX] {
                for stride in [0, 65535, 65536, u32::MAX] {
                    let numbers = [size, count, rows, stride];
                    let mut bank = before.clone();
                    let answer = load(&mut bank, &[1; 5], &PLACE, numbers).map(|loaded| loaded.number);
                    assert_eq!(answer, if is_taken(numbers) { Ok(1) } else { Err(Refusal::Load) }, "{numbers:?}");
                    assert!(answer.is_ok() || bank == before, "{numbers:?}");
                }
            }
        }
    }
}

#[test]
fn the_hardware_takes_one_row_and_image_sizes_1_to_3() {
    for load in HARDWARE {
        takes(load, |[size, count, rows, stride]| (1..=3).contains(&size) && count <= 1024 && rows == 1 && stride <= 65535);
    }
}

#[test]
fn the_row_call_takes_1_to_1024_rows_and_any_image_size() {
    for load in ROWS {
        takes(load, |[size, count, rows, stride]| {
            size <= 3 && count <= 1024 && (1..=1024).contains(&rows) && stride <= 65535
        });
    }
}

#[test]
fn the_narrower_ranges_are_tested_with_the_others() {
    let wide = Tile { fmt: 8, ..PLACE };
    for [size, rows] in [[0, 1], [2, 0], [2, 2], [0, 2]] {
        let mut bank = Bank::new();
        // 2 comes before 4, and 4 before 19.
        assert_eq!(bank.load_tlut_hardware(&[], &wide, size, 1, rows, 0), Err(Refusal::Tile));
        assert_eq!(bank.reject_tlut_hardware(&[], &PLACE, size, 1, rows, 0, 0), Err(Refusal::Load));
    }
    let mut bank = Bank::new();
    assert_eq!(bank.load_tlut_rows(&[], &wide, 2, 1, 0, 0), Err(Refusal::Tile));
    assert_eq!(bank.reject_tlut_rows(&[], &PLACE, 2, 1, 0, 0, 0), Err(Refusal::Load));
}

/// The address of eight bytes that were stored together, and the first of them.
type Eight = (usize, u8);

fn eights(bank: &Bank) -> Vec<Eight> {
    let starts = (0..4096).step_by(8).filter(|&start| bank.written().is_written(start));
    starts.map(|start| (start, bank.bytes()[start])).collect()
}

#[test]
fn one_row_goes_by_steps_or_by_entries() {
    // siz, image size and count, and where the hardware puts which byte of the source.
    let cases: [(u32, u32, u32, &[Eight]); 9] = [
        (0, 2, 3, &[(16, 1), (24, 3), (32, 5)]),
        (1, 2, 3, &[(16, 1), (32, 3), (48, 5)]),
        (2, 2, 3, &[(16, 1), (48, 3), (80, 5)]),
        (0, 1, 17, &[(16, 1), (32, 9), (48, 17)]),
        (1, 1, 17, &[(16, 1), (48, 9), (80, 17)]),
        (2, 1, 9, &[(16, 1), (80, 9)]),
        (0, 3, 4, &[(16, 9)]), // the second step overwrites the first
        (1, 3, 4, &[(16, 1), (24, 9)]),
        (2, 3, 5, &[(16, 1), (32, 9), (48, 17)]),
    ];
    for (siz, size, count, steps) in cases {
        let (tile, numbers) = (Tile { siz, ..PLACE }, [size, count, 1, 0]);
        let entries: Vec<_> = (0..count).map(|i| (16 + 8 * i as usize, 1 + 2 * i as u8)).collect();
        for i in 0..2 {
            let [hardware, rows] = [HARDWARE[i], ROWS[i]].map(|load| loaded(load, &tile, numbers));
            assert_eq!((&eights(&hardware)[..], eights(&rows)), (steps, entries.clone()), "siz {siz}, image size {size}");
            // A packed palette, entry for entry, is the same either way. Nothing else here is.
            assert_eq!(hardware == rows, (siz, size) == (0, 2), "siz {siz}, image size {size}");
        }
    }
}

#[test]
fn some_pairs_split_an_entry_over_both_halves_by_steps_alone() {
    for (fmt, siz) in [(0, 3), (1, 0), (1, 1), (1, 2), (1, 3)] {
        let tile = Tile { fmt, siz, ..PLACE };
        for size in 1..=3 {
            let [hardware, rows] = [HARDWARE[0], ROWS[0]].map(|load| loaded(load, &tile, [size, 1, 1, 0]));
            let addresses: Vec<_> = hardware.written().addresses().collect();
            assert_eq!(addresses, [16, 17, 18, 19, 2064, 2065, 2066, 2067], "({fmt},{siz}), image size {size}");
            assert_eq!(rows.written().addresses().collect::<Vec<_>>(), (16..24).collect::<Vec<_>>());
        }
    }
}

#[test]
fn what_has_no_effect() {
    let by_steps = loaded(HARDWARE[0], &Tile { siz: 2, ..PLACE }, [2, 9, 1, 0]);
    for (line, stride) in [(0, 1), (511, 65535)] {
        assert_eq!(loaded(HARDWARE[0], &Tile { siz: 2, line, ..PLACE }, [2, 9, 1, stride]), by_steps);
    }
    for rows in [1, 2, 5] {
        let by_rows = loaded(ROWS[0], &PLACE, [0, 9, rows, 3]);
        assert_eq!(by_rows.written().addresses().count(), 8 * 9 + 32 * (rows as usize - 1));
        for (fmt, siz, size) in [(0, 0, 1), (0, 0, 2), (0, 0, 3), (0, 3, 0), (0, 3, 2), (1, 2, 1), (7, 3, 3)] {
            assert_eq!(loaded(ROWS[0], &Tile { fmt, siz, ..PLACE }, [size, 9, rows, 3]), by_rows);
        }
    }
}

/// A record that loads a palette, whose source is the whole companion of so many bytes. Fields of other kinds hold anything.
fn palette_record(tile: &Tile, [size, count, rows, stride]: Numbers, length: usize) -> [u8; 48] {
    let mut record = [0xff; 48];
    record[0] = 2;
    record[2..4].copy_from_slice(&[tile.fmt as u8, tile.siz as u8]);
    record[30..38].copy_from_slice(&(length as u64).to_be_bytes()); // offset and length
    for (place, number) in [(10, tile.line), (12, tile.tmem_addr), (18, size), (24, rows), (26, count), (28, stride)] {
        record[place..place + 2].copy_from_slice(&(number as u16).to_be_bytes());
    }
    record
}

#[test]
fn a_replay_picks_the_hardware_for_one_row_of_image_size_1_to_3() {
    let source = source();
    for size in [0, 1, 2, 3, 4, 256, 65535] {
        for rows in [0, 1, 2, 3, 257, 1024, 1025, 65535] {
            for (siz, count) in [(0, 9), (2, 9), (3, 1), (2, 0), (0, 1025)] {
                let (tile, numbers) = (Tile { siz, ..PLACE }, [size, count, rows, 5]);
                let picked = if rows == 1 && size > 0 { HARDWARE[0] } else { ROWS[0] };
                let (mut replayed, mut called) = (Bank::new(), Bank::new());
                let answer = replayed.replay_record(&palette_record(&tile, numbers, source.len()), 200, &source);
                let due = picked(&mut called, &source, &tile, numbers).map(|loaded| loaded.count);
                assert_eq!((answer, replayed), (due, called), "siz {siz}, {numbers:?}");
            }
        }
    }
}
