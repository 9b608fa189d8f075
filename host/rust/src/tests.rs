//! The worked examples and the limits, through the safe calls.
use crate::{Bank, Loaded, Refusal, Tile, LOOKUP_TEXELS, SIDE_MOST};

/// 0, 1, 2, .. n - 1.
fn rising(n: u8) -> Vec<u8> {
    (0..n).collect()
}

/// What the first load of a bank answers that is not refused.
#[allow(clippy::unnecessary_wraps, reason = "answers are compared with it")]
fn loaded(count: u32, made_up: u32) -> Result<Loaded, Refusal> {
    Ok(Loaded { count, made_up, number: 1 })
}

#[test]
fn block_swaps_the_halves_of_odd_rows() {
    let mut bank = Bank::new();
    let tile = Tile { siz: 2, ..Tile::default() };
    assert_eq!(bank.load_block(&rising(16), &tile, 2, 2048, 2), loaded(16, 0));
    assert_eq!(bank.bytes()[8..16], [12, 13, 14, 15, 8, 9, 10, 11]);
    assert_eq!(bank.written().addresses().collect::<Vec<_>>(), (0..16).collect::<Vec<_>>());
}

#[test]
fn block_wraps_inside_its_half() {
    let mut bank = Bank::new();
    let tile = Tile { tmem_addr: 255, ..Tile::default() };
    assert_eq!(bank.load_block(&rising(16), &tile, 2, 0, 2), loaded(16, 0));
    assert_eq!(bank.bytes()[..2], [8, 9]);
    assert_eq!(bank.bytes()[2040..2048], [0, 1, 10, 11, 12, 13, 14, 15]);
}

#[test]
fn a_short_source_reads_as_zero() {
    let mut bank = Bank::from([7; 4096]);
    let tile = Tile { siz: 2, ..Tile::default() };
    assert_eq!(bank.load_tile(&[1, 2, 3], &tile, 2, 1, 1, 0), loaded(8, 5));
    assert_eq!(bank.bytes()[..9], [1, 2, 3, 0, 0, 0, 0, 0, 7]);
    assert_eq!(bank.load_tile(&[], &tile, 2, 1, 1, 0), Ok(Loaded { count: 8, made_up: 8, number: 2 }));
    assert_eq!(bank.bytes()[..9], [0, 0, 0, 0, 0, 0, 0, 0, 7]);
}

/// The formats and sizes of a word that stays together, and of words whose bytes go to both halves of the bank.
const PAIRS: [(u32, u32); 4] = [(0, 2), (4, 1), (0, 3), (1, 2)];

/// Does a load of so many stores with sources of every length from 0 on, and compares how many of the bytes are made up, in each
/// of the pairs. Past the lengths that are listed none is.
fn made_up(count: u32, listed: &[u32], load: impl Fn(&mut Bank, &[u8], &Tile) -> Result<Loaded, Refusal>) {
    for (fmt, siz) in PAIRS {
        let tile = Tile { fmt, siz, line: 1, tmem_addr: 254, ..Tile::default() };
        for length in 0..listed.len() + 9 {
            let due = loaded(count, listed.get(length).copied().unwrap_or(0));
            let answer = load(&mut Bank::new(), &vec![1; length], &tile);
            assert_eq!(answer, due, "({fmt},{siz}), {length} bytes");
        }
    }
}

#[test]
fn a_block_tells_what_is_made_up() {
    let falling: Vec<u32> = (1..=24).rev().collect();
    for dxt in [0, 2048] {
        made_up(24, &falling, |bank, source, tile| bank.load_block(source, tile, 2, dxt, 3));
    }
    made_up(0, &[], |bank, source, tile| bank.load_block(source, tile, 2, 0, 0));
}

#[test]
fn a_tile_tells_what_is_made_up() {
    let falling: Vec<u32> = (1..=16).rev().collect();
    made_up(16, &falling, |bank, source, tile| bank.load_tile(source, tile, 2, 2, 1, 8));
    // Rows three apart share five bytes, each of which counts in both.
    let shared = [16, 15, 14, 13, 11, 9, 7, 5, 3, 2, 1];
    made_up(16, &shared, |bank, source, tile| bank.load_tile(source, tile, 2, 2, 1, 3));
    // Between rows ten apart are two bytes that no row reads.
    let apart = [16, 15, 14, 13, 12, 11, 10, 9, 8, 8, 8, 7, 6, 5, 4, 3, 2, 1];
    made_up(16, &apart, |bank, source, tile| bank.load_tile(source, tile, 2, 2, 1, 10));
}

#[test]
fn a_palette_tells_what_is_made_up() {
    // Each byte is stored four times. A step of the hardware takes two bytes, and goes on by two or by eight.
    made_up(24, &[24, 20, 16, 12, 8, 4], |bank, source, tile| bank.load_tlut_hardware(source, tile, 2, 3, 1, 0));
    let far = [16, 12, 8, 8, 8, 8, 8, 8, 8, 4];
    made_up(16, &far, |bank, source, tile| bank.load_tlut_hardware(source, tile, 1, 9, 1, 0));
    made_up(16, &far, |bank, source, tile| bank.load_tlut_hardware(source, tile, 3, 3, 1, 0));
    // Rows of entries, of an image of any size: one of three, and two of two, three bytes apart, which share a byte.
    for image_siz in 0..4 {
        made_up(24, &[24, 20, 16, 12, 8, 4], |bank, source, tile| bank.load_tlut_rows(source, tile, image_siz, 3, 1, 0));
        let shared = [32, 28, 24, 20, 12, 8, 4];
        made_up(32, &shared, |bank, source, tile| bank.load_tlut_rows(source, tile, image_siz, 2, 2, 3));
    }
}

#[test]
fn the_longest_sources_are_cut_too() {
    let tile = Tile { siz: 2, line: 1, ..Tile::default() };
    let load = |length| Bank::new().load_tile(&vec![1; length], &tile, 2, 2, 1, 65529);
    assert_eq!(load(65535), loaded(16, 2));
    assert_eq!(load(65536), loaded(16, 1));
    let most = Bank::new().load_tlut_rows(&[], &tile, 0, 1024, 1024, 65535);
    assert_eq!(most, loaded(8_388_608, 8_388_608));
}

#[test]
fn a_refused_load_changes_nothing() {
    let mut bank = Bank::from([7; 4096]);
    let tile = Tile { siz: 2, ..Tile::default() };
    bank.load_block(&[1], &tile, 2, 0, 1).unwrap();
    let before = bank.clone();
    assert_eq!(bank.load_block(&[1], &Tile { fmt: 8, ..tile }, 2, 0, 2), Err(Refusal::Tile));
    assert_eq!(bank.load_block(&[1], &tile, 2, 4096, 2), Err(Refusal::Load));
    assert_eq!(bank.load_tile(&[1], &tile, 4, 1, 1, 0), Err(Refusal::Load));
    assert_eq!(bank.load_tlut_rows(&[1], &tile, 2, 1, 0, 0), Err(Refusal::Load));
    assert_eq!(bank.load_tlut_hardware(&vec![1; 65537], &tile, 2, 1, 1, 0), Err(Refusal::Load));
    assert_eq!(bank, before);
}

#[test]
fn a_palette_picture_reads_index_and_entry() {
    let mut bank = Bank::new();
    bank.bytes_mut()[0] = 3;
    let tile = Tile { fmt: 2, siz: 1, mode: 2, width: 1, height: 1, ..Tile::default() };
    let observed = bank.sample_tile_observed(&tile, 0).unwrap();
    assert_eq!(observed.trail, [0, 2072, 2073]);
    assert_eq!(observed.picture, [0, 0, 0, 0]);
    let key = bank.key(&tile, 0).unwrap();
    assert_eq!((key.kept, key.bytes[0]), (3, 3));
}

/// A wall of 64 columns of 16 bits in a bank, which repeats every sixteen.
fn wall() -> Tile {
    Tile { siz: 2, masks: 4, line: 16, width: 64, height: 16, ..Tile::default() }
}

/// Two banks that agree in the wall's first sixteen columns, and nowhere else.
fn walls() -> [Bank; 2] {
    [1, 2].map(|leftover| {
        let mut bank = Bank::from([leftover; 4096]);
        for row in bank.bytes_mut().chunks_exact_mut(128).take(16) {
            row[..32].copy_from_slice(&rising(32));
        }
        bank
    })
}

#[test]
fn a_wall_has_one_key_under_every_width() {
    let banks = walls();
    let key = banks[0].key(&wall(), 0).unwrap();
    assert_eq!(key.kept, 16 * 32);
    for row in 0..16 {
        assert_eq!(key.bytes[128 * row..][..32], rising(32));
        assert_eq!(key.bytes[128 * row + 32..][..96], [0; 96]);
    }
    for width in [16, 17, 32, 64, 128, SIDE_MOST] {
        // The second is mirrored.
        for cms in [0, 1] {
            let tile = Tile { cms, width, ..wall() };
            for bank in &banks {
                assert_eq!(bank.key(&tile, 0).as_ref(), Ok(&key), "{tile:?}");
            }
        }
    }
}

#[test]
fn a_clamped_wall_does_not_repeat() {
    let [bank, other] = walls();
    for cms in [2, 3] {
        let tile = Tile { cms, ..wall() };
        let key = bank.key(&tile, 0).unwrap();
        assert_eq!(key.kept, 16 * 128);
        assert_eq!(key, bank.key(&Tile { masks: 0, ..tile }, 0).unwrap());
        assert_ne!(key, other.key(&tile, 0).unwrap());
    }
}

#[test]
fn each_axis_is_cut_by_its_own_mask() {
    let kept = |cms, cmt, masks, maskt| {
        let tile = Tile { fmt: 4, siz: 1, cms, cmt, masks, maskt, line: 2, width: 9, height: 11, ..Tile::default() };
        Bank::new().key(&tile, 0).unwrap().kept
    };
    assert_eq!(kept(0, 0, 0, 0), 9 * 11);
    assert_eq!(kept(0, 0, 2, 0), 4 * 11);
    assert_eq!(kept(0, 0, 0, 3), 9 * 8);
    assert_eq!(kept(0, 0, 2, 3), 4 * 8);
    assert_eq!(kept(1, 1, 2, 3), 4 * 8); // mirrored
    assert_eq!(kept(2, 0, 2, 3), 9 * 8); // clamped across
    assert_eq!(kept(0, 3, 2, 3), 4 * 11); // clamped down
    assert_eq!(kept(3, 2, 2, 3), 9 * 11); // clamped both ways
}

#[test]
fn a_tile_that_is_cut_on_no_axis_keeps_its_key() {
    let [bank, _] = walls();
    let plain = Tile { fmt: 4, siz: 1, line: 2, width: 16, height: 8, ..Tile::default() };
    let key = bank.key(&plain, 0).unwrap();
    assert_eq!(key.kept, 16 * 8);
    assert_eq!(bank.key(&Tile { masks: 4, maskt: 3, ..plain }, 0), Ok(key)); // masks that equal the size
    let empty = Tile { cms: 2, masks: 1, width: 0, ..plain };
    assert_eq!(bank.key(&empty, 0).map(|key| key.kept), Ok(0));
}

#[test]
fn a_lookup_keeps_its_key() {
    let [bank, _] = walls();
    let i8 = Tile { fmt: 4, siz: 1, ..Tile::default() };
    // By an odd line, by the side across and by the one down, while an axis repeats inside its size; and the first of an even line.
    let tall = Tile { maskt: 1, line: 1, width: 1, height: 257, ..i8 };
    let across = Tile { masks: 5, maskt: 1, line: 2, width: 16, height: 16, ..i8 };
    let down = Tile { masks: 1, maskt: 5, line: 2, width: 16, height: 16, ..i8 };
    for tile in [tall, across, down] {
        let key = bank.key(&tile, 0).unwrap();
        assert_eq!((key.kept, &key.bytes), (4096, bank.bytes()), "{tile:?}");
    }
    assert_eq!(bank.key(&Tile { line: 2, ..tall }, 0).map(|key| key.kept), Ok(2));
}

#[test]
fn a_key_shows_the_same_picture() {
    let mut bank = Bank::new();
    bank.bytes_mut()[..3].copy_from_slice(&[1, 2, 3]);
    let tile = Tile { fmt: 4, siz: 1, masks: 1, width: 3, height: 1, ..Tile::default() };
    let key = bank.key(&tile, 0).unwrap();
    assert_eq!((key.kept, &key.bytes[..4]), (2, &[1, 2, 0, 0][..]));
    let key = Bank::from(key.bytes);
    assert_eq!(key.key(&tile, 0), bank.key(&tile, 0));
    let visible = Tile { width: 2, ..tile };
    assert_eq!(key.sample_tile(&visible, 0), bank.sample_tile(&visible, 0));
    // The plain picture stays whole, and so does its extent; made of the key it may differ. The reach has always been what repeats.
    assert_eq!(bank.sample_tile(&tile, 0).unwrap(), [1, 1, 1, 1, 2, 2, 2, 2, 3, 3, 3, 3]);
    assert_eq!(key.sample_tile(&tile, 0).unwrap(), [1, 1, 1, 1, 2, 2, 2, 2, 0, 0, 0, 0]);
    assert_eq!(tile.sampling().map(|sampling| (sampling.lookup, sampling.width)), Ok((false, 3)));
    assert_eq!(tile.reach().unwrap().iter().collect::<Vec<_>>(), [0, 1]);
}

#[test]
fn a_repeating_palette_picture_keeps_its_entries() {
    let mut bank = Bank::new();
    bank.bytes_mut()[..4].copy_from_slice(&[3, 4, 5, 6]);
    bank.bytes_mut()[2048 + 8 * 3..][..32].copy_from_slice(&rising(32));
    let tile = Tile { fmt: 2, siz: 1, mode: 2, masks: 1, width: 4, height: 1, ..Tile::default() };
    let key = bank.key(&tile, 1).unwrap();
    let mut kept = [0; 4096];
    for address in [0, 1, 2074, 2075, 2082, 2083] {
        kept[address] = bank.bytes()[address];
    }
    assert_eq!((key.kept, key.bytes), (6, kept));
}

#[test]
fn a_lookup_wraps_inside_the_word() {
    let tile = Tile { siz: 2, ..Tile::default() };
    let observed = Bank::new().sampling_lookup_observed(&tile, 0).unwrap();
    let odd_row_place_3 = 2 * (2 * 4096 + 3);
    assert_eq!(observed.trail[odd_row_place_3..][..2], [7, 0]);
    assert_eq!(observed.picture.len(), 4 * LOOKUP_TEXELS);
    assert_eq!(observed.picture, Bank::new().sampling_lookup(&tile, 0).unwrap());
}

#[test]
fn loads_in_reach() {
    let mut bank = Bank::new();
    let tile = Tile { fmt: 4, siz: 1, tmem_addr: 2, width: 3, height: 1, ..Tile::default() };
    assert_eq!(bank.tile_has_load(&tile), Ok(false));
    bank.load_block(&[], &Tile { tmem_addr: 2, siz: 2, ..Tile::default() }, 2, 0, 1).unwrap();
    assert_eq!(bank.tile_has_load(&tile), Ok(true));
    assert_eq!(tile.reach().unwrap().count(), 3);
}

#[test]
fn uneven_slots() {
    let mut bank = Bank::new();
    assert_eq!(bank.palette_nonreplicated().unwrap().count(), 0);
    bank.bytes_mut()[2048 + 8 * 200 + 7] = 1;
    assert_eq!(bank.palette_nonreplicated().unwrap().iter().collect::<Vec<_>>(), [200]);
}

#[test]
fn limits() {
    let bank = Bank::new();
    let tile = Tile { fmt: 4, siz: 1, width: SIDE_MOST, height: 1, ..Tile::default() };
    let bytes = 4 * SIDE_MOST as usize;
    assert_eq!(bank.sample_tile(&tile, 0).map(|picture| picture.len()), Ok(bytes));
    assert_eq!(bank.sample_tile(&Tile { width: SIDE_MOST + 1, ..tile }, 0), Err(Refusal::Tile));
    assert_eq!(bank.sample_tile(&Tile { width: u32::MAX, ..tile }, 0), Err(Refusal::Tile));
    assert_eq!(bank.sample_tile(&Tile { width: 0, ..tile }, 0), Ok(vec![]));
    assert_eq!(bank.sample_tile_into(&tile, 0, &mut vec![0; bytes - 1]), Err(Refusal::Picture));
    assert_eq!(bank.sample_tile_into(&tile, 0, &mut []), Err(Refusal::Picture));
    assert_eq!(bank.sample_tile(&tile, 4), Err(Refusal::ModeOrLane));
    assert_eq!(bank.sample_tile(&Tile { mode: 4, ..tile }, 0), Err(Refusal::ModeOrLane));
    assert_eq!(bank.key(&Tile { fmt: 1, siz: 2, ..tile }, 0), Err(Refusal::Pair));
    assert!(bank.key(&Tile { fmt: 1, siz: 2, mode: 2, ..tile }, 0).is_ok());
    assert_eq!(Bank::new().load_block(&vec![0; 65537], &tile, 2, 0, 1), Err(Refusal::Load));
    assert_eq!(Bank::new().load_block(&vec![0; 65536], &tile, 2, 0, 1), loaded(8, 0));
}

#[test]
fn the_surplus_of_a_picture_stays() {
    let bank = Bank::from([9; 4096]);
    let tile = Tile { fmt: 4, siz: 1, width: 1, height: 1, ..Tile::default() };
    let mut picture = [5; 6];
    assert_eq!(bank.sample_tile_into(&tile, 0, &mut picture), Ok(1));
    assert_eq!(picture, [9, 9, 9, 9, 5, 5]);
}

/// The numbers of a record, big end first.
fn put<const N: usize>(record: &mut [u8; 48], place: usize, number: [u8; N]) {
    record[place..place + N].copy_from_slice(&number);
}

/// A record that loads a block of one word at the bank's start, with the offset and the length of its source.
fn block_record(offset: u32, length: u32) -> [u8; 48] {
    let mut record = [0; 48];
    record[3] = 2; // siz
    put(&mut record, 18, 2u16.to_be_bytes()); // image size
    put(&mut record, 22, 1u16.to_be_bytes()); // words
    put(&mut record, 30, offset.to_be_bytes());
    put(&mut record, 34, length.to_be_bytes());
    record
}

/// A record that asks for a key: an index of eight bits at the bank's start, in mode 2.
fn key_record(width: u16) -> [u8; 48] {
    let mut record = [0xff; 48]; // a key takes nothing from 18 on
    record[..10].copy_from_slice(&[3, 0, 2, 1, 0, 2, 0, 0, 0, 0]);
    record[10..18].fill(0);
    put(&mut record, 14, width.to_be_bytes());
    put(&mut record, 16, 1u16.to_be_bytes()); // height
    record
}

#[test]
fn a_replay_carries_the_bank_from_record_to_record() {
    let mut bank = Bank::new();
    let companion = [9, 9, 3, 4, 3, 5, 3, 4, 5, 5, 9, 9];
    assert_eq!(bank.replay_record(&key_record(8), 12, &[]), Ok(8 + 2)); // eight indices, all of entry 0
    assert_eq!(bank, Bank::new());
    assert_eq!(bank.replay_record(&block_record(2, 8), 12, &companion[2..]), Ok(8));
    assert_eq!(bank.bytes()[..9], [3, 4, 3, 5, 3, 4, 5, 5, 0]);
    assert_eq!(bank.written().addresses().collect::<Vec<_>>(), (0..8).collect::<Vec<_>>());
    let loaded = bank.clone();
    assert_eq!(bank.replay_record(&key_record(8), 12, &[]), Ok(8 + 6)); // of entries 3, 4 and 5
    assert_eq!(bank, loaded);
    let mut repeating = key_record(8);
    repeating[8] = 1; // masks
    assert_eq!(bank.replay_record(&repeating, 12, &[]), Ok(2 + 4)); // two are shown, of entries 3 and 4
    assert_eq!(bank, loaded);
    assert_eq!(bank.replay_record(&block_record(2, 3), 12, &companion[2..]), Ok(8)); // no more than its stated part
    assert_eq!(bank.bytes()[..9], [3, 4, 3, 0, 0, 0, 0, 0, 0]);
}

#[test]
fn a_replay_does_each_load_as_its_own_call_does() {
    let source = rising(40);
    let tile = Tile { siz: 2, line: 1, tmem_addr: 3, ..Tile::default() };
    let mut record = [0xff; 48];
    record[2..4].copy_from_slice(&[0, 2]); // fmt, siz
    put(&mut record, 10, 1u16.to_be_bytes()); // line
    put(&mut record, 12, 3u16.to_be_bytes()); // word address
    put(&mut record, 18, 2u16.to_be_bytes()); // image size
    put(&mut record, 30, 7u32.to_be_bytes()); // offset
    put(&mut record, 34, 40u32.to_be_bytes()); // length
    let check = |kind, numbers: &[(usize, u16)], load: &dyn Fn(&mut Bank) -> Result<Loaded, Refusal>| {
        let mut record = record;
        record[0] = kind;
        for &(place, number) in numbers {
            put(&mut record, place, number.to_be_bytes());
        }
        let (mut replayed, mut loaded) = (Bank::new(), Bank::new());
        assert_eq!(replayed.replay_record(&record, 47, &source), load(&mut loaded).map(|loaded| loaded.count));
        assert_eq!(replayed, loaded);
        assert_ne!(replayed, Bank::new());
    };
    check(0, &[(20, 1024), (22, 4)], &|bank| bank.load_block(&source, &tile, 2, 1024, 4));
    check(1, &[(22, 2), (24, 3), (28, 9)], &|bank| bank.load_tile(&source, &tile, 2, 3, 2, 9));
    check(2, &[(24, 1), (26, 5), (28, 12)], &|bank| bank.load_tlut_hardware(&source, &tile, 2, 5, 1, 12));
    check(2, &[(24, 2), (26, 5), (28, 12)], &|bank| bank.load_tlut_rows(&source, &tile, 2, 5, 2, 12));
}

#[test]
fn a_refused_record_changes_nothing() {
    let mut bank = Bank::from([7; 4096]);
    bank.replay_record(&block_record(0, 8), 8, &rising(8)).unwrap();
    let before = bank.clone();
    let mut refused = |record: &[u8], end, part: &[u8]| {
        let answer = bank.replay_record(record, end, part);
        assert_eq!(bank, before);
        answer.unwrap_err().number()
    };
    let source = vec![1; 65537];
    let block = block_record(0, 8);
    let with = |mut record: [u8; 48], changes: &[(usize, u8)]| {
        for &(place, byte) in changes {
            record[place] = byte;
        }
        record
    };
    let key = key_record(8);
    assert_eq!(refused(&block[..47], 8, &source), 8);
    assert_eq!(refused(&[], 8, &source), 8);
    assert_eq!(refused(&[4; 47], 8, &source), 8); // before 10
    assert_eq!(refused(&with(block, &[(0, 4), (2, 8)]), 8, &source), 10); // before 2
    assert_eq!(refused(&with(block, &[(2, 8), (18, 1)]), 8, &source), 2); // before 4
    assert_eq!(refused(&with(block, &[(18, 1)]), 7, &source), 4); // before 11
    assert_eq!(refused(&block_record(0, 70000), 8, &source), 4); // before 11, too
    assert_eq!(refused(&block, 7, &source), 11);
    assert_eq!(refused(&with(key, &[(4, 16), (1, 4)]), 8, &[]), 2); // before 3
    assert_eq!(refused(&with(key, &[(1, 4)]), 8, &[]), 3);
    assert_eq!(refused(&with(key, &[(5, 4)]), 8, &[]), 3);
    assert_eq!(refused(&with(key, &[(1, 4), (2, 1), (5, 0)]), 8, &[]), 3); // before 5
    assert_eq!(refused(&with(key, &[(2, 1), (5, 0)]), 8, &[]), 5);
}

#[test]
fn the_source_of_a_record_ends_in_the_companion() {
    let source = vec![1; 65537];
    let replay = |offset, length, end, part: usize| {
        Bank::new().replay_record(&block_record(offset, length), end, &source[..part]).map_err(Refusal::number)
    };
    assert_eq!(replay(5, 8, 13, 8), Ok(8));
    assert_eq!(replay(5, 8, 12, 8), Err(11));
    assert_eq!(replay(5, 8, 13, 9), Ok(8));
    assert_eq!(replay(5, 8, 13, 7), Err(11));
    assert_eq!(replay(13, 0, 13, 0), Ok(8)); // nothing, at the end
    assert_eq!(replay(14, 0, 13, 0), Err(11)); // and past it
    assert_eq!(replay(0, 65536, 65536, 65536), Ok(8));
    assert_eq!(replay(0, 65537, 65537, 65537), Err(4));
    // Offset and length are added in more than 32 bits.
    assert_eq!(replay(u32::MAX, 65536, (1 << 32) + 65535, 65536), Ok(8));
    assert_eq!(replay(u32::MAX, 65536, (1 << 32) + 65534, 65536), Err(11));
    assert_eq!(replay(u32::MAX, 8, 7, 8), Err(11));
    assert_eq!(replay(u32::MAX, 65536, u64::MAX, 65536), Ok(8));
    assert_eq!(replay(u32::MAX, u32::MAX, u64::MAX, 65537), Err(4));
}

#[test]
fn refusals_have_their_numbers() {
    for number in (1..=8).chain(10..=19) {
        let refusal = Refusal::from_number(number).unwrap();
        assert_eq!(refusal.number(), number);
        assert_ne!(refusal, Refusal::Other(number));
    }
    // 9 is given by no call, and is an unknown number like those past the last.
    for number in [9, 20, u32::MAX] {
        assert_eq!(Refusal::from_number(number), Some(Refusal::Other(number)));
        assert_eq!(Refusal::Other(number).to_string(), format!("refusal {number}: a refusal without a name"));
    }
    assert_eq!(Refusal::from_number(0), None);
    assert_eq!(Refusal::Number.number(), 18);
    assert_eq!(Refusal::Texels.to_string(), "refusal 15: the file has fewer texel bytes than its header calls for");
}
