//! Which load wrote it: the numbers that loads and replays take, store and hand back.
mod memory;

use memory::{record, Load, Memory, LOADS, STORED, WORD};
use tulonkasa::{ffi, slices, Bank, Loaded, Refusal, Tile, BANK_BYTES, LOADS_MOST, REASON_BYTES, WRITTEN_BYTES};

/// Numbers that may be passed, with the two bytes of the one after each.
const PASSED: [(u32, [u8; 2]); 8] = [
    (0, [0, 1]),
    (1, [0, 2]),
    (254, [0, 255]),
    (255, [1, 0]),
    (256, [1, 1]),
    (65279, [255, 0]),
    (65533, [255, 254]),
    (65534, [255, 255]),
];

/// Numbers that may not be.
const PAST: [u32; 5] = [65535, 65536, 65536 + 255, 1 << 31, u32::MAX];

/// Each load, as an ordinary one and as a rejected one.
fn every_load() -> impl Iterator<Item = (Load, Option<u32>)> {
    LOADS.into_iter().flat_map(|load| [None, Some(77)].map(|reason| (load, reason)))
}

/// The two bytes of an address.
fn number_bytes(memory: &Memory, address: usize) -> [u8; 2] {
    [memory.written[2 * address], memory.written[2 * address + 1]]
}

#[test]
fn a_load_stores_the_number_after_the_one_passed() {
    for (load, reason) in every_load() {
        for (passed, bytes) in PASSED {
            let (mut memory, mut last) = (Memory::fresh(), passed);
            memory.written.fill(9);
            let answer = load(&mut memory, &[7; 8], &WORD, reason, &mut last);
            assert_eq!(answer, Ok(Loaded { count: 8, made_up: 0, number: passed + 1 }));
            assert_eq!(last, passed + 1);
            for address in 0..BANK_BYTES {
                let due = if STORED.contains(&address) { bytes } else { [9, 9] };
                assert_eq!(number_bytes(&memory, address), due, "address {address} after {passed}");
            }
        }
    }
}

#[test]
fn no_number_is_left_past_65534() {
    for (load, reason) in every_load() {
        for passed in PAST {
            let (mut memory, mut last) = (Memory::fresh(), passed);
            let answer = load(&mut memory, &[7; 8], &WORD, reason, &mut last);
            assert_eq!((answer, last), (Err(Refusal::Number), passed));
            assert!(memory == Memory::fresh());
        }
    }
}

#[test]
fn a_refused_load_hands_back_the_number_passed() {
    let wide = Tile { fmt: 8, ..WORD };
    for (load, reason) in every_load() {
        for passed in PASSED.map(|(passed, _)| passed).into_iter().chain(PAST) {
            // 2 and 4 come before 18.
            for (tile, source, refusal) in [(&wide, 8, Refusal::Tile), (&WORD, 65537, Refusal::Load)] {
                let (mut memory, mut last) = (Memory::fresh(), passed);
                let answer = load(&mut memory, &vec![7; source], tile, reason, &mut last);
                assert_eq!((answer, last), (Err(refusal), passed));
                assert!(memory == Memory::fresh());
            }
        }
    }
}

#[test]
fn beside_a_refusal_everything_else_is_zero() {
    let mut memory = Memory::fresh();
    let mut refused = |written_length, fmt, image_siz, last| {
        let Memory { bank, written, reasons } = &mut memory;
        let (bank, written, reasons) = (bank.as_mut_ptr(), written.as_mut_ptr(), reasons.as_mut_ptr());
        let (reasons_length, source) = (REASON_BYTES, [7; 8].as_ptr());
        // SAFETY: each length is that of its buffer, or less.
        let answer = unsafe {
            ffi::tk_load_block(
                bank,
                BANK_BYTES,
                written,
                written_length,
                reasons,
                reasons_length,
                source,
                8,
                fmt,
                2,
                0,
                0,
                image_siz,
                0,
                1,
                last,
            )
        };
        assert!(memory == Memory::fresh());
        answer
    };
    let due = |refusal, number| ffi::LoadAnswer { refusal, count: 0, made_up: 0, number };
    for number in [0, 1, 65534, 65535, u32::MAX] {
        assert_eq!(refused(512, 8, 4, number), due(1, number)); // the length of a reach map
        assert_eq!(refused(WRITTEN_BYTES - 1, 8, 4, number), due(1, number));
        assert_eq!(refused(WRITTEN_BYTES, 8, 4, number), due(2, number));
        assert_eq!(refused(WRITTEN_BYTES, 0, 4, number), due(4, number));
    }
    assert_eq!(refused(WRITTEN_BYTES, 0, 2, 65535), due(18, 65535));
    assert_eq!(refused(WRITTEN_BYTES, 0, 2, u32::MAX), due(18, u32::MAX));
}

#[test]
fn lengths_of_record_and_reach_map_differ() {
    let (mut map, written) = ([0; WRITTEN_BYTES], [0; WRITTEN_BYTES + 1]);
    for length in [0, 511, 513, WRITTEN_BYTES] {
        assert_eq!(slices::reach(&WORD, &mut map[..length]), Err(Refusal::Length));
    }
    assert_eq!(slices::reach(&WORD, &mut map[..512]), Ok(()));
    for length in [0, 512, WRITTEN_BYTES - 1, WRITTEN_BYTES + 1] {
        assert_eq!(slices::tile_has_load(&WORD, &written[..length]), Err(Refusal::Length));
    }
    assert_eq!(slices::tile_has_load(&WORD, &written[..WRITTEN_BYTES]), Ok(false));
}

#[test]
fn either_byte_of_a_number_makes_its_address_written() {
    let tile = Tile { fmt: 4, siz: 1, width: 2, height: 1, ..WORD }; // reaches addresses 16 and 17
    for place in 0..WRITTEN_BYTES {
        for byte in [1, 128, 255] {
            let mut written = [0; WRITTEN_BYTES];
            written[place] = byte;
            let due = (16..18).contains(&(place / 2));
            assert_eq!(slices::tile_has_load(&tile, &written), Ok(due), "{byte} at {place}");
        }
    }
}

#[test]
fn the_last_load_counts() {
    let mut bank = Bank::new();
    assert_eq!((bank.written().last(), bank.written().number_at(16)), (0, 0));
    assert_eq!(bank.load_block(&[], &WORD, 2, 0, 3).map(|loaded| loaded.number), Ok(1)); // 16 to 39
    assert_eq!(bank.load_tile(&[], &Tile { tmem_addr: 3, ..WORD }, 2, 1, 1, 0).map(|loaded| loaded.number), Ok(2)); // 24 to 31
    assert_eq!(bank.load_block(&[], &WORD, 2, 0, 0).map(|loaded| loaded.number), Ok(3)); // nothing
    assert_eq!(bank.load_block(&[], &WORD, 4, 0, 3), Err(Refusal::Load));
    let rejected = bank.reject_tlut_hardware(&[], &Tile { tmem_addr: 4, ..WORD }, 2, 1, 1, 0, 7); // 32 to 39
    assert_eq!(rejected.map(|loaded| loaded.number), Ok(4));
    let written = bank.written();
    assert_eq!([15, 16, 23, 24, 31, 32, 39, 40].map(|address| written.number_at(address)), [0, 1, 1, 2, 2, 4, 4, 0]);
    assert_eq!(written.addresses().collect::<Vec<_>>(), (16..40).collect::<Vec<_>>());
    assert_eq!([4095, 4096, usize::MAX].map(|address| written.number_at(address)), [0; 3]);
    assert_eq!(written.bytes()[46..50], [0, 1, 0, 2]);
    assert_eq!(written.last(), 4);
    assert_eq!(written.numbers_of(&[40, 39, 16, 31, 16, 4096]), [0, 4, 1, 2, 1, 0]);
}

#[test]
fn a_changed_byte_keeps_its_number() {
    let mut bank = Bank::new();
    bank.load_block(&[], &WORD, 2, 0, 1).unwrap();
    let written = bank.written().clone();
    bank.bytes_mut().fill(5);
    assert_eq!(bank.written(), &written);
    assert_eq!(Bank::from(*bank.bytes()).written().last(), 0);
}

#[test]
fn keys_and_refused_records_take_no_number() {
    let mut bank = Bank::new();
    let mut replay = |record: &[u8]| {
        let answer = bank.replay_record(record, 0, &[]).map_err(Refusal::number);
        (answer, bank.written().last())
    };
    assert_eq!(replay(&record(3, 0, 0)), (Ok(2), 0));
    assert_eq!(replay(&record(0, 1, 0)), (Ok(8), 1));
    assert_eq!(replay(&record(0, 0, 0)), (Ok(0), 2)); // stores nothing
    assert_eq!(replay(&record(3, 0, 0)), (Ok(2), 2));
    assert_eq!(replay(&record(4, 1, 0)), (Err(10), 2));
    assert_eq!(replay(&record(0, 1, 0)[..47]), (Err(8), 2));
    assert_eq!(replay(&record(0, 1, 1)), (Ok(8), 3));
    assert_eq!([0, 7, 8, 15, 16].map(|address| bank.written().number_at(address)), [1, 1, 3, 3, 0]);
}

#[test]
fn a_record_gets_and_gives_the_last_number() {
    let replay = |record: &[u8], last: u32| {
        let (mut memory, mut after) = (Memory::fresh(), last);
        let Memory { bank, written, reasons } = &mut memory;
        let answer = slices::replay_record(bank, written, reasons, record, 0, &[], &mut after);
        (answer.map_err(Refusal::number), after, number_bytes(&memory, 0))
    };
    let (block, key) = (record(0, 1, 0), record(3, 0, 0));
    for (passed, bytes) in PASSED {
        assert_eq!(replay(&block, passed), (Ok(8), passed + 1, bytes));
        assert_eq!(replay(&record(0, 0, 0), passed), (Ok(0), passed + 1, [0, 0]));
        assert_eq!(replay(&key, passed), (Ok(2), passed, [0, 0]));
        assert_eq!(replay(&block[..47], passed), (Err(8), passed, [0, 0]));
    }
    let mut beyond = block;
    beyond[37] = 1;
    for passed in PAST {
        assert_eq!(replay(&block, passed), (Err(18), passed, [0, 0]));
        assert_eq!(replay(&record(0, 0, 0), passed), (Err(18), passed, [0, 0]));
        assert_eq!(replay(&beyond, passed), (Err(11), passed, [0, 0])); // before 18
        assert_eq!(replay(&key, passed), (Ok(2), passed, [0, 0]));
    }
}

#[test]
fn a_replay_of_65537_loads() {
    let mut bank = Bank::new();
    for number in 1..=LOADS_MOST {
        if number % 1000 == 0 {
            assert_eq!(bank.replay_record(&record(3, 0, 0), 0, &[]), Ok(2));
            assert_eq!(bank.replay_record(&record(4, 1, 0), 0, &[]), Err(Refusal::Kind));
        }
        assert_eq!(bank.replay_record(&record(0, 1, (number % 200) as u8), 0, &[]), Ok(8));
        assert_eq!(bank.written().last(), number);
    }
    for word in 0..200 {
        let last = LOADS_MOST - (LOADS_MOST - word) % 200; // the largest number that leaves this word
        let addresses = 8 * word as usize..8 * word as usize + 8;
        assert!(addresses.into_iter().all(|address| bank.written().number_at(address) == last), "word {word}");
    }
    let full = bank.clone();
    for words in [1, 0] {
        assert_eq!(bank.replay_record(&record(0, words, 0), 0, &[]), Err(Refusal::Number));
        assert_eq!(bank.load_block(&[], &WORD, 2, 0, words.into()), Err(Refusal::Number));
    }
    assert_eq!(bank.replay_record(&record(3, 0, 0), 0, &[]), Ok(2));
    assert_eq!(bank, full);
}
