//! Rejected loads: the reasons that loads leave and take away, and the question whether a tile touches one.
#![allow(clippy::cast_possible_truncation, reason = "the numbers of these tests fit, or are cut to bytes on purpose")]
mod memory;

use memory::{record, Memory, LOADS, STORED, WORD};
use tulonkasa::{
    ffi, slices, Bank, Loaded, Refusal, Tile, BANK_BYTES, REASON_BYTES, REASON_MOST, SIDE_MOST, WRITTEN_BYTES,
};

/// Reasons that may be passed, and such as may not.
const TAKEN: [u32; 6] = [1, 2, 127, 128, 254, 255];
const NOT_TAKEN: [u32; 7] = [0, 256, 257, 256 + 7, 1 << 16, 1 << 31, u32::MAX];

/// What stands at every address before a load.
const BEFORE: u8 = 99;

fn reasoned() -> Memory {
    Memory { reasons: vec![BEFORE; REASON_BYTES], ..Memory::fresh() }
}

#[test]
fn an_ordinary_load_takes_reasons_away_exactly_where_it_stores() {
    for load in LOADS {
        let mut memory = reasoned();
        load(&mut memory, &[7; 8], &WORD, None, &mut 0).unwrap();
        for (address, &reason) in memory.reasons.iter().enumerate() {
            assert_eq!(reason, if STORED.contains(&address) { 0 } else { BEFORE }, "address {address}");
        }
    }
}

#[test]
fn a_rejected_load_leaves_its_reason_exactly_there_and_does_the_rest_as_any_load() {
    for load in LOADS {
        for reason in TAKEN {
            let (mut memory, mut ordinary) = (reasoned(), reasoned());
            let (mut last, mut ordinary_last) = (300, 300);
            let answer = load(&mut memory, &[7; 3], &WORD, Some(reason), &mut last);
            assert_eq!(answer, load(&mut ordinary, &[7; 3], &WORD, None, &mut ordinary_last));
            assert_eq!((answer.map(|loaded| (loaded.count, loaded.number)), last), (Ok((8, 301)), ordinary_last));
            assert_eq!((&memory.bank, &memory.written), (&ordinary.bank, &ordinary.written));
            for (address, &left) in memory.reasons.iter().enumerate() {
                let due = if STORED.contains(&address) { reason } else { BEFORE.into() };
                assert_eq!(u32::from(left), due, "address {address}, reason {reason}");
            }
        }
    }
}

#[test]
fn texels_of_32_bits_leave_reasons_in_parts_of_words() {
    let texels = Tile { siz: 3, ..WORD };
    let reasoned = |bank: &Bank| (0..REASON_BYTES).filter(|&address| bank.reasons()[address] != 0).collect::<Vec<_>>();
    let mut bank = Bank::new();
    bank.reject_block(&[], &texels, 3, 0, 1, 7).unwrap();
    assert_eq!(reasoned(&bank), [16, 17, 18, 19, 2064, 2065, 2066, 2067]);
    bank.reject_block(&[], &WORD, 2, 0, 1, 8).unwrap(); // 16 to 23
    bank.load_block(&[], &texels, 3, 0, 1).unwrap();
    assert_eq!(reasoned(&bank), [20, 21, 22, 23]);
}

#[test]
fn other_reasons_are_refused_and_change_nothing() {
    for load in LOADS {
        for reason in NOT_TAKEN {
            for passed in [0, 1, 65534] {
                let (mut memory, mut last) = (reasoned(), passed);
                let answer = load(&mut memory, &[7; 8], &WORD, Some(reason), &mut last);
                assert_eq!((answer, last), (Err(Refusal::Reason), passed));
                assert!(memory == reasoned());
            }
        }
    }
    assert_eq!((TAKEN[5], NOT_TAKEN[1]), (REASON_MOST, REASON_MOST + 1));
}

#[test]
fn a_load_of_no_stores_leaves_all_reasons() {
    let mut bank = Bank::new();
    bank.reject_block(&[], &WORD, 2, 0, 1, 7).unwrap();
    let before = *bank.reasons();
    bank.load_block(&[], &WORD, 2, 0, 0).unwrap();
    bank.reject_tile(&[], &WORD, 2, 0, 1, 0, 8).unwrap();
    bank.reject_tlut_rows(&[], &WORD, 2, 0, 1, 0, 9).unwrap();
    assert_eq!((bank.reasons(), bank.written().last()), (&before, 4));
}

/// The refusals of a rejected load, in the order in which they are tested.
const ORDER: [Refusal; 5] = [Refusal::Length, Refusal::Tile, Refusal::Load, Refusal::Reason, Refusal::Number];

#[test]
fn the_first_refusal_in_order_is_answered() {
    for load in LOADS {
        // Every choice of faults; one of each buffer's length.
        for chosen in 0..1 << ORDER.len() {
            for shorter in 0..3 {
                let is_bad = |fault: usize| chosen >> fault & 1 == 1;
                let mut memory = reasoned();
                if is_bad(0) {
                    let buffers = [&mut memory.bank, &mut memory.written, &mut memory.reasons];
                    buffers[shorter].pop();
                }
                let before = memory.clone();
                let tile = Tile { fmt: if is_bad(1) { 8 } else { 0 }, ..WORD };
                let source = vec![7; if is_bad(2) { 65537 } else { 8 }];
                let reason = u32::from(!is_bad(3));
                let passed = if is_bad(4) { 65535 } else { 6 };
                let mut last = passed;
                let answer = load(&mut memory, &source, &tile, Some(reason), &mut last);
                match (0..ORDER.len()).find(|&fault| is_bad(fault)) {
                    None => assert_eq!(answer.map(|loaded| loaded.number), Ok(7)),
                    Some(fault) => {
                        assert_eq!((answer, last), (Err(ORDER[fault]), passed), "faults {chosen:05b}");
                        assert!(memory == before);
                    }
                }
            }
        }
    }
}

#[test]
fn the_reasons_have_their_length() {
    for load in LOADS {
        for length in [0, 512, REASON_BYTES - 1, REASON_BYTES + 1, WRITTEN_BYTES] {
            for reason in [None, Some(7)] {
                let mut memory = Memory { reasons: vec![BEFORE; length], ..Memory::fresh() };
                let before = memory.clone();
                assert_eq!(load(&mut memory, &[7; 8], &WORD, reason, &mut 0), Err(Refusal::Length));
                assert!(memory == before);
            }
        }
    }
    let Memory { mut bank, mut written, mut reasons } = Memory::fresh();
    reasons.pop();
    let answer = slices::replay_record(&mut bank, &mut written, &mut reasons, &record(0, 1, 0), 0, &[], &mut 0);
    assert_eq!(answer, Err(Refusal::Length));
}

#[test]
fn beside_a_refusal_everything_else_is_zero() {
    let refused = |fmt, reason, last| {
        let mut memory = reasoned();
        let Memory { bank, written, reasons } = &mut memory;
        let (bank, written, reasons) = (bank.as_mut_ptr(), written.as_mut_ptr(), reasons.as_mut_ptr());
        let (source, [a, b, c]) = ([7; 8].as_ptr(), [BANK_BYTES, WRITTEN_BYTES, REASON_BYTES]);
        // SAFETY: each length is that of its buffer.
        let answer = unsafe {
            ffi::tk_reject_block(bank, a, written, b, reasons, c, source, 8, fmt, 2, 0, 0, 2, 0, 1, reason, last)
        };
        assert!(memory == reasoned());
        answer
    };
    let due = |refusal, number| ffi::LoadAnswer { refusal, count: 0, made_up: 0, number };
    for number in [0, 65534, 65535, u32::MAX] {
        assert_eq!(refused(8, 0, number), due(2, number));
        assert_eq!(refused(0, 0, number), due(19, number));
        assert_eq!(refused(0, 256, number), due(19, number));
    }
    assert_eq!(refused(0, 255, 65535), due(18, 65535));
    // SAFETY: a length of 0 allows any pointer.
    let answer = unsafe { ffi::tk_rejection(0, 0, 0, 0, 0, 0, 0, 0, 0, 0, 1, 1, std::ptr::null(), 0) };
    assert_eq!(answer, ffi::ReasonAnswer { refusal: 1, reason: 0 });
}

/// Asks with a reason at each of some addresses; the same address counts once, by its last reason.
fn asked(tile: &Tile, at: &[(usize, u8)]) -> Result<Option<u32>, Refusal> {
    let mut reasons = [0; REASON_BYTES];
    for &(address, reason) in at {
        reasons[address] = reason;
    }
    slices::rejection(tile, &reasons)
}

/// The tile's addresses are these, and they are asked in this order: others never count, and each counts before all behind it.
fn asks_in_order(tile: &Tile, order: &[usize]) {
    let mut reasons = [BEFORE; REASON_BYTES];
    for &address in order {
        reasons[address] = 0;
    }
    assert_eq!(slices::rejection(tile, &reasons), Ok(None), "{tile:?}, others");
    for (place, &address) in order.iter().enumerate().rev() {
        reasons[address] = 1 + place as u8 % 97;
        assert_eq!(slices::rejection(tile, &reasons), Ok(Some(reasons[address].into())), "{tile:?}, address {address}");
    }
}

/// Bytes at address 16, a word in a row.
const BYTES: Tile = Tile { fmt: 4, siz: 1, width: 8, height: 1, ..WORD };

#[test]
fn rows_come_in_order_and_odd_ones_with_their_halves_swapped() {
    asks_in_order(&BYTES, &[16, 17, 18, 19, 20, 21, 22, 23]);
    let rows = Tile { height: 3, ..BYTES };
    let order = [16, 17, 18, 19, 20, 21, 22, 23, 28, 29, 30, 31, 24, 25, 26, 27, 32, 33, 34, 35, 36, 37, 38, 39];
    asks_in_order(&rows, &order);
    // Rows of three bytes, and of five; the latter of nibbles.
    asks_in_order(&Tile { width: 3, height: 2, ..BYTES }, &[16, 17, 18, 28, 29, 30]);
    asks_in_order(&Tile { siz: 0, width: 9, height: 2, ..BYTES }, &[16, 17, 18, 19, 20, 28, 29, 30, 31, 24]);
    // A later row at lower addresses, past the bank's end.
    asks_in_order(&Tile { tmem_addr: 511, width: 2, height: 2, ..BYTES }, &[4088, 4089, 4, 5]);
    // A texel of none by none reaches a byte, and a repeating row its period.
    asks_in_order(&Tile { width: 0, height: 0, ..BYTES }, &[16]);
    asks_in_order(&Tile { masks: 1, ..BYTES }, &[16, 17]);
}

#[test]
fn a_pair_need_not_be_accepted() {
    for (fmt, siz) in [(1, 2), (4, 3), (5, 2), (7, 3)] {
        asks_in_order(&Tile { fmt, siz, width: 2, ..BYTES }, &[16, 17, 18, 19]);
    }
}

#[test]
fn texels_of_32_bits_reach_both_halves_in_turn() {
    let texels = Tile { fmt: 0, siz: 3, tmem_addr: 255, width: 2, height: 2, ..WORD };
    let first = [2040, 4088, 2041, 4089, 2042, 4090, 2043, 4091];
    let second = [4, 2052, 5, 2053, 6, 2054, 7, 2055];
    for mode in [0, 1] {
        asks_in_order(&Tile { mode, ..texels }, &[first, second].concat());
    }
    // With a palette they are indices in the lower half, every second byte.
    let palette: Vec<usize> = (2048..4096).collect();
    for mode in [2, 3] {
        asks_in_order(&Tile { mode, ..texels }, &[&[2040, 2042, 4, 6], &palette[..]].concat());
    }
}

#[test]
fn palettes_come_behind_the_reach() {
    let whole: Vec<usize> = (2048..4096).collect();
    for mode in [2, 3] {
        for siz in 1..4 {
            let reached: &[usize] = if siz == 1 { &[16, 17] } else { &[16, 18] };
            asks_in_order(&Tile { fmt: 2, siz, mode, palette: 5, width: 2, ..BYTES }, &[reached, &whole].concat());
        }
        for palette in 0..16 {
            let own: Vec<usize> = (0..128).map(|i| 2048 + 128 * palette as usize + i).collect();
            asks_in_order(&Tile { fmt: 2, siz: 0, mode, palette, width: 2, ..BYTES }, &[&[16], &own[..]].concat());
        }
        // Indices past the lower half's end wrap into it.
        let wrapping = Tile { fmt: 2, siz: 0, mode, tmem_addr: 255, width: 4, height: 2, ..BYTES };
        let own: Vec<usize> = (2048..2176).collect();
        asks_in_order(&wrapping, &[&[2040, 2041, 4, 5], &own[..]].concat());
    }
    for mode in [0, 1] {
        asks_in_order(&Tile { fmt: 2, siz: 0, mode, palette: 5, width: 4, ..BYTES }, &[16, 17]);
        asks_in_order(&Tile { fmt: 2, siz: 1, mode, palette: 5, width: 2, ..BYTES }, &[16, 17]);
    }
}

#[test]
fn lookups_reach_addresses_from_0_on() {
    let lookup = Tile { masks: 10, ..BYTES };
    assert!(lookup.sampling().unwrap().lookup);
    let all: Vec<usize> = (0..4096).collect();
    asks_in_order(&lookup, &all);
    asks_in_order(&Tile { mode: 2, ..lookup }, &all);
    let lower: Vec<usize> = (0..2048).collect();
    let own: Vec<usize> = (2048 + 128 * 9..2048 + 128 * 10).collect();
    asks_in_order(&Tile { siz: 0, mode: 3, palette: 9, ..lookup }, &[&lower[..], &own].concat());
    let both: Vec<usize> = (0..2048).flat_map(|address| [address, 2048 + address]).collect();
    asks_in_order(&Tile { fmt: 0, siz: 3, ..lookup }, &both);
}

#[test]
fn the_first_reason_counts_and_not_the_last() {
    let rows = Tile { height: 2, ..BYTES };
    assert_eq!(asked(&rows, &[]), Ok(None));
    assert_eq!(asked(&rows, &[(15, 1), (32, 2)]), Ok(None));
    assert_eq!(asked(&rows, &[(17, 255), (16, 1)]), Ok(Some(1)));
    assert_eq!(asked(&rows, &[(17, 1), (16, 255)]), Ok(Some(255)));
    assert_eq!(asked(&rows, &[(24, 1), (28, 255)]), Ok(Some(255)));
    assert_eq!(asked(&rows, &[(28, 1), (23, 255)]), Ok(Some(255)));
    let indices = Tile { fmt: 2, mode: 2, ..rows };
    assert_eq!(asked(&indices, &[(2048, 1), (27, 2), (4095, 3)]), Ok(Some(2)));
    assert_eq!(asked(&indices, &[(2048, 1), (4095, 3)]), Ok(Some(1)));
}

#[test]
fn the_question_refuses_1_then_2_then_3() {
    let reasons = [0; WRITTEN_BYTES];
    let bad_fields = [
        Tile { fmt: 8, ..BYTES },
        Tile { siz: 4, ..BYTES },
        Tile { palette: 16, ..BYTES },
        Tile { cms: 4, ..BYTES },
        Tile { cmt: 4, ..BYTES },
        Tile { masks: 16, ..BYTES },
        Tile { maskt: 16, ..BYTES },
        Tile { line: 512, ..BYTES },
        Tile { tmem_addr: 512, ..BYTES },
        Tile { width: SIDE_MOST + 1, ..BYTES },
        Tile { height: u32::MAX, ..BYTES },
    ];
    for tile in bad_fields {
        for mode in [0, 4] {
            let tile = Tile { mode, ..tile };
            assert_eq!(slices::rejection(&tile, &reasons[..REASON_BYTES]), Err(Refusal::Tile), "{tile:?}");
            assert_eq!(slices::rejection(&tile, &reasons[..REASON_BYTES - 1]), Err(Refusal::Length));
        }
    }
    for mode in [4, u32::MAX] {
        assert_eq!(slices::rejection(&Tile { mode, ..BYTES }, &reasons[..REASON_BYTES]), Err(Refusal::ModeOrLane));
    }
    for length in [0, 512, REASON_BYTES - 1, REASON_BYTES + 1, WRITTEN_BYTES] {
        assert_eq!(slices::rejection(&BYTES, &reasons[..length]), Err(Refusal::Length));
    }
    assert_eq!(slices::rejection(&BYTES, &reasons[..REASON_BYTES]), Ok(None));
}

#[test]
fn a_bank_keeps_the_reasons() {
    let mut bank = Bank::new();
    let tile = Tile { width: 24, ..BYTES }; // reaches addresses 16 to 39
    assert_eq!(bank.rejection(&tile), Ok(None));
    assert_eq!(bank.reject_block(&[1; 24], &WORD, 2, 0, 3, 7), Ok(Loaded { count: 24, made_up: 0, number: 1 })); // 16 to 39
    assert_eq!(bank.rejection(&tile), Ok(Some(7)));
    assert_eq!(bank.written().number_at(39), 1);
    bank.load_tile(&[2; 8], &WORD, 2, 1, 1, 0).unwrap(); // 16 to 23
    bank.reject_tile(&[3; 8], &Tile { tmem_addr: 3, ..WORD }, 2, 1, 1, 0, 8).unwrap(); // 24 to 31
    assert_eq!([15, 16, 23, 24, 31, 32, 39, 40].map(|address| bank.reasons()[address]), [0, 0, 0, 8, 8, 7, 7, 0]);
    assert_eq!(bank.rejection(&tile), Ok(Some(8)));
    assert_eq!(bank.rejection(&BYTES), Ok(None));

    let before = bank.clone();
    assert_eq!(bank.reject_tlut_hardware(&[4; 8], &WORD, 2, 1, 1, 0, 256), Err(Refusal::Reason));
    assert_eq!(bank.load_block(&[4; 8], &WORD, 4, 0, 3), Err(Refusal::Load));
    assert_eq!(bank, before);

    // A replayed load is an ordinary one; a key and a refused record leave the reasons.
    assert_eq!(bank.replay_record(&record(3, 0, 3), 0, &[]), Ok(2));
    assert_eq!(bank.replay_record(&record(4, 1, 3), 0, &[]), Err(Refusal::Kind));
    assert_eq!(bank, before);
    assert_eq!(bank.replay_record(&record(0, 1, 3), 0, &[]), Ok(8));
    assert_eq!([23, 24, 31, 32].map(|address| bank.reasons()[address]), [0, 0, 0, 7]);

    bank.bytes_mut().fill(5);
    assert_eq!(bank.rejection(&tile), Ok(Some(7)));
    assert_eq!(Bank::from(*bank.bytes()).rejection(&tile), Ok(None));
}

#[test]
fn a_replay_leaves_no_reasons() {
    let mut bank = Bank::new();
    for i in 0..200 {
        bank.replay_record(&record(i % 4, i % 3, i), 0, &[]).unwrap_or_default();
    }
    assert_eq!(bank.reasons(), &[0; REASON_BYTES]);
    let mut reasons = [BEFORE; REASON_BYTES];
    let (mut bytes, mut written) = ([0; BANK_BYTES], [0; WRITTEN_BYTES]);
    assert_eq!(slices::replay_record(&mut bytes, &mut written, &mut reasons, &record(0, 2, 2), 0, &[], &mut 0), Ok(16));
    for (address, &reason) in reasons.iter().enumerate() {
        assert_eq!(reason, if (16..32).contains(&address) { 0 } else { BEFORE }, "address {address}");
    }
}
