//! The check of an offered key: what is said of every byte, the lowest wrong one, keys from before the cut to what is visible, and each
//! refusal.
#![allow(clippy::cast_possible_truncation, reason = "the numbers of these tests fit, or are cut to bytes on purpose")]
use tulonkasa::{ffi, slices, Bank, Checked, Refusal, Tile, BANK_BYTES, SIDE_MOST};

/// Two rows of eight bytes, of which the second has its halves swapped, and so many others.
const TILE: Tile = Tile {
    fmt: 4,
    siz: 1,
    palette: 0,
    mode: 0,
    cms: 0,
    cmt: 0,
    masks: 0,
    maskt: 0,
    line: 1,
    tmem_addr: 2,
    width: 7,
    height: 2,
};

/// Every other byte is zero.
fn bank() -> Bank {
    std::array::from_fn(|address| if address % 2 == 0 { 0 } else { address as u8 | 1 }).into()
}

/// By the addresses that an observed picture reads, and the sentences of the kinds.
fn due(bank: &Bank, kept: &[bool], offer: &[u8; BANK_BYTES]) -> Checked {
    let right = |address: usize| if kept[address] { bank.bytes()[address] } else { 0 };
    let Some(lowest) = (0..BANK_BYTES).find(|&address| offer[address] != right(address)) else { return Checked::Right };
    let address = lowest as u16;
    match (kept[lowest], bank.bytes()[lowest], offer[lowest]) {
        (true, 1.., 0) => Checked::Missing { address },
        (false, _, 1..) => Checked::LeftOver { address },
        _ => Checked::AnotherValue { address },
    }
}

/// Which addresses the tile's plain picture reads, which is visible whole.
fn kept(bank: &Bank, tile: &Tile, lane: u32) -> Vec<bool> {
    let mut kept = vec![false; BANK_BYTES];
    for address in bank.sample_tile_observed(tile, lane).unwrap().trail {
        kept[usize::from(address)] = true;
    }
    kept
}

#[test]
fn every_byte_of_an_offer_counts() {
    let bank = bank();
    let kept = kept(&bank, &TILE, 0);
    let key = bank.key(&TILE, 0).unwrap().bytes;
    assert_eq!(bank.check_key(&TILE, 0, &key), Ok(Checked::Right));
    let mut found = [0; 3];
    for address in 0..BANK_BYTES {
        for byte in [0, 1, bank.bytes()[address], !bank.bytes()[address]] {
            let mut offer = key;
            offer[address] = byte;
            let checked = bank.check_key(&TILE, 0, &offer).unwrap();
            assert_eq!(checked, due(&bank, &kept, &offer), "{byte} at {address}");
            assert_eq!(checked.is_right(), byte == key[address]);
            assert_eq!(checked.address(), (byte != key[address]).then_some(address as u16));
            match checked {
                Checked::Right => (),
                Checked::Missing { .. } => found[0] += 1,
                Checked::LeftOver { .. } => found[1] += 1,
                Checked::AnotherValue { .. } => found[2] += 1,
            }
        }
    }
    assert!(found.iter().all(|&count| count > 0), "{found:?}");
}

#[test]
fn a_kept_zero_is_kept() {
    let one = Tile { tmem_addr: 0, width: 1, height: 1, ..TILE };
    let mut offer = [0; BANK_BYTES];
    assert_eq!(Bank::new().check_key(&one, 0, &offer), Ok(Checked::Right));
    offer[1] = 5;
    assert_eq!(Bank::new().check_key(&one, 0, &offer), Ok(Checked::LeftOver { address: 1 }));
    offer[0] = 5;
    assert_eq!(Bank::new().check_key(&one, 0, &offer), Ok(Checked::AnotherValue { address: 0 }));
}

#[test]
fn the_lowest_wrong_address_is_named() {
    let bank = bank();
    let kept = kept(&bank, &TILE, 0);
    // On both sides of each part that is compared at once, and far from it.
    let places = [0, 16, 17, 24, 31, 32, 63, 64, 65, 127, 128, 2047, 2048, 4031, 4032, 4094, 4095];
    for &lower in &places {
        for &upper in &places {
            let mut offer = bank.key(&TILE, 0).unwrap().bytes;
            offer[lower] ^= 0x80;
            offer[upper] ^= 0x40;
            let checked = bank.check_key(&TILE, 0, &offer).unwrap();
            assert_eq!(checked.address(), Some(lower.min(upper) as u16));
            assert_eq!(checked, due(&bank, &kept, &offer));
        }
    }
}

#[test]
fn a_key_of_the_whole_wall_is_left_over() {
    for (cms, masks, width) in [(0, 1, 4), (1, 2, 7), (0, 3, SIDE_MOST)] {
        let wall = Tile { cms, masks, width, height: 1, line: 1, tmem_addr: 0, ..TILE };
        let bank = Bank::from([9; BANK_BYTES]);
        let whole = bank.key(&Tile { masks: 0, ..wall }, 0).unwrap().bytes;
        let first = 1 << masks;
        assert_eq!(bank.check_key(&wall, 0, &whole), Ok(Checked::LeftOver { address: first }));
        // Where the bank has nothing but zeros there, it is the same key.
        let mut zeros_behind = Bank::new();
        zeros_behind.bytes_mut()[..first.into()].fill(9);
        let whole = zeros_behind.key(&Tile { masks: 0, ..wall }, 0).unwrap().bytes;
        assert_eq!(zeros_behind.check_key(&wall, 0, &whole), Ok(Checked::Right));
    }
}

#[test]
fn a_palette_is_checked_in_its_lane() {
    let tile = Tile { fmt: 2, mode: 2, ..TILE };
    let bank = Bank::from(std::array::from_fn(|address| address as u8 | 1));
    for lane in 0..4 {
        let key = bank.key(&tile, lane).unwrap().bytes;
        for other in 0..4 {
            assert_eq!(bank.check_key(&tile, other, &key).unwrap().is_right(), lane == other);
        }
    }
}

#[test]
fn lookups_are_checked_whole() {
    let lookup = Tile { masks: 15, ..TILE };
    let bank = Bank::from([3; BANK_BYTES]);
    assert_eq!(bank.check_key(&lookup, 0, &[3; BANK_BYTES]), Ok(Checked::Right));
    let mut offer = [3; BANK_BYTES];
    offer[4095] = 0;
    assert_eq!(bank.check_key(&lookup, 0, &offer), Ok(Checked::Missing { address: 4095 }));
}

#[test]
fn what_is_said_is_said_in_words() {
    let words = |checked: Checked| checked.to_string();
    assert_eq!(words(Checked::Right), "right");
    assert_eq!(words(Checked::Missing { address: 12 }), "the byte at address 12 is missing");
    assert_eq!(words(Checked::LeftOver { address: 0 }), "the byte at address 0 is left over");
    assert_eq!(words(Checked::AnotherValue { address: 4095 }), "the byte at address 4095 has another value");
}

/// The refusals, in the order in which they are tested.
const ORDER: [Refusal; 4] = [Refusal::Length, Refusal::Tile, Refusal::ModeOrLane, Refusal::Pair];

#[test]
fn the_first_refusal_in_order_is_answered_as_by_the_key() {
    // Every choice of faults; of each buffer's length, and of mode and lane.
    for chosen in 0..1 << ORDER.len() {
        for which in 0..4 {
            let is_bad = |fault: usize| chosen >> fault & 1 == 1;
            let (mut bank, mut offer) = (vec![7; BANK_BYTES], vec![7; BANK_BYTES]);
            if is_bad(0) {
                let buffer = if which < 2 { &mut bank } else { &mut offer };
                buffer.resize(if which % 2 == 0 { BANK_BYTES - 1 } else { BANK_BYTES + 1 }, 7);
            }
            let mode = if is_bad(2) && which < 2 { 4 } else { 0 };
            let lane = if is_bad(2) && which >= 2 { 4 } else { 0 };
            let fmt = if is_bad(3) { 5 } else { 4 };
            let tile = Tile { width: if is_bad(1) { SIDE_MOST + 1 } else { 7 }, fmt, mode, ..TILE };
            let checked = slices::check_key(&bank, &tile, lane, &offer);
            let cut = slices::key(&bank, &tile, lane, &mut offer.clone());
            match ORDER.iter().enumerate().find(|(fault, _)| is_bad(*fault)) {
                None => assert_eq!(checked, Ok(Checked::LeftOver { address: 0 })),
                Some((_, &refusal)) => {
                    assert_eq!(checked, Err(refusal), "faults {chosen:04b}, {which}");
                    assert_eq!(cut, Err(refusal));
                }
            }
        }
    }
}

#[test]
fn a_refused_check_answers_zeros() {
    let lent = [7; BANK_BYTES];
    for (length, lane, refusal) in [(BANK_BYTES - 1, 0, 1), (BANK_BYTES, 4, 3)] {
        // SAFETY: each pointer comes with at most its array's length.
        let answer = unsafe {
            ffi::tk_check_key(lent.as_ptr(), 4096, 4, 1, 0, 0, 0, 0, 0, 0, 1, 2, 7, 2, lane, lent.as_ptr(), length)
        };
        assert_eq!(answer, ffi::CheckAnswer { refusal, yes: 0, address: 0, wrong: 0 });
    }
}
