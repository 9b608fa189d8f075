//! The comparison's own written records: the number of the last load that stored at each address, two bytes an address, high byte
//! first. The original has marks alone, which are held against what is not zero.
use crate::case::Fill;
use crate::check::fill;
use original::calls::Map;

pub type Written = [u8; 8192];

/// The record of a fresh memory.
pub const FRESH: Written = [0; 8192];

/// The number of the load after the one with the number `last`; none where none is left.
pub fn after(last: u32) -> Option<u32> {
    (last < 65535).then(|| last + 1)
}

/// Numbers each address that is marked.
pub fn store(written: &mut Written, marks: &Map, number: u32) {
    let pairs = written.chunks_exact_mut(2).enumerate();
    for (_, pair) in pairs.filter(|(address, _)| is_marked(marks, *address)) {
        pair.copy_from_slice(&[(number / 256) as u8, (number % 256) as u8]);
    }
}

/// A mark at each address whose number is not zero.
pub fn marks(written: &Written) -> Map {
    let mut map = [0; 512];
    for (address, _) in written.chunks_exact(2).enumerate().filter(|(_, pair)| **pair != [0, 0]) {
        map[address / 8] |= 1 << (address % 8);
    }
    map
}

/// What either map marks.
pub fn either(one: &Map, other: &Map) -> Map {
    std::array::from_fn(|i| one[i] | other[i])
}

pub fn is_marked(map: &Map, address: usize) -> bool {
    map[address / 8] >> (address % 8) & 1 == 1
}

/// A record as a load may find it: any numbers, and none at about half of the addresses.
pub fn found(filling: Fill, seed: u64) -> Written {
    let (mut written, mut none) = (FRESH, [0; 512]);
    fill(&mut written, filling, seed);
    fill(&mut none, filling, seed + 1);
    store(&mut written, &none, 0);
    written
}
