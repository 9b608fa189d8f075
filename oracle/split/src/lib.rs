//! A second splitter, written apart from the proved one, after the request and the refusals alone: a hash map from bodies to the
//! numbers of their groups.
use std::collections::HashMap;

/// The bytes of an entry, and of the capture number in front of its body.
pub const ENTRY: usize = 4117;
pub const NUMBER: usize = 4;

/// The bytes of a body.
pub const BODY: usize = ENTRY - NUMBER;

/// The most entries.
pub const MOST: u32 = 4096;

/// The refusals by their numbers.
pub const COUNT: u32 = 16;
pub const BUFFERS: u32 = 17;

/// Overwrites the sides, and answers how many entries are for tuning and how many are held out. An error is the refusal's number.
pub fn split(count: u32, entries: &[u8], sides: &mut [u8]) -> Result<[u32; 2], u32> {
    if count > MOST {
        return Err(COUNT);
    }
    if entries.len() != count as usize * ENTRY || sides.len() != count as usize {
        return Err(BUFFERS);
    }
    let mut totals = [0; 2];
    for (side, group) in sides.iter_mut().zip(groups(entries)) {
        let held_out = group % 5 == 4;
        *side = u8::from(held_out);
        totals[usize::from(held_out)] += 1;
    }
    Ok(totals)
}

/// The number of each entry's group.
pub fn groups(entries: &[u8]) -> Vec<usize> {
    let mut numbers = HashMap::new();
    let group = |entry| {
        let next = numbers.len();
        *numbers.entry(body(entry)).or_insert(next)
    };
    entries.chunks_exact(ENTRY).map(group).collect()
}

fn body(entry: &[u8]) -> &[u8] {
    &entry[NUMBER..]
}
