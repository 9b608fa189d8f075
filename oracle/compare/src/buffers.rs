//! The buffers that a load changes, and reasons of rejected loads as they may be found in them.
use crate::case::{Case, Fill};
use crate::check::{fill, same};
use crate::numbers::{is_marked, Written};
use original::calls::Bytes;

#[derive(Clone)]
pub struct Buffers {
    pub bank: Bytes,
    pub written: Written,
    /// A byte an address, 0 for none.
    pub reasons: Bytes,
}

impl Buffers {
    /// An error says where they are not the original's.
    pub fn same(original: &Self, archive: &Self) -> Result<(), String> {
        same("the bank", &original.bank, &archive.bank)?;
        same("the written record", &original.written, &archive.written)?;
        same("the reasons", &original.reasons, &archive.reasons)
    }
}

/// Reasons as a load may find them: any, and none at about half of the addresses.
pub fn found_reasons(filling: Fill, seed: u64) -> Bytes {
    let (mut reasons, mut none) = ([0; 4096], [0; 512]);
    fill(&mut reasons, filling, seed);
    fill(&mut none, filling, seed + 1);
    for (_, reason) in reasons.iter_mut().enumerate().filter(|(address, _)| is_marked(&none, *address)) {
        *reason = 0;
    }
    reasons
}

/// The reasons of a question: such ones, of which a fill of zero leaves none; and one at each address that the case names.
pub fn asked_reasons(case: &Case) -> Bytes {
    let mut reasons = found_reasons(case.fill, case.seed);
    for (&address, reason) in case.numbers.iter().zip([1, 128, 255]) {
        if let Some(place) = reasons.get_mut(address as usize) {
            *place = reason;
        }
    }
    reasons
}
