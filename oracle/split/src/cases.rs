//! Inputs whose answers are known.
use crate::input::{Captures, Input, Kind};
use split::{BODY, BUFFERS, COUNT, ENTRY};

/// The totals and the sides; an error is the refusal's number.
type Due = Result<([u32; 2], Vec<u8>), u32>;

/// Body numbers, and the sides that are due.
const TAKEN: [(&[u16], &[u8]); 8] = [
    (&[], &[]),
    (&[9], &[0]),
    (&[0, 1, 2, 3, 4], &[0, 0, 0, 0, 1]),
    (&[0, 1, 2, 3, 4, 5, 6, 7, 8, 9, 10], &[0, 0, 0, 0, 1, 0, 0, 0, 0, 1, 0]),
    (&[5, 5, 5, 5, 5, 5], &[0, 0, 0, 0, 0, 0]),
    (&[4, 3, 4, 2, 1, 1, 0, 3, 0, 4, 7, 0], &[0, 0, 0, 0, 0, 0, 1, 0, 1, 0, 0, 1]),
    (&[0, 1, 2, 3, 0, 1, 2, 3, 4, 4, 5, 4], &[0, 0, 0, 0, 0, 0, 0, 0, 1, 1, 0, 1]),
    (&[8, 7, 6, 5, 4, 3, 2, 1, 0, 8, 4, 0], &[0, 0, 0, 0, 1, 0, 0, 0, 0, 0, 1, 0]),
];

/// Of three entries: the stated count, and how many bytes of entries and how many sides are lent, more than is due.
const REFUSED: [(u32, isize, isize, u32); 11] = [
    (3, -1, 0, BUFFERS),
    (3, 1, 0, BUFFERS),
    (3, 0, -1, BUFFERS),
    (3, 0, 1, BUFFERS),
    (3, ENTRY as isize, 1, BUFFERS),
    (2, 0, 0, BUFFERS),
    (4, 0, 0, BUFFERS),
    (4096, 0, 0, BUFFERS),
    (4097, 0, 0, COUNT),
    (65536 + 3, 0, 0, COUNT),
    (u32::MAX, -1, 1, COUNT),
];

/// Every case: those taken in each kind of body, with capture numbers of each kind; and those refused.
pub fn all() -> Vec<(Input, Due)> {
    let kinds = [Kind::Random, Kind::OneByte(0), Kind::OneByte(BODY - 1), Kind::TwoBytes(15), Kind::Staircase(1)];
    let mut cases = Vec::new();
    for (bodies, sides) in TAKEN {
        let held_out = sides.iter().map(|&side| u32::from(side)).sum();
        let totals = [sides.len() as u32 - held_out, held_out];
        for kind in kinds {
            for captures in [Captures::Same, Captures::Rising, Captures::Random] {
                let input = Input { captures, ..Input::new(kind, bodies.to_vec()) };
                cases.push((input, Ok((totals, sides.to_vec()))));
            }
        }
    }
    for (count, bytes, sides, refusal) in REFUSED {
        let three = Input::new(Kind::Random, vec![0, 1, 0]);
        let bytes = three.bytes.saturating_add_signed(bytes);
        let sides = three.sides.saturating_add_signed(sides);
        cases.push((Input { count, bytes, sides, ..three }, Err(refusal)));
    }
    cases
}
