//! Compares the archive's splitter with the second one: first the cases whose answers are known, then every input of the sweep, then
//! random ones until the time is up.
//!
//!     split SECONDS SEED
//!
//! Prints what was compared, with counts. At a difference it prints the smallest failing input that it can find, and its exit
//! status is 1; so it is where a point never came up.
mod cases;
mod check;
mod input;
mod random;
mod sweep;

use common::{Comparison, Random};
use input::{Captures, Input, Kind};
use split::{groups, BODY, BUFFERS, COUNT, ENTRY, MOST};
use std::process::ExitCode;

/// What must come up, in the order of [`points`].
const POINTS: [&str; 24] = [
    "inputs taken",
    "refused with 16",
    "refused with 17",
    "no entry",
    "one entry",
    "4,095 entries",
    "4,096 entries",
    "random bodies",
    "bodies apart in one byte",
    "in the body's first byte",
    "in the body's last byte",
    "bodies apart in two bytes",
    "staircases",
    "all bodies different",
    "few groups",
    "one body, several capture numbers",
    "a held-out group with several entries",
    "a group again, 4,000 groups later, at the end",
    "16 with buffers that fit the count",
    "16 with buffers that do not",
    "entries a byte short, sides right",
    "entries a byte long, sides right",
    "sides one short, entries right",
    "sides one long, entries right",
];

type Counts = [u64; POINTS.len()];

struct Splitter;

impl Comparison for Splitter {
    const PROGRAM: &'static str = "split";
    const OTHER: &'static str = "the second splitter";

    type Input = Input;
    type Counts = Counts;

    fn cases() -> Result<String, String> {
        check::all_cases().map(|count| count.to_string())
    }

    fn sweep() -> impl Iterator<Item = Input> {
        sweep::inputs()
    }

    fn random(seed: u64) -> impl FnMut() -> Input {
        let mut random = Random::new(seed);
        move || random::input(&mut random)
    }

    fn check(input: &Input, counts: &mut Counts) -> Result<(), String> {
        let (refusal, entries) = check::check(input)?;
        let points = points(input, refusal, &entries);
        counts.iter_mut().zip(points).for_each(|(count, point)| *count += u64::from(point));
        Ok(())
    }

    fn smaller(input: &Input) -> impl Iterator<Item = Input> {
        input.smaller()
    }

    fn size(input: &Input) -> u64 {
        input.size()
    }

    fn print(all: &[Counts]) -> bool {
        let sums: Vec<u64> = (0..POINTS.len()).map(|point| all.iter().map(|counts| counts[point]).sum()).collect();
        POINTS.iter().zip(&sums).for_each(|(name, sum)| println!("  {name:46} {sum:>10}"));
        sums.iter().all(|&sum| sum > 0)
    }
}

/// Which points an input has, by its refusal and the bytes that were lent as entries.
fn points(input: &Input, refusal: u32, entries: &[u8]) -> [bool; POINTS.len()] {
    let taken = refusal == 0;
    let groups = if taken { groups(entries) } else { Vec::new() };
    let count = groups.len();
    let different = groups.iter().max().map_or(0, |last| last + 1);
    let apart = |kind| different > 1 && input.kind == kind;
    let repeated = different < count;
    let held_out_again = (0..count).any(|i| groups[i] % 5 == 4 && groups[..i].contains(&groups[i]));
    let back_at_the_end = groups.last().is_some_and(|last| last + 4000 < different);
    let stated = input.count as usize;
    let (fits_bytes, fits_sides) = (stated.checked_mul(ENTRY) == Some(input.bytes), stated == input.sides);
    let beside = |length: usize, more: isize, right: usize| right.checked_add_signed(more) == Some(length);
    let wrong = refusal == BUFFERS;
    [
        taken,
        refusal == COUNT,
        wrong,
        taken && count == 0,
        count == 1,
        count == MOST as usize - 1,
        count == MOST as usize,
        apart(Kind::Random),
        different > 1 && matches!(input.kind, Kind::OneByte(_)),
        apart(Kind::OneByte(0)),
        apart(Kind::OneByte(BODY - 1)),
        different > 1 && matches!(input.kind, Kind::TwoBytes(_)),
        different > 1 && matches!(input.kind, Kind::Staircase(_)),
        count >= 5 && !repeated,
        different > 1 && 4 * different <= count,
        repeated && input.captures != Captures::Same,
        held_out_again,
        back_at_the_end,
        refusal == COUNT && fits_bytes && fits_sides,
        refusal == COUNT && !(fits_bytes && fits_sides),
        wrong && fits_sides && beside(input.bytes, -1, stated * ENTRY),
        wrong && fits_sides && beside(input.bytes, 1, stated * ENTRY),
        wrong && fits_bytes && beside(input.sides, -1, stated),
        wrong && fits_bytes && beside(input.sides, 1, stated),
    ]
}

fn main() -> ExitCode {
    common::run::<Splitter>()
}
