//! Random inputs by a seed.
use crate::input::{Captures, Input, Kind};
use crate::sweep::{PLACES, STRIDES};
use common::Random;
use split::{BODY, ENTRY, MOST};

pub fn input(random: &mut Random) -> Input {
    let size = size(random);
    let kind = kind(random);
    let right = Input {
        captures: random.pick(&[Captures::Same, Captures::Rising, Captures::Random]),
        seed: random.bits(),
        ..Input::new(kind, bodies(random, size))
    };
    if random.to(7) == 0 {
        wrong(random, right)
    } else {
        right
    }
}

/// How many entries: mostly few.
fn size(random: &mut Random) -> usize {
    match random.to(1023) {
        0 => MOST as usize,
        1 => MOST as usize - 1,
        2 => random.to(MOST as usize),
        3..=31 => random.to(600),
        _ => random.to(40),
    }
}

fn kind(random: &mut Random) -> Kind {
    let place = if random.to(1) == 0 { random.pick(&PLACES) } else { random.to(BODY - 1) };
    match random.to(3) {
        0 => Kind::Random,
        1 => Kind::OneByte(place),
        2 => Kind::TwoBytes(place.min(BODY - 2)),
        _ => Kind::Staircase(random.pick(&STRIDES)),
    }
}

/// All different, in either order; few groups; or each a new one or one of those before.
fn bodies(random: &mut Random, size: usize) -> Vec<u16> {
    let rising = 0..size as u16;
    match random.to(3) {
        0 => rising.collect(),
        1 => rising.rev().collect(),
        2 => {
            let groups = random.to(11);
            rising.map(|_| random.to(groups) as u16).collect()
        }
        _ => {
            let mut next = 0;
            let new = 1 + random.to(3);
            let mut body = |_| {
                let body = if next == 0 || random.to(3) < new { next } else { random.to(next - 1) };
                next += usize::from(body == next);
                body as u16
            };
            rising.map(&mut body).collect()
        }
    }
}

/// The input with another count, or with lengths that do not go with it.
fn wrong(random: &mut Random, right: Input) -> Input {
    let count = match random.to(3) {
        0 => MOST + 1 + random.to(3) as u32,
        1 => random.bits() as u32 >> random.to(31),
        _ => right.count,
    };
    let bytes = match random.to(5) {
        0 => right.bytes.saturating_sub(1),
        1 => right.bytes + 1,
        2 => right.bytes + ENTRY,
        3 => random.to(right.bytes),
        _ => right.bytes,
    };
    let sides = match random.to(5) {
        0 => right.sides.saturating_sub(1),
        1 => right.sides + 1,
        2 => random.to(right.sides),
        _ => right.sides,
    };
    Input { count, bytes, sides, ..right }
}
