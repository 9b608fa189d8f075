//! Inputs by structure: bodies apart in every place, every way to group a few entries, staircases, the limits, and lengths beside the
//! right ones.
use crate::input::{Captures, Input, Kind};
use split::{BODY, ENTRY, MOST};

/// Entries are grouped in every way up to this many.
const FEW: usize = 8;

/// Steps from place to place: rising, falling, and jumping.
pub const STRIDES: [usize; 3] = [1, BODY - 1, 1000];

/// Places in a body: the ends, where tile, lane and key meet, and one in between.
pub const PLACES: [usize; 7] = [0, 7, 15, 16, 17, 2048, BODY - 1];

/// Every input of the sweep, in order.
pub fn inputs() -> impl Iterator<Item = Input> {
    places().chain(values()).chain(groupings()).chain(sizes()).chain(lengths()).chain(above())
}

/// Five bodies that differ in one byte at any place: the fifth is held out if all are told apart. Then some of them come again.
fn places() -> impl Iterator<Item = Input> {
    let lists = [[0, 1, 2, 3, 4, 3, 4, 0], [0, 0x80, 0x40, 0x20, 0x10, 0x20, 0x10, 0x80]];
    (0..BODY).flat_map(move |place| lists.map(|bodies| Input::new(Kind::OneByte(place), bodies.to_vec())))
}

/// Every value of one byte, up and down.
fn values() -> impl Iterator<Item = Input> {
    PLACES.into_iter().map(|place| Input::new(Kind::OneByte(place), (0..256).chain((0..256).rev()).collect()))
}

/// Every way to group up to a few entries, with bodies that differ much and little.
fn groupings() -> impl Iterator<Item = Input> {
    let kinds = [Kind::Random, Kind::OneByte(BODY - 1), Kind::Staircase(BODY - 1)];
    (0..=FEW).flat_map(partitions).flat_map(move |bodies| kinds.map(|kind| Input::new(kind, bodies.clone())))
}

/// Every list in which a number comes only after all smaller ones.
fn partitions(length: usize) -> Vec<Vec<u16>> {
    let longer = |list: Vec<u16>| {
        let next = list.iter().max().map_or(0, |most| most + 1);
        (0..=next).map(move |number| [&list[..], &[number]].concat())
    };
    (0..length).fold(vec![vec![]], |lists, _| lists.into_iter().flat_map(longer).collect())
}

/// Sizes at the ends and beside the limit, in each kind: all bodies different; few groups; half as many groups as entries, and then
/// all of them again; and all different but the last, which is the fifth again.
fn sizes() -> impl Iterator<Item = Input> {
    let sizes = [0, 1, 2, 5, 6, 100, MOST - 1, MOST].map(|size| size as u16);
    let kinds = [Kind::Random, Kind::TwoBytes(0), Kind::TwoBytes(BODY - 2)].into_iter();
    let kinds = kinds.chain(STRIDES.map(Kind::Staircase));
    kinds.flat_map(move |kind| {
        sizes.into_iter().flat_map(move |size| {
            let different = (0..size).collect();
            let few = (0..size).map(|i| i % 23).collect();
            let half = (0..size).map(|i| i % (size / 2).max(1)).collect();
            let fifth = (0..size).map(|i| if i + 1 == size { 4 } else { i }).collect();
            let captures = [Captures::Same, Captures::Rising, Captures::Random, Captures::Rising];
            let inputs = [different, few, half, fifth].into_iter().zip(captures);
            inputs.map(move |(bodies, captures)| Input { captures, ..Input::new(kind, bodies) })
        })
    })
}

/// Both lengths beside the right ones.
fn lengths() -> impl Iterator<Item = Input> {
    let bytes = [-(ENTRY as isize), -1, 0, 1, ENTRY as isize];
    [0, 1, 2, 5, 77, MOST - 1, MOST].into_iter().flat_map(move |size| {
        let right = Input::new(Kind::TwoBytes(0), (0..size as u16).collect());
        let pairs = bytes.into_iter().flat_map(|bytes| [-1, 0, 1].map(|sides| (bytes, sides)));
        pairs.map(move |(bytes, sides)| Input {
            bytes: right.bytes.saturating_add_signed(bytes),
            sides: right.sides.saturating_add_signed(sides),
            ..right.clone()
        })
    })
}

/// Counts above the limit: with the buffers that go with them, and with others, as where a count loses its high bits.
fn above() -> impl Iterator<Item = Input> {
    let fit = [MOST + 1, MOST + 2].map(|size| Input::new(Kind::TwoBytes(0), (0..size as u16).collect()));
    let highs = [1 << 12, 1 << 13, 1 << 16, 1 << 24, 1 << 31, u32::MAX - 3].into_iter();
    let others = highs.flat_map(|high| [1, 2, 3].map(|low| (high, low))).map(|(high, low)| {
        let right = Input::new(Kind::Random, (0..low as u16).collect());
        Input { count: high + low, ..right }
    });
    fit.into_iter().chain(others)
}
