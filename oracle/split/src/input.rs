//! What is compared at a time: entries, made by a rule, and the numbers and lengths that go with them.
use common::{shorter, smaller, Random};
use split::{BODY, ENTRY, NUMBER};
use std::fmt;

/// How the bodies of different numbers differ.
#[derive(Clone, Copy, Debug, PartialEq, Eq)]
pub enum Kind {
    /// In all bytes, at random.
    Random,
    /// In the byte at a place alone, by the number's low eight bits.
    OneByte(usize),
    /// In two bytes from a place on alone.
    TwoBytes(usize),
    /// Each in one place more than the one before. From place to place it is so many bytes, around the end.
    Staircase(usize),
}

/// The capture numbers of entries.
#[derive(Clone, Copy, Debug, PartialEq, Eq)]
pub enum Captures {
    Same,
    Rising,
    Random,
}

#[derive(Clone)]
pub struct Input {
    pub kind: Kind,
    /// The number of each entry's body.
    pub bodies: Vec<u16>,
    pub captures: Captures,
    pub seed: u64,
    /// The count that is stated, and the lengths that are lent.
    pub count: u32,
    pub bytes: usize,
    pub sides: usize,
}

/// So many of an input's body numbers are printed.
const SHOWN: usize = 100;

/// So many shorter lists of bodies are tried at a time. A long one fails mostly by its length, whatever is left out.
const TRIED: usize = 256;

impl Input {
    /// Entries of these bodies, with the count and the lengths that go with them.
    pub fn new(kind: Kind, bodies: Vec<u16>) -> Self {
        let length = bodies.len();
        let (count, bytes, sides) = (length as u32, length * ENTRY, length);
        Self { kind, bodies, captures: Captures::Rising, seed: 1, count, bytes, sides }
    }

    /// The entries' bytes as they are lent.
    pub fn entries(&self) -> Vec<u8> {
        let mut random = Random::new(self.seed);
        let base = random_bytes(&mut random);
        let mut entries = Vec::with_capacity(self.bytes);
        for (&body, capture) in self.bodies.iter().zip(0u32..) {
            let capture = match self.captures {
                Captures::Same => 7,
                Captures::Rising => capture,
                Captures::Random => random.bits() as u32,
            };
            entries.extend(capture.to_be_bytes());
            entries.extend(self.body(body, &base));
        }
        entries.resize(self.bytes, 0);
        entries
    }

    fn body(&self, number: u16, base: &[u8; BODY]) -> [u8; BODY] {
        let mut body = *base;
        match self.kind {
            Kind::Random => body = random_bytes(&mut Random::new(self.seed ^ u64::from(number) << 40)),
            Kind::OneByte(place) => body[place] ^= number as u8,
            Kind::TwoBytes(place) => {
                body[place] ^= (number >> 8) as u8;
                body[place + 1] ^= number as u8;
            }
            Kind::Staircase(stride) => (0..number.into()).for_each(|step: usize| body[step * stride % BODY] ^= 1),
        }
        body
    }

    /// Inputs with one thing smaller. What an entry left out takes with it is kept: its part of the count and of the lengths.
    pub fn smaller(&self) -> impl Iterator<Item = Self> + '_ {
        let lists = shorter(&self.bodies).take(TRIED).map(|bodies| {
            let fewer = self.bodies.len() - bodies.len();
            Self {
                bodies,
                count: self.count.saturating_sub(fewer as u32),
                bytes: self.bytes.saturating_sub(fewer * ENTRY),
                sides: self.sides.saturating_sub(fewer),
                ..self.clone()
            }
        });
        let counts = smaller(self.count as usize).map(|count| Self { count: count as u32, ..self.clone() });
        let bytes = smaller(self.bytes).map(|bytes| Self { bytes, ..self.clone() });
        let sides = smaller(self.sides).map(|sides| Self { sides, ..self.clone() });
        lists.chain(counts).chain(bytes).chain(sides)
    }

    /// How large its numbers are, to print the smallest of several.
    pub fn size(&self) -> u64 {
        (self.bodies.len() + self.bytes + self.sides) as u64 + u64::from(self.count)
    }
}

fn random_bytes(random: &mut Random) -> [u8; BODY] {
    let mut bytes = [0; BODY];
    for chunk in bytes.chunks_mut(8) {
        chunk.copy_from_slice(&random.bits().to_le_bytes()[..chunk.len()]);
    }
    bytes
}

impl fmt::Display for Input {
    fn fmt(&self, f: &mut fmt::Formatter<'_>) -> fmt::Result {
        let Self { kind, bodies, captures, seed, count, bytes, sides } = self;
        writeln!(
            f,
            "  count {count}, entries of {bytes} bytes ({ENTRY} each, {NUMBER} of them the capture number), {sides} sides"
        )?;
        writeln!(f, "  bodies differ by {kind:?}, capture numbers {captures:?}, seed {seed}")?;
        write!(f, "  {} bodies: {:?}", bodies.len(), &bodies[..bodies.len().min(SHOWN)])
    }
}
