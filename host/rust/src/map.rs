//! Maps of bits: one for each address of a bank that a tile can reach, or for each slot of its palette.

/// A set of the numbers 0 to 8·N - 1. Number a is bit a mod 8 of byte a div 8.
#[derive(Clone, Copy, Debug, PartialEq, Eq)]
pub struct Map<const N: usize>(pub [u8; N]);

/// A mark for each address of a bank.
pub type AddressMap = Map<512>;

/// A mark for each slot of eight bytes of the palette.
pub type LaneMap = Map<32>;

impl<const N: usize> Default for Map<N> {
    fn default() -> Self {
        Self([0; N])
    }
}

impl<const N: usize> Map<N> {
    /// Whether `number` is marked. A number past the map is not.
    #[must_use]
    pub fn is_marked(&self, number: usize) -> bool {
        self.0.get(number / 8).is_some_and(|byte| byte >> (number % 8) & 1 == 1)
    }

    /// The marked numbers, rising.
    pub fn iter(&self) -> impl Iterator<Item = usize> + '_ {
        (0..8 * N).filter(|&number| self.is_marked(number))
    }

    /// How many numbers are marked.
    #[must_use]
    pub fn count(&self) -> usize {
        self.0.iter().map(|byte| byte.count_ones() as usize).sum()
    }
}
