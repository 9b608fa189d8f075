//! What a check says of an offered key.
use std::fmt;

/// What a check says of an offered key. Where it is not right, the address is the lowest one at which it is wrong; at every lower one it is
/// right. A byte is kept where the visible picture reads it, whatever the bank has there.
#[derive(Clone, Copy, Debug, PartialEq, Eq, Hash)]
pub enum Checked {
    /// It is the key.
    Right,
    /// The byte is kept and not zero in the bank, but zero in the offer.
    Missing { address: u16 },
    /// The byte is not kept, and the offer has not zero there.
    LeftOver { address: u16 },
    /// Any other difference: the byte is kept, and the offer has another one there, which is not zero.
    AnotherValue { address: u16 },
}

impl Checked {
    /// Whether the offer is the key.
    #[must_use]
    pub fn is_right(self) -> bool {
        self == Self::Right
    }

    /// The lowest wrong address; none of a right key.
    #[must_use]
    pub fn address(self) -> Option<u16> {
        match self {
            Self::Right => None,
            Self::Missing { address } | Self::LeftOver { address } | Self::AnotherValue { address } => Some(address),
        }
    }

    /// By the numbers of an answer that is not refused, whose address is below that of a bank's end.
    pub(crate) fn from_numbers(yes: u32, address: u32, wrong: u32) -> Self {
        let [_, _, high, low] = address.to_be_bytes();
        let address = u16::from_be_bytes([high, low]);
        match (yes, wrong) {
            (1, _) => Self::Right,
            (_, 1) => Self::Missing { address },
            (_, 2) => Self::LeftOver { address },
            _ => Self::AnotherValue { address },
        }
    }
}

impl fmt::Display for Checked {
    fn fmt(&self, f: &mut fmt::Formatter<'_>) -> fmt::Result {
        match self {
            Self::Right => f.write_str("right"),
            Self::Missing { address } => write!(f, "the byte at address {address} is missing"),
            Self::LeftOver { address } => write!(f, "the byte at address {address} is left over"),
            Self::AnotherValue { address } => write!(f, "the byte at address {address} has another value"),
        }
    }
}
