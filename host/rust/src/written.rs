//! Which load wrote which address of a bank.
use crate::BANK_BYTES;
use std::collections::BTreeMap;
use std::fmt;

/// The bytes of a written record: two an address.
pub const WRITTEN_BYTES: usize = 2 * BANK_BYTES;

/// So many loads have numbers: 1 to this.
pub const LOADS_MOST: u32 = 65535;

/// For every address of a bank the number of the last load that stored there. Loads are counted from 1 on since the bank was fresh;
/// one that stores nothing counts too, and a refused one does not. After [`LOADS_MOST`] loads a further one is refused.
#[derive(Clone, PartialEq, Eq)]
pub struct Written {
    pub(crate) bytes: [u8; WRITTEN_BYTES],
    pub(crate) last: u32,
}

/// The record of a fresh bank: no load, and no address written.
impl Default for Written {
    fn default() -> Self {
        Self { bytes: [0; WRITTEN_BYTES], last: 0 }
    }
}

/// The number of the last load, and those at the written addresses.
#[allow(clippy::missing_fields_in_debug, reason = "the bytes are those numbers")]
impl fmt::Debug for Written {
    fn fmt(&self, f: &mut fmt::Formatter<'_>) -> fmt::Result {
        let numbers: BTreeMap<_, _> = self.addresses().map(|address| (address, self.number_at(address))).collect();
        f.debug_struct("Written").field("last", &self.last).field("numbers", &numbers).finish()
    }
}

impl Written {
    /// The record of its bytes, two an address and high byte first, and the number of the last load: what a C program keeps, or what
    /// [`Written::into_parts`] gave. Nothing is asked of the two, nor that they fit together.
    ///
    /// ```
    /// use tulonkasa::Written;
    ///
    /// let mut bytes = [0; 8192];
    /// bytes[2 * 9 + 1] = 3;
    /// let written = Written::from_parts(bytes, 4);
    /// assert_eq!((written.number_at(9), written.last()), (3, 4));
    /// assert_eq!(written.into_parts(), (bytes, 4));
    /// ```
    #[must_use]
    pub fn from_parts(bytes: [u8; WRITTEN_BYTES], last: u32) -> Self {
        Self { bytes, last }
    }

    /// Its bytes, and the number of the last load.
    #[must_use]
    pub fn into_parts(self) -> ([u8; WRITTEN_BYTES], u32) {
        (self.bytes, self.last)
    }

    /// The number of the last load; 0 if there was none. It is also how many loads there were.
    #[must_use]
    pub fn last(&self) -> u32 {
        self.last
    }

    /// The number of the last load that stored at an address; 0 for none, and for an address past the bank.
    ///
    /// ```
    /// use tulonkasa::{Bank, Tile};
    ///
    /// let mut bank = Bank::new();
    /// let tile = Tile { siz: 2, ..Tile::default() };
    /// bank.load_block(&[], &tile, 2, 0, 2)?; // addresses 0 to 15
    /// bank.load_block(&[], &Tile { tmem_addr: 1, ..tile }, 2, 0, 1)?; // 8 to 15
    /// assert_eq!([7, 8, 15, 16].map(|address| bank.written().number_at(address)), [1, 2, 2, 0]);
    /// assert_eq!(bank.written().last(), 2);
    /// # Ok::<(), tulonkasa::Refusal>(())
    /// ```
    #[must_use]
    pub fn number_at(&self, address: usize) -> u32 {
        if address < BANK_BYTES {
            u16::from_be_bytes([self.bytes[2 * address], self.bytes[2 * address + 1]]).into()
        } else {
            0
        }
    }

    /// Whether a load stored at an address.
    #[must_use]
    pub fn is_written(&self, address: usize) -> bool {
        self.number_at(address) != 0
    }

    /// The addresses that a load stored at, rising.
    pub fn addresses(&self) -> impl Iterator<Item = usize> + '_ {
        (0..BANK_BYTES).filter(|&address| self.is_written(address))
    }

    /// The numbers at the addresses of a trail, read by read: which load each byte of a picture came from.
    ///
    /// ```
    /// use std::collections::BTreeSet;
    /// use tulonkasa::{Bank, Tile};
    ///
    /// let mut bank = Bank::new();
    /// let tile = Tile { fmt: 2, siz: 1, mode: 2, line: 1, width: 2, height: 1, ..Tile::default() };
    /// bank.load_tlut_hardware(&[0xf8, 0x01], &Tile { tmem_addr: 256, ..Tile::default() }, 2, 1, 1, 0)?; // entry 0
    /// bank.load_tile(&[0, 1], &tile, 1, 1, 1, 0)?; // the indices 0 and 1
    ///
    /// let trail = bank.sample_tile_observed(&tile, 0)?.trail;
    /// let numbers = bank.written().numbers_of(&trail);
    /// assert_eq!(numbers, [2, 1, 1, 2, 0, 0]); // of each texel the index and its entry; no load wrote entry 1
    /// assert_eq!(BTreeSet::from_iter(numbers), BTreeSet::from([0, 1, 2]));
    /// # Ok::<(), tulonkasa::Refusal>(())
    /// ```
    #[must_use]
    pub fn numbers_of(&self, trail: &[u16]) -> Vec<u32> {
        trail.iter().map(|&address| self.number_at(address.into())).collect()
    }

    /// The record as C programs have it: two bytes an address, high byte first.
    #[must_use]
    pub fn bytes(&self) -> &[u8; WRITTEN_BYTES] {
        &self.bytes
    }
}
