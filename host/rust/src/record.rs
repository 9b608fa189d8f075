//! A record of a capture.
use crate::{Bank, Refusal, Tile, BANK_BYTES, TILE_BYTES};

/// A record of a capture: a tile with its mode, and the bank that was captured with it. (The records of a replay have another form, and
/// [`Bank::replay_record`] takes them as bytes.)
///
/// ```
/// use tulonkasa::{Bank, Record, Refusal};
///
/// let mut capture = vec![0; 2 * Record::BYTES - 1]; // a file, of which the second record is cut short
/// capture[..16].copy_from_slice(&[4, 1, 0, 0, 0, 0, 0, 0, 0, 1, 0, 0, 0, 2, 0, 1]);
/// capture[16..18].copy_from_slice(&[8, 9]);
///
/// let mut records = capture.chunks(Record::BYTES).map(Record::try_from);
/// let Record { tile, bank } = records.next().expect("a record")?;
/// assert_eq!((tile.fmt, tile.width, tile.height), (4, 2, 1));
/// assert_eq!(bank.key(&tile, 0)?.bytes[..3], [8, 9, 0]);
/// assert_eq!(records.next(), Some(Err(Refusal::Length)));
/// # Ok::<(), Refusal>(())
/// ```
#[derive(Clone, Debug, PartialEq, Eq)]
pub struct Record {
    /// The tile and its mode, whose numbers may be out of range.
    pub tile: Tile,
    /// The bank, of which no byte counts as written by a load.
    pub bank: Bank,
}

impl Record {
    /// The bytes of a record: the tile's, and the bank's.
    pub const BYTES: usize = TILE_BYTES + BANK_BYTES;
}

/// The record of its bytes.
impl From<&[u8; Record::BYTES]> for Record {
    fn from(bytes: &[u8; Record::BYTES]) -> Self {
        let tile = Tile::from(std::array::from_fn(|place| bytes[place]));
        let bank = Bank::from(std::array::from_fn(|place| bytes[TILE_BYTES + place]));
        Self { tile, bank }
    }
}

/// The record of its bytes. A slice of another length is refused by [`Refusal::Length`].
impl TryFrom<&[u8]> for Record {
    type Error = Refusal;

    fn try_from(bytes: &[u8]) -> Result<Self, Refusal> {
        <&[u8; Self::BYTES]>::try_from(bytes).map(Self::from).map_err(|_| Refusal::Length)
    }
}
