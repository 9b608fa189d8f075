//! Captures on two sides, tuning and held out, by their keys.
use crate::{slices, Key, Refusal, Tile, BANK_BYTES, TILE_BYTES};
use std::fmt;

/// The bytes of an entry.
pub const ENTRY_BYTES: usize = KEY_AT + BANK_BYTES;

/// A split has at most this many entries.
pub const ENTRIES_MOST: usize = 4096;

/// Where the parts of an entry begin. The capture number is in front of them.
const BODY_AT: usize = 4;
const LANE_AT: usize = BODY_AT + TILE_BYTES;
const KEY_AT: usize = LANE_AT + 1;

/// What [`split`] takes of a capture: its number, and the tile, the lane and the key of its picture. Entries that agree in all but
/// the number are a group.
///
/// ```
/// use tulonkasa::{Bank, Entry, Tile};
///
/// let tile = Tile { fmt: 4, siz: 1, width: 2, height: 1, ..Tile::default() };
/// let entry = Entry::new(7, &tile, 0, &Bank::from([9; 4096]).key(&tile, 0)?)?;
/// assert_eq!(entry.capture(), 7);
/// assert_eq!(entry.body()[..2], [4, 1]); // fmt and siz
/// assert_eq!(entry.body()[16..20], [0, 9, 9, 0]); // the lane, and the key's first bytes
/// assert_eq!((entry.tile(), entry.lane(), entry.key()[..3].to_vec()), (tile, 0, vec![9, 9, 0]));
/// # Ok::<(), tulonkasa::Refusal>(())
/// ```
#[derive(Clone, PartialEq, Eq, Hash)]
#[repr(transparent)]
pub struct Entry([u8; ENTRY_BYTES]);

/// An entry of these bytes, which may be any.
impl From<[u8; ENTRY_BYTES]> for Entry {
    fn from(bytes: [u8; ENTRY_BYTES]) -> Self {
        Self(bytes)
    }
}

/// An entry of these bytes, which may be any. A slice of another length is refused by [`Refusal::Entries`].
///
/// ```
/// use tulonkasa::{Entry, Refusal, ENTRY_BYTES};
///
/// let file = vec![7; 2 * ENTRY_BYTES];
/// assert!(file.chunks(ENTRY_BYTES).map(Entry::try_from).all(|entry| entry.is_ok()));
/// assert_eq!(Entry::try_from(&file[..]), Err(Refusal::Entries));
/// ```
impl TryFrom<&[u8]> for Entry {
    type Error = Refusal;

    fn try_from(bytes: &[u8]) -> Result<Self, Refusal> {
        <[u8; ENTRY_BYTES]>::try_from(bytes).map(Self).map_err(|_| Refusal::Entries)
    }
}

impl Entry {
    /// The entry of a capture. The key is the one that [`crate::Bank::key`] cut for this tile and lane.
    ///
    /// # Errors
    ///
    /// [`Refusal::Tile`] or [`Refusal::ModeOrLane`].
    pub fn new(capture: u32, tile: &Tile, lane: u32, key: &Key) -> Result<Self, Refusal> {
        let tile = tile.to_bytes()?;
        let Ok(lane @ 0..=3) = u8::try_from(lane) else { return Err(Refusal::ModeOrLane) };
        let mut bytes = [0; ENTRY_BYTES];
        bytes[..BODY_AT].copy_from_slice(&capture.to_be_bytes());
        bytes[BODY_AT..LANE_AT].copy_from_slice(&tile);
        bytes[LANE_AT] = lane;
        bytes[KEY_AT..].copy_from_slice(&key.bytes);
        Ok(Self(bytes))
    }

    /// Its bytes: four of the capture number, big end first, and then the body.
    #[must_use]
    pub fn bytes(&self) -> &[u8; ENTRY_BYTES] {
        &self.0
    }

    /// The number of its capture, which does not matter to a split.
    #[must_use]
    pub fn capture(&self) -> u32 {
        u32::from_be_bytes([self.0[0], self.0[1], self.0[2], self.0[3]])
    }

    /// Its tile and mode, whose numbers may be out of range.
    #[must_use]
    pub fn tile(&self) -> Tile {
        Tile::from(std::array::from_fn(|place| self.0[BODY_AT + place]))
    }

    /// Its lane, which may be out of range.
    #[must_use]
    pub fn lane(&self) -> u32 {
        self.0[LANE_AT].into()
    }

    /// Its key, which may be any bytes.
    #[must_use]
    #[allow(clippy::missing_panics_doc, reason = "an entry is longer than a key")]
    pub fn key(&self) -> &[u8; BANK_BYTES] {
        self.0.last_chunk().expect("a key's bytes")
    }

    /// What entries of one group have in common: the tile's sixteen bytes, the lane's one, and the key.
    #[must_use]
    pub fn body(&self) -> &[u8] {
        &self.0[BODY_AT..]
    }
}

impl fmt::Debug for Entry {
    fn fmt(&self, f: &mut fmt::Formatter<'_>) -> fmt::Result {
        write!(f, "Entry of capture {}", self.capture())
    }
}

/// The side of an entry.
#[derive(Clone, Copy, Debug, PartialEq, Eq, Hash)]
pub enum Side {
    Tuning,
    HeldOut,
}

impl fmt::Display for Side {
    fn fmt(&self, f: &mut fmt::Formatter<'_>) -> fmt::Result {
        f.write_str(match self {
            Self::Tuning => "tuning",
            Self::HeldOut => "held out",
        })
    }
}

/// How many entries are on each side. They add up to the number of entries.
#[derive(Clone, Copy, Debug, Default, PartialEq, Eq)]
pub struct Totals {
    /// Entries for tuning.
    pub tuning: u32,
    /// Entries that are held out.
    pub held_out: u32,
}

/// Entries on two sides.
#[derive(Clone, Debug, PartialEq, Eq)]
pub struct Split {
    /// The side of each entry, in their order.
    pub sides: Vec<Side>,
    /// How many entries are on each side.
    pub totals: Totals,
}

/// Puts entries on two sides. Entries with equal bodies are a group, and groups take turns in the order of their first entries: of
/// every five the fifth is held out, and the others are for tuning.
///
/// So captures whose tile, lane and key agree are always on one side. A further entry of a group takes no turn. A side never depends
/// on later entries: with more entries behind, these keep their sides. One wall captured at two widths is two groups, though it may
/// have one key, because its tiles differ. More than [`ENTRIES_MOST`] entries are refused.
///
/// ```
/// use tulonkasa::{split, Bank, Entry, Side, Tile};
///
/// let tile = Tile { fmt: 4, siz: 1, width: 1, height: 1, ..Tile::default() };
/// let capture = |number, seen, leftover| {
///     let mut bank = Bank::new();
///     bank.bytes_mut()[..2].copy_from_slice(&[seen, leftover]);
///     Entry::new(number, &tile, 0, &bank.key(&tile, 0)?)
/// };
/// let entries = [
///     capture(0, 10, 0)?,
///     capture(1, 11, 0)?,
///     capture(2, 10, 1)?, // the first again, but for a leftover byte
///     capture(3, 12, 0)?,
///     capture(4, 13, 0)?,
///     capture(5, 14, 0)?, // of the fifth group
///     capture(6, 15, 0)?,
///     capture(7, 14, 1)?, // of the fifth group, too
/// ];
/// let split = split(&entries)?;
/// assert_eq!((split.totals.tuning, split.totals.held_out), (6, 2));
/// assert_eq!((split.sides[4], split.sides[5]), (Side::Tuning, Side::HeldOut));
/// assert_eq!(split.sides[7].to_string(), "held out");
/// # Ok::<(), tulonkasa::Refusal>(())
/// ```
///
/// # Errors
///
/// [`Refusal::Count`].
pub fn split(entries: &[Entry]) -> Result<Split, Refusal> {
    // No count above 32 bits is taken, and neither is the largest of them.
    let count = u32::try_from(entries.len()).unwrap_or(u32::MAX);
    let mut sides = vec![0; entries.len()];
    let totals = slices::split(count, slices::entry_bytes(entries), &mut sides)?;
    let sides = sides.iter().map(|&side| if side == 1 { Side::HeldOut } else { Side::Tuning }).collect();
    Ok(Split { sides, totals })
}
