//! Why a call was refused.
use std::fmt;

/// Why a call was refused. A refused call has changed nothing.
#[derive(Clone, Copy, Debug, PartialEq, Eq, Hash)]
#[non_exhaustive]
pub enum Refusal {
    /// 1: a bank, key, written record or map, or the reasons, have a wrong length. The calls of [`crate::slices`] can get it, and a
    /// [`crate::Bank`] or [`crate::Record`] of a slice; other calls on this crate's own types can't.
    Length,
    /// 2: a field of the tile is out of range, or a side of a picture is above [`crate::SIDE_MOST`].
    Tile,
    /// 3: mode or lane is above 3.
    ModeOrLane,
    /// 4: a number of the load or of the decoding of a source, or the source's length, is out of range.
    Load,
    /// 5: the mode does not accept this pair of format and size, or it has no linear reading.
    Pair,
    /// 6: the picture's buffer is shorter than 4 bytes a texel, or the file's than the file.
    Picture,
    /// 7: the trail's buffer is shorter than 2 bytes a read.
    Trail,
    /// 8: a replay's record has fewer than 48 bytes.
    Torn,
    /// 10: the kind of a capture's record is above 3.
    Kind,
    /// 11: the source of a capture's record goes beyond the companion file, or beyond the part of it that was lent.
    Beyond,
    /// 12: a picture to be written as a file has a zero side.
    ZeroSide,
    /// 13: a file's header breaks the PAM description. A zero side does.
    Header,
    /// 14: a file's depth, maximum or tuple type is another, or it has no tuple type.
    Tuples,
    /// 15: a file has fewer texel bytes than its header calls for.
    Texels,
    /// 16: the count of a split's entries is above [`crate::ENTRIES_MOST`].
    Count,
    /// 17: a split's entries are not [`crate::ENTRY_BYTES`] each, or its sides not one byte each. The call of [`crate::slices`] can
    /// get it, and an [`crate::Entry`] of a slice.
    Entries,
    /// 18: no number is left for a load: there were [`crate::LOADS_MOST`] since the bank was fresh.
    Number,
    /// 19: the reason of a rejected load is 0 or above [`crate::REASON_MOST`].
    Reason,
    /// A number that this crate has no name for.
    Other(u32),
}

impl Refusal {
    /// The refusal of a number; none for 0, success.
    #[must_use]
    pub fn from_number(number: u32) -> Option<Self> {
        Some(match number {
            0 => return None,
            1 => Self::Length,
            2 => Self::Tile,
            3 => Self::ModeOrLane,
            4 => Self::Load,
            5 => Self::Pair,
            6 => Self::Picture,
            7 => Self::Trail,
            8 => Self::Torn,
            10 => Self::Kind,
            11 => Self::Beyond,
            12 => Self::ZeroSide,
            13 => Self::Header,
            14 => Self::Tuples,
            15 => Self::Texels,
            16 => Self::Count,
            17 => Self::Entries,
            18 => Self::Number,
            19 => Self::Reason,
            other => Self::Other(other),
        })
    }

    /// Its number, as C programs see it.
    #[must_use]
    pub fn number(self) -> u32 {
        match self {
            Self::Length => 1,
            Self::Tile => 2,
            Self::ModeOrLane => 3,
            Self::Load => 4,
            Self::Pair => 5,
            Self::Picture => 6,
            Self::Trail => 7,
            Self::Torn => 8,
            Self::Kind => 10,
            Self::Beyond => 11,
            Self::ZeroSide => 12,
            Self::Header => 13,
            Self::Tuples => 14,
            Self::Texels => 15,
            Self::Count => 16,
            Self::Entries => 17,
            Self::Number => 18,
            Self::Reason => 19,
            Self::Other(number) => number,
        }
    }

    /// What it means, in words, for a message to people: those of `tk_refusal_text` in C. The words may get better; programs go by the
    /// refusal.
    ///
    /// ```
    /// use tulonkasa::Refusal;
    ///
    /// assert_eq!(Refusal::Count.words(), "there are more than 4,096 entries");
    /// assert_eq!(Refusal::Count.to_string(), "refusal 16: there are more than 4,096 entries");
    /// ```
    #[must_use]
    pub fn words(self) -> &'static str {
        match self {
            Self::Length => "a bank, key, written record or map, or the reasons, have a wrong length",
            Self::Tile => "a field of the tile is out of range, or a side of the picture",
            Self::ModeOrLane => "mode or lane is above 3",
            Self::Load => "a number of the load or decoding, or its source's length, is out of range",
            Self::Pair => "the mode does not accept this pair of format and size, or it has no linear reading",
            Self::Picture => "the buffer of the picture or of its file is too short",
            Self::Trail => "the trail's buffer is too short",
            Self::Torn => "a record has fewer than 48 bytes",
            Self::Kind => "the kind of the record is above 3",
            Self::Beyond => "the record's source goes beyond the companion file",
            Self::ZeroSide => "the picture has a zero side, which a file can't have",
            Self::Header => "the file's header breaks the PAM description",
            Self::Tuples => "the file's depth is not 4, its maximum not 255, or its tuple type not RGB_ALPHA",
            Self::Texels => "the file has fewer texel bytes than its header calls for",
            Self::Count => "there are more than 4,096 entries",
            Self::Entries => "the entries are not 4,117 bytes each, or the sides not one byte each",
            Self::Number => "there were 65,535 loads, and no number is left for another",
            Self::Reason => "the reason of a rejected load is not from 1 to 255",
            Self::Other(_) => "a refusal without a name",
        }
    }

    /// `value`, unless the number is a refusal's.
    pub(crate) fn check<T>(number: u32, value: T) -> Result<T, Self> {
        match Self::from_number(number) {
            None => Ok(value),
            Some(refusal) => Err(refusal),
        }
    }
}

impl fmt::Display for Refusal {
    fn fmt(&self, f: &mut fmt::Formatter<'_>) -> fmt::Result {
        write!(f, "refusal {}: {}", self.number(), self.words())
    }
}

impl std::error::Error for Refusal {}
