//! What is compared at a time: a file to be read, or a picture to be written.
use std::fmt;
use tulonkasa::SIDE_MOST;

/// Sides of pictures to write: those where the count of digits changes, and the limits.
pub const SIDES: [u32; 14] =
    [0, 1, 2, 9, 10, 99, 100, 999, 1000, SIDE_MOST - 1, SIDE_MOST, SIDE_MOST + 1, 1 << 16, u32::MAX];

/// Pictures of more texels are left out of the sweep. A side at the limit by one of at most 16 is not more, whatever the limit.
pub const MANY: u32 = 16 * SIDE_MOST;

/// So many bytes of a file are printed.
const SHOWN: usize = 1000;

#[derive(Clone)]
pub enum Input {
    /// The file, and the length of the picture that is lent.
    Read { file: Vec<u8>, room: usize },
    /// The size, the length of the picture, whose bytes are the [`pattern`], and that of the file that is lent.
    Write { width: u32, height: u32, picture: usize, room: usize },
}

/// Bytes that look otherwise at every place.
pub fn pattern(count: usize) -> Vec<u8> {
    (1..=count as u32).map(|i| (i.wrapping_mul(0x9e37_79b1) >> 24) as u8).collect()
}

impl Input {
    /// How large its numbers are, to print the smallest of several.
    pub fn size(&self) -> u64 {
        match *self {
            Self::Read { ref file, room } => (file.len() + room) as u64,
            Self::Write { width, height, picture, room } => u64::from(width) + u64::from(height) + (picture + room) as u64,
        }
    }
}

impl fmt::Display for Input {
    fn fmt(&self, f: &mut fmt::Formatter<'_>) -> fmt::Result {
        match self {
            Self::Read { file, room } => {
                writeln!(f, "  reading a file of {} bytes to a picture of {room}", file.len())?;
                let (shown, rest) = file.split_at(file.len().min(SHOWN));
                write!(f, "  file: \"{}\"", shown.escape_ascii())?;
                if !rest.is_empty() {
                    write!(f, " and {} bytes more", rest.len())?;
                }
                Ok(())
            }
            Self::Write { width, height, picture, room } => {
                write!(f, "  writing {width} by {height} texels from a picture of {picture} bytes to a file of {room}")
            }
        }
    }
}
