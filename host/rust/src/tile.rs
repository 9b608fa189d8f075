//! The tile record, and the calls that need no bank.
use crate::{slices, AddressMap, Refusal};

/// The width and height of a tile or a picture are at most this.
pub const SIDE_MOST: u32 = 4096;

/// The bytes of a tile and its mode as a capture's record has them.
pub const TILE_BYTES: usize = 16;

/// A tile and its mode. The default is all zero: a tile at the bank's start, of no texels.
///
/// Every number can be written down; one out of range is refused by the call that it is given to.
#[derive(Clone, Copy, Debug, Default, PartialEq, Eq, Hash)]
pub struct Tile {
    /// Format, 0 to 7: 0 RGBA, 1 YUV, 2 indexed, 3 intensity and alpha, 4 intensity.
    pub fmt: u32,
    /// Size, 0 to 3: 4, 8, 16 or 32 bits a texel.
    pub siz: u32,
    /// Which sixteen palette entries a 4-bit index picks from, 0 to 15.
    pub palette: u32,
    /// 0 and 1: no palette. 2: a palette of RGBA 5/5/5/1. 3: a palette of intensity and alpha.
    pub mode: u32,
    /// Across: value 1 mirrors, value 2 clamps; 0 to 3.
    pub cms: u32,
    /// Down, as `cms`.
    pub cmt: u32,
    /// Across, the tile repeats every 2^masks texels; 0 for no repeating; 0 to 15.
    pub masks: u32,
    /// Down, as `masks`.
    pub maskt: u32,
    /// Words of eight bytes from one row to the next, 0 to 511.
    pub line: u32,
    /// The word of eight bytes at which the tile begins, 0 to 511.
    pub tmem_addr: u32,
    /// Texels across, 0 to [`SIDE_MOST`].
    pub width: u32,
    /// Texels down, 0 to [`SIDE_MOST`].
    pub height: u32,
}

/// Which picture a tile calls for, and the texels to allocate for it.
#[derive(Clone, Copy, Debug, PartialEq, Eq)]
pub struct Sampling {
    /// The tile calls for a lookup, not for a plain picture.
    pub lookup: bool,
    /// Texels across to allocate: 4,096 for a lookup, else the tile's width, at least 1.
    pub width: u32,
    /// Texels down to allocate: 4 for a lookup, else the tile's height, at least 1.
    pub height: u32,
}

/// The tile of a record's bytes, as [`Tile::from_bytes`] makes it.
impl From<[u8; TILE_BYTES]> for Tile {
    fn from(bytes: [u8; TILE_BYTES]) -> Self {
        Self::from_bytes(&bytes)
    }
}

impl Tile {
    /// The tile of a record's bytes: `fmt`, `siz`, `palette`, `mode`, `cms`, `cmt`, `masks` and `maskt`, a byte each; `line`,
    /// `tmem_addr`, `width` and `height`, two bytes each, big end first. Every record has a tile, whose numbers may be out of range.
    ///
    /// ```
    /// use tulonkasa::{Refusal, Tile};
    ///
    /// let tile = Tile::from_bytes(&[4, 1, 0, 0, 0, 0, 0, 0, 0, 1, 0, 0, 1, 0, 0, 32]);
    /// assert_eq!(tile, Tile { fmt: 4, siz: 1, line: 1, width: 256, height: 32, ..Tile::default() });
    /// assert_eq!(Tile::from_bytes(&[255; 16]).sampling(), Err(Refusal::Tile));
    /// ```
    #[must_use]
    pub fn from_bytes(bytes: &[u8; TILE_BYTES]) -> Self {
        let one = |place: usize| u32::from(bytes[place]);
        let two = |place: usize| u32::from(u16::from_be_bytes([bytes[place], bytes[place + 1]]));
        Self {
            fmt: one(0),
            siz: one(1),
            palette: one(2),
            mode: one(3),
            cms: one(4),
            cmt: one(5),
            masks: one(6),
            maskt: one(7),
            line: two(8),
            tmem_addr: two(10),
            width: two(12),
            height: two(14),
        }
    }

    /// The bytes from which [`Tile::from_bytes`] makes this tile, once its numbers are found in range.
    ///
    /// ```
    /// use tulonkasa::{Refusal, Tile};
    ///
    /// let tile = Tile { fmt: 4, siz: 1, line: 1, width: 256, height: 32, ..Tile::default() };
    /// assert_eq!(tile.to_bytes(), Ok([4, 1, 0, 0, 0, 0, 0, 0, 0, 1, 0, 0, 1, 0, 0, 32]));
    /// assert_eq!(Tile { fmt: 256, ..tile }.to_bytes(), Err(Refusal::Tile));
    /// ```
    ///
    /// # Errors
    ///
    /// [`Refusal::Tile`] or [`Refusal::ModeOrLane`].
    pub fn to_bytes(&self) -> Result<[u8; TILE_BYTES], Refusal> {
        self.sampling()?;
        let one = [self.fmt, self.siz, self.palette, self.mode, self.cms, self.cmt, self.masks, self.maskt];
        let two = [self.line, self.tmem_addr, self.width, self.height];
        let mut bytes = [0; TILE_BYTES];
        bytes[..8].copy_from_slice(&one.map(|number| number.to_be_bytes()[3]));
        bytes[8..].copy_from_slice(two.map(|number| [number.to_be_bytes()[2], number.to_be_bytes()[3]]).as_flattened());
        Ok(bytes)
    }

    /// Which picture the tile calls for.
    ///
    /// ```
    /// use tulonkasa::Tile;
    ///
    /// let tile = Tile { width: 16, height: 1, masks: 5, ..Tile::default() };
    /// let sampling = tile.sampling()?;
    /// assert!(sampling.lookup);
    /// assert_eq!((sampling.width, sampling.height), (4096, 4));
    /// # Ok::<(), tulonkasa::Refusal>(())
    /// ```
    ///
    /// # Errors
    ///
    /// [`Refusal::Tile`] or [`Refusal::ModeOrLane`].
    pub fn sampling(&self) -> Result<Sampling, Refusal> {
        slices::sampling(self)
    }

    /// The addresses that the tile can reach.
    ///
    /// ```
    /// use tulonkasa::Tile;
    ///
    /// let tile = Tile { fmt: 4, siz: 1, tmem_addr: 2, width: 3, height: 1, ..Tile::default() };
    /// assert_eq!(tile.reach()?.iter().collect::<Vec<_>>(), [16, 17, 18]);
    /// # Ok::<(), tulonkasa::Refusal>(())
    /// ```
    ///
    /// # Errors
    ///
    /// [`Refusal::Tile`] or [`Refusal::ModeOrLane`].
    pub fn reach(&self) -> Result<AddressMap, Refusal> {
        let mut map = AddressMap::default();
        slices::reach(self, &mut map.0)?;
        Ok(map)
    }

    /// Decodes a source straight to a picture, without a bank: `width` by `height` texels of four bytes, the source's rows `stride` bytes
    /// apart, and zeros past its end. Every pair that mode 0 accepts has such a reading but (2,3); an indexed texel is the index itself. Of
    /// the tile it takes `fmt`, `siz`, `palette`, `width` and `height`; `include/tulonkasa.h` says which bytes a texel takes.
    ///
    /// What goes in comes out: it is the picture that [`Bank::sample_tile`](crate::Bank::sample_tile) makes in mode 0 or 1 after
    /// [`Bank::load_tile`](crate::Bank::load_tile) of the same source and stride into any bank, where the image has the tile's size, the
    /// load has `height` rows, at most 256, of as many words as the width needs, a row fits the line, and all lines are inside the bank.
    ///
    /// ```
    /// use tulonkasa::{Bank, Refusal, Tile};
    ///
    /// let tile = Tile { fmt: 0, siz: 3, line: 1, width: 1, height: 2, ..Tile::default() };
    /// let source = [255, 0, 0, 255, 0, 0, 255, 128];
    /// assert_eq!(tile.decode_linear(&source, 4)?, source);
    ///
    /// let mut bank = Bank::from([7; 4096]);
    /// bank.load_tile(&source, &tile, 3, 2, 1, 4)?;
    /// assert_eq!(bank.sample_tile(&tile, 0)?, source);
    ///
    /// assert_eq!(Tile { fmt: 2, ..tile }.decode_linear(&source, 4), Err(Refusal::Pair));
    /// # Ok::<(), Refusal>(())
    /// ```
    ///
    /// # Errors
    ///
    /// [`Refusal::Tile`], [`Refusal::Load`] (the stride, or a source of more than 65,536 bytes) or [`Refusal::Pair`].
    pub fn decode_linear(&self, source: &[u8], stride: u32) -> Result<Vec<u8>, Refusal> {
        // A side past the limit is refused, whatever is lent.
        let texels = self.width.min(SIDE_MOST) as usize * self.height.min(SIDE_MOST) as usize;
        let mut picture = vec![0; 4 * texels];
        slices::decode_linear(source, self, stride, &mut picture)?;
        Ok(picture)
    }

    /// The texels of the tile's plain picture, once its numbers are found in range.
    pub(crate) fn texels(&self) -> Result<usize, Refusal> {
        self.sampling()?;
        Ok(self.width as usize * self.height as usize)
    }
}
