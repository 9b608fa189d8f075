//! The bank, and the calls on it.
use crate::{slices, Checked, LaneMap, Picture, Refusal, Sampling, Tile, Written};

/// The bytes of a bank, and of a key.
pub const BANK_BYTES: usize = 4096;

/// The texels of a lookup.
pub const LOOKUP_TEXELS: usize = 16384;

/// The bytes of the reasons of rejected loads: one an address.
pub const REASON_BYTES: usize = BANK_BYTES;

/// A rejected load has a reason from 1 to this.
pub const REASON_MOST: u32 = 255;

/// A texel reads at most this many bytes of the bank.
const TEXEL_READS_MOST: usize = 4;

/// Texture memory: 4,096 bytes, the record of which load wrote each of them, and the reasons of those whose source was rejected.
#[derive(Clone, Debug, PartialEq, Eq)]
pub struct Bank {
    bytes: [u8; BANK_BYTES],
    written: Written,
    reasons: [u8; REASON_BYTES],
}

/// What a load did.
#[derive(Clone, Copy, Debug, PartialEq, Eq)]
pub struct Loaded {
    /// How often it stored a byte.
    pub count: u32,
    /// How many of the stored bytes the source did not have: zeros in place of bytes at or past its end. At 0 every stored byte
    /// came from the source; above 0 the load asks for more than the source has, as where a capture cut it short. A byte that is
    /// stored several times over, as a palette's are, counts each time. Never above `count`.
    pub made_up: u32,
    /// Its number, counted from 1 on since the bank was fresh. It stands at each address that it stored at, until a later load
    /// stores there ([`Bank::written`]).
    pub number: u32,
}

/// A picture with the addresses that were read for it, in order.
#[derive(Clone, Debug, PartialEq, Eq)]
pub struct Observed {
    /// Four bytes a texel: red, green, blue, alpha.
    pub picture: Vec<u8>,
    /// The addresses.
    pub trail: Vec<u16>,
}

/// The bytes of a bank that a visible picture reads, and no others. [`Bank::key`] says what is visible.
#[derive(Clone, Debug, PartialEq, Eq, Hash)]
pub struct Key {
    /// The bank with each byte kept that the visible picture reads, and all others zero.
    pub bytes: [u8; BANK_BYTES],
    /// How many bytes were kept, those that are zero among them.
    pub kept: u32,
}

impl Default for Bank {
    fn default() -> Self {
        Self::from([0; BANK_BYTES])
    }
}

/// A bank of these bytes, none written by a load, and none with a reason.
impl From<[u8; BANK_BYTES]> for Bank {
    fn from(bytes: [u8; BANK_BYTES]) -> Self {
        Self { bytes, written: Written::default(), reasons: [0; REASON_BYTES] }
    }
}

/// A bank of these bytes, none written by a load, and none with a reason. A slice of another length is refused by [`Refusal::Length`].
///
/// ```
/// use tulonkasa::{Bank, Refusal};
///
/// let file = vec![7; 5000];
/// assert_eq!(Bank::try_from(&file[..4096])?, Bank::from([7; 4096]));
/// assert_eq!(Bank::try_from(&file[..]), Err(Refusal::Length));
/// # Ok::<(), Refusal>(())
/// ```
impl TryFrom<&[u8]> for Bank {
    type Error = Refusal;

    fn try_from(bytes: &[u8]) -> Result<Self, Refusal> {
        <[u8; BANK_BYTES]>::try_from(bytes).map(Self::from).map_err(|_| Refusal::Length)
    }
}

impl Bank {
    /// A fresh bank: all zero, and nothing written by a load.
    #[must_use]
    pub fn new() -> Self {
        Self::default()
    }

    /// A bank of its bytes, the record of which load wrote each of them, and the reasons of rejected loads: what a C program keeps, or
    /// what [`Bank::into_parts`] gave. Nothing is asked of the three, nor that they fit together.
    ///
    /// ```
    /// use tulonkasa::{Bank, Tile};
    ///
    /// let mut bank = Bank::new();
    /// let tile = Tile { siz: 2, ..Tile::default() };
    /// bank.reject_block(&[0xf8, 0x01], &tile, 2, 0, 1, 7)?;
    ///
    /// let (bytes, written, reasons) = bank.into_parts(); // to a file, say, and from it
    /// let mut bank = Bank::from_parts(bytes, written, reasons);
    /// assert_eq!((bank.bytes()[0], bank.written().number_at(7), bank.reasons()[7]), (0xf8, 1, 7));
    /// assert_eq!(bank.load_block(&[], &tile, 2, 0, 1)?.number, 2); // numbers go on
    /// # Ok::<(), tulonkasa::Refusal>(())
    /// ```
    #[must_use]
    pub fn from_parts(bytes: [u8; BANK_BYTES], written: Written, reasons: [u8; REASON_BYTES]) -> Self {
        Self { bytes, written, reasons }
    }

    /// Its bytes, the record of which load wrote each of them, and the reasons of rejected loads.
    #[must_use]
    pub fn into_parts(self) -> ([u8; BANK_BYTES], Written, [u8; REASON_BYTES]) {
        (self.bytes, self.written, self.reasons)
    }

    /// Its bytes.
    #[must_use]
    pub fn bytes(&self) -> &[u8; BANK_BYTES] {
        &self.bytes
    }

    /// Its bytes, to be changed by hand. The record of what loads wrote, and their reasons, stay as they are.
    pub fn bytes_mut(&mut self) -> &mut [u8; BANK_BYTES] {
        &mut self.bytes
    }

    /// Which load wrote each byte: the number of the last one that stored there.
    #[must_use]
    pub fn written(&self) -> &Written {
        &self.written
    }

    /// Why the source of each byte was rejected: for each address the reason of the last load that stored there, 0 if that was not
    /// rejected, or none was.
    #[must_use]
    pub fn reasons(&self) -> &[u8; REASON_BYTES] {
        &self.reasons
    }
}

/// Declares loads of a bank, each by the call of its name in [`slices`].
macro_rules! loads {
    ($($(#[$about:meta])* fn $name:ident($($number:ident),*);)*) => {
        impl Bank {
            $(
                $(#[$about])*
                ///
                /// # Errors
                ///
                /// [`Refusal::Tile`] or [`Refusal::Load`] where a number is out of range, [`Refusal::Reason`] where the reason of a
                /// rejected load is, and [`Refusal::Number`] after [`LOADS_MOST`](crate::LOADS_MOST) loads.
                #[allow(clippy::too_many_arguments, reason = "a load of the console has so many numbers")]
                pub fn $name(
                    &mut self,
                    source: &[u8],
                    tile: &Tile,
                    image_siz: u32,
                    $($number: u32),*
                ) -> Result<Loaded, Refusal> {
                    let Self { bytes, written: Written { bytes: written, last }, reasons } = self;
                    slices::$name(bytes, written, reasons, source, tile, image_siz, $($number,)* last)
                }
            )*
        }
    };
}

loads! {
    /// Loads a block of `words` words of eight bytes. Of the tile it takes `fmt`, `siz`, `line` and `tmem_addr`. The source is read
    /// as zero past its end, and the answer says how many of these zeros were stored, and the load's number.
    ///
    /// ```
    /// use tulonkasa::{Bank, Loaded, Tile};
    ///
    /// let mut bank = Bank::new();
    /// let tile = Tile { fmt: 0, siz: 3, ..Tile::default() };
    /// let whole = bank.load_block(&[0, 1, 2, 3, 4, 5, 6, 7], &tile, 3, 0, 1)?;
    /// assert_eq!(whole, Loaded { count: 8, made_up: 0, number: 1 });
    /// assert_eq!(bank.bytes()[..4], [0, 1, 4, 5]);
    /// assert_eq!(bank.bytes()[2048..2052], [2, 3, 6, 7]);
    ///
    /// let cut = bank.load_block(&[0, 1, 2, 3, 4], &tile, 3, 0, 1)?;
    /// assert_eq!(cut, Loaded { count: 8, made_up: 3, number: 2 });
    /// # Ok::<(), tulonkasa::Refusal>(())
    /// ```
    fn load_block(dxt, words);

    /// Loads `rows` rows of `words` words each, `stride` source bytes apart.
    ///
    /// ```
    /// use tulonkasa::{Bank, Tile};
    ///
    /// let mut bank = Bank::new();
    /// let tile = Tile { siz: 2, line: 1, ..Tile::default() };
    /// let source: Vec<u8> = (0..16).collect();
    /// assert_eq!(bank.load_tile(&source, &tile, 2, 2, 1, 8)?.count, 16);
    /// assert_eq!(bank.bytes()[8..16], [12, 13, 14, 15, 8, 9, 10, 11]); // odd rows swap their halves
    /// # Ok::<(), tulonkasa::Refusal>(())
    /// ```
    fn load_tile(rows, words, stride);

    /// Loads a palette as the console's own load command does: `count` entries, in one row, of an image of size 1, 2 or 3. Any other
    /// `rows` and `image_siz` are refused by [`Refusal::Load`]; for those there is [`Bank::load_tlut_rows`]. `stride` has no effect.
    ///
    /// ```
    /// use tulonkasa::{Bank, Tile};
    ///
    /// let mut bank = Bank::new();
    /// let tile = Tile { tmem_addr: 256, ..Tile::default() };
    /// bank.load_tlut_hardware(&[0xab, 0xcd], &tile, 2, 1, 1, 0)?;
    /// assert_eq!(bank.bytes()[2048..2056], [0xab, 0xcd, 0xab, 0xcd, 0xab, 0xcd, 0xab, 0xcd]);
    /// # Ok::<(), tulonkasa::Refusal>(())
    /// ```
    fn load_tlut_hardware(count, rows, stride);

    /// Loads a palette of `rows` rows of `count` entries, `stride` source bytes apart: the defined extension, for several rows or an
    /// image of size 0. A title that needs it does something that the hardware's single load does not do, and so has stitched its
    /// palette from rows. `image_siz` has no effect.
    ///
    /// Which of the two a title used:
    ///
    /// ```
    /// use tulonkasa::{Bank, Refusal, Tile};
    ///
    /// let mut bank = Bank::new();
    /// let tile = Tile { line: 1, tmem_addr: 256, ..Tile::default() };
    /// let source = [0xf8, 0x01, 0x07, 0xc1]; // red and green
    ///
    /// // Two entries in one row: the hardware does it.
    /// assert_eq!(bank.load_tlut_hardware(&source, &tile, 2, 2, 1, 0)?.count, 16);
    ///
    /// // One entry in each of two rows: the hardware does not, and the palette was stitched.
    /// assert_eq!(bank.load_tlut_hardware(&source, &tile, 2, 1, 2, 2), Err(Refusal::Load));
    /// assert_eq!(bank.load_tlut_rows(&source, &tile, 2, 1, 2, 2)?.count, 16);
    /// assert_eq!(bank.bytes()[2080..2082], [0x07, 0xc1]); // rows stand 32 bytes apart for a line of 1
    /// # Ok::<(), Refusal>(())
    /// ```
    fn load_tlut_rows(count, rows, stride);

    /// Loads a block as [`Bank::load_block`] does, of a source that the capture rig rejected, and leaves the reason, 1 to
    /// [`REASON_MOST`], at each address where it stores. It stays there until another load stores; [`Bank::rejection`] asks for it. What
    /// a reason means is the caller's affair.
    ///
    /// ```
    /// use tulonkasa::{Bank, Refusal, Tile};
    ///
    /// let mut bank = Bank::new();
    /// let tile = Tile { siz: 2, ..Tile::default() };
    /// let rejected = bank.reject_block(&[0xf8, 0x01], &tile, 2, 0, 1, 7)?; // addresses 0 to 7
    /// assert_eq!((rejected.count, rejected.number), (8, 1));
    /// assert_eq!((bank.bytes()[0], bank.reasons()[7], bank.reasons()[8]), (0xf8, 7, 0));
    ///
    /// bank.load_block(&[0xf8, 0x01], &tile, 2, 0, 1)?; // the same bytes, and nothing is wrong with them
    /// assert_eq!(bank.reasons()[7], 0);
    ///
    /// assert_eq!(bank.reject_block(&[], &tile, 2, 0, 1, 0), Err(Refusal::Reason));
    /// # Ok::<(), Refusal>(())
    /// ```
    fn reject_block(dxt, words, reason);

    /// Loads rows as [`Bank::load_tile`] does, of a rejected source, and leaves the reason as [`Bank::reject_block`] does.
    fn reject_tile(rows, words, stride, reason);

    /// Loads a palette as [`Bank::load_tlut_hardware`] does, of a rejected source, and leaves the reason as [`Bank::reject_block`] does.
    fn reject_tlut_hardware(count, rows, stride, reason);

    /// Loads a palette as [`Bank::load_tlut_rows`] does, of a rejected source, and leaves the reason as [`Bank::reject_block`] does.
    fn reject_tlut_rows(count, rows, stride, reason);
}

impl Bank {
    /// The tile's plain picture: `width` by `height` texels of four bytes.
    ///
    /// ```
    /// use tulonkasa::{Bank, Tile};
    ///
    /// let mut bank = Bank::new();
    /// bank.bytes_mut()[..2].copy_from_slice(&[0xf8, 0x01]);
    /// let tile = Tile { fmt: 0, siz: 2, width: 1, height: 1, ..Tile::default() };
    /// assert_eq!(bank.sample_tile(&tile, 0)?, [255, 0, 0, 255]);
    /// # Ok::<(), tulonkasa::Refusal>(())
    /// ```
    ///
    /// # Errors
    ///
    /// [`Refusal::Tile`], [`Refusal::ModeOrLane`] or [`Refusal::Pair`].
    pub fn sample_tile(&self, tile: &Tile, lane: u32) -> Result<Vec<u8>, Refusal> {
        let mut picture = vec![0; 4 * tile.texels()?];
        self.sample_tile_into(tile, lane, &mut picture)?;
        Ok(picture)
    }

    /// The plain picture with its size, as it is written to a file.
    ///
    /// ```
    /// use tulonkasa::{Bank, Tile};
    ///
    /// let tile = Tile { fmt: 4, siz: 1, line: 1, width: 2, height: 3, ..Tile::default() };
    /// let picture = Bank::from([9; 4096]).picture(&tile, 0)?;
    /// assert_eq!((picture.width, picture.height), (2, 3));
    /// assert_eq!(picture.texels, [9; 4 * 2 * 3]);
    /// assert_eq!(picture.to_pam()?.len(), 65 + 4 * 2 * 3);
    /// # Ok::<(), tulonkasa::Refusal>(())
    /// ```
    ///
    /// # Errors
    ///
    /// [`Refusal::Tile`], [`Refusal::ModeOrLane`] or [`Refusal::Pair`].
    pub fn picture(&self, tile: &Tile, lane: u32) -> Result<Picture, Refusal> {
        let texels = self.sample_tile(tile, lane)?;
        Ok(Picture { width: tile.width, height: tile.height, texels })
    }

    /// The picture that the tile calls for, as [`Tile::sampling`] says it: the plain one, or the lookup, which is 4,096 by 4. It is the one
    /// whose visible part [`Bank::key`] is for.
    ///
    /// ```
    /// use tulonkasa::{Bank, Tile};
    ///
    /// let bank = Bank::from([9; 4096]);
    /// let plain = Tile { fmt: 4, siz: 1, line: 1, width: 2, height: 3, ..Tile::default() };
    /// assert_eq!(bank.picture_called_for(&plain, 0)?, bank.picture(&plain, 0)?);
    ///
    /// let lookup = bank.picture_called_for(&Tile { masks: 5, ..plain }, 0)?; // repeats after 32 texels, and is 2 wide
    /// assert_eq!((lookup.width, lookup.height), (4096, 4));
    /// # Ok::<(), tulonkasa::Refusal>(())
    /// ```
    ///
    /// # Errors
    ///
    /// [`Refusal::Tile`], [`Refusal::ModeOrLane`] or [`Refusal::Pair`].
    pub fn picture_called_for(&self, tile: &Tile, lane: u32) -> Result<Picture, Refusal> {
        let Sampling { lookup, width, height } = tile.sampling()?;
        if lookup {
            let texels = self.sampling_lookup(tile, lane)?;
            Ok(Picture { width, height, texels })
        } else {
            self.picture(tile, lane)
        }
    }

    /// The plain picture into a lent buffer, whose surplus stays as it is. Answers the count of reads.
    ///
    /// # Errors
    ///
    /// [`Refusal::Tile`], [`Refusal::ModeOrLane`] or [`Refusal::Pair`], and [`Refusal::Picture`] for a buffer that is too short.
    pub fn sample_tile_into(&self, tile: &Tile, lane: u32, picture: &mut [u8]) -> Result<u32, Refusal> {
        slices::sample_tile(&self.bytes, tile, lane, picture)
    }

    /// The plain picture, with the addresses that were read.
    ///
    /// ```
    /// use tulonkasa::{Bank, Tile};
    ///
    /// let tile = Tile { fmt: 0, siz: 3, width: 1, height: 1, ..Tile::default() };
    /// assert_eq!(Bank::new().sample_tile_observed(&tile, 0)?.trail, [0, 1, 2048, 2049]);
    /// # Ok::<(), tulonkasa::Refusal>(())
    /// ```
    ///
    /// # Errors
    ///
    /// [`Refusal::Tile`], [`Refusal::ModeOrLane`] or [`Refusal::Pair`].
    pub fn sample_tile_observed(&self, tile: &Tile, lane: u32) -> Result<Observed, Refusal> {
        Observed::fill(tile.texels()?, |picture, trail| {
            slices::sample_tile_observed(&self.bytes, tile, lane, picture, trail)
        })
    }

    /// The tile's lookup: [`LOOKUP_TEXELS`] texels of four bytes, one for each place of the bank.
    ///
    /// # Errors
    ///
    /// [`Refusal::Tile`], [`Refusal::ModeOrLane`] or [`Refusal::Pair`].
    pub fn sampling_lookup(&self, tile: &Tile, lane: u32) -> Result<Vec<u8>, Refusal> {
        let mut picture = vec![0; 4 * LOOKUP_TEXELS];
        self.sampling_lookup_into(tile, lane, &mut picture)?;
        Ok(picture)
    }

    /// The lookup into a lent buffer, whose surplus stays as it is. Answers the count of reads.
    ///
    /// # Errors
    ///
    /// [`Refusal::Tile`], [`Refusal::ModeOrLane`] or [`Refusal::Pair`], and [`Refusal::Picture`] for a buffer that is too short.
    pub fn sampling_lookup_into(&self, tile: &Tile, lane: u32, picture: &mut [u8]) -> Result<u32, Refusal> {
        slices::sampling_lookup(&self.bytes, tile, lane, picture)
    }

    /// The lookup, with the addresses that were read.
    ///
    /// # Errors
    ///
    /// [`Refusal::Tile`], [`Refusal::ModeOrLane`] or [`Refusal::Pair`].
    pub fn sampling_lookup_observed(&self, tile: &Tile, lane: u32) -> Result<Observed, Refusal> {
        Observed::fill(LOOKUP_TEXELS, |picture, trail| {
            slices::sampling_lookup_observed(&self.bytes, tile, lane, picture, trail)
        })
    }

    /// Whether the tile can reach an address that a load has written.
    ///
    /// # Errors
    ///
    /// [`Refusal::Tile`] or [`Refusal::ModeOrLane`].
    pub fn tile_has_load(&self, tile: &Tile) -> Result<bool, Refusal> {
        slices::tile_has_load(tile, self.written.bytes())
    }

    /// Whether the tile touches bytes of a rejected load, and why that was rejected: the reason at the first address that has one.
    ///
    /// The addresses that the tile can reach ([`Tile::reach`]) are asked first, row by row; on odd rows bytes 4 to 7 of each word before
    /// 0 to 3, and where (0,3) reaches both halves of the bank each address before the one 2,048 further on. In modes 2 and 3 those of
    /// the palette follow, rising: the 128 bytes of the tile's palette for `siz` 0, else the upper half.
    ///
    /// ```
    /// use tulonkasa::{Bank, Tile};
    ///
    /// let mut bank = Bank::new();
    /// let tile = Tile { siz: 2, line: 1, width: 4, height: 2, ..Tile::default() };
    /// bank.load_tile(&[], &tile, 2, 2, 1, 0)?; // both rows
    /// bank.reject_tile(&[], &Tile { tmem_addr: 1, ..tile }, 2, 1, 1, 0, 7)?; // the second one again
    /// assert_eq!(bank.rejection(&tile)?, Some(7));
    /// assert_eq!(bank.rejection(&Tile { height: 1, ..tile })?, None);
    /// # Ok::<(), tulonkasa::Refusal>(())
    /// ```
    ///
    /// # Errors
    ///
    /// [`Refusal::Tile`] or [`Refusal::ModeOrLane`].
    pub fn rejection(&self, tile: &Tile) -> Result<Option<u32>, Refusal> {
        slices::rejection(tile, &self.reasons)
    }

    /// The palette slots whose four pairs of bytes are not all equal.
    ///
    /// # Errors
    ///
    /// None: bank and map have their lengths.
    pub fn palette_nonreplicated(&self) -> Result<LaneMap, Refusal> {
        let mut map = LaneMap::default();
        slices::palette_nonreplicated(&self.bytes, &mut map.0)?;
        Ok(map)
    }

    /// The key of the visible picture, which is what a renderer shows of the picture that the tile calls for.
    ///
    /// Of a lookup that is all. Of a plain picture it is the first 2^`masks` columns, where `masks` is not 0, `cms` does not clamp
    /// (value 2) and 2^`masks` is below `width`: from there on they repeat, mirrored or not. Else it is all columns. Rows likewise, by
    /// `maskt`, `cmt` and `height`. So a wall that repeats has one key under several widths, whatever the bank holds behind the columns
    /// that are shown.
    ///
    /// For the same tile, mode and lane a key gives the same visible picture as its bank. The whole picture, as [`Bank::sample_tile`]
    /// makes it, may have other texels outside the visible columns and rows.
    ///
    /// ```
    /// use tulonkasa::{Bank, Tile};
    ///
    /// let bank = Bank::from([255; 4096]);
    /// let tile = Tile { fmt: 4, line: 1, width: 1, height: 2, ..Tile::default() };
    /// let key = bank.key(&tile, 0)?;
    /// assert_eq!(key.kept, 2);
    /// assert_eq!((key.bytes[0], key.bytes[12]), (255, 255));
    ///
    /// let narrow = Tile { siz: 2, masks: 4, line: 16, width: 16, height: 16, ..Tile::default() };
    /// let wide = Tile { width: 64, ..narrow };
    /// assert_eq!(bank.key(&wide, 0)?, bank.key(&narrow, 0)?);
    /// # Ok::<(), tulonkasa::Refusal>(())
    /// ```
    ///
    /// # Errors
    ///
    /// [`Refusal::Tile`], [`Refusal::ModeOrLane`] or [`Refusal::Pair`].
    pub fn key(&self, tile: &Tile, lane: u32) -> Result<Key, Refusal> {
        let mut bytes = [0; BANK_BYTES];
        let kept = slices::key(&self.bytes, tile, lane, &mut bytes)?;
        Ok(Key { bytes, kept })
    }

    /// Whether an offered key is the one that [`Bank::key`] cuts for this tile and lane; where it is not, the lowest wrong address and
    /// what is wrong there. For keys that another program made, with the bank that each was cut from.
    ///
    /// A key that keeps a repeating tile whole has bytes left over: the first is past the visible columns and rows, and not zero.
    ///
    /// ```
    /// use tulonkasa::{Bank, Checked, Tile};
    ///
    /// let bank = Bank::from([9; 4096]);
    /// let tile = Tile { fmt: 4, siz: 1, masks: 1, line: 1, width: 4, height: 1, ..Tile::default() };
    /// let mut offer = bank.key(&tile, 0)?.bytes;
    /// assert!(bank.check_key(&tile, 0, &offer)?.is_right());
    ///
    /// offer[2] = 9; // a third column, which the tile does not show
    /// assert_eq!(bank.check_key(&tile, 0, &offer)?, Checked::LeftOver { address: 2 });
    /// offer[1] = 0;
    /// assert_eq!(bank.check_key(&tile, 0, &offer)?.to_string(), "the byte at address 1 is missing");
    /// # Ok::<(), tulonkasa::Refusal>(())
    /// ```
    ///
    /// # Errors
    ///
    /// [`Refusal::Tile`], [`Refusal::ModeOrLane`] or [`Refusal::Pair`].
    pub fn check_key(&self, tile: &Tile, lane: u32, offer: &[u8; BANK_BYTES]) -> Result<Checked, Refusal> {
        slices::check_key(&self.bytes, tile, lane, offer)
    }

    /// Does a record of a capture: a load, or the question for a key, which changes nothing. Answers the count of stores, but not
    /// how many of their bytes were made up; or of the bytes that the key would keep. `include/tulonkasa.h` says what a record's 48
    /// bytes are.
    ///
    /// `end` is the length of the capture's companion file, and `part` the file's bytes from the record's offset on: at least as
    /// many as the record states. A key needs none.
    ///
    /// A palette of one row and an image size above 0 is loaded as [`Bank::load_tlut_hardware`] does it, any other as
    /// [`Bank::load_tlut_rows`] does.
    ///
    /// A record has no reason, so its load is an ordinary one, and takes reasons away where it stores. A load that is to be rejected is
    /// done by [`Bank::reject_block`] and the like, in between.
    ///
    /// A load takes the next number; a key and a refused record take none. After the 65,535th load each further one is refused by
    /// [`Refusal::Number`], and keys go on.
    ///
    /// ```
    /// use tulonkasa::{Bank, Refusal};
    ///
    /// let companion = [0xf8, 0x01, 0x07, 0xc1, 0x00, 0x3f, 0xff, 0xff];
    /// let mut block = [0; 48];
    /// block[3] = 2; // siz
    /// block[19] = 2; // image size
    /// block[23] = 1; // words
    /// block[37] = 8; // the source's length; its offset is 0
    /// let mut key = [0; 48];
    /// key[0] = 3; // kind
    /// key[3] = 2; // siz
    /// key[15] = 4; // width
    /// key[17] = 1; // height
    ///
    /// let mut bank = Bank::new();
    /// assert_eq!(bank.replay_record(&block, 8, &companion)?, 8);
    /// assert_eq!(bank.bytes()[..8], companion);
    /// assert_eq!(bank.replay_record(&key, 8, &[])?, 8);
    /// assert_eq!(bank.replay_record(&block, 7, &companion[..7]), Err(Refusal::Beyond));
    /// assert_eq!((bank.written().number_at(7), bank.written().last()), (1, 1));
    /// # Ok::<(), tulonkasa::Refusal>(())
    /// ```
    ///
    /// # Errors
    ///
    /// [`Refusal::Torn`], [`Refusal::Kind`] or [`Refusal::Tile`]; of a load also [`Refusal::Load`], [`Refusal::Beyond`] or
    /// [`Refusal::Number`]; of a key also [`Refusal::ModeOrLane`] or [`Refusal::Pair`].
    pub fn replay_record(&mut self, record: &[u8], end: u64, part: &[u8]) -> Result<u32, Refusal> {
        let Self { bytes, written: Written { bytes: written, last }, reasons } = self;
        slices::replay_record(bytes, written, reasons, record, end, part, last)
    }
}

impl Observed {
    /// Lends a call a picture of so many texels and a trail that is long enough, and reads the trail.
    fn fill(texels: usize, call: impl FnOnce(&mut [u8], &mut [u8]) -> Result<u32, Refusal>) -> Result<Self, Refusal> {
        let mut picture = vec![0; 4 * texels];
        let mut trail = vec![0; 2 * TEXEL_READS_MOST * texels];
        let reads = call(&mut picture, &mut trail)? as usize;
        let trail = trail.chunks_exact(2).take(reads).map(|pair| u16::from_be_bytes([pair[0], pair[1]])).collect();
        Ok(Self { picture, trail })
    }
}
