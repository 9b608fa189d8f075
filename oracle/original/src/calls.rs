//! The original's calls that are compared, each by its own function, on plain numbers and bytes.
use crate::diag::DiagKind;
use crate::hle::framebuffer_load::{FramebufferCopy, Tag, Tags};
use crate::hle::texdec::FormatInfo;
use crate::hle::tile_sampling::TileSampling;
use crate::hle::tmem::{BankDecoder, Tmem};
use crate::profiling;
use crate::{Diagnostic, TileDescriptor};
use std::sync::Arc;

/// The bytes of a bank.
pub type Bytes = [u8; 4096];

/// A bit for each address of a bank.
pub type Map = [u8; 512];

/// What is loaded, besides the tile and the source. A `Tlut` goes by the hardware's steps or by rows, as the original picks; `TlutRows`
/// always goes by rows.
#[derive(Clone, Copy, Debug)]
pub enum Load {
    Block { dxt: u32, words: usize },
    Tile { rows: usize, words: usize, stride: usize },
    Tlut { count: usize, rows: usize, stride: usize },
    TlutRows { count: usize, rows: usize, stride: usize },
}

/// What a load did.
pub struct Counted {
    pub stores: u32,
    /// How many of the stores have a place in the source that is at or past its length.
    pub made_up: u32,
    /// A mark at each address that was stored to.
    pub marks: Map,
}

/// The original's texture memory.
pub struct Memory {
    tmem: Tmem,
}

impl Memory {
    /// Memory of these bytes, none written.
    pub fn new(bank: &Bytes) -> Self {
        Self { tmem: Tmem::from_profile(&profiling::Bank { bytes: bank.to_vec() }) }
    }

    /// Fresh memory, by the original's own default.
    pub fn fresh() -> Self {
        Self { tmem: Tmem::default() }
    }

    /// Its bytes. A load that follows copies them first if this is still held.
    pub fn bytes(&self) -> Arc<Bytes> {
        self.tmem.share_bank()
    }

    /// A load.
    pub fn load(&mut self, source: &[u8], tile: &TileDescriptor, image_siz: u8, load: Load) {
        self.tmem.load(source, tile, image_siz, load);
    }

    /// A load, and what it did. With a reason it is a rejected one.
    pub fn load_counted(
        &mut self,
        source: &[u8],
        tile: &TileDescriptor,
        image_siz: u8,
        load: Load,
        reason: Option<u32>,
    ) -> Counted {
        let copy = Arc::new(FramebufferCopy::of_source(source.len()));
        self.tmem.framebuffer_tags = None;
        let write = |tmem: &mut Tmem| tmem.load(source, tile, image_siz, load);
        self.tmem.copy_load(copy.clone(), |tmem| match reason {
            None => write(tmem),
            Some(reason) => tmem.reject_load(diagnostic(reason), write),
        });
        let tags = self.tmem.framebuffer_tags.take().unwrap_or_default();
        Counted { stores: copy.stores.get(), made_up: copy.made_up.get(), marks: tagged(&tags) }
    }

    /// The map of written addresses.
    pub fn written(&self) -> Map {
        map_of(self.tmem.written_words())
    }

    /// The reason at each address, 0 for none.
    pub fn reasons(&self) -> Bytes {
        let rejected = self.tmem.rejected();
        std::array::from_fn(|address| rejected[address].map_or(0, |diagnostic| reason(diagnostic) as u8))
    }

    /// Sets the reason at each address.
    pub fn set_reasons(&mut self, reasons: &Bytes) {
        for (rejected, &reason) in self.tmem.rejected_mut().iter_mut().zip(reasons) {
            *rejected = (reason != 0).then(|| diagnostic(reason.into()));
        }
    }

    /// The reason at the first address that the tile reaches, or that its palette has, and that has one.
    pub fn rejection(&self, tile: &TileDescriptor, mode: u8) -> Option<u32> {
        self.tmem.rejection(tile, mode).map(reason)
    }

    /// Whether the tile reaches a written address.
    pub fn tile_has_load(&self, tile: &TileDescriptor, mode: u8) -> bool {
        self.tmem.tile_has_load(tile, mode)
    }
}

impl Tmem {
    fn load(&mut self, source: &[u8], tile: &TileDescriptor, image_siz: u8, load: Load) {
        match load {
            Load::Block { dxt, words } => self.write_block_for_tile(source, tile, dxt, words, image_siz),
            Load::Tile { rows, words, stride } => self.write_tile_for_tile(source, tile, rows, words, stride, image_siz),
            Load::Tlut { count, rows, stride } => self.write_tlut_for_tile(source, tile, count, rows, stride, image_siz),
            Load::TlutRows { count, rows, stride } => {
                self.write_tlut_rows(source, count, tile.tmem_addr.into(), rows, stride, tile.line.into())
            }
        }
    }
}

/// The diagnostic that stands for a reason: the reason is its address, which no call looks at.
fn diagnostic(reason: u32) -> Diagnostic {
    Diagnostic { at: reason.into(), kind: DiagKind::UndefinedMvp }
}

/// The reason that a diagnostic stands for.
fn reason(diagnostic: Diagnostic) -> u32 {
    diagnostic.at as u32
}

/// The original's reach: it walks it to find which tagged bytes a tile sees. Here every byte is tagged.
pub struct Reach {
    tmem: Tmem,
}

impl Default for Reach {
    fn default() -> Self {
        let tags = Tags {
            bytes: Box::new([Tag { copy: 1, pointer: 0 }; 4096]),
            copies: vec![Arc::new(FramebufferCopy::default())],
        };
        let mut tmem = Tmem::default();
        tmem.framebuffer_tags = Some(tags);
        Self { tmem }
    }
}

impl Reach {
    /// A mark at each address that the tile reaches. In modes 2 and 3 that is in the lower half alone, and what the original
    /// sees of the palette besides is left out.
    pub fn of(&self, tile: &TileDescriptor, mode: u8) -> Map {
        let mut map = tagged(&self.tmem.framebuffer_tags_for(tile, mode));
        if mode >= 2 {
            map[256..].fill(0);
        }
        map
    }
}

/// The sampling flag, and the allocation extent.
pub fn sampling(tile: &TileDescriptor, mode: u8) -> (u32, [u32; 2]) {
    let sampling = TileSampling::from_tile(tile, mode);
    (sampling.image[2], sampling.allocation_extent())
}

/// The palette slots that are not four times the same pair.
pub fn palette_nonreplicated(bank: &Bytes) -> [u8; 32] {
    map_of(&Tmem::palette_nonreplicated_bytes(bank))
}

/// Which picture is asked for.
#[derive(Clone, Copy, Debug, PartialEq, Eq)]
pub enum Picture {
    Plain,
    Lookup,
}

/// A picture, or none where the original does not accept the pair.
pub fn picture(bank: &Bytes, tile: &TileDescriptor, mode: u8, lane: usize, which: Picture) -> Option<Vec<u8>> {
    decode(bank, tile, mode, lane, which, |_| {})
}

/// A picture, with the addresses that were read appended to the trail as two bytes each, high byte first.
pub fn picture_observed(
    bank: &Bytes,
    tile: &TileDescriptor,
    mode: u8,
    lane: usize,
    which: Picture,
    trail: &mut Vec<u8>,
) -> Option<Vec<u8>> {
    decode(bank, tile, mode, lane, which, |address| trail.extend_from_slice(&(address as u16).to_be_bytes()))
}

/// A picture, with the count of reads.
pub fn picture_counted(
    bank: &Bytes,
    tile: &TileDescriptor,
    mode: u8,
    lane: usize,
    which: Picture,
) -> Option<(Vec<u8>, u32)> {
    let mut reads = 0;
    let picture = decode(bank, tile, mode, lane, which, |_| reads += 1)?;
    Some((picture, reads))
}

/// A source by the original's linear decoder, without a palette; none where it has no decoder for the pair.
pub fn linear(source: &[u8], tile: &TileDescriptor) -> Option<Vec<u8>> {
    let format = FormatInfo { fmt: tile.fmt, siz: tile.siz };
    format.decode(source, tile.width.into(), tile.height.into(), &[], tile.palette, 0).ok()
}

/// The key, which the original has no call for: the bytes that the visible picture reads, and how many they are.
pub fn key(bank: &Bytes, tile: &TileDescriptor, mode: u8, lane: usize) -> Option<(Bytes, u32)> {
    let read = visible_reads(bank, tile, mode, lane)?;
    Some((kept(bank, &read), read.iter().map(|&read| u32::from(read)).sum()))
}

/// The bytes that are read, and zero for all others.
pub fn kept(bank: &Bytes, read: &[bool; 4096]) -> Bytes {
    std::array::from_fn(|address| if read[address] { bank[address] } else { 0 })
}

/// For each address whether the visible picture reads it. The flag is the whole tile's. A lookup is whole; of a plain picture the original
/// makes what is shown.
pub fn visible_reads(bank: &Bytes, tile: &TileDescriptor, mode: u8, lane: usize) -> Option<[bool; 4096]> {
    let mut read = [false; 4096];
    let reads = |address| read[address] = true;
    if sampling(tile, mode).0 == 1 {
        decode(bank, tile, mode, lane, Picture::Lookup, reads)?;
    } else {
        decode(bank, &visible(tile), mode, lane, Picture::Plain, reads)?;
    }
    Some(read)
}

/// The tile with its sides cut to what a renderer shows of them, as document 02's item 4 says. The original has no such cut.
fn visible(tile: &TileDescriptor) -> TileDescriptor {
    TileDescriptor {
        width: visible_side(tile.cms, tile.masks, tile.width),
        height: visible_side(tile.cmt, tile.maskt, tile.height),
        ..tile.clone()
    }
}

/// An axis repeats its first 2^mask columns or rows where its mask is not 0 and its clamp bit is clear. Those past them are cut.
fn visible_side(cm: u8, mask: u8, size: u16) -> u16 {
    if mask != 0 && cm & 2 == 0 {
        size.min(1 << mask)
    } else {
        size
    }
}

fn decode(
    bank: &Bytes,
    tile: &TileDescriptor,
    mode: u8,
    lane: usize,
    which: Picture,
    mut reads: impl FnMut(usize),
) -> Option<Vec<u8>> {
    let decoder = BankDecoder::new(bank);
    match which {
        Picture::Plain => decoder.sample_tile_lane(tile, mode, lane, &mut reads).ok(),
        Picture::Lookup => decoder.sampling_lookup_lane(tile, mode, lane, &mut reads).ok(),
    }
}

/// A mark at each tagged address.
fn tagged(tags: &Tags) -> Map {
    let mut map = [0; 512];
    for (address, _) in tags.bytes.iter().enumerate().filter(|(_, tag)| tag.copy != 0) {
        map[address / 8] |= 1 << (address % 8);
    }
    map
}

/// The same bits in bytes.
fn map_of<const N: usize>(words: &[u64]) -> [u8; N] {
    let mut map = [0; N];
    for (bytes, word) in map.chunks_exact_mut(8).zip(words) {
        bytes.copy_from_slice(&word.to_le_bytes());
    }
    map
}
