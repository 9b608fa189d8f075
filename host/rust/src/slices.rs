//! The archive's calls on lent slices of any length, for callers that keep their own buffers. `include/tulonkasa.h` says what
//! each takes, refuses, answers and leaves. All of this crate's unsafe code is here.
use crate::{ffi, Checked, Entry, Loaded, Refusal, Sampling, Tile, Totals, ENTRY_BYTES};

/// Calls an entry of [`ffi`]. Around the tile, whose twelve numbers are passed, stand numbers, and slices as `[slice]`
/// to be read or `[mut slice]` to be written.
macro_rules! call {
    ($entry:ident($([$read:ident],)* $tile:ident $(, $number:ident)* $(, [mut $write:ident])*)) => {
        // SAFETY: each pointer comes with its slice's length, and Rust's borrows do not overlap.
        unsafe {
            ffi::$entry(
                $($read.as_ptr(), $read.len(),)* $tile.fmt, $tile.siz, $tile.palette, $tile.mode, $tile.cms, $tile.cmt,
                $tile.masks, $tile.maskt, $tile.line, $tile.tmem_addr, $tile.width, $tile.height $(, $number)*
                $(, $write.as_mut_ptr(), $write.len())*
            )
        }
    };
}

/// Declares loads, each by its entry of [`ffi`]. They take the buffers, the tile and the image's size, then numbers of their own, and the
/// number of the last load, which they set to the one that is answered.
macro_rules! loads {
    ($($(#[$about:meta])* fn $name:ident = $entry:ident($($number:ident),*);)*) => {
        $(
            $(#[$about])*
            ///
            /// # Errors
            ///
            /// [`Refusal::Length`], [`Refusal::Tile`] or [`Refusal::Load`]; of a rejected load also [`Refusal::Reason`]; and
            /// [`Refusal::Number`] where no number is left.
            #[allow(clippy::too_many_arguments, reason = "they are those of the archive's entry")]
            pub fn $name(
                bank: &mut [u8],
                written: &mut [u8],
                reasons: &mut [u8],
                source: &[u8],
                tile: &Tile,
                image_siz: u32,
                $($number: u32,)*
                last: &mut u32,
            ) -> Result<Loaded, Refusal> {
                // SAFETY: each pointer comes with its slice's length, and Rust's borrows do not overlap.
                let answer = unsafe {
                    ffi::$entry(
                        bank.as_mut_ptr(), bank.len(), written.as_mut_ptr(), written.len(), reasons.as_mut_ptr(), reasons.len(),
                        source.as_ptr(), source.len(), tile.fmt, tile.siz, tile.line, tile.tmem_addr, image_siz, $($number,)* *last
                    )
                };
                *last = answer.number;
                let loaded = Loaded { count: answer.count, made_up: answer.made_up, number: answer.number };
                Refusal::check(answer.refusal, loaded)
            }
        )*
    };
}

loads! {
    /// Answers the count of stores, how many of their bytes were made up, and the load's number. `last` is the number of the last load
    /// before and after the call; a refused one leaves it. The reasons are 0 where it stored.
    fn load_block = tk_load_block(dxt, words);

    /// Answers as [`load_block`] does.
    fn load_tile = tk_load_tile(rows, words, stride);

    /// As the hardware loads a palette: one row, of an image of size 1, 2 or 3. Answers as [`load_block`] does.
    fn load_tlut_hardware = tk_load_tlut_hardware(count, rows, stride);

    /// A palette of any rows, of an image of any size. Answers as [`load_block`] does.
    fn load_tlut_rows = tk_load_tlut_rows(count, rows, stride);

    /// As [`load_block`], of a source that was rejected: its reason is where it stored.
    fn reject_block = tk_reject_block(dxt, words, reason);

    /// As [`load_tile`], of a source that was rejected: its reason is where it stored.
    fn reject_tile = tk_reject_tile(rows, words, stride, reason);

    /// As [`load_tlut_hardware`], of a source that was rejected: its reason is where it stored.
    fn reject_tlut_hardware = tk_reject_tlut_hardware(count, rows, stride, reason);

    /// As [`load_tlut_rows`], of a source that was rejected: its reason is where it stored.
    fn reject_tlut_rows = tk_reject_tlut_rows(count, rows, stride, reason);
}

/// Answers the version of the linked library as one number: a million times the first of its numbers, a thousand times the second, and
/// the third. It is this crate's own where both are of one release; `include/tulonkasa.h` says what a new number means.
///
/// ```
/// assert_eq!(tulonkasa::version() / 1_000_000, 1);
/// ```
#[must_use]
pub fn version() -> u32 {
    // SAFETY: it is lent nothing.
    unsafe { ffi::tk_version() }
}

/// Answers which picture the tile calls for.
///
/// # Errors
///
/// [`Refusal::Tile`] or [`Refusal::ModeOrLane`].
pub fn sampling(tile: &Tile) -> Result<Sampling, Refusal> {
    let answer = call!(tk_sampling(tile));
    let sampling = Sampling { lookup: answer.flag == 1, width: answer.width, height: answer.height };
    Refusal::check(answer.refusal, sampling)
}

/// Answers the count of reads.
///
/// # Errors
///
/// [`Refusal::Length`], [`Refusal::Tile`], [`Refusal::ModeOrLane`], [`Refusal::Pair`] or [`Refusal::Picture`].
pub fn sample_tile(bank: &[u8], tile: &Tile, lane: u32, picture: &mut [u8]) -> Result<u32, Refusal> {
    counted(call!(tk_sample_tile([bank], tile, lane, [mut picture])))
}

/// Answers the count of reads.
///
/// # Errors
///
/// [`Refusal::Length`], [`Refusal::Tile`], [`Refusal::ModeOrLane`], [`Refusal::Pair`], [`Refusal::Picture`] or [`Refusal::Trail`].
pub fn sample_tile_observed(
    bank: &[u8],
    tile: &Tile,
    lane: u32,
    picture: &mut [u8],
    trail: &mut [u8],
) -> Result<u32, Refusal> {
    counted(call!(tk_sample_tile_observed([bank], tile, lane, [mut picture], [mut trail])))
}

/// Answers the count of reads.
///
/// # Errors
///
/// [`Refusal::Length`], [`Refusal::Tile`], [`Refusal::ModeOrLane`], [`Refusal::Pair`] or [`Refusal::Picture`].
pub fn sampling_lookup(bank: &[u8], tile: &Tile, lane: u32, picture: &mut [u8]) -> Result<u32, Refusal> {
    counted(call!(tk_sampling_lookup([bank], tile, lane, [mut picture])))
}

/// Answers the count of reads.
///
/// # Errors
///
/// [`Refusal::Length`], [`Refusal::Tile`], [`Refusal::ModeOrLane`], [`Refusal::Pair`], [`Refusal::Picture`] or [`Refusal::Trail`].
pub fn sampling_lookup_observed(
    bank: &[u8],
    tile: &Tile,
    lane: u32,
    picture: &mut [u8],
    trail: &mut [u8],
) -> Result<u32, Refusal> {
    counted(call!(tk_sampling_lookup_observed([bank], tile, lane, [mut picture], [mut trail])))
}

/// Decodes a source to a picture, without a bank, and answers the count of source bytes that were asked for. Of the tile it takes `fmt`,
/// `siz`, `palette`, `width` and `height`.
///
/// # Errors
///
/// [`Refusal::Tile`], [`Refusal::Load`], [`Refusal::Pair`] or [`Refusal::Picture`].
pub fn decode_linear(source: &[u8], tile: &Tile, stride: u32, picture: &mut [u8]) -> Result<u32, Refusal> {
    // SAFETY: each pointer comes with its slice's length, and Rust's borrows do not overlap.
    let answer = unsafe {
        ffi::tk_decode_linear(
            source.as_ptr(),
            source.len(),
            tile.fmt,
            tile.siz,
            tile.palette,
            tile.width,
            tile.height,
            stride,
            picture.as_mut_ptr(),
            picture.len(),
        )
    };
    counted(answer)
}

/// Writes a picture as a PAM file, and answers the count of the file's bytes. A file of [`crate::PAM_HEADER_MOST`] bytes and four
/// a texel is long enough.
///
/// # Errors
///
/// [`Refusal::Tile`], [`Refusal::ZeroSide`] or [`Refusal::Picture`].
pub fn write_pam(width: u32, height: u32, picture: &[u8], file: &mut [u8]) -> Result<u32, Refusal> {
    // SAFETY: each pointer comes with its slice's length, and Rust's borrows do not overlap.
    let answer =
        unsafe { ffi::tk_write_pam(width, height, picture.as_ptr(), picture.len(), file.as_mut_ptr(), file.len()) };
    counted(answer)
}

/// Reads a PAM file, and answers the picture's width and height. A picture as long as the file is long enough.
///
/// # Errors
///
/// [`Refusal::Header`], [`Refusal::Tuples`], [`Refusal::Tile`], [`Refusal::Texels`] or [`Refusal::Picture`].
pub fn read_pam(file: &[u8], picture: &mut [u8]) -> Result<(u32, u32), Refusal> {
    // SAFETY: each pointer comes with its slice's length, and Rust's borrows do not overlap.
    let answer = unsafe { ffi::tk_read_pam(file.as_ptr(), file.len(), picture.as_mut_ptr(), picture.len()) };
    Refusal::check(answer.refusal, (answer.width, answer.height))
}

/// Overwrites the map.
///
/// # Errors
///
/// [`Refusal::Length`], [`Refusal::Tile`] or [`Refusal::ModeOrLane`].
pub fn reach(tile: &Tile, map: &mut [u8]) -> Result<(), Refusal> {
    Refusal::check(call!(tk_reach(tile, [mut map])), ())
}

/// Answers whether the tile reaches an address that the written record has a number at.
///
/// # Errors
///
/// [`Refusal::Length`], [`Refusal::Tile`] or [`Refusal::ModeOrLane`].
pub fn tile_has_load(tile: &Tile, written: &[u8]) -> Result<bool, Refusal> {
    let (record, length) = (written.as_ptr(), written.len());
    let answer = call!(tk_tile_has_load(tile, record, length));
    Refusal::check(answer.refusal, answer.yes == 1)
}

/// Answers the reason at the first address that the tile can reach, or that its palette has, and that has a reason; none if none has.
///
/// # Errors
///
/// [`Refusal::Length`], [`Refusal::Tile`] or [`Refusal::ModeOrLane`].
pub fn rejection(tile: &Tile, reasons: &[u8]) -> Result<Option<u32>, Refusal> {
    let (map, length) = (reasons.as_ptr(), reasons.len());
    let answer = call!(tk_rejection(tile, map, length));
    Refusal::check(answer.refusal, (answer.reason != 0).then_some(answer.reason))
}

/// Overwrites the lane map.
///
/// # Errors
///
/// [`Refusal::Length`].
pub fn palette_nonreplicated(bank: &[u8], map: &mut [u8]) -> Result<(), Refusal> {
    // SAFETY: each pointer comes with its slice's length, and Rust's borrows do not overlap.
    let refusal = unsafe { ffi::tk_palette_nonreplicated(bank.as_ptr(), bank.len(), map.as_mut_ptr(), map.len()) };
    Refusal::check(refusal, ())
}

/// Overwrites the key, and answers the count of kept bytes.
///
/// # Errors
///
/// [`Refusal::Length`], [`Refusal::Tile`], [`Refusal::ModeOrLane`] or [`Refusal::Pair`].
pub fn key(bank: &[u8], tile: &Tile, lane: u32, key: &mut [u8]) -> Result<u32, Refusal> {
    counted(call!(tk_key([bank], tile, lane, [mut key])))
}

/// Answers whether the offer is the key, and what is wrong with it where it is not.
///
/// # Errors
///
/// [`Refusal::Length`], [`Refusal::Tile`], [`Refusal::ModeOrLane`] or [`Refusal::Pair`].
pub fn check_key(bank: &[u8], tile: &Tile, lane: u32, offer: &[u8]) -> Result<Checked, Refusal> {
    let (offered, length) = (offer.as_ptr(), offer.len());
    let answer = call!(tk_check_key([bank], tile, lane, offered, length));
    Refusal::check(answer.refusal, Checked::from_numbers(answer.yes, answer.address, answer.wrong))
}

/// Does a record of a capture, and answers the count of its stores, or of the bytes that its key would keep. `last` is the number of the
/// last load before and after it; a key and a refused record leave it. A record's load is an ordinary one: the reasons are 0 where it
/// stored.
///
/// # Errors
///
/// [`Refusal::Length`], [`Refusal::Torn`], [`Refusal::Kind`] or [`Refusal::Tile`]; of a load also [`Refusal::Load`], [`Refusal::Beyond`] or
/// [`Refusal::Number`]; of a key also [`Refusal::ModeOrLane`] or [`Refusal::Pair`].
pub fn replay_record(
    bank: &mut [u8],
    written: &mut [u8],
    reasons: &mut [u8],
    record: &[u8],
    end: u64,
    part: &[u8],
    last: &mut u32,
) -> Result<u32, Refusal> {
    // SAFETY: each pointer comes with its slice's length, and Rust's borrows do not overlap.
    let answer = unsafe {
        ffi::tk_replay_record(
            bank.as_mut_ptr(),
            bank.len(),
            written.as_mut_ptr(),
            written.len(),
            reasons.as_mut_ptr(),
            reasons.len(),
            record.as_ptr(),
            record.len(),
            end,
            part.as_ptr(),
            part.len(),
            *last,
        )
    };
    *last = answer.number;
    Refusal::check(answer.refusal, answer.count)
}

/// Overwrites the sides of `count` entries, 0 for tuning and 1 for held out, and answers how many entries are on each.
///
/// # Errors
///
/// [`Refusal::Count`] or [`Refusal::Entries`].
pub fn split(count: u32, entries: &[u8], sides: &mut [u8]) -> Result<Totals, Refusal> {
    // SAFETY: each pointer comes with its slice's length, and Rust's borrows do not overlap.
    let answer = unsafe { ffi::tk_split(count, entries.as_ptr(), entries.len(), sides.as_mut_ptr(), sides.len()) };
    Refusal::check(answer.refusal, Totals { tuning: answer.tuning, held_out: answer.held_out })
}

/// The bytes of entries, one entry behind the other, as [`split`] takes them.
#[must_use]
pub fn entry_bytes(entries: &[Entry]) -> &[u8] {
    // SAFETY: an entry is its array of bytes and nothing else (`repr(transparent)`).
    let arrays = unsafe { std::slice::from_raw_parts(entries.as_ptr().cast::<[u8; ENTRY_BYTES]>(), entries.len()) };
    arrays.as_flattened()
}

fn counted(answer: ffi::Answer) -> Result<u32, Refusal> {
    Refusal::check(answer.refusal, answer.count)
}
