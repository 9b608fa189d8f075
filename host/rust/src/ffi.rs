//! The archive's entries as they are, for callers that lend their own buffers. `include/tulonkasa.h` says what each takes,
//! refuses, answers and leaves.
//!
//! # Safety
//!
//! Each pointer must be good for its length (a length of 0 allows any pointer), and the buffers of one call must not
//! overlap. Nothing else is asked: every number and every length is taken or refused.

/// A refusal, and a count of reads, kept bytes or a file's bytes.
#[repr(C)]
#[derive(Clone, Copy, Debug, PartialEq, Eq)]
pub struct Answer {
    pub refusal: u32,
    pub count: u32,
}

/// A refusal, the count of a load's stores, how many of their bytes were made up past the source's end, and the number of the last
/// load after it: where it was refused, the one that was passed.
#[repr(C)]
#[derive(Clone, Copy, Debug, PartialEq, Eq)]
pub struct LoadAnswer {
    pub refusal: u32,
    pub count: u32,
    pub made_up: u32,
    pub number: u32,
}

/// A refusal, the count of a record's stores or of the bytes that its key would keep, and the number of the last load after it: of a key
/// and where it was refused, the one that was passed.
#[repr(C)]
#[derive(Clone, Copy, Debug, PartialEq, Eq)]
pub struct ReplayAnswer {
    pub refusal: u32,
    pub count: u32,
    pub number: u32,
}

/// A refusal, the sampling flag, and the allocation extent.
#[repr(C)]
#[derive(Clone, Copy, Debug, PartialEq, Eq)]
pub struct SamplingAnswer {
    pub refusal: u32,
    pub flag: u32,
    pub width: u32,
    pub height: u32,
}

/// A refusal, and the size of a picture that was read.
#[repr(C)]
#[derive(Clone, Copy, Debug, PartialEq, Eq)]
pub struct SizeAnswer {
    pub refusal: u32,
    pub width: u32,
    pub height: u32,
}

/// A refusal, and 1 for yes or 0 for no.
#[repr(C)]
#[derive(Clone, Copy, Debug, PartialEq, Eq)]
pub struct YesAnswer {
    pub refusal: u32,
    pub yes: u32,
}

/// A refusal, and the reason of a rejected load, 0 for none.
#[repr(C)]
#[derive(Clone, Copy, Debug, PartialEq, Eq)]
pub struct ReasonAnswer {
    pub refusal: u32,
    pub reason: u32,
}

/// A refusal; 1 if an offered key is right, else 0; and of one that is not the lowest wrong address, and what is wrong there.
#[repr(C)]
#[derive(Clone, Copy, Debug, PartialEq, Eq)]
pub struct CheckAnswer {
    pub refusal: u32,
    pub yes: u32,
    pub address: u32,
    pub wrong: u32,
}

/// A refusal, and how many entries are for tuning and how many are held out.
#[repr(C)]
#[derive(Clone, Copy, Debug, PartialEq, Eq)]
pub struct SplitAnswer {
    pub refusal: u32,
    pub tuning: u32,
    pub held_out: u32,
}

/// Declares entries. `tile` among the parameters stands for the twelve numbers of a tile and its mode.
macro_rules! entries {
    ($(fn $name:ident($($before:ident: $before_type:ty),*; tile $(, $after:ident: $after_type:ty)*)
        -> $answer:ty;)*) => {
        extern "C" {
            $(pub fn $name(
                $($before: $before_type,)*
                fmt: u32, siz: u32, palette: u32, mode: u32, cms: u32, cmt: u32, masks: u32, maskt: u32,
                line: u32, tmem_addr: u32, width: u32, height: u32
                $(, $after: $after_type)*
            ) -> $answer;)*
        }
    };
}

/// Declares loads. Each takes the buffers, four numbers of the tile and the image's size, and then numbers of its own.
macro_rules! loads {
    ($(fn $name:ident($($number:ident),*);)*) => {
        extern "C" {
            $(pub fn $name(
                bank: *mut u8, bank_length: usize, written: *mut u8, written_length: usize, reasons: *mut u8,
                reasons_length: usize, source: *const u8, source_length: usize, fmt: u32, siz: u32, line: u32,
                tmem_addr: u32, image_siz: u32, $($number: u32),*
            ) -> LoadAnswer;)*
        }
    };
}

loads! {
    fn tk_load_block(dxt, words, last);
    fn tk_load_tile(rows, words, stride, last);
    fn tk_load_tlut_hardware(count, rows, stride, last);
    fn tk_load_tlut_rows(count, rows, stride, last);
    fn tk_reject_block(dxt, words, reason, last);
    fn tk_reject_tile(rows, words, stride, reason, last);
    fn tk_reject_tlut_hardware(count, rows, stride, reason, last);
    fn tk_reject_tlut_rows(count, rows, stride, reason, last);
}

extern "C" {
    pub fn tk_version() -> u32;

    pub fn tk_decode_linear(
        source: *const u8,
        source_length: usize,
        fmt: u32,
        siz: u32,
        palette: u32,
        width: u32,
        height: u32,
        stride: u32,
        picture: *mut u8,
        picture_length: usize,
    ) -> Answer;

    pub fn tk_write_pam(
        width: u32,
        height: u32,
        picture: *const u8,
        picture_length: usize,
        file: *mut u8,
        file_length: usize,
    ) -> Answer;

    pub fn tk_read_pam(file: *const u8, file_length: usize, picture: *mut u8, picture_length: usize) -> SizeAnswer;

    pub fn tk_palette_nonreplicated(bank: *const u8, bank_length: usize, map: *mut u8, map_length: usize) -> u32;

    pub fn tk_replay_record(
        bank: *mut u8,
        bank_length: usize,
        written: *mut u8,
        written_length: usize,
        reasons: *mut u8,
        reasons_length: usize,
        record: *const u8,
        record_length: usize,
        end: u64,
        part: *const u8,
        part_length: usize,
        last: u32,
    ) -> ReplayAnswer;

    pub fn tk_split(
        count: u32,
        entries: *const u8,
        entries_length: usize,
        sides: *mut u8,
        sides_length: usize,
    ) -> SplitAnswer;
}

entries! {
    fn tk_sampling(; tile) -> SamplingAnswer;

    fn tk_sample_tile(bank: *const u8, bank_length: usize; tile, lane: u32, picture: *mut u8, picture_length: usize)
        -> Answer;

    fn tk_sample_tile_observed(bank: *const u8, bank_length: usize; tile, lane: u32, picture: *mut u8,
        picture_length: usize, trail: *mut u8, trail_length: usize) -> Answer;

    fn tk_sampling_lookup(bank: *const u8, bank_length: usize; tile, lane: u32, picture: *mut u8,
        picture_length: usize) -> Answer;

    fn tk_sampling_lookup_observed(bank: *const u8, bank_length: usize; tile, lane: u32, picture: *mut u8,
        picture_length: usize, trail: *mut u8, trail_length: usize) -> Answer;

    fn tk_reach(; tile, map: *mut u8, map_length: usize) -> u32;

    fn tk_tile_has_load(; tile, written: *const u8, written_length: usize) -> YesAnswer;

    fn tk_rejection(; tile, reasons: *const u8, reasons_length: usize) -> ReasonAnswer;

    fn tk_key(bank: *const u8, bank_length: usize; tile, lane: u32, key: *mut u8, key_length: usize) -> Answer;

    fn tk_check_key(bank: *const u8, bank_length: usize; tile, lane: u32, offer: *const u8, offer_length: usize)
        -> CheckAnswer;
}
