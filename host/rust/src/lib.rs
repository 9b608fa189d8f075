//! Texture memory of a cartridge game console: loads, which of them wrote a byte and why its source was rejected if it was, pictures
//! (as files, and straight from a source too), a key for each picture, the check of keys that were made elsewhere, the replay of captured
//! loads, and the [`split`] of captures into tuning and held-out ones.
//!
//! The work is done by a static library whose every function is proved to meet its contract on every input. This crate
//! gives it Rust's types: a [`Bank`] of memory, a [`Tile`] that says how to read it, and a [`Refusal`] where a number is out
//! of range. No call panics, and a refused one changes nothing.
//!
//! ```
//! use tulonkasa::{Bank, Refusal, Tile, SIDE_MOST};
//!
//! let mut bank = Bank::new();
//! let tile = Tile { fmt: 0, siz: 2, line: 1, width: 4, height: 1, ..Tile::default() };
//! bank.load_block(&[0xf8, 0x01, 0x07, 0xc1, 0x00, 0x3f, 0xff, 0xff], &tile, 2, 0, 1)?;
//!
//! let picture = bank.sample_tile(&tile, 0)?;
//! assert_eq!(picture[..8], [255, 0, 0, 255, 0, 255, 0, 255]);
//!
//! let key = bank.key(&tile, 0)?;
//! assert_eq!(key.kept, 8);
//!
//! let wide = Tile { width: SIDE_MOST + 1, ..tile };
//! assert_eq!(bank.sample_tile(&wide, 0), Err(Refusal::Tile));
//! # Ok::<(), Refusal>(())
//! ```

mod bank;
mod check;
pub mod ffi;
mod map;
mod picture;
mod record;
mod refusal;
pub mod slices;
mod split;
mod tile;
mod written;

pub use bank::{Bank, Key, Loaded, Observed, BANK_BYTES, LOOKUP_TEXELS, REASON_BYTES, REASON_MOST};
pub use check::Checked;
pub use map::{AddressMap, LaneMap, Map};
pub use picture::{Picture, PAM_HEADER_MOST};
pub use record::Record;
pub use refusal::Refusal;
pub use slices::version;
pub use split::{split, Entry, Side, Split, Totals, ENTRIES_MOST, ENTRY_BYTES};
pub use tile::{Sampling, Tile, SIDE_MOST, TILE_BYTES};
pub use written::{Written, LOADS_MOST, WRITTEN_BYTES};

#[cfg(test)]
mod tests;
