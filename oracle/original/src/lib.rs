//! The Rust that this library comes from, compiled as it stands and as its profiling build, and its calls on plain numbers.
//!
//! Five files are the original's own: diag, rdp and tile_sampling by their paths; tmem with behind_tmem.rs behind its text; texdec without
//! the lines that keep its linear decoders for tests. So is the function decode_rgba16 of combiner. Everything else that they name is a
//! stand-in of this crate, no larger than they ask. [`calls`] is what a comparison uses.
#![allow(dead_code)]

extern crate self as log;
extern crate stand_ins as bytemuck;
extern crate stand_ins as serde;

pub mod calls;
mod neighbours;

pub use diag::{Diagnostic, MemoryAccess};
pub use hle::rdp::TileDescriptor;
pub(crate) use neighbours::{hardware, inspect, profiling, scene};

pub(crate) use hardware::MemoryError;

include!(concat!(env!("OUT_DIR"), "/root.rs"));

/// The part of the original that is compared, among stand-ins for its neighbours.
pub mod hle {
    pub(crate) use crate::neighbours::{consts, framebuffer_load, interp, mem, rsp};

    include!(concat!(env!("OUT_DIR"), "/hle.rs"));
}

/// Stands in for the crate `log`.
#[macro_export]
macro_rules! error {
    ($($arguments:tt)*) => {
        eprintln!($($arguments)*)
    };
}

/// Stands in for the crate `log`.
#[macro_export]
macro_rules! warn {
    ($($arguments:tt)*) => {
        eprintln!($($arguments)*)
    };
}
