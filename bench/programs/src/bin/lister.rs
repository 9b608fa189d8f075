//! The lister over the original Rust: the same records in, the same lines out.
use original::calls::{self, Bytes};
use programs::{answer_all, Answer, Head};
use std::io;

const RECORD: usize = 4112;

fn main() -> io::Result<()> {
    answer_all(line)
}

/// Flag, distinct kept bytes and texels.
fn line(record: &[u8; RECORD]) -> Answer<3> {
    let head = Head::new(record);
    let bank: &Bytes = record[Head::BYTES..].try_into().expect("a bank");
    let kept = head.kept(bank, 0)?;
    let flag = calls::sampling(&head.tile, head.mode).0;
    let texels = if flag == 1 { 16384 } else { u32::from(head.tile.width) * u32::from(head.tile.height) };
    Ok([flag, kept, texels])
}
