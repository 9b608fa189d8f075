//! The records of a capture.
use crate::files::{next_bytes, Failure};
use std::io::Read;
use std::path::Path;
use tulonkasa::Record;

/// The next record of a capture, which has this number; none at the capture's end.
pub fn next_record(input: &mut dyn Read, capture: &Path, number: u64) -> Result<Option<Record>, Failure> {
    let record = next_bytes::<{ Record::BYTES }>(input, capture, "record", number)?;
    Ok(record.map(|bytes| Record::from(&bytes)))
}
