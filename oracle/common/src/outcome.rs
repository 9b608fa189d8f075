//! What a call did: its answer, the buffer that it was lent to write, and the bytes that must not have changed.

/// What a buffer that is lent to be written holds before.
const BEFORE: u8 = 0xa5;

/// So many bytes on each side of a lent buffer are looked at too.
const FENCE: usize = 64;

/// What a call did.
#[derive(PartialEq, Eq)]
pub struct Outcome {
    pub refusal: u32,
    /// The answer's other numbers; 0 where there are fewer.
    pub numbers: [u32; 2],
    /// The buffer that was lent to be written, with its fences.
    buffer: Vec<u8>,
}

impl Outcome {
    /// Of a call that puts these bytes in front of its buffer, or is refused.
    pub fn new(room: usize, result: Result<([u32; 2], &[u8]), u32>) -> Self {
        let (refusal, numbers, front): (_, _, &[u8]) = match result {
            Ok((numbers, front)) => (0, numbers, front),
            Err(refusal) => (refusal, [0; 2], &[]),
        };
        Self::of(room, |buffer| {
            buffer[..front.len()].copy_from_slice(front);
            (refusal, numbers)
        })
    }

    /// Of a call on a buffer of so many bytes.
    pub fn of(room: usize, call: impl FnOnce(&mut [u8]) -> (u32, [u32; 2])) -> Self {
        let mut buffer = vec![BEFORE; room + 2 * FENCE];
        let (refusal, numbers) = call(&mut buffer[FENCE..FENCE + room]);
        Self { refusal, numbers, buffer }
    }

    /// The front of the buffer.
    pub fn front(&self, count: usize) -> &[u8] {
        &self.buffer[FENCE..FENCE + count]
    }

    /// An error says where this differs from what another did.
    pub fn same(&self, name: &str, other: &Self, other_name: &str) -> Result<(), String> {
        if (self.refusal, self.numbers) != (other.refusal, other.numbers) {
            return Err(format!("{name}: {}; {other_name}: {}", self.words(), other.words()));
        }
        match (0..self.buffer.len()).find(|&i| self.buffer[i] != other.buffer[i]) {
            None => Ok(()),
            Some(i) => Err(format!(
                "both: {}, but byte {} of the buffer that is lent to be written, {name}: {}; {other_name}: {}",
                self.words(),
                i as isize - FENCE as isize,
                self.buffer[i],
                other.buffer[i]
            )),
        }
    }

    fn words(&self) -> String {
        let [a, b] = self.numbers;
        format!("refusal {}, numbers {a}, {b}", self.refusal)
    }
}

/// Lends a copy to be read, with the byte `around` on both sides, which should be one that makes a difference where it is read.
pub fn lend(bytes: &[u8], around: u8, call: impl FnOnce(&[u8]) -> Outcome) -> Result<Outcome, String> {
    let fence = [around; FENCE];
    let copy = [&fence, bytes, &fence].concat();
    let outcome = call(&copy[FENCE..FENCE + bytes.len()]);
    let (before, rest) = copy.split_at(FENCE);
    if before == fence && rest.starts_with(bytes) && rest.ends_with(&fence) {
        Ok(outcome)
    } else {
        Err("the buffer that is lent to be read was changed, or beside it".into())
    }
}
