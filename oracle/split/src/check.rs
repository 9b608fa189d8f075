//! One input, done by the archive and by the second splitter: answers, sides, and bytes that must not have changed.
use crate::cases;
use crate::input::Input;
use common::{lend, Outcome};
use tulonkasa::ffi;

/// What stands around the entries.
const AROUND: u8 = 0;

/// Compares; answers the refusal, and the bytes that were lent as entries. An error says where the two differ.
pub fn check(input: &Input) -> Result<(u32, Vec<u8>), String> {
    let entries = input.entries();
    let archive = archive(input, &entries)?;
    archive.same("archive", &second(input, &entries), "second")?;
    Ok((archive.refusal, entries))
}

fn archive(input: &Input, entries: &[u8]) -> Result<Outcome, String> {
    lend(entries, AROUND, |entries| {
        Outcome::of(input.sides, |sides| {
            let (bytes, room) = (entries.len(), sides.len());
            // SAFETY: each pointer comes with its slice's length, and the slices do not overlap.
            let answer = unsafe { ffi::tk_split(input.count, entries.as_ptr(), bytes, sides.as_mut_ptr(), room) };
            (answer.refusal, [answer.tuning, answer.held_out])
        })
    })
}

fn second(input: &Input, entries: &[u8]) -> Outcome {
    Outcome::of(input.sides, |sides| {
        let answer = split::split(input.count, entries, sides);
        (answer.err().unwrap_or(0), answer.unwrap_or_default())
    })
}

/// All cases by both, against the answers that are due. Answers how many there are.
pub fn all_cases() -> Result<usize, String> {
    let cases = cases::all();
    for (input, due) in &cases {
        let words = |why| format!("{why}\n{input}");
        let due = due.as_ref().map(|(totals, sides)| (*totals, &sides[..])).map_err(|refusal| *refusal);
        let due = Outcome::new(input.sides, due);
        let entries = input.entries();
        archive(input, &entries)?.same("archive", &due, "due").map_err(words)?;
        second(input, &entries).same("second", &due, "due").map_err(words)?;
    }
    Ok(cases.len())
}
