//! One input, done by the archive and by the second reader or writer: answers, buffers, and bytes that must not have changed.
use crate::cases;
use crate::input::{pattern, Input};
use common::{lend, Outcome};
use pam::{texel_bytes, Header};
use tulonkasa::ffi;

/// What stands around a buffer that is lent to be read: a newline read past a file's end can make a difference.
const AROUND: u8 = b'\n';

/// Compares; answers the refusal. An error says where the two differ.
pub fn check(input: &Input) -> Result<u32, String> {
    let archive = archive(input)?;
    archive.same("archive", &second(input), "second")?;
    if let (Input::Write { width, height, picture, .. }, 0) = (input, archive.refusal) {
        way_back(archive.front(archive.numbers[0] as usize), *width, *height, &pattern(*picture))?;
    }
    Ok(archive.refusal)
}

/// Reading what was written gives the same size and texels.
fn way_back(file: &[u8], width: u32, height: u32, picture: &[u8]) -> Result<(), String> {
    let room = texel_bytes(width, height);
    let back = archive(&Input::Read { file: file.to_vec(), room })?;
    back.same("read back", &Outcome::new(room, Ok(([width, height], &picture[..room]))), "written")
}

fn archive(input: &Input) -> Result<Outcome, String> {
    match input {
        Input::Read { file, room } => lend(file, AROUND, |file| {
            Outcome::of(*room, |picture| {
                // SAFETY: each pointer comes with its slice's length, and the slices do not overlap.
                let answer = unsafe { ffi::tk_read_pam(file.as_ptr(), file.len(), picture.as_mut_ptr(), picture.len()) };
                (answer.refusal, [answer.width, answer.height])
            })
        }),
        Input::Write { width, height, picture, room } => lend(&pattern(*picture), AROUND, |picture| {
            Outcome::of(*room, |file| {
                let (length, room) = (picture.len(), file.len());
                // SAFETY: each pointer comes with its slice's length, and the slices do not overlap.
                let answer =
                    unsafe { ffi::tk_write_pam(*width, *height, picture.as_ptr(), length, file.as_mut_ptr(), room) };
                (answer.refusal, [answer.count, 0])
            })
        }),
    }
}

fn second(input: &Input) -> Outcome {
    match input {
        Input::Read { file, room } => Outcome::of(*room, |picture| {
            let answer = pam::read(file, picture);
            (answer.err().unwrap_or(0), answer.map_or([0; 2], |(width, height)| [width, height]))
        }),
        Input::Write { width, height, picture, room } => Outcome::of(*room, |file| {
            let answer = pam::write(*width, *height, &pattern(*picture), file);
            (answer.err().unwrap_or(0), [answer.unwrap_or(0), 0])
        }),
    }
}

/// All cases by both, against the answers that are due. Answers how many files were read and written.
pub fn all_cases() -> Result<[usize; 2], String> {
    let (reads, writes) = (cases::reads(), cases::writes());
    for cases::Read { name, file, room, answer } in &reads {
        let due = answer
            .map(|Header { width, height, texels }| ([width, height], &file[texels..texels + texel_bytes(width, height)]));
        both(&Input::Read { file: file.clone(), room: *room }, &Outcome::new(*room, due))
            .map_err(|why| format!("{name}: {why}"))?;
        if let Ok(header) = answer {
            if pam::header(file) != Ok(*header) {
                return Err(format!("{name}: {header:?} is due; second: {:?}", pam::header(file)));
            }
        }
    }
    for case in &writes {
        let &cases::Write { width, height, picture, room, answer } = case;
        let file = [case.header(), pattern(picture)].concat();
        let due = Outcome::new(room, answer.map(|count| ([count as u32, 0], &file[..count])));
        let input = Input::Write { width, height, picture, room };
        both(&input, &due)?;
        check(&input)?;
    }
    Ok([reads.len(), writes.len()])
}

/// Does an input by both, against what is due.
fn both(input: &Input, due: &Outcome) -> Result<(), String> {
    let words = |why| format!("{why}\n{input}");
    archive(input)?.same("archive", due, "due").map_err(words)?;
    second(input).same("second", due, "due").map_err(words)
}
