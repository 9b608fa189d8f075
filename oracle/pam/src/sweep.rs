//! Inputs by structure: every good file of the cases with every byte changed, put in and taken out, cut at every place, and with
//! its lines changed; numbers on both sides of every limit; several faults at a time; buffers of every length.
use crate::cases;
use crate::draft::{join, numbers, split, Draft, LINES, TYPES};
use crate::input::{pattern, Input, MANY, SIDES};
use pam::{header, spelling, texel_bytes};
use tulonkasa::SIDE_MOST;

/// So many bytes behind a header are changed too.
const BEHIND: usize = 4;

/// Every input of the sweep, in order.
pub fn inputs() -> impl Iterator<Item = Input> {
    let good = cases::reads().into_iter().filter(|case| case.answer.is_ok()).map(|case| case.file);
    let near = good.flat_map(|file| bytes(file.clone()).chain(lines(Draft::new(&file))));
    let written = || Draft::new(&[spelling(2, 1).into_bytes(), pattern(8)].concat());
    let files = near.chain(sizes(written())).chain(types(written()));
    let reads = files.map(|file| Input::Read { room: file.len(), file });
    reads.chain(faults()).chain(lengths()).chain(writes())
}

/// Cut at every place, and every byte taken out, changed and put in, in the header and a little behind it.
fn bytes(file: Vec<u8>) -> impl Iterator<Item = Vec<u8>> {
    let end = header(&file).expect("a good file").texels + BEHIND;
    let places = (0..end).flat_map(|place| [(place, 0), (place, 1)]);
    let edits = places.flat_map(|(place, out)| (0..=255).map(move |byte| (place, out, Some(byte))));
    let edits = edits.chain((0..end).map(|place| (place, 1, None)));
    let cuts = (0..=end).map(|end| file[..end].to_vec()).collect::<Vec<_>>();
    let edited = edits.map(move |(place, out, byte): (usize, usize, Option<u8>)| {
        let mut file = file.clone();
        file.splice(place..place + out, byte);
        file
    });
    cuts.into_iter().chain(edited)
}

/// Every line taken out, doubled anywhere, swapped with every other, joined with the next, split anywhere; and every line of the
/// list put in, and put in its place.
fn lines(draft: Draft) -> impl Iterator<Item = Vec<u8>> {
    let count = draft.lines.len();
    let mut drafts = Vec::new();
    let mut push = |change: &dyn Fn(&mut Vec<Vec<u8>>)| {
        let mut draft = draft.clone();
        change(&mut draft.lines);
        drafts.push(draft);
    };
    for i in 0..count {
        push(&|lines| drop(lines.remove(i)));
        for j in 0..count {
            push(&|lines| lines.swap(i, j));
            push(&|lines| lines.insert(j, lines[i].clone()));
        }
        for between in [&b""[..], b" "] {
            push(&|lines| join(lines, i, between));
        }
        for place in 0..draft.lines[i].len() {
            push(&|lines| split(lines, i, place));
        }
        for line in LINES {
            push(&|lines| lines.insert(i, line.to_vec()));
            push(&|lines| lines[i] = line.to_vec());
        }
    }
    drafts.into_iter().map(|draft| draft.file())
}

/// Every number in every field, two at a time.
fn sizes(draft: Draft) -> impl Iterator<Item = Vec<u8>> {
    let names = [("WIDTH", "HEIGHT", 1), ("DEPTH", "MAXVAL", 3)];
    names.into_iter().flat_map(move |(first, second, place)| {
        let draft = draft.clone();
        let pairs = numbers().into_iter().flat_map(|a| numbers().into_iter().map(move |b| (a.clone(), b)));
        pairs.map(move |(a, b)| {
            let mut draft = draft.clone();
            draft.lines[place] = format!("{first} {a}").into_bytes();
            draft.lines[place + 1] = format!("{second} {b}").into_bytes();
            draft.file()
        })
    })
}

/// Every tuple type, alone and two in a row.
fn types(draft: Draft) -> impl Iterator<Item = Vec<u8>> {
    let alone = TYPES.map(|name| format!("TUPLTYPE {name}"));
    let two = alone.clone().into_iter().flat_map({
        let alone = alone.clone();
        move |first| alone.clone().map(|second| format!("{first}\n{second}"))
    });
    alone.into_iter().chain(two).map(move |line| {
        let mut draft = draft.clone();
        draft.lines[5] = line.into_bytes();
        draft.file()
    })
}

/// Every choice of faults: 13, 14 three times, 2 twice, 15, 6.
fn faults() -> impl Iterator<Item = Input> {
    let above = SIDE_MOST + 1;
    (0..1 << 8u32).map(move |choice| {
        let fault = |i: u32, good: &str, bad: &str| String::from(if choice >> i & 1 == 1 { bad } else { good });
        let header = [
            fault(0, "P7\n", "P7\nAUTHOR me\n"),
            fault(1, "DEPTH 4\n", "DEPTH 3\n"),
            fault(2, "MAXVAL 255\n", "MAXVAL 254\n"),
            fault(3, "TUPLTYPE RGB_ALPHA\n", ""),
            fault(4, "WIDTH 2\n", &format!("WIDTH {above}\n")),
            fault(5, "HEIGHT 1\n", &format!("HEIGHT {above}\n")),
            "ENDHDR\n".into(),
            fault(6, "12345678", "1234567"),
        ];
        Input::Read { file: header.concat().into_bytes(), room: if choice >> 7 == 1 { 7 } else { 8 } }
    })
}

/// Files and pictures of every length up to some bytes more than is needed.
fn lengths() -> impl Iterator<Item = Input> {
    let most = texel_bytes(3, 2) + 5;
    (0..most * most).map(move |i| {
        let file = [spelling(3, 2).into_bytes(), pattern(i / most)].concat();
        Input::Read { file, room: i % most }
    })
}

/// Every two sides, with buffers one byte too short, as long as needed, and longer.
fn writes() -> impl Iterator<Item = Input> {
    let sizes = SIDES.into_iter().flat_map(|width| SIDES.map(|height| (width, height)));
    sizes.flat_map(|(width, height)| {
        let texels = if width.max(height) > SIDE_MOST { 0 } else { texel_bytes(width, height) };
        let whole = spelling(width, height).len() + texels;
        let pictures = [0, texels.saturating_sub(1), texels, texels + 1].into_iter();
        let rooms = [0, 1, whole - texels, whole - 1, whole, whole + 1, whole + 64];
        let buffers = pictures.flat_map(move |picture| rooms.map(|room| (picture, room)));
        let few = texels <= 4 * MANY as usize;
        buffers.filter(move |_| few).map(move |(picture, room)| Input::Write { width, height, picture, room })
    })
}
