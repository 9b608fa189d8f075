//! The split through the Rust calls: sides and totals, what is told apart and what is not, each refusal, and the buffers that are lent.
#![allow(clippy::cast_possible_truncation, reason = "the numbers of these tests fit, or are cut to bytes on purpose")]
use tulonkasa::{slices, split, Bank, Entry, Refusal, Side, Tile, Totals, ENTRIES_MOST, ENTRY_BYTES};

/// What was in a buffer before a call.
const OLD: u8 = 0xa5;

/// Where an entry's body begins.
const BODY_AT: usize = 4;

/// An entry of a group: its body is zero but for the group's number in its last bytes.
fn entry(capture: u32, group: u32) -> Entry {
    let mut bytes = [0; ENTRY_BYTES];
    bytes[..BODY_AT].copy_from_slice(&capture.to_be_bytes());
    bytes[ENTRY_BYTES - 4..].copy_from_slice(&group.to_be_bytes());
    bytes.into()
}

/// The entry with another byte at a place.
fn changed(entry: &Entry, place: usize) -> Entry {
    let mut bytes = *entry.bytes();
    bytes[place] ^= 0x80;
    bytes.into()
}

/// Entries of these groups, with rising capture numbers.
fn entries(groups: impl IntoIterator<Item = u32>) -> Vec<Entry> {
    groups.into_iter().zip(0..).map(|(group, capture)| entry(capture, group)).collect()
}

/// The sides as bytes, and the totals, which must be theirs.
fn sides(entries: &[Entry]) -> Vec<u8> {
    let split = split(entries).unwrap();
    let sides: Vec<u8> = split.sides.iter().map(|&side| u8::from(side == Side::HeldOut)).collect();
    let held_out = sides.iter().map(|&side| u32::from(side)).sum();
    assert_eq!(split.totals, Totals { tuning: entries.len() as u32 - held_out, held_out });
    sides
}

#[test]
fn of_five_groups_the_fifth_is_held_out() {
    assert_eq!(sides(&[]), []);
    assert_eq!(sides(&entries([7])), [0]);
    assert_eq!(sides(&entries(0..11)), [0, 0, 0, 0, 1, 0, 0, 0, 0, 1, 0]);
}

#[test]
fn a_further_entry_of_a_group_takes_no_turn() {
    assert_eq!(sides(&entries([9, 9, 8, 9, 7, 8, 6, 5, 9, 5, 4, 5])), [0, 0, 0, 0, 0, 0, 0, 1, 0, 1, 0, 1]);
    assert_eq!(sides(&entries([3; 20])), [0; 20]);
}

#[test]
fn the_capture_number_does_not_matter() {
    for place in 0..BODY_AT {
        let mut five = entries(0..5);
        five.push(changed(&five[4], place));
        assert_eq!(sides(&five), [0, 0, 0, 0, 1, 1], "byte {place}");
        five.push(changed(&five[3], place));
        assert_eq!(sides(&five), [0, 0, 0, 0, 1, 1, 0], "byte {place}");
    }
}

#[test]
fn every_byte_of_a_body_matters() {
    for place in BODY_AT..ENTRY_BYTES {
        let mut four = entries(0..4);
        four.push(changed(&four[3], place));
        assert_eq!(sides(&four), [0, 0, 0, 0, 1], "byte {place}");
    }
}

#[test]
fn later_entries_change_no_side() {
    let all = entries((0..300).map(|i| i * i % 83));
    let whole = sides(&all);
    assert!(whole.contains(&1));
    for length in 0..all.len() {
        assert_eq!(sides(&all[..length]), whole[..length], "{length}");
    }
}

#[test]
fn as_many_as_are_taken() {
    let mut all = entries(0..ENTRIES_MOST as u32);
    let due: Vec<u8> = (0..ENTRIES_MOST).map(|group| u8::from(group % 5 == 4)).collect();
    assert_eq!(sides(&all), due);
    all.push(entry(0, 0));
    assert_eq!(split(&all), Err(Refusal::Count));
}

#[test]
fn a_split_needs_little_stack() {
    let all = entries(0..ENTRIES_MOST as u32);
    // A system may give a thread more than it asks for.
    let thread = std::thread::Builder::new().stack_size(64 << 10).spawn(move || split(&all).map(|split| split.totals));
    assert_eq!(thread.unwrap().join().unwrap(), Ok(Totals { tuning: 3277, held_out: 819 }));
}

#[test]
fn lengths_that_are_not_right_are_refused() {
    let bytes = vec![1; 4 * ENTRY_BYTES + 1];
    let whole = 3 * ENTRY_BYTES;
    // count, the bytes of entries and sides, and the refusal
    let cases = [
        (3, whole, 3, None),
        (3, whole - 1, 3, Some(Refusal::Entries)),
        (3, whole + 1, 3, Some(Refusal::Entries)),
        (3, whole + ENTRY_BYTES, 3, Some(Refusal::Entries)),
        (3, whole, 2, Some(Refusal::Entries)),
        (3, whole, 4, Some(Refusal::Entries)),
        (2, whole, 3, Some(Refusal::Entries)),
        (4, whole, 3, Some(Refusal::Entries)),
        (0, 0, 0, None),
        (0, 1, 0, Some(Refusal::Entries)),
        (0, 0, 1, Some(Refusal::Entries)),
        (1, 0, 0, Some(Refusal::Entries)),
        (ENTRIES_MOST as u32, whole, 3, Some(Refusal::Entries)),
        (ENTRIES_MOST as u32 + 1, whole, 3, Some(Refusal::Count)), // before 17
        (u32::MAX, 0, 0, Some(Refusal::Count)),
    ];
    for (count, length, room, refusal) in cases {
        let mut sides = vec![OLD; room];
        let answer = slices::split(count, &bytes[..length], &mut sides);
        assert_eq!(answer.err(), refusal, "{count} entries, {length} bytes, {room} sides");
        let left = if refusal.is_some() { OLD } else { 0 };
        assert!(sides.iter().all(|&side| side == left), "{count} entries, {length} bytes, {room} sides");
    }
}

#[test]
fn an_entry_has_the_bytes_of_its_parts() {
    let tile = Tile { fmt: 2, siz: 1, palette: 3, mode: 2, cms: 1, cmt: 2, masks: 4, maskt: 5, ..Tile::default() };
    let tile = Tile { line: 258, tmem_addr: 259, width: 260, height: 261, ..tile };
    let key = Bank::from([0x77; 4096]).key(&tile, 3).unwrap();
    let entry = Entry::new(0x0102_0304, &tile, 3, &key).unwrap();
    let head = [1, 2, 3, 4, 2, 1, 3, 2, 1, 2, 4, 5, 1, 2, 1, 3, 1, 4, 1, 5, 3];
    assert_eq!(entry.bytes()[..head.len()], head);
    assert_eq!(entry.bytes()[head.len()..], key.bytes);
    assert_eq!(Tile::from_bytes(entry.body()[..16].try_into().unwrap()), tile);
    assert_eq!(Entry::new(1, &tile, 4, &key), Err(Refusal::ModeOrLane));
    assert_eq!(Entry::new(1, &Tile { mode: 4, ..tile }, 0, &key), Err(Refusal::ModeOrLane));
    assert_eq!(Entry::new(1, &Tile { line: 512, ..tile }, 0, &key), Err(Refusal::Tile));
}

#[test]
fn one_wall_at_two_widths_is_two_groups() {
    let bank = Bank::from([5; 4096]);
    let narrow = Tile { siz: 2, masks: 2, line: 4, width: 4, height: 4, ..Tile::default() };
    let walls = [4, 8, 12, 16, 20, 24, 24].map(|width| {
        let tile = Tile { width, ..narrow };
        Entry::new(width, &tile, 0, &bank.key(&tile, 0).unwrap()).unwrap()
    });
    assert!(walls.iter().all(|wall| wall.body()[17..] == walls[0].body()[17..])); // one key
    assert_eq!(sides(&walls), [0, 0, 0, 0, 1, 0, 0]);
}
