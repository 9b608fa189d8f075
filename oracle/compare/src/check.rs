//! One case, done by the original and by the archive: answers, buffers, and bytes that must not have changed.
use crate::buffers::{asked_reasons, found_reasons, Buffers};
use crate::case::{descriptor, Call, Case, Change, Fill, Offer, OFFERS};
use crate::input::Input;
use crate::linear;
use crate::numbers;
use crate::program::Program;
use crate::random::Random;
use crate::replay;
use original::calls::{self, Bytes, Counted, Load, Map, Memory, Picture, Reach};
use original::TileDescriptor;
use std::ops::AddAssign;
use tulonkasa::{slices, Checked, Loaded, Refusal, Sampling, Tile, LOOKUP_TEXELS, SIDE_MOST};

/// What a buffer that is lent to be written holds before.
pub const BEFORE: u8 = 0xa5;

/// So many bytes behind a lent picture or trail are looked at too.
const FENCE: usize = 64;

/// The texels of the largest picture, and the bytes of the bank that a texel reads at most.
const TEXELS_MOST: usize = (SIDE_MOST * SIDE_MOST) as usize;
const READS_MOST: usize = 4;

/// How much was compared.
#[derive(Clone, Copy, Default)]
pub struct Amount {
    pub calls: u64,
    pub refused: u64,
    pub reasons: u64,
    pub wrong: u64,
    pub stores: u64,
    pub made_up: u64,
    pub texels: u64,
    pub reads: u64,
}

impl AddAssign for Amount {
    fn add_assign(&mut self, other: Self) {
        self.calls += other.calls;
        self.refused += other.refused;
        self.reasons += other.reasons;
        self.wrong += other.wrong;
        self.stores += other.stores;
        self.made_up += other.made_up;
        self.texels += other.texels;
        self.reads += other.reads;
    }
}

/// The buffers of one worker.
pub struct Workspace {
    bank: Box<Bytes>,
    source: Vec<u8>,
    picture: Vec<u8>,
    trail: Vec<u8>,
    expected_trail: Vec<u8>,
    reach: Reach,
    /// What is asked for reasons.
    asked: Memory,
    program: Option<Program>,
}

impl Workspace {
    pub fn new(program: Option<Program>) -> Self {
        Self {
            bank: Box::new([0; 4096]),
            source: vec![0; 65536],
            picture: vec![BEFORE; 4 * TEXELS_MOST + 2 * FENCE],
            trail: vec![BEFORE; 2 * READS_MOST * TEXELS_MOST + 2 * FENCE],
            expected_trail: Vec::new(),
            reach: Reach::default(),
            asked: Memory::fresh(),
            program,
        }
    }

    /// Compares; an error says where the two differ.
    pub fn check(&mut self, input: &Input) -> Result<Amount, String> {
        match input {
            Input::Case(case) => self.case(case),
            Input::Run(run) => replay::check(run, self.program.as_ref()),
        }
    }

    fn case(&mut self, case: &Case) -> Result<Amount, String> {
        fill(&mut self.bank[..], case.fill, case.seed);
        let bank = self.bank.clone();
        let amount = match case.call {
            Call::LoadBlock | Call::LoadTile | Call::LoadTlut | Call::LoadTlutRows => self.load(case),
            Call::Sampling => sampling(case),
            Call::Picture { which, observed } => self.picture(case, which, observed),
            Call::Reach => self.reach(case),
            Call::TileHasLoad => has_load(case),
            Call::Rejection => self.rejection(case),
            Call::PaletteNonreplicated => lanes(&bank),
            Call::Key => key(&self.bank, case),
            Call::Linear => self.linear(case),
            Call::RoundTrip => self.round_trip(case),
            Call::CheckKey => check_key(&self.bank, case),
        }?;
        same("the bank that was lent to be read", &bank[..], &self.bank[..])?;
        Ok(Amount { calls: 1, ..amount })
    }

    fn load(&mut self, case: &Case) -> Result<Amount, String> {
        let untouched = self.source(case);
        let source = &self.source[..untouched.len()];
        let before = Buffers {
            bank: *self.bank,
            written: numbers::found(case.fill, case.seed + 2),
            reasons: found_reasons(case.fill, case.seed + 4),
        };
        let (mut buffers, mut last) = (before.clone(), case.last);
        let answer = archive_load(&mut buffers, source, case, &mut last);
        same("the source", &untouched, source)?;

        let number = match number(case.reason, case.last) {
            Ok(number) => number,
            Err(refusal) => {
                same_answer(Err(refusal), answer)?;
                same_number(case.last, last)?;
                Buffers::same(&before, &buffers)?;
                return Ok(Amount { refused: 1, ..Amount::default() });
            }
        };
        let mut memory = Memory::new(&before.bank);
        memory.set_reasons(&before.reasons);
        let (tile, image_siz) = (descriptor(&case.tile), case.image_siz as u8);
        let counted = memory.load_counted(&untouched, &tile, image_siz, case.load(), case.reason);
        same_loaded(&counted, number, answer)?;
        same_number(number, last)?;
        let mut written = before.written;
        numbers::store(&mut written, &counted.marks, number);
        Buffers::same(&Buffers { bank: *memory.bytes(), written, reasons: memory.reasons() }, &buffers)?;
        let marks = numbers::either(&numbers::marks(&before.written), &memory.written());
        same("the written addresses", &marks, &numbers::marks(&buffers.written))?;
        Ok(Amount { stores: counted.stores.into(), made_up: counted.made_up.into(), ..Amount::default() })
    }

    fn picture(&mut self, case: &Case, which: Picture, observed: bool) -> Result<Amount, String> {
        let expected = self.original_picture(case, which, observed);
        let texels = match which {
            Picture::Plain => (case.tile.width * case.tile.height) as usize,
            Picture::Lookup => LOOKUP_TEXELS,
        };
        let picture_length = lent(4 * texels, case.surplus, -1);
        let trail_length = lent(self.expected_trail.len(), case.surplus, -2);
        let answered = match &expected {
            None => Err(Refusal::Pair),
            Some(_) if picture_length < 4 * texels => Err(Refusal::Picture),
            Some(_) if trail_length < self.expected_trail.len() => Err(Refusal::Trail),
            Some((_, reads)) => Ok(*reads),
        };

        self.picture[..picture_length + FENCE].fill(BEFORE);
        self.trail[..trail_length + FENCE].fill(BEFORE);
        same_answer(answered, self.archive_picture(case, which, observed, picture_length, trail_length))?;
        let (made, told) = match (&expected, answered) {
            (Some((picture, _)), Ok(_)) => (&picture[..], &self.expected_trail[..]),
            _ => (&[][..], &[][..]),
        };
        same_front("the picture", made, &self.picture[..picture_length + FENCE])?;
        same_front("the trail", told, &self.trail[..trail_length + FENCE])?;
        let refused = answered.is_err().into();
        let reads = answered.unwrap_or(0).into();
        Ok(Amount { texels: made.len() as u64 / 4, reads, refused, ..Amount::default() })
    }

    /// The original's picture and its count of reads. Its trail, if asked for, is left in `expected_trail`.
    fn original_picture(&mut self, case: &Case, which: Picture, observed: bool) -> Option<(Vec<u8>, u32)> {
        let (tile, mode, lane) = (descriptor(&case.tile), case.tile.mode as u8, case.lane as usize);
        let trail = &mut self.expected_trail;
        trail.clear();
        if !observed {
            return calls::picture_counted(&self.bank, &tile, mode, lane, which);
        }
        let picture = calls::picture_observed(&self.bank, &tile, mode, lane, which, trail)?;
        Some((picture, (trail.len() / 2) as u32))
    }

    fn archive_picture(
        &mut self,
        case: &Case,
        which: Picture,
        observed: bool,
        picture_length: usize,
        trail_length: usize,
    ) -> Result<u32, Refusal> {
        let (bank, tile, lane) = (&self.bank[..], &case.tile, case.lane);
        let (picture, trail) = (&mut self.picture[..picture_length], &mut self.trail[..trail_length]);
        match (which, observed) {
            (Picture::Plain, false) => slices::sample_tile(bank, tile, lane, picture),
            (Picture::Plain, true) => slices::sample_tile_observed(bank, tile, lane, picture, trail),
            (Picture::Lookup, false) => slices::sampling_lookup(bank, tile, lane, picture),
            (Picture::Lookup, true) => slices::sampling_lookup_observed(bank, tile, lane, picture, trail),
        }
    }

    /// The model's picture, which has to be the original's too, save of the one pair that the original alone decodes.
    fn linear(&mut self, case: &Case) -> Result<Amount, String> {
        let (tile, source) = (&case.tile, self.source(case));
        let model = linear::model(tile, case.numbers[0], &source);
        if linear::against(case) != linear::Against::Nothing && (tile.fmt, tile.siz) != (2, 3) {
            let original = linear::original(case, &source);
            same_answer(
                original.as_ref().map(Vec::len).ok_or(Refusal::Pair),
                model.as_ref().map(|(made, _)| made.len()).ok_or(Refusal::Pair),
            )?;
            same("the model's picture", &original.unwrap_or_default(), &model.clone().unwrap_or_default().0)?;
        }
        self.decoded(case, &source, model)
    }

    /// The picture that the original makes after its own load into the bank. Tiles of which it need not be the same are met only while
    /// a failing case is made smaller.
    fn round_trip(&mut self, case: &Case) -> Result<Amount, String> {
        let (tile, source) = (descriptor(&case.tile), self.source(case));
        let Some((_, reads)) = linear::model(&case.tile, 0, &[]).filter(|_| linear::fits(&case.tile)) else {
            return Ok(Amount::default());
        };
        let mut memory = Memory::new(&self.bank);
        let (rows, words) = (case.tile.height as usize, linear::row_words(&case.tile) as usize);
        memory.load(&source, &tile, tile.siz, Load::Tile { rows, words, stride: case.numbers[0] as usize });
        let (mode, lane) = (case.tile.mode as u8, case.lane as usize);
        let picture = calls::picture(&memory.bytes(), &tile, mode, lane, Picture::Plain);
        self.decoded(case, &source, picture.map(|picture| (picture, reads)))
    }

    /// The case's source.
    fn source(&mut self, case: &Case) -> Vec<u8> {
        let source = &mut self.source[..case.source_length as usize];
        fill(source, case.fill, case.seed + 1);
        source.to_vec()
    }

    /// The archive's decoding of a source, against the picture that is due with its count of reads; none for a pair that is refused.
    fn decoded(&mut self, case: &Case, source: &[u8], due: Option<(Vec<u8>, u32)>) -> Result<Amount, String> {
        let needed = 4 * (case.tile.width * case.tile.height) as usize;
        let length = lent(needed, case.surplus, -1);
        let answered = match &due {
            None => Err(Refusal::Pair),
            Some(_) if length < needed => Err(Refusal::Picture),
            Some((_, reads)) => Ok(*reads),
        };
        self.picture[..length + FENCE].fill(BEFORE);
        let lent_source = &self.source[..source.len()];
        same_answer(
            answered,
            slices::decode_linear(lent_source, &case.tile, case.numbers[0], &mut self.picture[..length]),
        )?;
        same("the source", source, lent_source)?;
        let made = due.filter(|_| answered.is_ok()).map_or_else(Vec::new, |(made, _)| made);
        same_front("the picture", &made, &self.picture[..length + FENCE])?;
        let (texels, reads) = (made.len() as u64 / 4, answered.unwrap_or(0).into());
        Ok(Amount { texels, reads, refused: answered.is_err().into(), ..Amount::default() })
    }

    fn reach(&self, case: &Case) -> Result<Amount, String> {
        let expected = self.reach.of(&descriptor(&case.tile), case.tile.mode as u8);
        let mut map = [BEFORE; 512];
        same_answer(Ok(()), slices::reach(&case.tile, &mut map))?;
        same("the reach map", &expected, &map)?;
        has_load_of_reach(case, &expected)?;
        Ok(Amount::default())
    }

    fn rejection(&mut self, case: &Case) -> Result<Amount, String> {
        let reasons = asked_reasons(case);
        self.asked.set_reasons(&reasons);
        same_rejection(&self.asked, &case.tile, &reasons)
    }
}

/// The archive's load, after one of the number `last`.
pub fn archive_load(buffers: &mut Buffers, source: &[u8], case: &Case, last: &mut u32) -> Result<Loaded, Refusal> {
    let Buffers { bank, written, reasons: map } = buffers;
    let (tile, image_siz, [a, b, c]) = (&case.tile, case.image_siz, case.numbers);
    match (case.call, case.reason) {
        (Call::LoadBlock, None) => slices::load_block(bank, written, map, source, tile, image_siz, a, b, last),
        (Call::LoadBlock, Some(reason)) => {
            slices::reject_block(bank, written, map, source, tile, image_siz, a, b, reason, last)
        }
        (Call::LoadTlut, None) if case.picks_hardware() => {
            slices::load_tlut_hardware(bank, written, map, source, tile, image_siz, a, b, c, last)
        }
        (Call::LoadTlut, Some(reason)) if case.picks_hardware() => {
            slices::reject_tlut_hardware(bank, written, map, source, tile, image_siz, a, b, c, reason, last)
        }
        (Call::LoadTlut | Call::LoadTlutRows, None) => {
            slices::load_tlut_rows(bank, written, map, source, tile, image_siz, a, b, c, last)
        }
        (Call::LoadTlut | Call::LoadTlutRows, Some(reason)) => {
            slices::reject_tlut_rows(bank, written, map, source, tile, image_siz, a, b, c, reason, last)
        }
        (_, None) => slices::load_tile(bank, written, map, source, tile, image_siz, a, b, c, last),
        (_, Some(reason)) => slices::reject_tile(bank, written, map, source, tile, image_siz, a, b, c, reason, last),
    }
}

/// The number of the load after the one with the number `last`; or the refusal by its reason, or where no number is left. The original
/// has none of these.
pub fn number(reason: Option<u32>, last: u32) -> Result<u32, Refusal> {
    match reason {
        Some(0 | 256..) => Err(Refusal::Reason),
        _ => numbers::after(last).ok_or(Refusal::Number),
    }
}

fn sampling(case: &Case) -> Result<Amount, String> {
    let (flag, [width, height]) = calls::sampling(&descriptor(&case.tile), case.tile.mode as u8);
    same_answer(Ok(Sampling { lookup: flag == 1, width, height }), slices::sampling(&case.tile))?;
    Ok(Amount::default())
}

/// The original's question, after a tile load in a fresh memory.
fn has_load(case: &Case) -> Result<Amount, String> {
    let [tmem_addr, words, rows] = case.numbers;
    let loaded = Tile { tmem_addr, ..case.tile };
    let load = Case { call: Call::LoadTile, tile: loaded, numbers: [rows, words, 8], ..*case };
    let (mut buffers, mut last) = (Buffers { bank: [0; 4096], written: numbers::FRESH, reasons: [0; 4096] }, case.last);
    let answer = archive_load(&mut buffers, &[], &load, &mut last);

    let mut memory = Memory::fresh();
    let counted = memory.load_counted(&[], &descriptor(&loaded), case.image_siz as u8, load.load(), None);
    same_loaded(&counted, case.last + 1, answer)?;
    let yes = memory.tile_has_load(&descriptor(&case.tile), case.tile.mode as u8);
    same_answer(Ok(yes), slices::tile_has_load(&case.tile, &buffers.written))?;
    Ok(Amount::default())
}

/// The question, in the original's memory and of the archive's reasons.
pub fn same_rejection(memory: &Memory, tile: &Tile, reasons: &Bytes) -> Result<Amount, String> {
    let lent = *reasons;
    let due = memory.rejection(&descriptor(tile), tile.mode as u8);
    same_answer(Ok(due), slices::rejection(tile, &lent))?;
    same("the reasons that were lent to be read", reasons, &lent)?;
    Ok(Amount { reasons: due.is_some().into(), ..Amount::default() })
}

/// The archive's question against the original's reach, for records that no load leaves: all but the reach, one address of it,
/// and a few random ones. Each is asked with numbers of which the one byte or the other is zero.
fn has_load_of_reach(case: &Case, reach: &Map) -> Result<(), String> {
    let ask = |map: &Map| {
        let meets = reach.iter().zip(map).any(|(a, b)| a & b != 0);
        [1, 256].into_iter().try_for_each(|number| {
            let mut written = numbers::FRESH;
            numbers::store(&mut written, map, number);
            same_answer(Ok(meets), slices::tile_has_load(&case.tile, &written))
        })
    };
    ask(&reach.map(|byte| !byte))?;
    ask(&[0; 512])?;
    let mut random = Random::new(case.seed);
    let first = (0..4096).find(|&address| numbers::is_marked(reach, address));
    let last = (0..4096).rev().find(|&address| numbers::is_marked(reach, address));
    for address in [first, last, Some(random.to(4095) as usize), Some(random.to(4095) as usize)].into_iter().flatten() {
        let mut map = [0; 512];
        map[address / 8] = 1 << (address % 8);
        ask(&map)?;
    }
    Ok(())
}

fn lanes(bank: &Bytes) -> Result<Amount, String> {
    let mut map = [BEFORE; 32];
    same_answer(Ok(()), slices::palette_nonreplicated(bank, &mut map))?;
    same("the lane map", &calls::palette_nonreplicated(bank), &map)?;
    Ok(Amount::default())
}

fn key(bank: &Bytes, case: &Case) -> Result<Amount, String> {
    let mut key = [BEFORE; 4096];
    let answer = slices::key(bank, &case.tile, case.lane, &mut key);
    let expected = calls::key(bank, &descriptor(&case.tile), case.tile.mode as u8, case.lane as usize);
    same_answer(expected.map(|(_, kept)| kept).ok_or(Refusal::Pair), answer)?;
    let refused = expected.is_none().into();
    same("the key", &expected.map_or([BEFORE; 4096], |(key, _)| key), &key)?;
    Ok(Amount { refused, ..Amount::default() })
}

/// What is due of an offer is told by the addresses that the original reads, and by the sentences of document 02's item 13.
fn check_key(bank: &Bytes, case: &Case) -> Result<Amount, String> {
    let (tile, mode, lane) = (descriptor(&case.tile), case.tile.mode as u8, case.lane as usize);
    let reads = calls::visible_reads(bank, &tile, mode, lane);
    // Of a pair that is not accepted any will do.
    let mut offer = match OFFERS[case.image_siz as usize] {
        Offer::Right => reads.map_or([0; 4096], |kept| calls::kept(bank, &kept)),
        Offer::Whole => {
            let whole = TileDescriptor { masks: 0, maskt: 0, ..tile };
            calls::key(bank, &whole, mode, lane).map_or([0; 4096], |(key, _)| key)
        }
        Offer::Bank => *bank,
        Offer::Zero => [0; 4096],
    };
    change(&mut offer, bank, case);
    let lent = offer;
    let answer = slices::check_key(bank, &case.tile, case.lane, &lent);
    let due = reads.map(|kept| checked(bank, &kept, &offer)).ok_or(Refusal::Pair);
    same_answer(due, answer)?;
    same("the offer that was lent to be read", &offer, &lent)?;
    let wrong = due.is_ok_and(|checked| !checked.is_right()).into();
    Ok(Amount { refused: due.is_err().into(), wrong, ..Amount::default() })
}

/// Changes bytes of an offer.
fn change(offer: &mut Bytes, bank: &Bytes, case: &Case) {
    for (change, address) in case.changes() {
        match change {
            Change::ToZero => offer[address] = 0,
            Change::ToTheBanks => offer[address] = bank[address],
            Change::ByABit => offer[address] ^= 1 << (case.seed % 8),
        }
    }
}

/// The lowest address at which the offer is not the key, and which of the sentences holds there.
fn checked(bank: &Bytes, kept: &[bool; 4096], offer: &Bytes) -> Checked {
    let wrong = |address: &usize| offer[*address] != if kept[*address] { bank[*address] } else { 0 };
    let Some(lowest) = (0..4096).find(wrong) else { return Checked::Right };
    let address = lowest as u16;
    if kept[lowest] && bank[lowest] != 0 && offer[lowest] == 0 {
        Checked::Missing { address }
    } else if !kept[lowest] && offer[lowest] != 0 {
        Checked::LeftOver { address }
    } else {
        Checked::AnotherValue { address }
    }
}

/// A needed length with a surplus, or one byte short.
fn lent(needed: usize, surplus: i32, short: i32) -> usize {
    match surplus {
        0.. => needed + surplus as usize,
        _ if surplus == short => needed.saturating_sub(1),
        _ => needed,
    }
}

pub fn fill(bytes: &mut [u8], fill: Fill, seed: u64) {
    let mut random = Random::new(seed);
    match fill {
        Fill::Zero => bytes.fill(0),
        Fill::Rising => bytes.iter_mut().enumerate().for_each(|(i, byte)| *byte = i as u8),
        Fill::Random => random.fill(bytes),
        Fill::Palette => {
            random.fill(bytes);
            for slot in bytes.chunks_exact_mut(8) {
                slot.copy_within(..2, 2);
                slot.copy_within(..4, 4);
            }
            for _ in 0..random.to(4) {
                if let Some(most) = bytes.len().checked_sub(1) {
                    bytes[random.to(most as u32) as usize] ^= 1 << random.to(7);
                }
            }
        }
    }
}

pub fn same_answer<T: PartialEq + std::fmt::Debug>(
    original: Result<T, Refusal>,
    archive: Result<T, Refusal>,
) -> Result<(), String> {
    if original == archive {
        return Ok(());
    }
    Err(format!("the original asks for {original:?}, the archive answers {archive:?}"))
}

fn same_loaded(original: &Counted, number: u32, archive: Result<Loaded, Refusal>) -> Result<(), String> {
    same_answer(Ok(Loaded { count: original.stores, made_up: original.made_up, number }), archive)
}

/// The number that is handed back.
pub fn same_number(due: u32, archive: u32) -> Result<(), String> {
    if due == archive {
        return Ok(());
    }
    Err(format!("the last number is {due}, the archive hands back {archive}"))
}

pub fn same(what: &str, original: &[u8], archive: &[u8]) -> Result<(), String> {
    if original == archive {
        return Ok(());
    }
    let place = original.iter().zip(archive).position(|(a, b)| a != b);
    Err(match place {
        Some(i) => format!("{what}, byte {i}: the original has {}, the archive {}", original[i], archive[i]),
        None => format!("{what}: the original has {} bytes, the archive {}", original.len(), archive.len()),
    })
}

/// The front of what was lent is the original's, and the rest is as before.
fn same_front(what: &str, original: &[u8], lent: &[u8]) -> Result<(), String> {
    let (front, rest) = lent.split_at(original.len());
    same(what, original, front)?;
    match rest.iter().position(|&byte| byte != BEFORE) {
        None => Ok(()),
        Some(i) => Err(format!("{what}, byte {}: it must not change, and is {}", original.len() + i, rest[i])),
    }
}
