//! One run of records, done by the original's loads and keys, and by the archive or the program.
use crate::buffers::Buffers;
use crate::capture::{By, Companion, Record, Run, END_BYTES, KEY, RECORD_BYTES};
use crate::case::{descriptor, Call};
use crate::check::{archive_load, fill, number, same, same_answer, same_number, same_rejection, Amount, BEFORE};
use crate::numbers::{self, Written};
use crate::program::Program;
use original::calls::{self, Load, Memory};
use tulonkasa::{slices, Refusal, Tile, SIDE_MOST};

/// A load's source has at most this many bytes.
const SOURCE_MOST: u64 = 65536;

/// A companion's bytes: those at its start and those at its end.
pub struct File {
    pub length: u64,
    pub front: Vec<u8>,
    pub back: Vec<u8>,
}

impl File {
    fn new(companion: &Companion) -> Self {
        let filled = |length: u64, seed| {
            let mut bytes = vec![0; length as usize];
            fill(&mut bytes, companion.fill, seed);
            bytes
        };
        let length = companion.length;
        let front = filled(length.min(END_BYTES), companion.seed);
        let back = filled((length - front.len() as u64).min(END_BYTES), companion.seed + 1);
        Self { length, front, back }
    }

    /// Its bytes from an offset on: so many, or as many as there are.
    fn part(&self, offset: u64, most: u64) -> Vec<u8> {
        let end = self.length.min(offset + most);
        let mut part = vec![0; end.saturating_sub(offset) as usize];
        for (start, bytes) in [(0, &self.front), (self.length - self.back.len() as u64, &self.back)] {
            let (from, to) = (offset.max(start), end.min(start + bytes.len() as u64));
            if from < to {
                let found = &bytes[(from - start) as usize..(to - start) as usize];
                part[(from - offset) as usize..(to - offset) as usize].copy_from_slice(found);
            }
        }
        part
    }
}

/// Compares a run; an error says where the two differ.
pub fn check(run: &Run, program: Option<&Program>) -> Result<Amount, String> {
    let file = File::new(&run.companion);
    match (run.by, program) {
        (By::Program, Some(program)) => by_program(run, &file, program),
        _ => by_calls(run, &file),
    }
}

fn by_calls(run: &Run, file: &File) -> Result<Amount, String> {
    let mut original = Original::new(file, run.last);
    original.memory.set_reasons(&run.reasons());
    let mut amount = Amount::default();
    let (mut buffers, mut last) = (original.buffers(), run.last);
    let bytes = run.bytes();
    // What follows a record is lent with it.
    let lent = |i: usize| &bytes[i * RECORD_BYTES..];
    for (i, record) in run.records.iter().enumerate() {
        let due = original.replay(record);
        if run.by == By::OwnCalls && matches!(due, Err(Refusal::Kind | Refusal::Beyond)) {
            continue;
        }
        // Past the companion's end other bytes are lent, so that it is the end that is refused.
        let mut part = file.part(record.offset(), lent_part(record));
        part.resize(lent_part(record) as usize, BEFORE);
        let answer = match run.by {
            By::OwnCalls => own_call(&mut buffers, record, &part, &mut last),
            _ => replay_call(&mut buffers, lent(i), file.length, &part, &mut last),
        };
        let is_asked = run.by == By::OwnCalls && record.kind() == KEY && matches!(due, Ok(_) | Err(Refusal::Pair));
        same_answer(due, answer)
            .and_then(|()| original.same(&buffers, last))
            .and_then(|()| match is_asked {
                true => same_rejection(&original.memory, &record.tile(), &buffers.reasons),
                false => Ok(Amount::default()),
            })
            .map(|asked| amount += asked)
            .map_err(|why| format!("record {i}: {why}"))?;
        amount += counted(record, due);
    }
    if run.by == By::Call && !run.tail.is_empty() {
        let answer = replay_call(&mut buffers, lent(run.records.len()), file.length, &file.front, &mut last);
        same_answer(Err(Refusal::Torn), answer)?;
        amount += torn();
    }
    original.same(&buffers, last).map_err(|why| format!("at the end: {why}"))?;
    Ok(amount)
}

/// The load or key of a record, by its own call.
fn own_call(buffers: &mut Buffers, record: &Record, part: &[u8], last: &mut u32) -> Result<u32, Refusal> {
    let case = record.case().ok_or(Refusal::Kind)?;
    if case.call == Call::Key {
        return slices::key(&buffers.bank, &case.tile, case.lane, &mut [0; 4096]);
    }
    archive_load(buffers, part, &case, last).map(|loaded| loaded.count)
}

/// A record, by the call that does one of any kind.
fn replay_call(buffers: &mut Buffers, record: &[u8], end: u64, part: &[u8], last: &mut u32) -> Result<u32, Refusal> {
    let Buffers { bank, written, reasons } = buffers;
    slices::replay_record(bank, written, reasons, record, end, part, last)
}

fn by_program(run: &Run, file: &File, program: &Program) -> Result<Amount, String> {
    let mut original = Original::new(file, 0);
    let mut amount = Amount::default();
    let mut due = String::new();
    for record in &run.records {
        let answer = original.replay(record);
        due += &line(answer);
        amount += counted(record, answer);
    }
    if !run.tail.is_empty() {
        due += &line(Err(Refusal::Torn));
        amount += torn();
    }
    let printed = program.replay(file, &run.bytes())?;
    if due == printed {
        return Ok(amount);
    }
    let (mut due, mut printed) = (due.split_inclusive('\n'), printed.split_inclusive('\n'));
    let differ = (0..).map(|i| (i, due.next(), printed.next())).find(|(_, due, printed)| due != printed);
    Err(format!("line, due and printed: {differ:?}"))
}

/// The original's memory, which is carried from record to record, and which load stored last at each of its addresses.
struct Original<'a> {
    memory: Memory,
    written: Written,
    last: u32,
    file: &'a File,
}

impl<'a> Original<'a> {
    fn new(file: &'a File, last: u32) -> Self {
        Self { memory: Memory::fresh(), written: numbers::FRESH, last, file }
    }

    fn buffers(&self) -> Buffers {
        Buffers { bank: *self.memory.bytes(), written: self.written, reasons: self.memory.reasons() }
    }

    /// An error says where the archive's buffers, or the last number, are not these.
    fn same(&self, buffers: &Buffers, last: u32) -> Result<(), String> {
        same_number(self.last, last)?;
        Buffers::same(&self.buffers(), buffers)?;
        same("the written addresses", &self.memory.written(), &numbers::marks(&buffers.written))
    }

    /// Does a record, and gives back what is due for it.
    fn replay(&mut self, record: &Record) -> Result<u32, Refusal> {
        if let Some(refusal) = refusal(record, self.file.length) {
            return Err(refusal);
        }
        let tile = record.tile();
        let Some(load) = record.load() else {
            let key = calls::key(&self.memory.bytes(), &descriptor(&tile), tile.mode as u8, record.lane() as usize);
            return key.map(|(_, kept)| kept).ok_or(Refusal::Pair);
        };
        let number = number(record.reason, self.last)?;
        let source = self.file.part(record.offset(), record.length());
        let image_siz = record.image_siz() as u8;
        let counted = self.memory.load_counted(&source, &descriptor(&tile), image_siz, load, record.reason);
        numbers::store(&mut self.written, &counted.marks, number);
        self.last = number;
        Ok(counted.stores)
    }
}

/// The refusal that documents 01 and 02 ask for. Of refusal 5 the original is asked, and 19 and 18 come after these.
fn refusal(record: &Record, end: u64) -> Option<Refusal> {
    let Tile { fmt, siz, palette, mode, cms, cmt, masks, maskt, line, tmem_addr, width, height } = record.tile();
    let load_fields = fmt > 7 || siz > 3 || line > 511 || tmem_addr > 511;
    let other_fields = palette > 15 || cms > 3 || cmt > 3 || masks > 15 || maskt > 15;
    let sides = width.max(height) > SIDE_MOST;
    let Some(load) = record.load() else {
        return first(&[
            (record.kind() > KEY, Refusal::Kind),
            (load_fields || other_fields || sides, Refusal::Tile),
            (mode > 3 || record.lane() > 3, Refusal::ModeOrLane),
        ]);
    };
    let numbers = match load {
        Load::Block { dxt, words } => dxt > 4095 || words > 2048,
        Load::Tile { rows, words, .. } => rows > 1024 || words > 512,
        Load::Tlut { count, rows, .. } | Load::TlutRows { count, rows, .. } => count > 1024 || !(1..=1024).contains(&rows),
    };
    first(&[
        (load_fields, Refusal::Tile),
        (numbers || record.image_siz() > 3 || record.length() > SOURCE_MOST, Refusal::Load),
        (end < record.offset() + record.length(), Refusal::Beyond),
        (lent_part(record) < record.length(), Refusal::Beyond),
    ])
}

/// The refusal of the first test that holds.
fn first(tests: &[(bool, Refusal)]) -> Option<Refusal> {
    tests.iter().find(|(holds, _)| *holds).map(|(_, refusal)| *refusal)
}

/// How many bytes are lent with a record.
fn lent_part(record: &Record) -> u64 {
    record.length().min(SOURCE_MOST + 1).saturating_add_signed(record.surplus.into())
}

/// A line of the program.
fn line(answer: Result<u32, Refusal>) -> String {
    match answer {
        Ok(count) => format!("0 {count}\n"),
        Err(refusal) => format!("{} 0\n", refusal.number()),
    }
}

fn counted(record: &Record, answer: Result<u32, Refusal>) -> Amount {
    let stores = if record.load().is_some() { answer.unwrap_or(0) } else { 0 };
    Amount { calls: 1, refused: answer.is_err().into(), stores: stores.into(), ..Amount::default() }
}

fn torn() -> Amount {
    Amount { calls: 1, refused: 1, ..Amount::default() }
}
