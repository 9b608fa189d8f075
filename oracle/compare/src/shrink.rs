//! Makes a failing input smaller as long as it fails.
use crate::capture::{Companion, Record, Run, RECORD_BYTES};
use crate::case::{Case, Fill};
use crate::check::Workspace;
use crate::input::Input;

/// The smallest input found from a failing one, and how it fails.
pub fn smallest(workspace: &mut Workspace, mut input: Input, mut why: String) -> (Input, String) {
    while let Some(smaller) = smaller(workspace, &input) {
        (input, why) = smaller;
    }
    (input, why)
}

/// A smaller input that fails too.
fn smaller(workspace: &mut Workspace, input: &Input) -> Option<(Input, String)> {
    smaller_inputs(input).find_map(|input| workspace.check(&input).err().map(|why| (input, why)))
}

/// Inputs with one thing smaller, the smallest first.
fn smaller_inputs(input: &Input) -> Box<dyn Iterator<Item = Input> + '_> {
    match input {
        Input::Case(case) => Box::new(smaller_cases(case).into_iter().map(Input::Case)),
        Input::Run(run) => Box::new(smaller_runs(run).map(Input::Run)),
    }
}

/// Cases with one thing smaller, the smallest first.
fn smaller_cases(case: &Case) -> Vec<Case> {
    let mut cases: Vec<_> = simpler(case.fill).iter().map(|&fill| Case { fill, seed: 0, ..*case }).collect();
    if case.surplus != 0 {
        cases.push(Case { surplus: 0, ..*case });
    }
    if case.reason.is_some() {
        cases.push(Case { reason: None, ..*case });
    }
    let count = case.clone().numbers_mut().len();
    for i in 0..count {
        for smaller in smaller_numbers((*case.clone().numbers_mut()[i]).into()) {
            let mut case = *case;
            *case.numbers_mut()[i] = smaller as u32;
            if !case.is_tlut() || case.numbers[1] > 0 {
                cases.push(case);
            }
        }
    }
    cases
}

/// Runs of fewer records, with all of them, half of them, and so on down to one left out at a time; then those with one thing
/// smaller.
fn smaller_runs(run: &Run) -> impl Iterator<Item = Run> + '_ {
    let count = run.records.len();
    let pieces = std::iter::successors(Some(count), |piece| Some(piece / 2)).take_while(|&piece| piece > 0);
    let fewer = pieces.flat_map(move |piece| (0..count).step_by(piece).map(move |start| (start, piece))).map(
        move |(start, piece)| {
            let mut run = run.clone();
            run.records.drain(start..count.min(start + piece));
            run
        },
    );
    let tails = smaller_numbers(run.tail.len() as u64)
        .map(|length| Run { tail: run.tail[..length as usize].to_vec(), ..run.clone() });
    let lasts = smaller_numbers(run.last.into()).map(|last| Run { last: last as u32, ..run.clone() });
    let companions = smaller_companions(run.companion).map(|companion| Run { companion, ..run.clone() });
    let bytes = (0..count).flat_map(move |i| smaller_records(run, i));
    fewer.chain(tails).chain(lasts).chain(companions).chain(bytes)
}

/// Runs with one thing of one record smaller.
fn smaller_records(run: &Run, i: usize) -> impl Iterator<Item = Run> + '_ {
    let record = run.records[i];
    let exact = (record.surplus != 0).then_some(Record { surplus: 0, ..record });
    let smaller_reasons = record.reason.into_iter().flat_map(|reason| smaller_numbers(reason.into()));
    let reasons = record.reason.map(|_| None).into_iter().chain(smaller_reasons.map(|reason| Some(reason as u32)));
    let reasons = reasons.map(move |reason| {
        let mut record = record;
        record.reason = reason;
        record
    });
    let bytes = (0..RECORD_BYTES).flat_map(move |place| {
        smaller_numbers(record.bytes[place].into()).map(move |smaller| {
            let mut record = record;
            record.bytes[place] = smaller as u8;
            record
        })
    });
    exact.into_iter().chain(reasons).chain(bytes).map(move |record| {
        let mut run = run.clone();
        run.records[i] = record;
        run
    })
}

fn smaller_companions(companion: Companion) -> impl Iterator<Item = Companion> {
    let fills = simpler(companion.fill).iter().map(move |&fill| Companion { fill, seed: 0, ..companion });
    let lengths = smaller_numbers(companion.length).map(move |length| Companion { length, ..companion });
    fills.chain(lengths)
}

/// What is simpler to fill a buffer with.
fn simpler(fill: Fill) -> &'static [Fill] {
    match fill {
        Fill::Random | Fill::Palette => &[Fill::Zero, Fill::Rising],
        Fill::Rising => &[Fill::Zero],
        Fill::Zero => &[],
    }
}

/// Nothing, half, and one less.
fn smaller_numbers(number: u64) -> impl Iterator<Item = u64> {
    [0, number / 2, number.saturating_sub(1)].into_iter().filter(move |&smaller| smaller < number)
}
