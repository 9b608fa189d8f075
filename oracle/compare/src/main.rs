//! Compares the archive with the original: first every case of the sweep, then random ones until the time is up.
//!
//!     compare SECONDS SEED [WORDS..]
//!
//! The words are those that start the replay program, which then gets a companion's name and records on standard input.
//! Prints what was compared, with counts. At a difference it prints the smallest failing input that it can find, and its
//! exit status is 1.
mod buffers;
mod capture;
mod case;
mod check;
mod input;
mod linear;
mod numbers;
mod program;
mod random;
mod replay;
mod shrink;
mod sweep;

use capture::By;
use case::Call;
use check::{Amount, Workspace};
use input::Input;
use linear::Against;
use program::Program;
use random::Random;
use std::process::ExitCode;
use std::sync::atomic::{AtomicBool, Ordering};
use std::time::{Duration, Instant};

/// What one worker compared, by its place in [`KINDS`], and the first difference that it met.
struct Work {
    amounts: [Amount; KINDS.len()],
    difference: Option<(Input, String)>,
}

/// The kinds of comparison, as they are printed.
const KINDS: [&str; 26] = [
    "block loads",
    "tile loads",
    "TLUT loads",
    "row TLUT loads",
    "rejected block loads",
    "rejected tile loads",
    "rejected TLUT loads",
    "rejected row TLUT loads",
    "flags and extents",
    "pictures",
    "pictures with trail",
    "lookups",
    "lookups with trail",
    "reaches",
    "has-load after a load",
    "rejections",
    "lane checks",
    "keys",
    "linear, whole",
    "linear, row by row",
    "linear, by the model",
    "loaded and sampled",
    "checks of keys",
    "calls in a row",
    "replayed records",
    "replayed by program",
];

fn kind(input: &Input) -> usize {
    use original::calls::Picture::{Lookup, Plain};
    let case = match input {
        Input::Case(case) => case,
        Input::Run(run) => return 23 + run.by as usize,
    };
    let rejected = usize::from(case.reason.is_some());
    match case.call {
        Call::LoadBlock => 4 * rejected,
        Call::LoadTile => 1 + 4 * rejected,
        Call::LoadTlut => 2 + 4 * rejected,
        Call::LoadTlutRows => 3 + 4 * rejected,
        Call::Sampling => 8,
        Call::Picture { which: Plain, observed } => 9 + usize::from(observed),
        Call::Picture { which: Lookup, observed } => 11 + usize::from(observed),
        Call::Reach => 13,
        Call::TileHasLoad => 14,
        Call::Rejection => 15,
        Call::PaletteNonreplicated => 16,
        Call::Key => 17,
        Call::Linear => match linear::against(case) {
            Against::Whole => 18,
            Against::Rows => 19,
            Against::Nothing => 20,
        },
        Call::RoundTrip => 21,
        Call::CheckKey => 22,
    }
}

fn main() -> ExitCode {
    let arguments: Vec<String> = std::env::args().skip(1).collect();
    let numbers: Vec<u64> = arguments.iter().take(2).flat_map(|argument| argument.parse()).collect();
    let [seconds, seed] = numbers[..] else {
        eprintln!("usage: compare SECONDS SEED [WORDS..]");
        return ExitCode::from(2);
    };
    let began = Instant::now();
    let works = run(began + Duration::from_secs(seconds), seed, &arguments[2..]);
    let differences = works.iter().filter_map(|work| work.difference.as_ref());
    if let Some((input, why)) = differences.min_by_key(|(input, _)| input.size()) {
        println!("DIFFERENCE: {why}\n{input}");
        return ExitCode::FAILURE;
    }
    print(&works, seed, began.elapsed());
    ExitCode::SUCCESS
}

/// All workers, until the deadline or a difference. The sweep is finished even if the time is up.
fn run(deadline: Instant, seed: u64, program: &[String]) -> Vec<Work> {
    let workers = std::thread::available_parallelism().map_or(1, |count| count.get());
    let with_program = !program.is_empty();
    let mut runs = [sweep::runs(By::OwnCalls), sweep::runs(By::Call)].concat();
    if with_program {
        runs.extend(sweep::runs(By::Program));
    }
    let sweep: Vec<_> = sweep::cases().into_iter().map(Input::Case).chain(runs.into_iter().map(Input::Run)).collect();
    let stop = AtomicBool::new(false);
    std::thread::scope(|scope| {
        let threads: Vec<_> = (0..workers)
            .map(|worker| {
                let inputs = sweep.iter().skip(worker).step_by(workers).cloned();
                let mut random = Random::new(Random::new(seed).next() ^ worker as u64);
                let more = std::iter::from_fn(move || (Instant::now() < deadline).then(|| random.input(with_program)));
                let program = with_program.then(|| Program::new(program, worker));
                let stop = &stop;
                scope.spawn(move || work(program, inputs.chain(more), stop))
            })
            .collect();
        threads.into_iter().map(|thread| thread.join().expect("a worker ends by itself")).collect()
    })
}

fn work(program: Option<Program>, inputs: impl Iterator<Item = Input>, stop: &AtomicBool) -> Work {
    let mut workspace = Workspace::new(program);
    let mut work = Work { amounts: Default::default(), difference: None };
    for input in inputs {
        if stop.load(Ordering::Relaxed) {
            break;
        }
        match workspace.check(&input) {
            Ok(amount) => work.amounts[kind(&input)] += amount,
            Err(why) => {
                stop.store(true, Ordering::Relaxed);
                work.difference = Some(shrink::smallest(&mut workspace, input, why));
                break;
            }
        }
    }
    work
}

fn print(works: &[Work], seed: u64, took: Duration) {
    println!("compared with the original, seed {seed}, {} s: no difference", took.as_secs());
    let mut total = Amount::default();
    for (kind, name) in KINDS.iter().enumerate() {
        let mut amount = Amount::default();
        works.iter().for_each(|work| amount += work.amounts[kind]);
        println!("  {name:23} {}", words(&amount));
        total += amount;
    }
    println!("  {:23} {}", "in all", words(&total));
}

fn words(amount: &Amount) -> String {
    let Amount { calls, refused, reasons, wrong, stores, made_up, texels, reads } = *amount;
    let parts = [
        (refused, "of them refused"),
        (reasons, "reasons answered"),
        (wrong, "wrong keys"),
        (stores, "stores"),
        (made_up, "made up"),
        (texels, "texels"),
        (reads, "reads"),
    ];
    let parts = parts.iter().filter(|(number, _)| *number > 0);
    parts.fold(format!("{:>12} calls", grouped(calls)), |text, (number, name)| {
        format!("{text}, {} {name}", grouped(*number))
    })
}

/// 1234567 as 1,234,567.
fn grouped(number: u64) -> String {
    let digits = number.to_string();
    let mut text = String::new();
    for (i, digit) in digits.chars().enumerate() {
        if i > 0 && (digits.len() - i).is_multiple_of(3) {
            text.push(',');
        }
        text.push(digit);
    }
    text
}
