//! Compares on every processor, until the time is up.
use std::fmt::Display;
use std::process::ExitCode;
use std::sync::atomic::{AtomicBool, Ordering};
use std::time::{Duration, Instant};

/// What is compared, and how.
pub trait Comparison {
    /// The program's name.
    const PROGRAM: &'static str;
    /// What the archive is compared with.
    const OTHER: &'static str;

    type Input: Display + Send;
    type Counts: Default + Send;

    /// Does the cases whose answers are known, and says how many. An error says which is not as it is due.
    fn cases() -> Result<String, String>;

    /// Every input of the sweep, in order.
    fn sweep() -> impl Iterator<Item = Self::Input>;

    /// What makes random inputs, by a seed.
    fn random(seed: u64) -> impl FnMut() -> Self::Input;

    /// Compares, and counts what came up. An error says where the two differ.
    fn check(input: &Self::Input, counts: &mut Self::Counts) -> Result<(), String>;

    /// Inputs with one thing smaller, the smallest first.
    fn smaller(input: &Self::Input) -> impl Iterator<Item = Self::Input>;

    /// How large its numbers are, to print the smallest of several.
    fn size(input: &Self::Input) -> u64;

    /// Prints what all workers counted; answers whether everything came up.
    fn print(counts: &[Self::Counts]) -> bool;
}

/// What one worker counted, and the first difference that it met.
struct Work<C: Comparison> {
    counts: C::Counts,
    difference: Option<(C::Input, String)>,
}

/// The program, with seconds and a seed as its arguments. It prints what was compared. Its exit status is 1 at a difference, and where
/// something never came up.
pub fn run<C: Comparison>() -> ExitCode {
    let arguments: Vec<String> = std::env::args().skip(1).collect();
    let numbers: Vec<u64> = arguments.iter().flat_map(|argument| argument.parse()).collect();
    let ([seconds, seed], 2) = (&numbers[..], arguments.len()) else {
        eprintln!("usage: {} SECONDS SEED", C::PROGRAM);
        return ExitCode::from(2);
    };
    match stages::<C>(Duration::from_secs(*seconds), *seed) {
        Ok(()) => ExitCode::SUCCESS,
        Err(why) => {
            println!("{why}");
            ExitCode::FAILURE
        }
    }
}

/// The cases, then the sweep and random inputs, then the counts.
fn stages<C: Comparison>(time: Duration, seed: u64) -> Result<(), String> {
    let began = Instant::now();
    let cases = C::cases().map_err(|why| format!("DIFFERENCE in a case with a known answer: {why}"))?;
    println!("cases with known answers: {cases}, all as due");
    let counts = compare::<C>(began + time, seed).map_err(|why| format!("DIFFERENCE: {why}"))?;
    println!("compared with {}, seed {seed}, {} s: no difference", C::OTHER, began.elapsed().as_secs());
    if C::print(&counts) {
        Ok(())
    } else {
        Err("something never came up".into())
    }
}

/// All workers, until the deadline or a difference. The sweep is finished even if the time is up. Answers what each worker counted.
/// An error is the smallest failing input that was found, and how it fails.
fn compare<C: Comparison>(deadline: Instant, seed: u64) -> Result<Vec<C::Counts>, String> {
    let workers = std::thread::available_parallelism().map_or(1, |count| count.get());
    let stop = AtomicBool::new(false);
    let works: Vec<Work<C>> = std::thread::scope(|scope| {
        let threads: Vec<_> = (0..workers)
            .map(|worker| {
                let stop = &stop;
                scope.spawn(move || {
                    let mut random = C::random(seed.wrapping_mul(workers as u64).wrapping_add(worker as u64));
                    let more = std::iter::from_fn(|| (Instant::now() < deadline).then(&mut random));
                    work(C::sweep().skip(worker).step_by(workers).chain(more), stop)
                })
            })
            .collect();
        threads.into_iter().map(|thread| thread.join().expect("a worker ends by itself")).collect()
    });
    let differences = works.iter().filter_map(|work| work.difference.as_ref());
    match differences.min_by_key(|(input, _)| C::size(input)) {
        Some((input, why)) => Err(format!("{why}\n{input}")),
        None => Ok(works.into_iter().map(|work| work.counts).collect()),
    }
}

fn work<C: Comparison>(inputs: impl Iterator<Item = C::Input>, stop: &AtomicBool) -> Work<C> {
    let mut work = Work { counts: C::Counts::default(), difference: None };
    for input in inputs {
        if stop.load(Ordering::Relaxed) {
            break;
        }
        if let Err(why) = C::check(&input, &mut work.counts) {
            stop.store(true, Ordering::Relaxed);
            work.difference = Some(smallest::<C>(input, why));
            break;
        }
    }
    work
}

/// The smallest input found from a failing one, and how it fails.
fn smallest<C: Comparison>(mut input: C::Input, mut why: String) -> (C::Input, String) {
    while let Some(smaller) = smaller_failing::<C>(&input) {
        (input, why) = smaller;
    }
    (input, why)
}

fn smaller_failing<C: Comparison>(input: &C::Input) -> Option<(C::Input, String)> {
    let check = |input| C::check(&input, &mut C::Counts::default()).err().map(|why| (input, why));
    C::smaller(input).find_map(check)
}
