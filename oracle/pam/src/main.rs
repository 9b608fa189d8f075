//! Compares the archive's reader and writer of PAM files with the second ones: first the cases whose answers are known, then
//! every input of the sweep, then random ones until the time is up.
//!
//!     pam SECONDS SEED
//!
//! Prints what was compared, with counts. At a difference it prints the smallest failing input that it can find, and its exit
//! status is 1; so it is where a refusal never came up.
mod cases;
mod check;
mod draft;
mod input;
mod random;
mod shrink;
mod sweep;

use common::Comparison;
use input::Input;
use random::Random;
use std::process::ExitCode;

/// The refusals of reading and of writing, in the order in which they are tested, and 0 for what is taken.
const REFUSALS: [(&str, &[u32]); 2] = [("files read", &[0, 13, 14, 2, 15, 6]), ("pictures written", &[0, 2, 12, 6])];

/// How often each refusal came, of reading and of writing.
type Came = [[u64; 16]; 2];

struct Pam;

impl Comparison for Pam {
    const PROGRAM: &'static str = "pam";
    const OTHER: &'static str = "the second reader and writer";

    type Input = Input;
    type Counts = Came;

    fn cases() -> Result<String, String> {
        let [reads, writes] = check::all_cases()?;
        Ok(format!("{reads} of reading and {writes} of writing"))
    }

    fn sweep() -> impl Iterator<Item = Input> {
        sweep::inputs()
    }

    fn random(seed: u64) -> impl FnMut() -> Input {
        let mut random = Random::new(seed);
        move || random.input()
    }

    fn check(input: &Input, came: &mut Came) -> Result<(), String> {
        let refusal = check::check(input)?;
        came[usize::from(matches!(input, Input::Write { .. }))][refusal as usize] += 1;
        Ok(())
    }

    fn smaller(input: &Input) -> impl Iterator<Item = Input> {
        shrink::smaller_inputs(input)
    }

    fn size(input: &Input) -> u64 {
        input.size()
    }

    /// How often each refusal came up.
    fn print(all_came: &[Came]) -> bool {
        let mut all = true;
        for (kind, (name, refusals)) in REFUSALS.into_iter().enumerate() {
            let counts = refusals.iter().map(|&refusal| all_came.iter().map(|came| came[kind][refusal as usize]).sum());
            let counts: Vec<u64> = counts.collect();
            let refused = refusals.iter().zip(&counts).skip(1).map(|(refusal, count)| format!("{count} with {refusal}"));
            let refused = refused.collect::<Vec<_>>().join(", ");
            println!("  {name:18} {:>10}: {} taken; refused: {refused}", counts.iter().sum::<u64>(), counts[0]);
            all &= counts.iter().all(|&count| count > 0);
        }
        all
    }
}

fn main() -> ExitCode {
    common::run::<Pam>()
}
