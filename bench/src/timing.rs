//! Times two ways to do one thing, turn by turn.
use std::time::{Duration, Instant};

/// How long one run of each should be repeated for in a round.
const ROUND: Duration = Duration::from_millis(1);

/// The shortest time of one call found, in nanoseconds.
#[derive(Clone, Copy)]
pub struct Pair {
    pub original: f64,
    pub archive: f64,
}

impl Pair {
    pub fn ratio(self) -> f64 {
        self.archive / self.original
    }
}

/// So many rounds of each, in turn; of each the shortest counts.
pub fn race(rounds: u32, mut original: impl FnMut(), mut archive: impl FnMut()) -> Pair {
    let (often_original, often_archive) = (often(&mut original), often(&mut archive));
    let mut best = Pair { original: f64::MAX, archive: f64::MAX };
    for _ in 0..rounds {
        best.original = best.original.min(round(often_original, &mut original));
        best.archive = best.archive.min(round(often_archive, &mut archive));
    }
    best
}

/// How often to call so that a round is long enough.
fn often(call: &mut impl FnMut()) -> u32 {
    let mut often = 1;
    loop {
        let began = Instant::now();
        (0..often).for_each(|_| call());
        if began.elapsed() * 2 > ROUND || often > 1 << 28 {
            return often * 2;
        }
        often *= 2;
    }
}

fn round(often: u32, call: &mut impl FnMut()) -> f64 {
    let began = Instant::now();
    (0..often).for_each(|_| call());
    began.elapsed().as_nanos() as f64 / f64::from(often)
}
