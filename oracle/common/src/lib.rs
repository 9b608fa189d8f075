//! What the comparisons of the archive with a second implementation share.
mod outcome;
mod random;
mod shrink;
mod workers;

pub use outcome::{lend, Outcome};
pub use random::Random;
pub use shrink::{shorter, smaller};
pub use workers::{run, Comparison};
