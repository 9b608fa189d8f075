//! What is compared at a time: one call, or a run of records.
use crate::capture::Run;
use crate::case::Case;
use std::fmt;

#[derive(Clone)]
pub enum Input {
    Case(Case),
    Run(Run),
}

impl Input {
    /// How large its numbers are, to print the smallest of several.
    pub fn size(&self) -> u64 {
        match self {
            Self::Case(case) => case.size(),
            Self::Run(run) => run.size(),
        }
    }
}

impl fmt::Display for Input {
    fn fmt(&self, f: &mut fmt::Formatter<'_>) -> fmt::Result {
        match self {
            Self::Case(case) => case.fmt(f),
            Self::Run(run) => run.fmt(f),
        }
    }
}
