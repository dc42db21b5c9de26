//! Why a command ends early.

use crate::rig::Problem;
use std::io;

pub enum Failure {
    /// Something that the person who called can mend.
    Message(String),
    /// All that is wrong with a rig file.
    Problems(Vec<String>),
    /// The output cannot be written.
    Output(io::Error),
}

/// As many problems of a file as a person reads at once.
const MOST_PROBLEMS: usize = 20;

impl Failure {
    pub fn problems(file: &str, problems: &[Problem]) -> Failure {
        let shown = problems.iter().take(MOST_PROBLEMS).map(|problem| problem.shown(file));
        let more = problems.len().saturating_sub(MOST_PROBLEMS);
        let rest = (more > 0).then(|| format!("{file}: and {more} more"));
        Failure::Problems(shown.chain(rest).collect())
    }
}

impl From<io::Error> for Failure {
    fn from(error: io::Error) -> Failure {
        Failure::Output(error)
    }
}

/// How a command went: the exit status says the same.
#[derive(Clone, Copy, Debug, PartialEq, Eq)]
pub enum Status {
    Clean,
    Faults,
    /// Nothing was looked at, so nothing can be said.
    Nothing,
}
