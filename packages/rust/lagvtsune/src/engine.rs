//! Candidates for a word, and completers: functions of the program that compute the values of an
//! argument at a Tab.

mod candidate;
mod complete;
mod completers;
mod paths;
mod values;

pub use candidate::CompletionCandidate;
pub use complete::complete;
pub use completers::{
    ArgValueCandidates, ArgValueCompleter, Completer, SubcommandCandidates, ValueCandidates,
    ValueCompleter,
};
pub use paths::PathCompleter;
pub use values::{complete_possible_values, possible_value_candidates};

pub(crate) use candidate::{lines, ordered};
pub(crate) use complete::candidates;
