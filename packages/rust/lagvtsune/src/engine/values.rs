//! Possible values as candidates.

use super::CompletionCandidate;
use clap::builder::PossibleValue;
use std::ffi::OsStr;

/// Returns the candidates for possible values. An argument with possible values offers them by itself,
/// so this is for completers of arguments that take other values too.
pub fn possible_value_candidates(
    values: impl IntoIterator<Item = PossibleValue>,
) -> Vec<CompletionCandidate> {
    let candidates = values.into_iter().map(|value| {
        CompletionCandidate::new(value.get_name())
            .help(value.get_help().cloned())
            .hide(value.is_hide_set())
    });
    candidates.collect()
}

/// Returns the candidates for the possible values that begin with `value`.
///
/// ```
/// use clap::builder::PossibleValue;
/// use lagvtsune::engine::complete_possible_values;
///
/// let values = ["auto", "always", "never"].map(PossibleValue::new);
/// let found = complete_possible_values("a".as_ref(), values);
/// assert_eq!(found.len(), 2);
/// ```
pub fn complete_possible_values(
    value: &OsStr,
    values: impl IntoIterator<Item = PossibleValue>,
) -> Vec<CompletionCandidate> {
    let typed = value.to_string_lossy();
    let mut candidates = possible_value_candidates(values);
    candidates.retain(|it| it.get_value().as_encoded_bytes().starts_with(typed.as_bytes()));
    candidates
}
