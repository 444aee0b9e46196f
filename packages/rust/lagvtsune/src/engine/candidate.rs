//! A candidate that a completer returns, and the lines in which the library reads candidates.

use clap::builder::StyledStr;
use std::collections::HashSet;
use std::ffi::{OsStr, OsString};

/// A value that is offered for an argument, with the texts that a shell may show next to it.
#[derive(Default, Debug, Clone, PartialEq, Eq, PartialOrd, Ord)]
pub struct CompletionCandidate {
    value: OsString,
    help: Option<StyledStr>,
    id: Option<String>,
    tag: Option<StyledStr>,
    display_order: Option<usize>,
    hidden: bool,
}

impl CompletionCandidate {
    /// Creates a candidate with this value and nothing else.
    pub fn new(value: impl Into<OsString>) -> CompletionCandidate {
        CompletionCandidate { value: value.into(), ..CompletionCandidate::default() }
    }

    /// Sets the help text. Shells show its first line.
    pub fn help(mut self, help: Option<StyledStr>) -> CompletionCandidate {
        self.help = help;
        self
    }

    /// Sets the id. Of several candidates with the same id, only the first is offered.
    pub fn id(mut self, id: Option<String>) -> CompletionCandidate {
        self.id = id;
        self
    }

    /// Sets the tag. Candidates with the same tag are offered one after another.
    pub fn tag(mut self, tag: Option<StyledStr>) -> CompletionCandidate {
        self.tag = tag;
        self
    }

    /// Sets the place among the candidates with the same tag: lower ones come first.
    pub fn display_order(mut self, order: Option<usize>) -> CompletionCandidate {
        self.display_order = order;
        self
    }

    /// Sets whether the candidate is offered only if no other one is.
    pub fn hide(mut self, hidden: bool) -> CompletionCandidate {
        self.hidden = hidden;
        self
    }

    /// Adds a text before the value.
    pub fn add_prefix(mut self, prefix: impl Into<OsString>) -> CompletionCandidate {
        let mut value = prefix.into();
        value.push(&self.value);
        self.value = value;
        self
    }

    /// Returns the value.
    pub fn get_value(&self) -> &OsStr {
        &self.value
    }

    /// Returns the help text.
    pub fn get_help(&self) -> Option<&StyledStr> {
        self.help.as_ref()
    }

    /// Returns the id.
    pub fn get_id(&self) -> Option<&String> {
        self.id.as_ref()
    }

    /// Returns the tag.
    pub fn get_tag(&self) -> Option<&StyledStr> {
        self.tag.as_ref()
    }

    /// Returns the place among the candidates with the same tag.
    pub fn get_display_order(&self) -> Option<usize> {
        self.display_order
    }

    /// Returns whether the candidate is offered only if no other one is.
    pub fn is_hide_set(&self) -> bool {
        self.hidden
    }

    /// Replaces the value.
    pub(crate) fn with_value(self, value: impl Into<OsString>) -> CompletionCandidate {
        CompletionCandidate { value: value.into(), ..self }
    }

    /// Returns the line for the library: the value, and the first line of `help` after a tab.
    /// Returns `None` for a value that no line can hold: one that is not UTF-8, is empty, or has a
    /// control character.
    fn line(&self, help: &str) -> Option<String> {
        let value = self.value.to_str()?;
        if value.is_empty() || value.contains(char::is_control) {
            return None;
        }
        let first = help.lines().next().unwrap_or_default().replace(char::is_control, " ");
        Some(if first.is_empty() { format!("{value}\n") } else { format!("{value}\t{first}\n") })
    }
}

impl<S: Into<OsString>> From<S> for CompletionCandidate {
    fn from(value: S) -> CompletionCandidate {
        CompletionCandidate::new(value)
    }
}

/// Returns the candidates that begin with `current`, in the order in which they are offered. Of
/// several with the same id, only the first counts.
pub(crate) fn ordered(
    mut candidates: Vec<CompletionCandidate>,
    current: &str,
) -> Vec<CompletionCandidate> {
    candidates.retain(|it| it.value.as_encoded_bytes().starts_with(current.as_bytes()));
    if candidates.iter().any(|it| !it.hidden) {
        candidates.retain(|it| !it.hidden);
    }
    let mut ids = HashSet::new();
    candidates.retain(|it| it.id.as_ref().is_none_or(|id| ids.insert(id.clone())));
    let mut tags: Vec<Option<StyledStr>> = Vec::new();
    for candidate in &candidates {
        if !tags.contains(&candidate.tag) {
            tags.push(candidate.tag.clone());
        }
    }
    candidates.sort_by_key(|it| (tags.iter().position(|tag| *tag == it.tag), it.display_order));
    candidates
}

/// Returns the lines of candidates, with what `help` returns for the number of each and itself.
pub(crate) fn lines(
    candidates: &[CompletionCandidate],
    help: impl Fn(usize, &CompletionCandidate) -> String,
) -> Vec<u8> {
    let lines = candidates.iter().enumerate();
    lines.filter_map(|(number, it)| it.line(&help(number, it))).collect::<String>().into_bytes()
}
