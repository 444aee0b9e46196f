//! The completers of an argument.

use super::CompletionCandidate;
use std::any::type_name;
use std::ffi::OsStr;
use std::fmt;
use std::sync::Arc;

/// Computes the values of an argument from what is typed of the value.
pub trait ValueCompleter: Send + Sync {
    /// Returns the candidates for a value of which `current` is typed.
    fn complete(&self, current: &OsStr) -> Vec<CompletionCandidate>;

    /// Returns the candidates for the value at `arg_index` of an argument with several values. The
    /// first value in one use of the argument has the index 0. Values that a delimiter separates are
    /// one value.
    fn complete_at(&self, arg_index: usize, current: &OsStr) -> Vec<CompletionCandidate> {
        let _ = arg_index;
        self.complete(current)
    }
}

impl<F> ValueCompleter for F
where
    F: Fn(&OsStr) -> Vec<CompletionCandidate> + Send + Sync,
{
    fn complete(&self, current: &OsStr) -> Vec<CompletionCandidate> {
        self(current)
    }
}

/// Computes all values of an argument, or all external subcommands, whatever is typed.
pub trait ValueCandidates: Send + Sync {
    /// Returns all candidates.
    fn candidates(&self) -> Vec<CompletionCandidate>;
}

impl<F> ValueCandidates for F
where
    F: Fn() -> Vec<CompletionCandidate> + Send + Sync,
{
    fn candidates(&self) -> Vec<CompletionCandidate> {
        self()
    }
}

/// A completer that gets what is typed of the value.
#[derive(Clone)]
pub struct ArgValueCompleter(Arc<dyn ValueCompleter>);

impl ArgValueCompleter {
    /// Makes a completer from a function or from a type of your own.
    pub fn new<C>(completer: C) -> ArgValueCompleter
    where
        C: ValueCompleter + 'static,
    {
        ArgValueCompleter(Arc::new(completer))
    }

    /// Returns the candidates for a value of which `current` is typed.
    pub fn complete(&self, current: &OsStr) -> Vec<CompletionCandidate> {
        self.0.complete(current)
    }

    /// Returns the candidates for the value at `arg_index` of one use of the argument, counted from
    /// 0.
    pub fn complete_at(&self, arg_index: usize, current: &OsStr) -> Vec<CompletionCandidate> {
        self.0.complete_at(arg_index, current)
    }
}

impl fmt::Debug for ArgValueCompleter {
    fn fmt(&self, f: &mut fmt::Formatter<'_>) -> fmt::Result {
        f.write_str(type_name::<Self>())
    }
}

/// A list of all values of an argument. Those that begin with what is typed are offered.
#[derive(Clone)]
pub struct ArgValueCandidates(Arc<dyn ValueCandidates>);

impl ArgValueCandidates {
    /// Makes a list from a function or from a type of your own.
    pub fn new<C>(completer: C) -> ArgValueCandidates
    where
        C: ValueCandidates + 'static,
    {
        ArgValueCandidates(Arc::new(completer))
    }

    /// Returns all candidates.
    pub fn candidates(&self) -> Vec<CompletionCandidate> {
        self.0.candidates()
    }
}

impl fmt::Debug for ArgValueCandidates {
    fn fmt(&self, f: &mut fmt::Formatter<'_>) -> fmt::Result {
        f.write_str(type_name::<Self>())
    }
}

/// A list of external subcommands. It counts only if the command allows external subcommands. Those
/// that begin with what is typed are offered.
#[derive(Clone)]
pub struct SubcommandCandidates(Arc<dyn ValueCandidates>);

impl SubcommandCandidates {
    /// Makes a list from a function or from a type of your own.
    pub fn new<C>(completer: C) -> SubcommandCandidates
    where
        C: ValueCandidates + 'static,
    {
        SubcommandCandidates(Arc::new(completer))
    }

    /// Returns all candidates.
    pub fn candidates(&self) -> Vec<CompletionCandidate> {
        self.0.candidates()
    }
}

impl fmt::Debug for SubcommandCandidates {
    fn fmt(&self, f: &mut fmt::Formatter<'_>) -> fmt::Result {
        f.write_str(type_name::<Self>())
    }
}

#[cfg(feature = "unstable-dynamic")]
impl clap::builder::ArgExt for ArgValueCompleter {}

#[cfg(feature = "unstable-dynamic")]
impl clap::builder::ArgExt for ArgValueCandidates {}

#[cfg(feature = "unstable-dynamic")]
impl clap::builder::CommandExt for SubcommandCandidates {}

/// What [`CompleteEnv::completer_for`](crate::CompleteEnv::completer_for) gives an argument.
#[derive(Clone, Debug)]
pub enum Completer {
    /// A completer that gets what is typed.
    Completer(ArgValueCompleter),
    /// A list of all values.
    Candidates(ArgValueCandidates),
}

impl Completer {
    /// Returns the candidates for the value at `arg_index`, of which `current` is typed.
    pub(crate) fn complete_at(&self, arg_index: usize, current: &str) -> Vec<CompletionCandidate> {
        match self {
            Completer::Completer(completer) => {
                completer.complete_at(arg_index, OsStr::new(current))
            }
            Completer::Candidates(candidates) => candidates.candidates(),
        }
    }
}

impl From<ArgValueCompleter> for Completer {
    fn from(completer: ArgValueCompleter) -> Completer {
        Completer::Completer(completer)
    }
}

impl From<ArgValueCandidates> for Completer {
    fn from(candidates: ArgValueCandidates) -> Completer {
        Completer::Candidates(candidates)
    }
}
