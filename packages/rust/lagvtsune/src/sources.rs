//! The sources of values that the command does not declare: commands that print them, and
//! completers of the program.

use crate::engine::{Completer, CompletionCandidate, SubcommandCandidates};
use crate::tree_file::{External, ValuesFrom};
use clap::{Arg, Command};
use std::io;

/// The program that the tree file names for an argument with a completer. It is never run: the
/// package calls the completer instead.
const COMPLETER: &str = "lagvtsune-completer";

/// The values of arguments, and the external subcommands of commands.
#[derive(Default)]
pub(crate) struct Sources {
    values: Vec<Source>,
    external: Vec<(Vec<String>, SubcommandCandidates)>,
}

/// The values of an argument.
struct Source {
    /// The names of the subcommands that lead to the argument.
    path: Vec<String>,
    id: String,
    /// The words that the tree file has for the argument.
    words: Vec<String>,
    /// The completer, if the values do not come from a command.
    completer: Option<Completer>,
}

/// A completer that a request calls, and the id of its argument.
pub(crate) struct Called<'s> {
    pub(crate) completer: &'s Completer,
    pub(crate) id: &'s str,
}

impl Sources {
    /// Adds the values that a command prints.
    pub(crate) fn add_command(&mut self, path: &[&str], id: &str, words: &[&str]) {
        let (path, words) = (owned(path), owned(words));
        self.values.push(Source { path, id: id.to_owned(), words, completer: None });
    }

    /// Adds the values that a completer computes.
    pub(crate) fn add_completer(&mut self, path: Vec<String>, id: &str, completer: Completer) {
        let words = owned(&[COMPLETER, &self.values.len().to_string()]);
        self.values.push(Source { path, id: id.to_owned(), words, completer: Some(completer) });
    }

    /// Adds external subcommands of the command at the end of a path.
    pub(crate) fn add_external(&mut self, path: Vec<String>, candidates: SubcommandCandidates) {
        self.external.push((path, candidates));
    }

    /// Adds the completers that the arguments and commands of a tree have themselves.
    #[cfg(feature = "unstable-dynamic")]
    pub(crate) fn add_attached(&mut self, command: &Command, path: &mut Vec<String>) {
        use crate::engine::{ArgValueCandidates, ArgValueCompleter};

        for arg in command.get_arguments() {
            let completer = match (arg.get::<ArgValueCompleter>(), arg.get::<ArgValueCandidates>())
            {
                (Some(completer), _) => Completer::Completer(completer.clone()),
                (None, Some(candidates)) => Completer::Candidates(candidates.clone()),
                (None, None) => continue,
            };
            self.add_completer(path.clone(), arg.get_id().as_str(), completer);
        }
        if let Some(candidates) = command.get::<SubcommandCandidates>() {
            self.add_external(path.clone(), candidates.clone());
        }
        for child in command.get_subcommands() {
            path.push(child.get_name().to_owned());
            self.add_attached(child, path);
            path.pop();
        }
    }

    /// Does nothing, because arguments cannot have completers without `unstable-dynamic`.
    #[cfg(not(feature = "unstable-dynamic"))]
    #[allow(clippy::unused_self)]
    pub(crate) fn add_attached(&mut self, _: &Command, _: &mut Vec<String>) {}

    pub(crate) fn has_completers(&self) -> bool {
        self.values.iter().any(|source| source.completer.is_some())
    }

    pub(crate) fn values_from(&self) -> Vec<ValuesFrom<'_>> {
        let sources = self.values.iter().map(|source| ValuesFrom {
            path: &source.path,
            id: &source.id,
            words: &source.words,
            is_checked: source.completer.is_none(),
        });
        sources.collect()
    }

    /// Returns an error that names an argument or a command, if `command` has none like it.
    pub(crate) fn check(&self, command: &Command) -> io::Result<()> {
        for source in &self.values {
            source.argument(command)?;
        }
        for (path, _) in &self.external {
            let found = at(command, path);
            found.ok_or_else(|| error("subcommand_candidates_for", "command", path))?;
        }
        Ok(())
    }

    /// Returns the completer that the words of a command mean, which the library returned. Returns
    /// `None` for the words of another command.
    pub(crate) fn called(&self, words: &[u8]) -> Option<Called<'_>> {
        self.values.iter().find_map(|source| {
            let own: String = source.words.iter().flat_map(|word| [word, "\x0b"]).collect();
            let completer = source.completer.as_ref().filter(|_| own.as_bytes() == words)?;
            Some(Called { completer, id: &source.id })
        })
    }

    /// Returns the external subcommands of the command at the end of `path`, if `word` may be one:
    /// those that begin with it, sorted, without the names of the command's own.
    pub(crate) fn external_at(
        &self,
        command: &Command,
        path: &[&str],
        line: (&[&str], &str),
    ) -> Vec<CompletionCandidate> {
        let (before, word) = line;
        let lists = self.external.iter().filter(|(own, _)| *own == path);
        let mut found: Vec<_> = lists.flat_map(|(_, list)| list.candidates()).collect();
        let is_new = |name: &str| {
            let is_own = command.find_subcommand(name).is_some();
            name.starts_with(word) && !is_own && !before.contains(&name)
        };
        found.retain(|it| it.get_value().to_str().is_some_and(is_new));
        found.sort();
        found
    }
}

/// Returns an external subcommand as the tree file has it, with this text as its description.
pub(crate) fn as_external(candidate: &CompletionCandidate, help: Option<String>) -> External {
    External {
        name: candidate.get_value().to_string_lossy().into_owned(),
        help,
        is_hidden: candidate.is_hide_set(),
    }
}

impl Source {
    /// Returns the argument in a command.
    ///
    /// # Errors
    ///
    /// An error that names the argument, if the command has none.
    fn argument<'c>(&self, command: &'c Command) -> io::Result<&'c Arg> {
        let Source { path, id, completer, .. } = self;
        let found = at(command, path);
        let found = found.and_then(|command| command.get_arguments().find(|it| it.get_id() == id));
        let call = if completer.is_some() { "completer_for" } else { "values_from" };
        found.ok_or_else(|| error(call, &format!("argument {id:?}"), path))
    }
}

/// Returns the subcommand to which names lead.
fn at<'c>(command: &'c Command, path: &[String]) -> Option<&'c Command> {
    path.iter().try_fold(command, |command, name| {
        command.get_subcommands().find(|child| child.get_name() == name)
    })
}

fn error(call: &str, what: &str, path: &[String]) -> io::Error {
    io::Error::other(format!("{call}: no {what} at {path:?}"))
}

fn owned(texts: &[&str]) -> Vec<String> {
    texts.iter().map(|text| String::from(*text)).collect()
}
