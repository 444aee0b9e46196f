//! The candidates for a word, for shells of your own.

use super::CompletionCandidate;
use crate::answering::{offered, reached, Offered, Request};
use crate::sources::Sources;
#[allow(unused_imports)] // Only early releases of clap 4 need it.
use crate::tree_file::LaterGetters as _;
use crate::tree_file::{arg_key, command_key, value_key};
use clap::builder::StyledStr;
use clap::{Arg, Command};
use std::ffi::OsString;
use std::io;
use std::path::Path;

/// Returns the candidates for the word at `arg_index`, counted from 0, of a command line. The first of
/// `args` is the program's name. Relative paths refer to `current_dir`. Builds the command.
///
/// ```
/// # fn main() -> std::io::Result<()> {
/// use clap::Command;
/// use lagvtsune::engine::complete;
///
/// let mut app = Command::new("app").subcommand(Command::new("run").about("Run it"));
/// let found = complete(&mut app, vec!["app".into(), "r".into()], 1, None)?;
/// assert_eq!(found[0].get_value(), "run");
/// assert_eq!(found[0].get_help().unwrap().to_string(), "Run it");
/// # Ok(())
/// # }
/// ```
///
/// # Errors
///
/// - An error if there is no such word, or if it is the program's name.
/// - An error if a word is not UTF-8.
pub fn complete(
    cmd: &mut Command,
    args: Vec<OsString>,
    arg_index: usize,
    current_dir: Option<&Path>,
) -> Result<Vec<CompletionCandidate>, io::Error> {
    cmd.build();
    let mut sources = Sources::default();
    sources.add_attached(cmd, &mut Vec::new());
    candidates(cmd, &sources, args, arg_index, current_dir)
}

/// Returns the candidates for a word of a command that is built.
pub(crate) fn candidates(
    cmd: &Command,
    sources: &Sources,
    line: Vec<OsString>,
    index: usize,
    current_dir: Option<&Path>,
) -> io::Result<Vec<CompletionCandidate>> {
    let first = usize::from(!cmd.is_no_binary_name_set());
    let texts: Vec<_> = line.iter().map(|word| word.to_string_lossy().into_owned()).collect();
    let command = &mut cmd.clone();
    let request = Request { command, sources, line, current_dir, may_run: false };
    let offered = offered(request, index)?;
    let before = texts.get(first..index).unwrap_or_default();
    let (node, _) = reached(cmd, before);
    let place = Place { node, offered: &offered };
    let values = offered.values.iter();
    Ok(values.map(|(value, key)| place.candidate(value, key.as_deref())).collect())
}

/// The command that reads a word, and what is offered for the word.
struct Place<'p> {
    node: &'p Command,
    offered: &'p Offered,
}

impl Place<'_> {
    /// Returns the candidate with this value. The key tells where the value comes from: from a
    /// completer, from the command, or from what clap adds to it. A path has no key.
    fn candidate(&self, value: &str, key: Option<&str>) -> CompletionCandidate {
        let Some(key) = key else {
            return self.path(value);
        };
        let known = self.computed(value, key).or_else(|| self.declared(value, key));
        known.or_else(|| self.added(value)).unwrap_or_else(|| CompletionCandidate::new(value))
    }

    fn path(&self, value: &str) -> CompletionCandidate {
        let name = Path::new(value).file_name();
        let is_hidden = name.is_some_and(|name| name.as_encoded_bytes().starts_with(b"."));
        self.as_value(CompletionCandidate::new(value).hide(is_hidden))
    }

    /// Sets the tag of a value to its argument, unless it has a tag.
    fn as_value(&self, candidate: CompletionCandidate) -> CompletionCandidate {
        let id = self.offered.argument.as_deref();
        let mut args = self.node.get_arguments();
        match args.find(|arg| id.is_some_and(|id| arg.get_id() == id)) {
            Some(arg) if candidate.get_tag().is_none() => {
                candidate.tag(Some(tag(&arg.to_string())))
            }
            _ => candidate,
        }
    }

    /// Returns the candidate of a completer, or of a list of subcommands.
    fn computed(&self, value: &str, key: &str) -> Option<CompletionCandidate> {
        let number = |number: &str| number.parse::<usize>().ok();
        if let Some(at) = key.strip_prefix('g').and_then(number) {
            let candidate = self.offered.completed.get(at)?.clone();
            return Some(self.as_value(candidate.with_value(value)));
        }
        let at = key.strip_prefix('e').and_then(number)?;
        self.offered.external.get(at).cloned()
    }

    /// Returns the candidate of a subcommand, an argument or a possible value with this key.
    fn declared(&self, value: &str, key: &str) -> Option<CompletionCandidate> {
        let node = self.node;
        let child = node.get_subcommands().find(|child| command_key(child) == key);
        if let Some(child) = child {
            return Some(of_command(node, child, value));
        }
        node.get_arguments().find_map(|arg| {
            if arg_key(arg) == key {
                return Some(of_arg(arg, value));
            }
            let values = arg.get_possible_values();
            let own = values.into_iter().find(|own| value_key(arg, own) == key)?;
            let candidate = CompletionCandidate::new(value).help(own.get_help().cloned());
            Some(candidate.hide(own.is_hide_set()).tag(Some(tag(&arg.to_string()))))
        })
    }

    /// Returns the candidate of a flag or a subcommand that building adds.
    fn added(&self, value: &str) -> Option<CompletionCandidate> {
        let node = self.node;
        if let Some(child) = node.get_subcommands().find(|child| child.get_name() == value) {
            return Some(of_command(node, child, value));
        }
        let is_named = |arg: &&Arg| match value.strip_prefix("--") {
            Some(long) => arg.get_long() == Some(long),
            None => arg.get_short().is_some_and(|short| value.ends_with(short)),
        };
        Some(of_arg(node.get_arguments().find(is_named)?, value))
    }
}

fn of_command(node: &Command, child: &Command, value: &str) -> CompletionCandidate {
    let is_shown = child.get_name() == value || child.get_visible_aliases().any(|it| it == value);
    CompletionCandidate::new(value)
        .help(child.get_about().cloned())
        .id(Some(format!("command::{}", child.get_name())))
        .tag(Some(tag(node.get_subcommand_help_heading().unwrap_or("Commands"))))
        .display_order(Some(child.get_display_order()))
        .hide(child.is_hide_set() || !is_shown)
}

fn of_arg(arg: &Arg, value: &str) -> CompletionCandidate {
    let long = value.strip_prefix("--");
    let help = match (arg.get_help(), arg.get_long()) {
        (None, Some(own)) if long.is_none() => Some(format!("--{own}").into()),
        (help, _) => help.cloned(),
    };
    let is_shown = long.is_none_or(|long| {
        let aliases = arg.get_visible_aliases().unwrap_or_default();
        arg.get_long() == Some(long) || aliases.contains(&long)
    });
    CompletionCandidate::new(value)
        .help(help)
        .id(Some(format!("arg::{}", arg.get_id())))
        .tag(Some(tag(arg.get_help_heading().unwrap_or("Options"))))
        .display_order(Some(arg.get_display_order()))
        .hide(arg.is_hide_set() || !is_shown)
}

fn tag(text: &str) -> StyledStr {
    text.to_owned().into()
}
