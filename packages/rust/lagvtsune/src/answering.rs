//! The answers to live requests, with the values of completers.

mod asked;
#[cfg(test)]
mod tests;

use crate::calls::Answer;
use crate::engine::CompletionCandidate;
use crate::sources::Sources;
pub(crate) use asked::reached;
use asked::Asked;
use clap::Command;
use std::env;
use std::ffi::OsString;
use std::io::{self, Read};
use std::path::Path;

/// The variable that requests a completion from the library.
pub(crate) const REQUEST: &str = "COMPLETE";

/// The variable with the index of the word to complete, and the one with the text between two
/// values. Registrations of `clap_complete` set them.
pub(crate) const INDEX: &str = "_CLAP_COMPLETE_INDEX";
pub(crate) const SEPARATOR: &str = "_CLAP_IFS";

/// Variables that safe registrations set: whether the locale of bash or zsh is safe for ASCII only;
/// the part of the word that bash keeps; the open quote, or in PowerShell `"` if a `"` reaches
/// programs; the width of the terminal, where bash lists and inserts nothing.
const SET_BY_SHELLS: [&str; 4] =
    ["_COMPLGEN_ASCII", "_COMPLGEN_KEPT", "_COMPLGEN_QUOTE", "_COMPLGEN_WIDTH"];

/// The variable by which a safe registration says whether it can run a command, or has run one.
const VALUES: &str = "_COMPLGEN_VALUES";

/// The values of that variable: the registration can run a command, and it has run one.
const ASK: &str = "ask";
const STDIN: &str = "stdin";

/// The variable with which a user turns commands off.
const COMMANDS: &str = "COMPLGEN_COMMANDS";

/// The exit status after the words of a command, which the shell then runs.
const RUN: u8 = 3;

/// The most bytes of a command's output that count.
const MOST_OUTPUT: usize = 16 << 20;

/// A request of a shell for the candidates of a word.
pub struct Request<'r> {
    /// The command. A request builds the nodes on the way of the words.
    pub(crate) command: &'r mut Command,
    pub(crate) sources: &'r Sources,
    /// The words of the command line.
    pub(crate) line: Vec<OsString>,
    pub(crate) current_dir: Option<&'r Path>,
    /// True if the process can end with the status that makes the shell run a command.
    pub(crate) may_run: bool,
}

/// Tells whether the shell may run the command of an argument.
#[derive(Clone, Copy, PartialEq)]
enum Commands {
    /// It cannot, or the user or the program has turned commands off.
    Off,
    /// It can run one.
    Possible,
    /// It has run one, and passes on what it printed.
    Ran,
}

impl Commands {
    /// Returns what the environment says. Without `may_run`, commands are turned off.
    fn of(may_run: bool) -> Commands {
        let is = |name, expected: &str| env::var_os(name).is_some_and(|value| value == expected);
        match may_run && !is(COMMANDS, "0") {
            true if is(VALUES, ASK) => Commands::Possible,
            true if is(VALUES, STDIN) => Commands::Ran,
            _ => Commands::Off,
        }
    }
}

/// Returns whether the request comes from a safe registration.
pub(crate) fn asks_safely() -> bool {
    env::var_os(VALUES).is_some()
}

/// Returns the exit status and the text for a request of a safe registration.
///
/// # Errors
///
/// The library's message.
pub(crate) fn safe_answer(shell: &str, request: Request<'_>) -> io::Result<(u8, Vec<u8>)> {
    if request.line.is_empty() {
        return Err(no_completion());
    }
    let commands = Commands::of(request.may_run);
    let sources = request.sources;
    let mut asked = Asked::of(request, None, false);
    asked.set(REQUEST, shell.as_bytes());
    for name in SET_BY_SHELLS {
        asked.set_from_environment(name);
    }
    let first = match commands {
        Commands::Ran => {
            asked.request.output = output();
            STDIN
        }
        Commands::Off if !sources.has_completers() => "",
        Commands::Off | Commands::Possible => ASK,
    };
    let words = match asked.call(Some(first))? {
        Answer::Text(text) => return Ok((0, text)),
        Answer::Run(words) => words,
        _ => return Err(unexpected()),
    };
    match asked.over_completer(sources, &words, help)? {
        Some((text, _)) => Ok((0, text)),
        None if commands == Commands::Possible => Ok((RUN, words)),
        None => Ok((0, asked.text("")?)),
    }
}

/// Returns the help text of a candidate.
fn help(_: usize, candidate: &CompletionCandidate) -> String {
    candidate.get_help().map_or_else(String::new, ToString::to_string)
}

/// Returns a key by which the candidate of a completer is found again.
fn key(number: usize, _: &CompletionCandidate) -> String {
    format!("g{number}")
}

/// Returns the text for a request of a registration of `clap_complete`, if no completer is asked.
///
/// # Errors
///
/// The library's message.
pub(crate) fn plain_answer(shell: &str, request: Request<'_>, index: usize) -> io::Result<Vec<u8>> {
    let mut asked = Asked::of(request, Some(index), false);
    asked.set(REQUEST, shell.as_bytes());
    asked.set_from_environment(INDEX);
    asked.set_from_environment(SEPARATOR);
    match asked.call(None)? {
        Answer::Text(text) => Ok(text),
        _ => Err(unexpected()),
    }
}

/// A value that is offered, its key, and the candidates of the completer to which keys lead.
pub(crate) struct Offered {
    /// The values and their keys.
    pub(crate) values: Vec<(String, Option<String>)>,
    /// The id of the first argument for whose values the word is asked.
    pub(crate) argument: Option<String>,
    pub(crate) completed: Vec<CompletionCandidate>,
    pub(crate) external: Vec<CompletionCandidate>,
}

/// Returns what is offered for the word at `index`, with keys.
///
/// # Errors
///
/// The library's message.
pub(crate) fn offered(mut request: Request<'_>, index: usize) -> io::Result<Offered> {
    request.line.truncate(index.saturating_add(1));
    let (sources, has_word) = (request.sources, request.line.len() == index.saturating_add(1));
    if !has_word {
        return Err(no_completion());
    }
    let mut asked = Asked::of(request, None, true);
    asked.set(REQUEST, b"zsh");
    if let Some((text, completed)) = asked.completed(sources)? {
        return asked.offered(&text, '\n', completed);
    }
    asked.set(INDEX, index.to_string().as_bytes());
    // No word and no file name has this character.
    asked.set(SEPARATOR, b"\0");
    match asked.call(None)? {
        Answer::Text(text) => asked.offered(&text, '\0', Vec::new()),
        _ => Err(unexpected()),
    }
}

/// Returns the library's error for a word that is not there.
fn no_completion() -> io::Error {
    io::Error::other("no completion generated")
}

fn unexpected() -> io::Error {
    io::Error::other("the library answered a request in two ways")
}

/// Returns what a command printed, which the registration passes to stdin: the lines in the first
/// 16 MiB. After an error, what was read before it counts.
fn output() -> Vec<u8> {
    let mut output = Vec::new();
    let _ = io::stdin().take(MOST_OUTPUT as u64 + 1).read_to_end(&mut output);
    cut_after_line(&mut output, MOST_OUTPUT);
    output
}

/// Cuts bytes that exceed a limit after the last line that ends within it.
pub(crate) fn cut_after_line(bytes: &mut Vec<u8>, limit: usize) {
    if bytes.len() > limit {
        let end = bytes[..limit].iter().rposition(|byte| *byte == b'\n');
        bytes.truncate(end.map_or(0, |end| end + 1));
    }
}
