//! A live request as the library gets it, and the calls that it takes.

use super::{key, unexpected, Offered, Request, ASK, STDIN, VALUES};
use crate::calls::{self, Answer, AskedValue, LiveRequest};
use crate::engine::{lines, ordered, CompletionCandidate};
use crate::folder::{likely_folder, Listing};
use crate::sources::{as_external, Called, Sources};
use crate::tree_file::{live_file, Line};
use clap::Command;
use std::env;
use std::ffi::{OsStr, OsString};
use std::io;
use std::os::unix::ffi::{OsStrExt, OsStringExt};
use std::path::Path;

/// The user's home directory, and the variable in which the library expects the current directory.
const HOME: &str = "HOME";
const CURRENT_DIR: &str = "PWD";

/// A text over the values of a completer, and these values.
pub(super) type OverCompleter = Option<(Vec<u8>, Vec<CompletionCandidate>)>;

/// The arguments of a live request before the words of the command line.
const START: [&str; 2] = ["", "--"];

/// A request as the library gets it.
pub(super) struct Asked {
    pub(super) request: LiveRequest,
    external: Vec<CompletionCandidate>,
}

impl Asked {
    /// Makes the request for the word at `index`, or else for the last one.
    pub(super) fn of(request: Request<'_>, index: Option<usize>, has_keys: bool) -> Asked {
        let Request { command, sources, line, current_dir, .. } = request;
        let texts: Vec<String> = line.iter().map(|word| word.to_string_lossy().into()).collect();
        let index = index.unwrap_or(texts.len().saturating_sub(1));
        let word = texts.get(index).cloned().unwrap_or_default();
        let named = usize::from(!command.is_no_binary_name_set());
        let before = texts.get(named..index).unwrap_or_default().to_vec();
        let (tree, external) = live_tree(command, sources, (&before, &word), has_keys);
        let home = env::var(HOME).ok().filter(|path| !path.is_empty());
        let current_dir = current_dir.and_then(Path::to_str);
        let likely = likely_folder(&word, home.as_deref(), current_dir);
        let start = START.into_iter().map(OsString::from);
        let mut asked = Asked {
            request: LiveRequest {
                tree,
                words: start.chain(line).map(OsString::into_vec).collect(),
                variables: Vec::new(),
                output: Vec::new(),
                listing: likely.map(Listing::of).unwrap_or_default(),
            },
            external,
        };
        let folders = [(HOME, home.as_deref()), (CURRENT_DIR, current_dir)];
        for (name, path) in folders.into_iter().filter_map(|(name, path)| Some((name, path?))) {
            asked.set(name, path.as_bytes());
        }
        asked
    }

    pub(super) fn set(&mut self, name: &str, value: &[u8]) {
        self.request.variables.extend([name.as_bytes().to_vec(), value.to_vec()]);
    }

    pub(super) fn set_from_environment(&mut self, name: &str) {
        if let Some(value) = env::var_os(name) {
            self.set(name, OsStr::as_bytes(&value));
        }
    }

    /// Returns the text with keys over the values of the completer that the words ask for, and these
    /// values. Returns `None` if they ask for none.
    pub(super) fn completed(&mut self, sources: &Sources) -> io::Result<OverCompleter> {
        if !sources.has_completers() {
            return Ok(None);
        }
        match self.call(Some(ASK))? {
            Answer::Run(words) => self.over_completer(sources, &words, key),
            _ => Ok(None),
        }
    }

    /// Returns the text over the values of the completer that `words` mean, and these values. Returns
    /// `None` for the words of a command.
    pub(super) fn over_completer(
        &mut self,
        sources: &Sources,
        words: &[u8],
        shown: impl Fn(usize, &CompletionCandidate) -> String,
    ) -> io::Result<OverCompleter> {
        let Some(called) = sources.called(words) else {
            return Ok(None);
        };
        let candidates = self.candidates(&called)?;
        let text = self.text_over(&candidates, lines(&candidates, shown))?;
        Ok(Some((text, candidates)))
    }

    /// Calls a completer.
    fn candidates(&self, called: &Called<'_>) -> io::Result<Vec<CompletionCandidate>> {
        let AskedValue { number, text, .. } = self.value(called.id)?;
        Ok(ordered(called.completer.complete_at(number, &text), &text))
    }

    /// Returns the value of the argument with this id for which the last word is asked. If the word
    /// names an option that is open, that is the value within the word.
    pub(super) fn value(&self, id: &str) -> io::Result<AskedValue> {
        self.values()?.into_iter().rfind(|value| value.id == id).ok_or_else(unexpected)
    }

    fn values(&self) -> io::Result<Vec<AskedValue>> {
        calls::asked(&self.request.tree, &self.request.words[START.len()..])
    }

    /// Returns the text over the lines of candidates. If all of these are hidden, they are offered
    /// only if nothing else is.
    fn text_over(
        &mut self,
        candidates: &[CompletionCandidate],
        lines: Vec<u8>,
    ) -> io::Result<Vec<u8>> {
        if !candidates.is_empty() && candidates.iter().all(CompletionCandidate::is_hide_set) {
            let others = self.text(STDIN)?;
            if !others.is_empty() {
                return Ok(others);
            }
        }
        self.request.output = lines;
        self.text(STDIN)
    }

    pub(super) fn text(&mut self, mode: &str) -> io::Result<Vec<u8>> {
        match self.call(Some(mode))? {
            Answer::Text(text) => Ok(text),
            _ => Err(unexpected()),
        }
    }

    /// Calls the library, in this mode of a safe registration. If it needs the names in a directory,
    /// reads them.
    pub(super) fn call(&mut self, mode: Option<&str>) -> io::Result<Answer> {
        let length = self.request.variables.len();
        if let Some(mode) = mode {
            self.set(VALUES, mode.as_bytes());
        }
        let answer = self.call_twice();
        self.request.variables.truncate(length);
        answer
    }

    fn call_twice(&mut self) -> io::Result<Answer> {
        let answer = calls::live(&self.request)?;
        let Answer::WantsFolder(path) = answer else {
            return Ok(answer);
        };
        self.request.listing = Listing::of(path);
        match calls::live(&self.request)? {
            // No request needs the names of two directories.
            Answer::WantsFolder(path) => Err(io::Error::other(format!("wanted besides: {path}"))),
            answer => Ok(answer),
        }
    }

    /// Reads the values and keys in a reply to zsh.
    pub(super) fn offered(
        self,
        text: &[u8],
        separator: char,
        completed: Vec<CompletionCandidate>,
    ) -> io::Result<Offered> {
        let argument = self.values()?.into_iter().next().map(|value| value.id);
        let text = String::from_utf8_lossy(text);
        let items = text.split(separator).filter(|item| !item.is_empty());
        let values = items.map(value_and_key).collect();
        Ok(Offered { values, argument, completed, external: self.external })
    }
}

/// Returns the part of the tree that a line needs, and the candidates for external subcommands.
fn live_tree(
    command: &mut Command,
    sources: &Sources,
    (before, word): (&[String], &str),
    has_keys: bool,
) -> (String, Vec<CompletionCandidate>) {
    let words: Vec<&str> = before.iter().map(String::as_str).collect();
    let (node, path) = reached(command, before);
    let path: Vec<String> = path.into_iter().map(str::to_owned).collect();
    let path: Vec<&str> = path.iter().map(String::as_str).collect();
    let external = match node.is_allow_external_subcommands_set() {
        true => sources.external_at(node, &path, (&words, word)),
        false => Vec::new(),
    };
    let own_help = |it: &CompletionCandidate| it.get_help().map(ToString::to_string);
    let shown = external.iter().enumerate().map(|(number, it)| {
        as_external(it, if has_keys { Some(format!("e{number}")) } else { own_help(it) })
    });
    let shown: Vec<_> = shown.collect();
    let line = Line { words: &words, path: &path, external: &shown, has_keys };
    (live_file(command, &sources.values_from(), &line), external)
}

/// Returns the command to which words lead, and the names of the subcommands on the way. A word that
/// names a subcommand leads to it, whatever precedes it.
pub(crate) fn reached<'c>(command: &'c Command, words: &[String]) -> (&'c Command, Vec<&'c str>) {
    words.iter().fold((command, Vec::new()), |(node, path), word| {
        let Some(child) = node.find_subcommand(word) else {
            return (node, path);
        };
        (child, path.into_iter().chain([child.get_name()]).collect())
    })
}

/// Returns the value and the key of an item as zsh reads it: without the backslashes before `\` and
/// `:`, around the first other `:`.
fn value_and_key(item: &str) -> (String, Option<String>) {
    let mut value = String::new();
    let mut rest = item.chars();
    while let Some(character) = rest.next() {
        match character {
            '\\' => value.extend(rest.next()),
            ':' => return (value, Some(rest.as_str().replace("\\\\", "\\"))),
            _ => value.push(character),
        }
    }
    (value, None)
}
