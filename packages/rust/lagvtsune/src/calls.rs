//! Calls the library with enough room for its result.

use crate::folder::Listing;
use crate::native::{self, Bytes, Names, Request};
use std::io;

/// The minimum size of the first room, in bytes. A longer text takes a second call.
const LEAST_ROOM: usize = 64 << 10;

/// An estimate of the length of a script, as a multiple of the length of its tree file. Few scripts
/// exceed it.
const SCRIPT_LENGTHS: usize = 10;

/// Returns the script for the shell `shell`, under the name `bin`, of the command in the tree file
/// `tree`.
///
/// # Errors
///
/// The library's message, if there is no script.
pub(crate) fn script(shell: &str, bin: &str, tree: &str) -> io::Result<Vec<u8>> {
    let (shell, bin, tree) = (shell.as_bytes(), bin.as_bytes(), tree.as_bytes());
    let first = LEAST_ROOM.max(SCRIPT_LENGTHS * tree.len());
    made(native::script(shell, bin, tree, first))
}

/// Returns the registration for the shell `shell`, of the safe set or the original's.
///
/// # Errors
///
/// The library's message, if there is no registration.
pub(crate) fn registration(safe: bool, shell: &str, names: &Names<'_>) -> io::Result<Vec<u8>> {
    made(native::registration(safe, shell.as_bytes(), names, LEAST_ROOM))
}

/// A live request.
#[derive(Default)]
pub(crate) struct LiveRequest {
    pub(crate) tree: String,
    /// The program's arguments, starting with its name.
    pub(crate) words: Vec<Vec<u8>>,
    /// Names and values, alternating.
    pub(crate) variables: Vec<Vec<u8>>,
    /// The output of the command of an argument.
    pub(crate) output: Vec<u8>,
    /// The directory whose names the library may use.
    pub(crate) listing: Listing,
}

/// The library's answer to a live request.
pub(crate) enum Answer {
    /// The reply.
    Text(Vec<u8>),
    /// The words of a command, as the registration reads them. The shell runs it.
    Run(Vec<u8>),
    /// The variables request nothing.
    NotRequested,
    /// The library needs the names in the directory with this path, which the request does not
    /// contain.
    WantsFolder(String),
}

/// Answers a live request.
///
/// # Errors
///
/// The library's message, or an error if a word or a variable is not UTF-8.
pub(crate) fn live(request: &LiveRequest) -> io::Result<Answer> {
    let request = Request {
        tree: request.tree.as_bytes(),
        words: slices(&request.words),
        variables: slices(&request.variables),
        output: &request.output,
        listed: request.listing.path.as_bytes(),
        names: slices(&request.listing.names),
        folders: slices(&request.listing.folders),
        files: slices(&request.listing.files),
    };
    let (status, text) = native::live(&request, LEAST_ROOM);
    match status {
        0 => Ok(Answer::Text(text)),
        3 => Ok(Answer::NotRequested),
        4 => Ok(Answer::WantsFolder(String::from_utf8_lossy(&text).into_owned())),
        5 => Ok(Answer::Run(text)),
        other => Err(refusal(other, &text)),
    }
}

/// A value of an argument that a word is, or ends with.
pub(crate) struct AskedValue {
    /// The id of the argument.
    pub(crate) id: String,
    /// The number of the value in one use of the argument, counted from 0.
    pub(crate) number: usize,
    /// The value so far.
    pub(crate) text: String,
}

/// Returns the values for which the last of these words of a command line is asked.
///
/// # Errors
///
/// The library's message, or an error if a word is not UTF-8.
pub(crate) fn asked(tree: &str, words: &[Vec<u8>]) -> io::Result<Vec<AskedValue>> {
    let text = made(native::asked(tree.as_bytes(), &slices(words), LEAST_ROOM))?;
    let text = String::from_utf8_lossy(&text);
    let mut parts = text.split_terminator('\0').map(str::to_owned);
    let values = std::iter::from_fn(|| Some((parts.next()?, parts.next()?, parts.next()?)));
    let values = values.map(|(id, number, text)| {
        let number = number.parse().map_err(io::Error::other)?;
        Ok(AskedValue { id, number, text })
    });
    values.collect()
}

/// Converts texts to a list that the library accepts.
pub(crate) fn slices<T: AsRef<[u8]>>(texts: &[T]) -> Vec<Bytes<'_>> {
    texts.iter().map(|text| text.as_ref().into()).collect()
}

/// Returns the text that was made, or the error for another status.
fn made((status, text): (u8, Vec<u8>)) -> io::Result<Vec<u8>> {
    match status {
        0 => Ok(text),
        other => Err(refusal(other, &text)),
    }
}

/// Returns the error for a status without an answer.
fn refusal(status: u8, text: &[u8]) -> io::Error {
    match status {
        1 => io::Error::other(String::from_utf8_lossy(text).trim_end()),
        2 => io::Error::other("words: not UTF-8"),
        other => io::Error::other(format!("the library ended with the status {other}")),
    }
}
