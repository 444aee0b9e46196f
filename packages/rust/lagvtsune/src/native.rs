//! The archive of the proved library: its functions over bytes.
//! The unsafe code of this package is here and in `memory.rs`.
//!
//! `release/declarations.py` compares the declarations with `crates/complgen_c/src`, including their
//! comments, and the tests call each function. The library does not unwind.

use crate::memory;
use std::marker::PhantomData;
use std::mem::MaybeUninit;

extern "C" {
    // Each slice is passed as its start and its length.

    /// Makes the script for the shell with the name `shell`, of the command in the tree file
    /// `tree`, under the bin name `bin`. Returns the length of the text, and copies the text to the
    /// start of `room` if it fits there. Otherwise `room` stays unchanged, and you can call again
    /// with more room. You may pass any bytes.
    ///
    /// The `status` is:
    ///
    /// - 0: the text is the script.
    /// - 1: the text is a message, which ends in a line feed.
    /// - 2: `shell` or `bin` is not UTF-8, and there is no text.
    ///
    /// Proved (`crates/complgen_c/src/scripts.rt`):
    ///
    /// ```text
    /// EndsAs (MakesScript shell.now bin.now tree.now) room.old room.new status.new result
    /// ```
    fn lagvtsune_script(
        shell: *const u8,
        shell_length: usize,
        bin: *const u8,
        bin_length: usize,
        tree: *const u8,
        tree_length: usize,
        room: *mut u8,
        room_length: usize,
        status: *mut u8,
    ) -> usize;

    /// Makes the registration for the shell with the name `shell`: the text by which that shell
    /// runs the completer at a Tab. If `safe` is true, it is the one of the safe set, which
    /// evaluates no name, no value and no typed word. Otherwise it is the original's. Returns the
    /// length of the text, and copies the text to the start of `room` if it fits there. Otherwise
    /// `room` stays unchanged, and you can call again with more room. You may pass any bytes.
    ///
    /// `names` has the names in the text:
    ///
    /// - `variable` requests completions, by the name of the shell as its value. `COMPLETE` is
    ///   usual.
    /// - `name` is the name of the command, which is part of the names of functions.
    /// - `bin` is the program whose words are completed.
    /// - `completer` is the program that the shell runs: a name that is looked up in `PATH`, or a
    ///   path.
    ///
    /// The safe set quotes `bin` and `completer`, and writes the other two as identifiers: with `_`
    /// for each byte that is not an ASCII letter, a digit or `_`, and before a digit at the start.
    /// An empty one becomes `_`. The original's set writes `variable` and `name` without quotes,
    /// and in bash also `bin`. So pass only plain names there.
    ///
    /// The `status` is:
    ///
    /// - 0: the text is the registration.
    /// - 1: the text is a message, which ends in a line feed.
    /// - 2: `shell` or one of the names is not UTF-8, and there is no text.
    ///
    /// Proved (`crates/complgen_c/src/registrations.rt`):
    ///
    /// ```text
    /// EndsAs (MakesRegistration safe shell.now (passed_names names.now)) room.old room.new
    /// status.new result
    /// ```
    fn lagvtsune_registration(
        safe: bool,
        shell: *const u8,
        shell_length: usize,
        names: *const Names<'_>,
        room: *mut u8,
        room_length: usize,
        status: *mut u8,
    ) -> usize;

    /// Answers the request of a shell to the program that a tree file describes: with the
    /// registration, with the candidates, or with a command that lists values. Returns the length
    /// of the text, and copies the text to the start of `room` if it fits there. Otherwise `room`
    /// stays unchanged, and you can call again with more room. You may pass any bytes.
    ///
    /// `request` has the following parts. `tree` is the tree file. `words` are the program's
    /// arguments, starting with its name. `variables` are names and values, alternating:
    ///
    /// - `COMPLETE` makes the request, and its value names the shell.
    /// - `_COMPLGEN_VALUES`, `_COMPLGEN_ASCII`, `_COMPLGEN_KEPT`, `_COMPLGEN_QUOTE`,
    ///   `_COMPLGEN_WIDTH` and `_COMPLGEN_SPACE` have the values that the registration sets. A
    ///   registration of the original's form sets `_CLAP_COMPLETE_INDEX` and `_CLAP_IFS` instead.
    /// - `COMPLGEN_COMMANDS` turns off the commands of `values_from` if it is `0`.
    /// - `HOME` is the user's home directory, and `PWD` the directory where relative paths begin.
    ///
    /// `output` is what the command of an argument with `values_from` printed. It counts only if
    /// `_COMPLGEN_VALUES` is `stdin`. In that case, your program reads it from the standard input.
    /// Otherwise, pass no bytes. Pass only the tree of your own program, because the user's shell
    /// runs the commands that it names. This function offers no values for `values_file` and for
    /// the hints `Username`, `Hostname` and `CommandName`.
    ///
    /// `names` are the names in the directory at the path `listed`, or none if it can't be read.
    /// `folders` and `files` are the paths of directories and of files, among these: that directory
    /// itself, and its names, each joined to `listed` by one slash. Any other path counts as
    /// neither.
    ///
    /// The `status` is:
    ///
    /// - 0: the text is made.
    /// - 1: the text is a message, which ends in a line feed.
    /// - 2: a word, a variable or a name is not UTF-8, and there is no text.
    /// - 3: nothing is requested, and there is no text.
    /// - 4: the text is the path of another directory. Call again with the names in that one.
    /// - 5: the text is the words of a command, each with a vertical tab after it. Write the text
    ///   to the standard output, and end your program with exit status 3. The shell then runs the
    ///   command, and makes the request again. In that request, `_COMPLGEN_VALUES` is `stdin`.
    /// - 6: the text is made, a reply after whose values no space follows. Write the text to the
    ///   standard output, and end your program with exit status 4.
    ///
    /// Proved (`crates/complgen_c/src/live.rt`):
    ///
    /// ```text
    /// EndsAs (RepliesTo request.now) room.old room.new status.new result
    /// ```
    fn lagvtsune_live(
        request: *const PassedRequest<'_>,
        room: *mut u8,
        room_length: usize,
        status: *mut u8,
    ) -> usize;

    /// Tells for which values the candidates of the last of `words` ask, if these are the words of
    /// a command line of the program in the tree file `tree`, the program's name first. Returns the
    /// length of the text, and copies the text to the start of `room` if it fits there. Otherwise
    /// `room` stays unchanged, and you can call again with more room. You may pass any bytes.
    ///
    /// The text has three parts for each value: the id of the argument, the number of the value in
    /// one use of the argument, counted from 0, and the end of the word that is the value so far.
    /// Each part has a NUL after it, so a part with a NUL is not read back. First comes the next
    /// value of an open option, then the value within the word, then the value of the positional.
    /// An argument is among them whether or not it has `values_from`.
    ///
    /// The `status` is:
    ///
    /// - 0: the text is made.
    /// - 1: the text is a message, which ends in a line feed.
    /// - 2: a word is not UTF-8, and there is no text.
    ///
    /// Proved (`crates/complgen_c/src/asked_values.rt`):
    ///
    /// ```text
    /// EndsAs (MakesAsked tree.now (handed words.now)) room.old room.new status.new result
    /// ```
    fn lagvtsune_asked(
        tree: *const u8,
        tree_length: usize,
        words: *const Bytes<'_>,
        words_length: usize,
        room: *mut u8,
        room_length: usize,
        status: *mut u8,
    ) -> usize;
}

/// A slice of bytes, as C represents it.
#[repr(C)]
pub(crate) struct Bytes<'b> {
    start: *const u8,
    length: usize,
    borrowed: PhantomData<&'b [u8]>,
}

impl<'b> From<&'b [u8]> for Bytes<'b> {
    fn from(bytes: &'b [u8]) -> Bytes<'b> {
        Bytes { start: bytes.as_ptr(), length: bytes.len(), borrowed: PhantomData }
    }
}

/// A list of such slices, as C represents it.
#[repr(C)]
struct List<'l> {
    start: *const Bytes<'l>,
    length: usize,
    borrowed: PhantomData<&'l [Bytes<'l>]>,
}

impl<'l> From<&'l Vec<Bytes<'l>>> for List<'l> {
    fn from(slices: &'l Vec<Bytes<'l>>) -> List<'l> {
        List { start: slices.as_ptr(), length: slices.len(), borrowed: PhantomData }
    }
}

/// The names in a registration, as C represents them.
#[repr(C)]
pub(crate) struct Names<'n> {
    /// The variable that requests completions from the completer.
    pub(crate) variable: Bytes<'n>,
    /// The name of the command, which is part of the names of functions.
    pub(crate) name: Bytes<'n>,
    /// The program whose words are completed.
    pub(crate) bin: Bytes<'n>,
    /// The program that the shell runs at a Tab.
    pub(crate) completer: Bytes<'n>,
}

impl<'n> Names<'n> {
    pub(crate) fn of(
        variable: &'n str,
        name: &'n str,
        bin: &'n str,
        completer: &'n str,
    ) -> Names<'n> {
        let [variable, name, bin, completer] =
            [variable, name, bin, completer].map(|text| text.as_bytes().into());
        Names { variable, name, bin, completer }
    }
}

/// The result of a function of the library.
pub(crate) struct Returned {
    /// The end of the call: 0 with the text, 1 with an error message instead, 2 with neither,
    /// because a name or a word is not UTF-8. `live` also returns 3 if nothing is requested, 4 with
    /// the path of a directory whose names it needs, and 5 with the words of a command.
    pub(crate) status: u8,
    /// The length of the text in bytes. If the text fits, it is at the start of the room. Otherwise
    /// the room is unchanged.
    pub(crate) length: usize,
}

/// Returns the script for the shell `shell`, under the name `bin`, of the command in the tree file
/// `tree`, and its status. All bytes are allowed. The first room has `first` bytes.
pub(crate) fn script(shell: &[u8], bin: &[u8], tree: &[u8], first: usize) -> (u8, Vec<u8>) {
    with_room(first, |room| script_in(shell, bin, tree, room))
}

/// Writes such a script to `room`. Allocates only the memory that the library requests.
pub(crate) fn script_in(
    shell: &[u8],
    bin: &[u8],
    tree: &[u8],
    room: &mut [MaybeUninit<u8>],
) -> Returned {
    let mut status = u8::MAX;
    // SAFETY: the function is proved for all bytes. It reads these slices and writes to `room` and
    // `status`, each of which is borrowed here until it returns, and it keeps none of them. It does
    // not depend on the bytes that `room` had before.
    let length = memory::for_call(|| unsafe {
        lagvtsune_script(
            shell.as_ptr(),
            shell.len(),
            bin.as_ptr(),
            bin.len(),
            tree.as_ptr(),
            tree.len(),
            room.as_mut_ptr().cast(),
            room.len(),
            &raw mut status,
        )
    });
    Returned { status, length }
}

/// Returns the registration for the shell `shell`, of the safe set or the original's, and its status.
/// All bytes are allowed. The first room has `first` bytes.
pub(crate) fn registration(
    safe: bool,
    shell: &[u8],
    names: &Names<'_>,
    first: usize,
) -> (u8, Vec<u8>) {
    with_room(first, |room| registration_in(safe, shell, names, room))
}

/// Writes such a registration to `room`. Allocates only the memory that the library requests.
pub(crate) fn registration_in(
    safe: bool,
    shell: &[u8],
    names: &Names<'_>,
    room: &mut [MaybeUninit<u8>],
) -> Returned {
    let mut status = u8::MAX;
    // SAFETY: as in `script_in`. Each `Bytes` in the names borrows its slice.
    let length = memory::for_call(|| unsafe {
        lagvtsune_registration(
            safe,
            shell.as_ptr(),
            shell.len(),
            names,
            room.as_mut_ptr().cast(),
            room.len(),
            &raw mut status,
        )
    });
    Returned { status, length }
}

/// A live request.
pub(crate) struct Request<'r> {
    pub(crate) tree: &'r [u8],
    /// The program's arguments, starting with its name.
    pub(crate) words: Vec<Bytes<'r>>,
    /// Names and values, alternating.
    pub(crate) variables: Vec<Bytes<'r>>,
    /// The output of the command of an argument.
    pub(crate) output: &'r [u8],
    /// The path of the directory with these names.
    pub(crate) listed: &'r [u8],
    pub(crate) names: Vec<Bytes<'r>>,
    /// The paths, among that of the directory and those of its names, that lead to directories and
    /// to files.
    pub(crate) folders: Vec<Bytes<'r>>,
    pub(crate) files: Vec<Bytes<'r>>,
}

/// The same, as C represents it.
#[repr(C)]
struct PassedRequest<'p> {
    tree: Bytes<'p>,
    words: List<'p>,
    variables: List<'p>,
    output: Bytes<'p>,
    listed: Bytes<'p>,
    names: List<'p>,
    folders: List<'p>,
    files: List<'p>,
}

impl<'p> From<&'p Request<'_>> for PassedRequest<'p> {
    fn from(request: &'p Request<'_>) -> PassedRequest<'p> {
        PassedRequest {
            tree: request.tree.into(),
            words: (&request.words).into(),
            variables: (&request.variables).into(),
            output: request.output.into(),
            listed: request.listed.into(),
            names: (&request.names).into(),
            folders: (&request.folders).into(),
            files: (&request.files).into(),
        }
    }
}

/// Returns the registration, the reply or the command that is requested, and the status. All bytes are
/// allowed. The first room has `first` bytes.
pub(crate) fn live(request: &Request<'_>, first: usize) -> (u8, Vec<u8>) {
    with_room(first, |room| live_in(request, room))
}

/// Writes such a text to `room`. Allocates only the memory that the library requests.
pub(crate) fn live_in(request: &Request<'_>, room: &mut [MaybeUninit<u8>]) -> Returned {
    let (passed, mut status) = (PassedRequest::from(request), u8::MAX);
    // SAFETY: as in `script_in`. Each part of the request borrows its slices.
    let length = memory::for_call(|| unsafe {
        lagvtsune_live(&raw const passed, room.as_mut_ptr().cast(), room.len(), &raw mut status)
    });
    Returned { status, length }
}

/// Returns the values for which the last of `words` is asked in the command of the tree file `tree`,
/// and the status. All bytes are allowed. The first room has `first` bytes.
pub(crate) fn asked(tree: &[u8], words: &[Bytes<'_>], first: usize) -> (u8, Vec<u8>) {
    with_room(first, |room| asked_in(tree, words, room))
}

/// Writes such a text to `room`. Allocates only the memory that the library requests.
pub(crate) fn asked_in(tree: &[u8], words: &[Bytes<'_>], room: &mut [MaybeUninit<u8>]) -> Returned {
    let mut status = u8::MAX;
    // SAFETY: as in `script_in`. Each `Bytes` in the words borrows its slice.
    let length = memory::for_call(|| unsafe {
        lagvtsune_asked(
            tree.as_ptr(),
            tree.len(),
            words.as_ptr(),
            words.len(),
            room.as_mut_ptr().cast(),
            room.len(),
            &raw mut status,
        )
    });
    Returned { status, length }
}

/// Makes a call, and repeats it with more room if the text is longer than the first. Returns the
/// status and the text.
fn with_room(first: usize, call: impl Fn(&mut [MaybeUninit<u8>]) -> Returned) -> (u8, Vec<u8>) {
    let mut text = Vec::with_capacity(first);
    loop {
        let Returned { status, length } = call(text.spare_capacity_mut());
        if length <= text.capacity() {
            // SAFETY: the text fits, so the library wrote it to the start of the room.
            unsafe { text.set_len(length) };
            return (status, text);
        }
        text.reserve_exact(length);
    }
}

/// Returns bytes as a room. The library writes nothing but bytes.
#[cfg(test)]
pub(crate) fn as_room(bytes: &mut [u8]) -> &mut [MaybeUninit<u8>] {
    let (start, length) = (bytes.as_mut_ptr().cast(), bytes.len());
    // SAFETY: a `MaybeUninit<u8>` has the layout of a byte, and the result borrows `bytes`. The tests
    // pass it only to the library, so the bytes stay initialized.
    unsafe { std::slice::from_raw_parts_mut(start, length) }
}
