//! The shells that a program answers.

use super::adapters::{Bash, Builtin, Elvish, Fish, Powershell, SafeShell, Zsh};
use crate::answering::Request;
use clap::Command;
use std::ffi::OsString;
use std::io::{Error, Write};
use std::path::Path;

/// The shells that a program answers. The first one that has the requested name counts.
pub struct Shells<'s>(pub &'s [&'s dyn EnvCompleter]);

impl<'s> Shells<'s> {
    /// Returns the shells with registrations and replies of this project: nothing that the user
    /// types, and no candidate, is evaluated by the shell.
    pub const fn safe() -> Shells<'s> {
        const BASH: &SafeShell = &SafeShell::of(Builtin::Bash);
        const ELVISH: &SafeShell = &SafeShell::of(Builtin::Elvish);
        const FISH: &SafeShell = &SafeShell::of(Builtin::Fish);
        const POWERSHELL: &SafeShell = &SafeShell::of(Builtin::Powershell);
        const ZSH: &SafeShell = &SafeShell::of(Builtin::Zsh);
        Shells(&[BASH, ELVISH, FISH, POWERSHELL, ZSH])
    }

    /// Returns the shells with the registrations and replies of `clap_complete`. In bash, a value that
    /// was inserted may run a command, and in PowerShell a typed word may.
    pub const fn builtins() -> Shells<'s> {
        Shells(&[&Bash, &Elvish, &Fish, &Powershell, &Zsh])
    }

    /// Returns the first shell that has this name.
    pub fn completer(&self, name: &str) -> Option<&dyn EnvCompleter> {
        self.0.iter().copied().find(|shell| shell.is(name))
    }

    /// Returns the shell whose program is at `path`.
    pub(super) fn completer_for_path(&self, path: &Path) -> Result<&dyn EnvCompleter, Error> {
        let name = path.file_stem().unwrap_or(path.as_os_str()).to_string_lossy();
        self.completer(&name).ok_or_else(|| {
            let names: Vec<_> = self.names().map(|name| format!("`{name}`")).collect();
            let names = names.join(", ");
            Error::other(format!("unknown shell `{name}`, expected one of {names}"))
        })
    }

    /// Returns the names of the shells.
    pub fn names(&self) -> impl Iterator<Item = &'static str> + 's {
        self.0.iter().map(|shell| shell.name())
    }

    /// Returns the shells.
    pub fn iter(&self) -> impl Iterator<Item = &dyn EnvCompleter> {
        self.0.iter().copied()
    }
}

/// Writes the registrations and the replies of a shell.
///
/// A registration is a text in the shell's language. It makes the shell run the program at each Tab,
/// with the variable of the registration set to the shell's name, and with the words of the command
/// line after a `--`.
pub trait EnvCompleter {
    /// Returns the name of the shell. [`EnvCompleter::is`] has to accept it.
    fn name(&self) -> &'static str;

    /// Returns whether this is the shell with this name. A shell may have several names.
    fn is(&self, name: &str) -> bool;

    /// Writes the registration. `var` is the variable that requests completions, `name` is for names
    /// in the text, `bin` is the program to register, and `completer` is the program to run.
    ///
    /// # Errors
    ///
    /// The error of `buf`.
    fn write_registration(
        &self,
        var: &str,
        name: &str,
        bin: &str,
        completer: &str,
        buf: &mut dyn Write,
    ) -> Result<(), Error>;

    /// Writes the reply for a command line, which is `args`. Variables that the registration sets tell
    /// which word to complete. Relative paths refer to `current_dir`.
    ///
    /// # Errors
    ///
    /// - The error of `buf`.
    /// - Those of [`complete`](crate::engine::complete()).
    fn write_complete(
        &self,
        cmd: &mut Command,
        args: Vec<OsString>,
        current_dir: Option<&Path>,
        buf: &mut dyn Write,
    ) -> Result<(), Error>;

    /// Writes the reply with the values of [`CompleteEnv`](super::CompleteEnv), or the words of a
    /// command, and returns the exit status.
    #[doc(hidden)]
    fn write_answer(&self, request: Request<'_>, buf: &mut dyn Write) -> Result<u8, Error> {
        let Request { command, line, current_dir, .. } = request;
        command.build();
        self.write_complete(command, line, current_dir, buf)?;
        Ok(0)
    }
}
