//! The adapters for the shells of this package: those of `clap_complete`, and the safe ones.

use super::shells::EnvCompleter;
use crate::answering::{asks_safely, plain_answer, safe_answer, Request, INDEX, SEPARATOR};
use crate::calls;
use crate::engine::{candidates, complete, CompletionCandidate};
use crate::native::Names;
use crate::sources::Sources;
use clap::Command;
use std::env;
use std::ffi::OsString;
use std::io::{Error, Write};
use std::path::Path;

/// A shell of this package.
#[derive(Clone, Copy, Debug, Eq, PartialEq)]
pub(super) enum Builtin {
    Bash,
    Elvish,
    Fish,
    Powershell,
    Zsh,
}

impl Builtin {
    pub(super) fn name(self) -> &'static str {
        match self {
            Builtin::Bash => "bash",
            Builtin::Elvish => "elvish",
            Builtin::Fish => "fish",
            Builtin::Powershell => "powershell",
            Builtin::Zsh => "zsh",
        }
    }

    pub(super) fn is(self, name: &str) -> bool {
        let is_other = self == Builtin::Powershell && matches!(name, "pwsh" | "powershell_ise");
        name == self.name() || is_other
    }

    /// Writes a registration: the one of this project if `is_safe` is true, or else the one of
    /// `clap_complete`.
    fn write_registration(
        self,
        is_safe: bool,
        names: &Names<'_>,
        buf: &mut dyn Write,
    ) -> Result<(), Error> {
        buf.write_all(&calls::registration(is_safe, self.name(), names)?)
    }

    /// Returns the words of a command line, and the index of the word to complete.
    fn line(self, mut line: Vec<OsString>) -> (Vec<OsString>, usize) {
        if let Builtin::Fish | Builtin::Powershell = self {
            let last = line.len().saturating_sub(1);
            return (line, last);
        }
        let index = env::var(INDEX).ok().and_then(|index| index.parse().ok()).unwrap_or_default();
        if self == Builtin::Zsh && line.len() == index {
            line.push(OsString::new());
        }
        (line, index)
    }

    fn write_reply(self, found: &[CompletionCandidate], buf: &mut dyn Write) -> Result<(), Error> {
        let separator = env::var(SEPARATOR);
        let separator = separator.as_deref().unwrap_or("\n");
        for (number, candidate) in found.iter().enumerate() {
            let value = candidate.get_value().to_string_lossy();
            let help = candidate.get_help().map(ToString::to_string);
            let help = help.as_ref().map(|help| help.lines().next().unwrap_or_default());
            let between = if number == 0 { "" } else { separator };
            match (self, help) {
                (Builtin::Bash | Builtin::Elvish, _) => write!(buf, "{between}{value}")?,
                (Builtin::Zsh, _) => {
                    let value = value.replace('\\', "\\\\").replace(':', "\\:");
                    let help = help.map(|help| format!(":{}", help.replace('\\', "\\\\")));
                    write!(buf, "{between}{value}{}", help.unwrap_or_default())?;
                }
                (_, Some(help)) => writeln!(buf, "{value}\t{help}")?,
                (_, None) => writeln!(buf, "{value}")?,
            }
        }
        Ok(())
    }

    pub(super) fn write_complete(
        self,
        cmd: &mut Command,
        args: Vec<OsString>,
        current_dir: Option<&Path>,
        buf: &mut dyn Write,
    ) -> Result<(), Error> {
        let (line, index) = self.line(args);
        self.write_reply(&complete(cmd, line, index, current_dir)?, buf)
    }

    pub(super) fn write_answer(
        self,
        mut request: Request<'_>,
        buf: &mut dyn Write,
    ) -> Result<u8, Error> {
        let (line, index) = self.line(request.line);
        request.line = line;
        if !request.sources.has_completers() {
            buf.write_all(&plain_answer(self.name(), request, index)?)?;
            return Ok(0);
        }
        let Request { command, sources, line, current_dir, .. } = request;
        command.build();
        self.write_reply(&candidates(command, sources, line, index, current_dir)?, buf)?;
        Ok(0)
    }
}

/// Declares a shell with the registration and the replies of `clap_complete`.
macro_rules! builtin {
    ($name:ident, $shell:literal) => {
        #[doc = concat!("The registration and the replies of `clap_complete` for ", $shell, ".")]
        #[derive(Clone, Copy, Debug, Eq, PartialEq)]
        pub struct $name;

        impl EnvCompleter for $name {
            fn name(&self) -> &'static str {
                Builtin::$name.name()
            }

            fn is(&self, name: &str) -> bool {
                Builtin::$name.is(name)
            }

            fn write_registration(
                &self,
                var: &str,
                name: &str,
                bin: &str,
                completer: &str,
                buf: &mut dyn Write,
            ) -> Result<(), Error> {
                let names = Names::of(var, name, bin, completer);
                Builtin::$name.write_registration(false, &names, buf)
            }

            fn write_complete(
                &self,
                cmd: &mut Command,
                args: Vec<OsString>,
                current_dir: Option<&Path>,
                buf: &mut dyn Write,
            ) -> Result<(), Error> {
                Builtin::$name.write_complete(cmd, args, current_dir, buf)
            }

            fn write_answer(&self, request: Request<'_>, buf: &mut dyn Write) -> Result<u8, Error> {
                Builtin::$name.write_answer(request, buf)
            }
        }
    };
}

builtin!(Bash, "bash");
builtin!(Elvish, "Elvish");
builtin!(Fish, "fish");
builtin!(Powershell, "PowerShell");
builtin!(Zsh, "zsh");

/// The safe registration and replies for a shell: nothing that the user types, and no candidate, is
/// evaluated by the shell.
///
/// A request of a registration of `clap_complete` is answered as [`Shells::builtins`] answers it.
///
/// [`Shells::builtins`]: super::Shells::builtins
#[derive(Clone, Copy, Debug, Eq, PartialEq)]
pub struct SafeShell(Builtin);

impl SafeShell {
    pub(super) const fn of(shell: Builtin) -> SafeShell {
        SafeShell(shell)
    }
}

impl From<Bash> for SafeShell {
    fn from(_: Bash) -> SafeShell {
        SafeShell(Builtin::Bash)
    }
}

impl From<Elvish> for SafeShell {
    fn from(_: Elvish) -> SafeShell {
        SafeShell(Builtin::Elvish)
    }
}

impl From<Fish> for SafeShell {
    fn from(_: Fish) -> SafeShell {
        SafeShell(Builtin::Fish)
    }
}

impl From<Powershell> for SafeShell {
    fn from(_: Powershell) -> SafeShell {
        SafeShell(Builtin::Powershell)
    }
}

impl From<Zsh> for SafeShell {
    fn from(_: Zsh) -> SafeShell {
        SafeShell(Builtin::Zsh)
    }
}

impl EnvCompleter for SafeShell {
    fn name(&self) -> &'static str {
        self.0.name()
    }

    fn is(&self, name: &str) -> bool {
        self.0.is(name)
    }

    fn write_registration(
        &self,
        var: &str,
        name: &str,
        bin: &str,
        completer: &str,
        buf: &mut dyn Write,
    ) -> Result<(), Error> {
        self.0.write_registration(true, &Names::of(var, name, bin, completer), buf)
    }

    fn write_complete(
        &self,
        cmd: &mut Command,
        args: Vec<OsString>,
        current_dir: Option<&Path>,
        buf: &mut dyn Write,
    ) -> Result<(), Error> {
        if !asks_safely() {
            return self.0.write_complete(cmd, args, current_dir, buf);
        }
        let mut sources = Sources::default();
        sources.add_attached(cmd, &mut Vec::new());
        let command = &mut cmd.clone();
        let request =
            Request { command, sources: &sources, line: args, current_dir, may_run: false };
        self.write_answer(request, buf).map(drop)
    }

    fn write_answer(&self, request: Request<'_>, buf: &mut dyn Write) -> Result<u8, Error> {
        if !asks_safely() {
            return self.0.write_answer(request, buf);
        }
        let (status, text) = safe_answer(self.name(), request)?;
        buf.write_all(&text)?;
        Ok(status)
    }
}
