//! The shells.

use crate::calls;
use crate::generation::Generator;
use crate::tree_file::{script_file, Parts};
use clap::builder::PossibleValue;
use clap::{Command, ValueEnum};
use std::fmt::{self, Display, Formatter};
use std::io::{Error, Write};
use std::path::Path;
use std::str::FromStr;

/// A shell for which there are scripts.
#[derive(Clone, Copy, Debug, Eq, Hash, PartialEq)]
#[non_exhaustive]
pub enum Shell {
    /// bash.
    Bash,
    /// Elvish.
    Elvish,
    /// fish.
    Fish,
    /// Nushell.
    Nushell,
    /// PowerShell.
    PowerShell,
    /// zsh.
    Zsh,
}

impl Shell {
    /// Returns the shell whose program is at `path`, by the file name without its extension, or
    /// `None` for any other program.
    pub fn from_shell_path<P: AsRef<Path>>(path: P) -> Option<Shell> {
        match path.as_ref().file_stem()?.to_str()? {
            "bash" => Some(Shell::Bash),
            "elvish" => Some(Shell::Elvish),
            "fish" => Some(Shell::Fish),
            "nu" => Some(Shell::Nushell),
            "pwsh" | "powershell" | "powershell_ise" => Some(Shell::PowerShell),
            "zsh" => Some(Shell::Zsh),
            _ => None,
        }
    }

    /// Returns the shell whose path is in the variable `SHELL`. Returns `None` for any other
    /// program, or if the variable is not set.
    pub fn from_env() -> Option<Shell> {
        Shell::from_shell_path(std::env::var_os("SHELL")?)
    }

    /// Returns the parts of a tree that the scripts of the shell depend on.
    pub(crate) fn parts(self) -> Parts {
        match self {
            Shell::Bash => Parts::Valued,
            Shell::Fish => Parts::Shown,
            Shell::Zsh => Parts::Related,
            Shell::Elvish | Shell::Nushell | Shell::PowerShell => Parts::Described,
        }
    }

    /// Returns the name with which the library and users select the shell.
    fn name(self) -> &'static str {
        match self {
            Shell::Bash => "bash",
            Shell::Elvish => "elvish",
            Shell::Fish => "fish",
            Shell::Nushell => "nushell",
            Shell::PowerShell => "powershell",
            Shell::Zsh => "zsh",
        }
    }
}

impl Display for Shell {
    fn fmt(&self, f: &mut Formatter<'_>) -> fmt::Result {
        self.name().fmt(f)
    }
}

impl FromStr for Shell {
    type Err = String;

    /// Returns the shell with this name.
    ///
    /// # Errors
    ///
    /// `invalid variant: ` and the text, if no shell has this name.
    fn from_str(text: &str) -> Result<Shell, String> {
        let mut shells = Shell::value_variants().iter();
        let shell = shells.find(|shell| shell.name() == text).copied();
        shell.ok_or_else(|| format!("invalid variant: {text}"))
    }
}

impl ValueEnum for Shell {
    fn value_variants<'a>() -> &'a [Shell] {
        &[Shell::Bash, Shell::Elvish, Shell::Fish, Shell::Nushell, Shell::PowerShell, Shell::Zsh]
    }

    fn to_possible_value(&self) -> Option<PossibleValue> {
        Some(PossibleValue::new(self.name()))
    }
}

impl Generator for Shell {
    fn file_name(&self, name: &str) -> String {
        match self {
            Shell::Bash => format!("{name}.bash"),
            Shell::Elvish => format!("{name}.elv"),
            Shell::Fish => format!("{name}.fish"),
            Shell::Nushell => format!("{name}.nu"),
            Shell::PowerShell => format!("_{name}.ps1"),
            Shell::Zsh => format!("_{name}"),
        }
    }

    fn generate(&self, cmd: &Command, buf: &mut dyn Write) {
        self.try_generate(cmd, buf).expect("failed to write completion file");
    }

    /// Writes the script under the bin name of the command, or under its name if it has no bin
    /// name.
    ///
    /// # Errors
    ///
    /// - The error of the writer.
    /// - The library's message, before anything is written, such as if two commands share a label
    ///   of a bash script.
    fn try_generate(&self, cmd: &Command, buf: &mut dyn Write) -> Result<(), Error> {
        let bin_name = cmd.get_bin_name().unwrap_or(cmd.get_name());
        buf.write_all(&calls::script(self.name(), bin_name, &script_file(cmd, self.parts()))?)
    }

    fn takes_declared(&self) -> bool {
        true
    }
}
