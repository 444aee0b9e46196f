//! The generators of this package: a type for each shell.

use crate::generation::Generator;
use crate::shell::Shell;
use clap::Command;
use std::io::{Error, Write};

/// Declares the generator of a shell, which does what the shell's variant of [`Shell`] does.
macro_rules! generator {
    ($name:ident, $shell:literal) => {
        #[doc = concat!("Generates completion scripts for ", $shell, ".")]
        #[derive(Clone, Copy, Debug, Eq, Hash, PartialEq)]
        pub struct $name;

        impl Generator for $name {
            fn file_name(&self, name: &str) -> String {
                Shell::$name.file_name(name)
            }

            fn generate(&self, cmd: &Command, buf: &mut dyn Write) {
                Shell::$name.generate(cmd, buf);
            }

            fn try_generate(&self, cmd: &Command, buf: &mut dyn Write) -> Result<(), Error> {
                Shell::$name.try_generate(cmd, buf)
            }

            fn takes_declared(&self) -> bool {
                true
            }
        }
    };
}

generator!(Bash, "bash");
generator!(Elvish, "Elvish");
generator!(Fish, "fish");
generator!(Nushell, "Nushell");
generator!(PowerShell, "PowerShell");
generator!(Zsh, "zsh");
