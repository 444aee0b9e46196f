//! Shell completions for programs that use clap, from a proved library.
//!
//! The names are those of `clap_complete`. The library is an archive of proved code, which this
//! package contains. The package passes it a `clap::Command` as a tree file, in JSON, and the library
//! writes the script or answers the shell. It is proved that the script contains exactly the
//! commands and options of the tree file if all names are plain: letters and digits, with single
//! `-` or `_` between them. It is not proved that the tree file matches the command.
//!
//! To write a script:
//!
//! ```no_run
//! use clap::Command;
//! use lagvtsune::{generate, Shell};
//!
//! let mut command = Command::new("app").subcommand(Command::new("run"));
//! generate(Shell::Bash, &mut command, "app", &mut std::io::stdout());
//! ```
//!
//! To complete at run time, call [`CompleteEnv::complete`] first in `main`.
//!
//! # Features
//!
//! - `unstable-dynamic`: arguments and commands have completers, by `Arg::add` and `Command::add`. It
//!   needs a release of clap with the feature `unstable-ext`. Without it, name the argument at
//!   [`CompleteEnv::completer_for`].
//! - `original`: if there is no archive for the target, the package is `clap_complete`.

#![deny(unsafe_code)]
#![warn(missing_docs)]

#[cfg(not(lagvtsune_own))]
pub use clap_complete::*;

#[cfg(lagvtsune_own)]
mod answering;
#[cfg(lagvtsune_own)]
pub mod aot;
#[cfg(lagvtsune_own)]
mod calls;
#[cfg(lagvtsune_own)]
pub mod engine;
#[cfg(lagvtsune_own)]
pub mod env;
#[cfg(lagvtsune_own)]
mod folder;
#[cfg(lagvtsune_own)]
mod generation;
#[cfg(lagvtsune_own)]
mod generators;
#[cfg(lagvtsune_own)]
#[allow(unsafe_code)]
mod memory;
#[cfg(lagvtsune_own)]
#[allow(unsafe_code)]
mod native;
#[cfg(all(test, lagvtsune_own))]
#[allow(unsafe_code)]
mod refusing;
#[cfg(lagvtsune_own)]
mod shell;
#[cfg(lagvtsune_own)]
mod sources;
#[cfg(all(test, lagvtsune_own))]
mod tests;
#[cfg(lagvtsune_own)]
mod tree_file;

/// The functions of [`aot`] that write scripts, under an older name of `clap_complete`.
#[cfg(lagvtsune_own)]
pub mod generator {
    pub use crate::aot::{generate, generate_to, utils, Generator};
}

/// The shells of [`aot`], under an older name of `clap_complete`.
#[cfg(lagvtsune_own)]
pub mod shells {
    pub use crate::aot::{Bash, Elvish, Fish, Nushell, PowerShell, Shell, Zsh};
}

/// Tests the example in `README.md`.
#[cfg(all(doctest, lagvtsune_own))]
#[doc = include_str!("../README.md")]
struct Readme;

#[cfg(lagvtsune_own)]
pub use aot::{generate, generate_to, try_generate, Generator, Shell};
#[cfg(lagvtsune_own)]
pub use clap::ValueHint;
#[cfg(lagvtsune_own)]
pub use engine::{ArgValueCandidates, ArgValueCompleter, CompletionCandidate, PathCompleter};
#[cfg(lagvtsune_own)]
pub use env::CompleteEnv;
