//! Completion scripts, which a shell loads and then uses without the program.

pub mod utils;

pub use crate::generation::{generate, generate_to, try_generate, Generator};
pub use crate::generators::{Bash, Elvish, Fish, Nushell, PowerShell, Zsh};
pub use crate::shell::Shell;
pub use clap::ValueHint;
