//! Generates scripts.

use clap::Command;
use std::ffi::OsString;
use std::fs;
use std::io::{Error, Write};
use std::path::PathBuf;

/// Generates the scripts of a shell.
///
/// [`generate`], [`try_generate`] and [`generate_to`] set the bin name of the command. If the
/// generator is your own, they also build the command, so that it has the arguments and subcommands
/// that clap adds.
///
/// ```
/// use clap::Command;
/// use lagvtsune::aot::utils::longs_and_visible_aliases;
/// use lagvtsune::{generate, Generator};
/// use std::io::Write;
///
/// /// Lists the options of the program itself.
/// struct Options;
///
/// impl Generator for Options {
///     fn file_name(&self, name: &str) -> String {
///         format!("{name}.txt")
///     }
///
///     fn generate(&self, cmd: &Command, buf: &mut dyn Write) {
///         for long in longs_and_visible_aliases(cmd) {
///             writeln!(buf, "--{long}").expect("failed to write completion file");
///         }
///     }
/// }
///
/// let mut list = Vec::new();
/// generate(Options, &mut Command::new("app"), "app", &mut list);
/// assert_eq!(list, b"--help\n");
/// ```
pub trait Generator {
    /// Returns the name of the file in which the shell looks for the script of the program `name`.
    fn file_name(&self, name: &str) -> String;

    /// Writes the script of `cmd` to `buf`.
    ///
    /// # Panics
    ///
    /// If writing fails, or there is no script.
    fn generate(&self, cmd: &Command, buf: &mut dyn Write);

    /// Writes the script of `cmd` to `buf`.
    ///
    /// # Errors
    ///
    /// The error of the writer, or an error if there is no script.
    fn try_generate(&self, cmd: &Command, buf: &mut dyn Write) -> Result<(), Error> {
        self.generate(cmd, buf);
        Ok(())
    }

    /// Returns whether the generator writes the same script for a command that is not built. Such a
    /// command is then not built, which saves time.
    #[doc(hidden)]
    fn takes_declared(&self) -> bool {
        false
    }
}

/// Sets the bin name of a command, and builds it for generators that need that.
fn prepare<G: Generator>(generator: &G, cmd: &mut Command, bin_name: impl Into<String>) {
    cmd.set_bin_name(bin_name);
    if !generator.takes_declared() {
        cmd.build();
    }
}

/// Writes the script of `cmd` under the name `bin_name` to `buf`. The command keeps that name. It
/// may be built before, but need not be.
///
/// # Panics
///
/// If writing fails, or there is no script, as in `clap_complete`. [`try_generate`] returns an
/// error instead.
pub fn generate<G, S>(generator: G, cmd: &mut Command, bin_name: S, buf: &mut dyn Write)
where
    G: Generator,
    S: Into<String>,
{
    prepare(&generator, cmd, bin_name);
    generator.generate(cmd, buf);
}

/// Does the same as [`generate`], but returns errors.
///
/// # Errors
///
/// - The error of the writer.
/// - The library's message, before anything is written, if there is no script.
pub fn try_generate<G, S>(
    generator: G,
    cmd: &mut Command,
    bin_name: S,
    buf: &mut dyn Write,
) -> Result<(), Error>
where
    G: Generator,
    S: Into<String>,
{
    prepare(&generator, cmd, bin_name);
    generator.try_generate(cmd, buf)
}

/// Writes the script of `cmd` under the name `bin_name` to the file in `out_dir` in which the shell
/// looks for it. Returns the path of the file.
///
/// # Errors
///
/// - The error of the system.
/// - The library's message, before the file is created, if there is no script.
pub fn generate_to<G, S, T>(
    generator: G,
    cmd: &mut Command,
    bin_name: S,
    out_dir: T,
) -> Result<PathBuf, Error>
where
    G: Generator,
    S: Into<String>,
    T: Into<OsString>,
{
    let bin_name = bin_name.into();
    let path = PathBuf::from(out_dir.into()).join(generator.file_name(&bin_name));
    let mut script = Vec::new();
    try_generate(generator, cmd, bin_name, &mut script)?;
    fs::write(&path, script)?;
    Ok(path)
}
