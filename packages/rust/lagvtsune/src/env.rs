//! Live completion: the shell runs the program itself to get completions.
//!
//! To enable completion, your users make their shell load the program's output for the variable
//! `COMPLETE`, by a line such as one of these in a start file:
//!
//! | Shell | Line |
//! |---|---|
//! | bash | `source <(COMPLETE=bash app)` |
//! | Elvish | `eval (env COMPLETE=elvish app \| slurp)` |
//! | fish | `COMPLETE=fish app \| source` |
//! | zsh | `source <(COMPLETE=zsh app)` |
//!
//! In PowerShell: `$env:COMPLETE = "powershell"; app | Out-String | Invoke-Expression; Remove-Item
//! Env:\COMPLETE`.

mod adapters;
mod shells;

pub use adapters::{Bash, Elvish, Fish, Powershell, SafeShell, Zsh};
pub use shells::{EnvCompleter, Shells};

use crate::answering::{Request, REQUEST};
use crate::engine::{Completer, SubcommandCandidates};
use crate::sources::Sources;
use clap::error::Result;
use clap::Command;
use std::ffi::{OsStr, OsString};
use std::io::{self, Write};
use std::path::{Path, PathBuf};
use std::{env, process};

/// Answers the completion requests of shells. Call it before the program does anything else.
///
/// ```no_run
/// use clap::Command;
/// use lagvtsune::CompleteEnv;
///
/// CompleteEnv::with_factory(|| Command::new("app").subcommand(Command::new("run"))).complete();
/// // the program itself
/// ```
pub struct CompleteEnv<'s, F> {
    factory: F,
    var: &'static str,
    bin: Option<String>,
    completer: Option<String>,
    shells: Shells<'s>,
    sources: Sources,
}

impl<'s, F: Fn() -> Command> CompleteEnv<'s, F> {
    /// Completes the command that `factory` returns, whether it is built or not, for the variable
    /// `COMPLETE` and the shells of [`Shells::safe`].
    pub fn with_factory(factory: F) -> CompleteEnv<'s, F> {
        CompleteEnv {
            factory,
            var: REQUEST,
            bin: None,
            completer: None,
            shells: Shells::safe(),
            sources: Sources::default(),
        }
    }

    /// Sets the variable with which a shell requests a registration or a reply.
    pub fn var(mut self, var: &'static str) -> CompleteEnv<'s, F> {
        self.var = var;
        self
    }

    /// Sets the name by which users call the program, for which the registration completes. Without
    /// it, that is the bin name of the command, or its name if it has none.
    pub fn bin(mut self, bin: impl Into<String>) -> CompleteEnv<'s, F> {
        self.bin = Some(bin.into());
        self
    }

    /// Sets the program that the registration runs for each completion. Without it, that is the
    /// first of the arguments, which is the name or the path by which the program was called.
    pub fn completer(mut self, completer: impl Into<String>) -> CompleteEnv<'s, F> {
        self.completer = Some(completer.into());
        self
    }

    /// Sets the shells that the program answers.
    ///
    /// ```no_run
    /// # use clap::Command;
    /// # use lagvtsune::CompleteEnv;
    /// use lagvtsune::env::{Bash, Shells};
    ///
    /// let app = || Command::new("app");
    /// CompleteEnv::with_factory(app).shells(Shells(&[&Bash])).complete();
    /// ```
    pub fn shells(mut self, shells: Shells<'s>) -> CompleteEnv<'s, F> {
        self.shells = shells;
        self
    }

    /// Offers what a command prints as the values of an argument: each line is a value, and the
    /// text after a tab its description. `path` has the names of the subcommands that lead to the
    /// argument with this `id`. `words` are the program that the shell runs at a Tab, and its
    /// arguments. They count instead of possible values.
    ///
    /// ```no_run
    /// # use clap::{Arg, Command};
    /// # use lagvtsune::CompleteEnv;
    /// let topic = Arg::new("topic");
    /// let app = || Command::new("app").subcommand(Command::new("switch").arg(topic.clone()));
    /// let list = ["git", "for-each-ref", "--format=%(refname:short)", "refs/heads"];
    /// CompleteEnv::with_factory(app).values_from(&["switch"], "topic", &list).complete();
    /// ```
    pub fn values_from(mut self, path: &[&str], id: &str, words: &[&str]) -> CompleteEnv<'s, F> {
        self.sources.add_command(path, id, words);
        self
    }

    /// Offers what a completer returns as the values of an argument. `path` has the names of the
    /// subcommands that lead to the argument with this `id`. The completer is an
    /// [`ArgValueCompleter`](crate::engine::ArgValueCompleter) or an
    /// [`ArgValueCandidates`](crate::engine::ArgValueCandidates), and runs in this process. It counts
    /// instead of possible values.
    ///
    /// Only candidates that begin with what is typed are offered.
    ///
    /// ```no_run
    /// # use clap::{Arg, Command};
    /// # use lagvtsune::CompleteEnv;
    /// use lagvtsune::engine::{ArgValueCandidates, CompletionCandidate};
    ///
    /// let topic = Arg::new("topic");
    /// let app = || Command::new("app").subcommand(Command::new("switch").arg(topic.clone()));
    /// let topics = ArgValueCandidates::new(|| vec![CompletionCandidate::new("news")]);
    /// CompleteEnv::with_factory(app).completer_for(&["switch"], "topic", topics).complete();
    /// ```
    pub fn completer_for(
        mut self,
        path: &[&str],
        id: &str,
        completer: impl Into<Completer>,
    ) -> CompleteEnv<'s, F> {
        self.sources.add_completer(owned(path), id, completer.into());
        self
    }

    /// Offers what a list returns as subcommands of the command to which the names in `path` lead.
    /// The command has to allow external subcommands.
    ///
    /// ```no_run
    /// # use clap::Command;
    /// # use lagvtsune::CompleteEnv;
    /// use lagvtsune::engine::{CompletionCandidate, SubcommandCandidates};
    ///
    /// let app = || Command::new("app").allow_external_subcommands(true);
    /// let found = SubcommandCandidates::new(|| vec![CompletionCandidate::new("plugin")]);
    /// CompleteEnv::with_factory(app).subcommand_candidates_for(&[], found).complete();
    /// ```
    pub fn subcommand_candidates_for(
        mut self,
        path: &[&str],
        candidates: SubcommandCandidates,
    ) -> CompleteEnv<'s, F> {
        self.sources.add_external(owned(path), candidates);
        self
    }

    /// If a shell requests it, writes the registration, the reply or the words of a command to
    /// stdout, and ends the process. The exit status is 0, 3 after the words of a command, or 2
    /// after an error message. Otherwise does nothing.
    pub fn complete(self) {
        let (args, current_dir) = (env::args_os().collect::<Vec<_>>(), env::current_dir().ok());
        match self.answer(&args, current_dir.as_deref(), true) {
            // The process ends, so nothing frees the command.
            Ok(Some((status, _command))) => process::exit(status.into()),
            Ok(None) => {}
            Err(error) => error.exit(),
        }
    }

    /// If a shell requests it, writes the registration or the reply for `args` to stdout. The first
    /// of `args` is the program's name, and relative paths refer to `current_dir`. Returns whether
    /// a shell requested it. Then it has removed the variable of the request from the environment.
    ///
    /// The reply has no values from commands. [`CompleteEnv::try_complete_asking`] offers them.
    ///
    /// # Errors
    ///
    /// - The error of stdout, if writing fails.
    /// - The library's message, before anything is written.
    /// - An error before anything is written, if no shell has the requested name, if there are no
    ///   `args`, or if a word of the command line is not UTF-8.
    /// - An error before anything is written, if the command has no argument or subcommand that
    ///   `values_from`, `completer_for` or `subcommand_candidates_for` names.
    pub fn try_complete(
        self,
        args: impl IntoIterator<Item = impl Into<OsString>>,
        current_dir: Option<&Path>,
    ) -> Result<bool> {
        let args: Vec<_> = args.into_iter().map(Into::into).collect();
        Ok(self.answer(&args, current_dir, false)?.is_some())
    }

    /// Does the same as [`CompleteEnv::try_complete`], but may also write the words of a command.
    /// If the shell has run that command, reads its output from stdin. Returns the exit status with
    /// which the program must end: 0, or 3 after the words of a command. Returns `None` if no shell
    /// requested anything.
    ///
    /// # Errors
    ///
    /// Those of [`CompleteEnv::try_complete`].
    pub fn try_complete_asking(
        self,
        args: impl IntoIterator<Item = impl Into<OsString>>,
        current_dir: Option<&Path>,
    ) -> Result<Option<u8>> {
        let args: Vec<_> = args.into_iter().map(Into::into).collect();
        Ok(self.answer(&args, current_dir, true)?.map(|(status, _)| status))
    }

    /// Writes what is requested, and returns the exit status and the command. Without `may_run`,
    /// commands are turned off.
    fn answer(
        mut self,
        args: &[OsString],
        current_dir: Option<&Path>,
        may_run: bool,
    ) -> Result<Option<(u8, Command)>> {
        let requested = env::var_os(self.var).filter(|name| !name.is_empty() && name != "0");
        let Some(name) = requested else {
            return Ok(None);
        };
        // A program that a completer starts must not answer the request.
        env::remove_var(self.var);
        let shell = self.shells.completer_for_path(Path::new(&name))?;
        let mut command = (self.factory)();
        self.sources.check(&command)?;
        let Some((program, line)) = args.split_first() else {
            return Err(io::Error::other("no arguments").into());
        };
        let line = words_after_dashes(line);
        let mut text = Vec::new();
        let status = if line.is_empty() {
            let completer = self.completer.unwrap_or_else(|| completer(program, current_dir));
            let bin = self.bin.as_deref().or(command.get_bin_name());
            let bin = bin.unwrap_or(command.get_name());
            shell.write_registration(self.var, command.get_name(), bin, &completer, &mut text)?;
            0
        } else {
            self.sources.add_attached(&command, &mut Vec::new());
            let (sources, line) = (&self.sources, line.to_vec());
            let command = &mut command;
            let request = Request { command, sources, line, current_dir, may_run };
            shell.write_answer(request, &mut text)?
        };
        let mut stdout = io::stdout();
        stdout.write_all(&text)?;
        stdout.flush()?;
        Ok(Some((status, command)))
    }
}

/// Returns the words after the first `--`.
fn words_after_dashes(words: &[OsString]) -> &[OsString] {
    let dashes = words.iter().position(|word| word == "--");
    dashes.map_or(&[], |at| &words[at + 1..])
}

/// Returns the program that a registration runs: the one by whose name or path this process was
/// called. A path is joined to the current directory.
fn completer(program: &OsStr, current_dir: Option<&Path>) -> String {
    let program = Path::new(program);
    let current_dir = current_dir.filter(|_| program.components().count() > 1);
    let path = current_dir.map_or_else(PathBuf::new, Path::to_owned).join(program);
    path.to_string_lossy().into_owned()
}

fn owned(path: &[&str]) -> Vec<String> {
    path.iter().map(|name| String::from(*name)).collect()
}
