//! `notes`, which would keep notes: it completes itself, and prints its script for a shell.
//!
//! ```text
//! cargo build --example notes
//! source <(COMPLETE=bash target/debug/examples/notes)
//! ```

use clap::{value_parser, Arg, Command};
use lagvtsune::engine::{
    ArgValueCandidates, ArgValueCompleter, CompletionCandidate, PathCompleter,
};
use lagvtsune::{generate, CompleteEnv, Shell};
use std::io;

fn main() {
    CompleteEnv::with_factory(command)
        .completer_for(&["show"], "note", ArgValueCandidates::new(notes))
        .completer_for(&["import"], "file", ArgValueCompleter::new(PathCompleter::file()))
        .complete();
    let matches = command().get_matches();
    if let Some(shell) = matches.get_one::<Shell>("completions") {
        generate(*shell, &mut command(), "notes", &mut io::stdout());
    }
}

fn command() -> Command {
    let completions = Arg::new("completions")
        .long("completions")
        .value_name("SHELL")
        .help("Print the script for a shell")
        .value_parser(value_parser!(Shell));
    let show = Command::new("show").about("Show a note").arg(Arg::new("note"));
    let import = Command::new("import").about("Read a note from a file").arg(Arg::new("file"));
    Command::new("notes").arg(completions).subcommands([show, import])
}

/// Returns the notes, which a real program would look up.
fn notes() -> Vec<CompletionCandidate> {
    let shopping = CompletionCandidate::new("shopping").help(Some("Bread and tea".into()));
    vec![shopping, "books".into()]
}
