//! `herd`, the command line of a program that would run a cluster. It prints its script for a
//! shell, and completes itself.

#[path = "../../../../examples/from-clap/herd/src/cli.rs"]
mod cli;

use clap::{value_parser, Arg, Command, CommandFactory};
use lagvtsune::{generate, CompleteEnv, Shell};
use std::io;

fn main() {
    CompleteEnv::with_factory(command).complete();
    let matches = command().get_matches();
    if let Some(shell) = matches.get_one::<Shell>("completions") {
        generate(*shell, &mut command(), "herd", &mut io::stdout());
    }
}

/// Returns the command line, with an option for the script.
fn command() -> Command {
    let completions = Arg::new("completions")
        .long("completions")
        .value_name("SHELL")
        .help("Print the script for a shell")
        .value_parser(value_parser!(Shell));
    cli::Herd::command().subcommand_required(false).arg(completions)
}
