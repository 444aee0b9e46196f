//! `app`, which would copy files: it prints its script for a shell, and completes itself.

use clap::{CommandFactory, Parser, Subcommand};
use lagvtsune::{generate, CompleteEnv, Shell};
use std::io;
use std::path::PathBuf;

/// Copy files
#[derive(Parser)]
#[command(name = "app", version)]
struct App {
    /// Print the script for a shell
    #[arg(long, value_enum, value_name = "SHELL")]
    completions: Option<Shell>,
    #[command(subcommand)]
    verb: Option<Verb>,
}

#[derive(Subcommand)]
enum Verb {
    /// Copy a file
    Copy {
        from: PathBuf,
        /// Where to
        #[arg(short, long)]
        out: Option<PathBuf>,
    },
    /// List what was copied
    List,
}

fn main() {
    CompleteEnv::with_factory(App::command).complete();
    let app = App::parse();
    if let Some(shell) = app.completions {
        generate(shell, &mut App::command(), "app", &mut io::stdout());
    }
}
