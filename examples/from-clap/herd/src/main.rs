//! `herd`, which would run a cluster: here it takes its words and does nothing.

mod cli;

use clap::Parser;

fn main() {
    cli::Herd::parse();
}
