//! Prints the tree file of the program.

#[path = "../../src/cli.rs"]
mod cli;
#[path = "../../../../../packages/rust/lagvtsune/src/tree_file.rs"]
mod tree_file;

fn main() {
    print!("{}", tree_file::tree_file(&cli::command()));
}
