//! `parcel`, which would manage packages: here it takes its words and does nothing.

mod cli;

fn main() {
    cli::command().get_matches();
}
