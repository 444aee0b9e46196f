//! Lists of the parts of a built command, for generators of your own.
//!
//! The functions need a command that is built, as a [`Generator`](crate::Generator) gets it.

use clap::builder::PossibleValue;
use clap::{Arg, Command};
use std::iter::once;

/// Returns the name and the bin name of each subcommand, at every level. A bin name joins the names
/// that lead to a command, as in `("add", "app remote add")`. A visible alias counts as a name.
///
/// # Panics
///
/// If the command is not built.
pub fn all_subcommands(cmd: &Command) -> Vec<(String, String)> {
    let mut all = subcommands(cmd);
    all.extend(cmd.get_subcommands().flat_map(all_subcommands));
    all
}

/// Returns the subcommand to which the names in `path` lead from `p`. A name may be an alias. The
/// name of the program is not part of the path.
///
/// # Panics
///
/// If there is no such subcommand.
pub fn find_subcommand_with_path<'cmd>(p: &'cmd Command, path: Vec<&str>) -> &'cmd Command {
    path.into_iter().fold(p, |command, name| {
        let found = command.find_subcommand(name);
        found.unwrap_or_else(|| panic!("no subcommand {name:?} of {:?}", command.get_name()))
    })
}

/// Returns the name and the bin name of each direct subcommand, as [`all_subcommands`] does.
///
/// # Panics
///
/// If the command is not built.
pub fn subcommands(p: &Command) -> Vec<(String, String)> {
    let mut named = Vec::new();
    for child in p.get_subcommands() {
        let bin_name = child.get_bin_name().expect("the command is built");
        let names = once(child.get_name()).chain(child.get_visible_aliases());
        named.extend(names.map(|name| (name.to_owned(), bin_name.to_owned())));
    }
    named
}

/// Returns the short names of the options and flags. The visible aliases of a short come before it.
pub fn shorts_and_visible_aliases(p: &Command) -> Vec<char> {
    let named = p.get_arguments().filter_map(|arg| Some((arg.get_short()?, arg)));
    let shorts = named.map(|(short, arg)| {
        arg.get_visible_short_aliases().unwrap_or_default().into_iter().chain(once(short))
    });
    shorts.flatten().collect()
}

/// Returns the long names of the options and flags. The visible aliases of a long come before it.
pub fn longs_and_visible_aliases(p: &Command) -> Vec<String> {
    let named = p.get_arguments().filter_map(|arg| Some((arg.get_long()?, arg)));
    let longs = named.map(|(long, arg)| {
        arg.get_visible_aliases().unwrap_or_default().into_iter().chain(once(long))
    });
    longs.flatten().map(str::to_owned).collect()
}

/// Returns copies of the flags: the arguments with a short or a long that take no value.
///
/// # Panics
///
/// If the command is not built.
pub fn flags(p: &Command) -> Vec<Arg> {
    let flags = p.get_arguments().filter(|arg| !takes_values(arg) && !arg.is_positional());
    flags.cloned().collect()
}

/// Returns the possible values of an argument, or `None` if it takes no value, or any value.
///
/// # Panics
///
/// If the command of the argument is not built.
pub fn possible_values(a: &Arg) -> Option<Vec<PossibleValue>> {
    let values = takes_values(a).then(|| a.get_value_parser().possible_values())?;
    Some(values?.collect())
}

fn takes_values(arg: &Arg) -> bool {
    arg.get_num_args().expect("the command is built").takes_values()
}
