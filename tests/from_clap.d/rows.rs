//! Lists what a command accepts, by clap's own build of it.

use clap::builder::PossibleValue;
use clap::{Arg, ArgAction, Command, ValueHint};

/// Returns rows for each short, long, child and positional of each visible path. A row has the
/// names of the path with spaces between them, a tab, and the word. The word of a positional is its
/// id as `<id>`. Further rows add a tab, a kind, a tab and a text:
///
/// - `help` and the help text or the description, if there is one
/// - `value` and the name of a possible value, and `help of NAME` and its help text, if it has one
/// - `hint` and the hint for other values
pub fn rows(command: &Command) -> String {
    let mut built = command.clone();
    built.build();
    let mut rows = String::new();
    add(&built, built.get_name(), &mut rows);
    rows
}

fn add(command: &Command, path: &str, rows: &mut String) {
    for arg in command.get_arguments() {
        for word in words(arg) {
            add_word(path, &word, texts(arg), rows);
        }
    }
    for child in command.get_subcommands() {
        for name in std::iter::once(child.get_name()).chain(child.get_visible_aliases()) {
            add_word(path, name, help(child.get_about()), rows);
            add(child, &format!("{path} {name}"), rows);
        }
    }
}

fn add_word(path: &str, word: &str, texts: Vec<String>, rows: &mut String) {
    *rows += &format!("{path}\t{word}\n");
    for text in texts {
        *rows += &format!("{path}\t{word}\t{text}\n");
    }
}

fn words(arg: &Arg) -> Vec<String> {
    if arg.is_positional() {
        return vec![format!("<{}>", arg.get_id())];
    }
    let shorts = arg.get_short_and_visible_aliases().unwrap_or_default();
    let longs = arg.get_long_and_visible_aliases().unwrap_or_default();
    let shorts = shorts.iter().map(|short| format!("-{short}"));
    shorts.chain(longs.iter().map(|long| format!("--{long}"))).collect()
}

/// Returns the kinds and texts of an argument's rows. The help texts of generated flags differ from
/// release to release of clap, so here they are the texts that a script has.
fn texts(arg: &Arg) -> Vec<String> {
    let mut texts = match arg.get_action() {
        ArgAction::Help => help(Some("Print help")),
        ArgAction::Version => help(Some("Print version")),
        _ => help(arg.get_help()),
    };
    let values = arg.get_possible_values();
    if values.is_empty() && arg.get_action().takes_values() {
        texts.push(format!("hint\t{:?}", hint(arg)));
    }
    texts.extend(values.iter().filter(|value| !value.is_hide_set()).flat_map(value_texts));
    texts
}

fn value_texts(value: &PossibleValue) -> Vec<String> {
    let name = value.get_name();
    let help = value.get_help().map(|help| format!("help of {name}\t{help}"));
    std::iter::once(format!("value\t{name}")).chain(help).collect()
}

/// Returns the hint of an argument. The shells whose hints are read complete a file as any path.
fn hint(arg: &Arg) -> ValueHint {
    match arg.get_value_hint() {
        ValueHint::FilePath => ValueHint::AnyPath,
        hint => hint,
    }
}

fn help(text: Option<impl ToString>) -> Vec<String> {
    text.iter().map(|text| format!("help\t{}", text.to_string())).collect()
}
