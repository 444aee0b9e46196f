//! Makes a command of clap from a tree file.

use clap::builder::{PossibleValue, PossibleValuesParser, Str, ValueRange};
use clap::{Arg, ArgAction, Command, ValueHint};
use serde_json::Value;

/// Returns the command that a tree file describes. It is not built.
pub fn command(tree: &Value) -> Command {
    let command = children(tree).iter().map(command).fold(alone(tree), Command::subcommand);
    with_bin_name(command, tree)
}

/// Returns a command whose tree has all that a build adds. So clap adds nothing to it: each command is
/// built before it gets its subcommands.
pub fn built(tree: &Value) -> Command {
    let mut command = alone(tree);
    command.build();
    let command = children(tree).iter().map(built).fold(command, Command::subcommand);
    with_bin_name(command, tree)
}

/// Returns a command without its subcommands and its bin name.
fn alone(tree: &Value) -> Command {
    let mut command = Command::new(owned(&tree["name"]));
    for (key, value) in tree.as_object().expect("a command") {
        command = with(command, key, value);
    }
    command
}

fn with_bin_name(command: Command, tree: &Value) -> Command {
    match tree["bin_name"].as_str() {
        Some(name) => command.bin_name(name.to_owned()),
        None => command,
    }
}

fn with(command: Command, key: &str, value: &Value) -> Command {
    match key {
        "about" => command.about(owned(value)),
        "version" => command.version(owned(value)),
        "long_about" => command.long_about(owned(value)),
        "after_help" => command.after_help(owned(value)),
        "subcommand_help_heading" => command.subcommand_help_heading(owned(value)),
        "aliases" => command.aliases(texts(value)),
        "visible_aliases" => command.visible_aliases(texts(value)),
        "display_order" => command.display_order(number(value)),
        "hide" => command.hide(flag(value)),
        "args" => list(value).iter().map(argument).fold(command, Command::arg),
        "disable_help_flag" => command.disable_help_flag(flag(value)),
        "disable_version_flag" => command.disable_version_flag(flag(value)),
        "disable_help_subcommand" => command.disable_help_subcommand(flag(value)),
        "allow_external_subcommands" => command.allow_external_subcommands(flag(value)),
        "no_binary_name" => command.no_binary_name(flag(value)),
        "subcommand_required" => command.subcommand_required(flag(value)),
        "arg_required_else_help" => command.arg_required_else_help(flag(value)),
        "name" | "bin_name" | "subcommands" => command,
        _ => panic!("a command has no key {key}"),
    }
}

fn argument(tree: &Value) -> Arg {
    let mut argument = Arg::new(owned(&tree["id"]));
    for (key, value) in tree.as_object().expect("an argument") {
        argument = with_name(argument, key, value);
    }
    argument
}

fn with_name(argument: Arg, key: &str, value: &Value) -> Arg {
    match key {
        "id" => argument,
        "short" => argument.short(character(value)),
        "long" => argument.long(owned(value)),
        "short_aliases" => argument.short_aliases(characters(value)),
        "visible_short_aliases" => argument.visible_short_aliases(characters(value)),
        "aliases" => argument.aliases(texts(value)),
        "visible_aliases" => argument.visible_aliases(texts(value)),
        "help" => argument.help(owned(value)),
        "help_heading" => argument.help_heading(owned(value)),
        "index" => argument.index(number(value)),
        "display_order" => argument.display_order(number(value)),
        "conflicts_with" => argument.conflicts_with_all(texts(value)),
        _ => with_values(argument, key, value),
    }
}

fn with_values(argument: Arg, key: &str, value: &Value) -> Arg {
    match key {
        "action" => argument.action(action(value)),
        "num_args" => argument.num_args(range(value)),
        "value_names" => argument.value_names(texts(value)),
        "value_delimiter" => argument.value_delimiter(character(value)),
        "value_terminator" => argument.value_terminator(owned(value)),
        "value_hint" => argument.value_hint(hint(value)),
        "possible_values" => argument.value_parser(possible_values(value)),
        "default_value" => argument.default_value(owned(value)),
        _ => with_setting(argument, key, flag(value)),
    }
}

fn with_setting(argument: Arg, key: &str, value: bool) -> Arg {
    match key {
        "required" => argument.required(value),
        "last" => argument.last(value),
        "global" => argument.global(value),
        "hide" => argument.hide(value),
        "allow_hyphen_values" => argument.allow_hyphen_values(value),
        _ => panic!("an argument has no key {key}"),
    }
}

fn action(value: &Value) -> ArgAction {
    match value.as_str().expect("an action") {
        "Set" => ArgAction::Set,
        "Append" => ArgAction::Append,
        "SetTrue" => ArgAction::SetTrue,
        "SetFalse" => ArgAction::SetFalse,
        "Count" => ArgAction::Count,
        "Help" => ArgAction::Help,
        "HelpShort" => ArgAction::HelpShort,
        "HelpLong" => ArgAction::HelpLong,
        "Version" => ArgAction::Version,
        other => panic!("no action {other}"),
    }
}

fn hint(value: &Value) -> ValueHint {
    match value.as_str().expect("a hint") {
        "Unknown" => ValueHint::Unknown,
        "Other" => ValueHint::Other,
        "AnyPath" => ValueHint::AnyPath,
        "FilePath" => ValueHint::FilePath,
        "DirPath" => ValueHint::DirPath,
        "ExecutablePath" => ValueHint::ExecutablePath,
        "CommandName" => ValueHint::CommandName,
        "CommandString" => ValueHint::CommandString,
        "CommandWithArguments" => ValueHint::CommandWithArguments,
        "Username" => ValueHint::Username,
        "Hostname" => ValueHint::Hostname,
        "Url" => ValueHint::Url,
        "EmailAddress" => ValueHint::EmailAddress,
        other => panic!("no hint {other}"),
    }
}

/// Returns a range. If its second number is `null`, it has no greatest number of values.
fn range(value: &Value) -> ValueRange {
    match &value[1] {
        Value::Null => (number(&value[0])..).into(),
        most => (number(&value[0])..=number(most)).into(),
    }
}

fn possible_values(value: &Value) -> PossibleValuesParser {
    PossibleValuesParser::new(list(value).iter().map(possible_value))
}

fn possible_value(tree: &Value) -> PossibleValue {
    let value = PossibleValue::new(owned(&tree["name"])).hide(tree["hide"] == true);
    match tree["help"].as_str() {
        Some(help) => value.help(help.to_owned()),
        None => value,
    }
}

fn children(tree: &Value) -> &[Value] {
    tree["subcommands"].as_array().map_or(&[], Vec::as_slice)
}

fn list(value: &Value) -> &[Value] {
    value.as_array().expect("a list")
}

fn owned(value: &Value) -> String {
    value.as_str().expect("a text").to_owned()
}

fn texts(value: &Value) -> Vec<Str> {
    list(value).iter().map(|text| owned(text).into()).collect()
}

fn character(value: &Value) -> char {
    value.as_str().and_then(|text| text.chars().next()).expect("a character")
}

fn characters(value: &Value) -> Vec<char> {
    list(value).iter().map(character).collect()
}

fn number(value: &Value) -> usize {
    value.as_u64().expect("a number").try_into().expect("a number of this size")
}

fn flag(value: &Value) -> bool {
    value.as_bool().expect("true or false")
}
