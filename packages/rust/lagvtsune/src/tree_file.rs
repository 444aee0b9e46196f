//! Writes a `clap::Command` as a tree file of `complgen`, with clap and the standard library alone.

use clap::builder::{PossibleValue, Str, ValueRange};
use clap::{Arg, ArgAction, Command, Id, ValueHint};
use std::fmt::{self, Debug, Display, Write};
use std::mem;

const NO_ORDER: usize = 999;

/// The descriptions that releases of clap 4 give to the flags and the subcommand that they add.
const HELP_TEXTS: [&str; 4] = [
    "Print help",
    "Print help (see more with '--help')",
    "Print help information",
    "Print help information (use `--help` for more detail)",
];
const VERSION_TEXTS: [&str; 2] = ["Print version", "Print version information"];
const HELP_COMMAND_TEXT: &str = "Print this message or the help of the given subcommand(s)";

/// The capacity in bytes with which a tree file begins.
const LEAST_ROOM: usize = 8 << 10;

/// Getters that are private in early releases of clap 4. In later releases, clap's own getters of
/// the same names take precedence over these.
#[allow(dead_code)]
pub(crate) trait LaterGetters {
    fn get_display_order(&self) -> usize {
        NO_ORDER
    }
    fn get_value_terminator(&self) -> Option<&Str> {
        None
    }
}

impl LaterGetters for Arg {}
impl LaterGetters for Command {}

/// A command that prints the values of an argument.
#[derive(Clone, Copy)]
pub struct ValuesFrom<'v> {
    /// The names of the subcommands that lead to the argument.
    pub path: &'v [String],
    /// The id of the argument.
    pub id: &'v str,
    /// The words of the command: a program and its arguments.
    pub words: &'v [String],
    /// True if each live request needs the argument, because the library checks its words.
    pub is_checked: bool,
}

impl<'v> ValuesFrom<'v> {
    /// Returns the same, as seen from the subcommand with this name. Returns `None` if the argument
    /// is not below that subcommand.
    fn below(self, name: &str) -> Option<ValuesFrom<'v>> {
        let (first, path) = self.path.split_first()?;
        (first == name).then_some(ValuesFrom { path, ..self })
    }
}

/// Returns the tree file of a command, whether it is built or not.
#[allow(dead_code)] // the package itself needs parts of it
pub fn tree_file(command: &Command) -> String {
    written(&mut command.clone(), &[], None, Parts::Whole)
}

/// Returns the part of a tree file that a script needs.
#[allow(dead_code)] // a program that only writes tree files includes this file
pub fn script_file(command: &Command, parts: Parts) -> String {
    written(&mut command.clone(), &[], None, parts)
}

/// Returns the part of a tree file that a live request needs, and builds the commands on the way of
/// the request. `sources` are commands that print values. Their words count instead of possible
/// values.
#[allow(dead_code)] // a program that only writes tree files includes this file
pub fn live_file(command: &mut Command, sources: &[ValuesFrom<'_>], line: &Line<'_>) -> String {
    written(command, sources, Some(line), Parts::Offered)
}

fn written(
    command: &mut Command,
    sources: &[ValuesFrom<'_>],
    line: Option<&Line<'_>>,
    parts: Parts,
) -> String {
    let arg_count = command.get_arguments().count();
    let path = line.map(|line| line.path);
    let place = Place { arg_count, globals: &[], sources, line, path, parts };
    let mut out = String::with_capacity(LEAST_ROOM);
    command_object(&mut out, command, &place);
    out.push('\n');
    out
}

/// The parts of a tree that are written. Each has the names, and how many values arguments take.
#[derive(Clone, Copy, PartialEq, PartialOrd)]
#[allow(dead_code)] // a program that only writes tree files includes this file
pub enum Parts {
    /// Help texts.
    Described,
    /// Values.
    Valued,
    /// Both.
    Shown,
    /// Also conflicts and value names.
    Related,
    /// Help texts, values, value names and orders.
    Offered,
    /// All of these, and what only a parser needs.
    Whole,
}

impl Parts {
    fn has_value_names(self) -> bool {
        self >= Parts::Related
    }

    fn has_conflicts(self) -> bool {
        matches!(self, Parts::Related | Parts::Whole)
    }

    fn has_orders(self) -> bool {
        self >= Parts::Offered
    }
}

/// A command line of which a live request completes a word.
#[derive(Clone, Copy)]
pub struct Line<'l> {
    /// The words before the one to complete. Of a subcommand that none of them names, only what its
    /// parent offers is written.
    pub words: &'l [&'l str],
    /// The names of the subcommands to which the words lead.
    pub path: &'l [&'l str],
    /// The external subcommands that are offered there.
    pub external: &'l [External],
    /// True if help texts are replaced by keys, as [`arg_key`], [`command_key`] and [`value_key`]
    /// return them.
    pub has_keys: bool,
}

/// A subcommand that the command does not have.
pub struct External {
    pub name: String,
    pub help: Option<String>,
    pub is_hidden: bool,
}

impl Line<'_> {
    /// Returns whether the words may lead to a command, by its name or an alias.
    fn may_reach(&self, command: &Command) -> bool {
        self.words.iter().any(|word| {
            *word == command.get_name() || command.get_all_aliases().any(|alias| alias == *word)
        })
    }
}

/// The place of a command in its tree.
struct Place<'p> {
    /// The number of arguments that the command had before its parent was built.
    arg_count: usize,
    /// The global arguments of the commands above.
    globals: &'p [Id],
    /// The commands that print values, as seen from here.
    sources: &'p [ValuesFrom<'p>],
    /// The command line of a live request, which needs only part of the tree.
    line: Option<&'p Line<'p>>,
    /// The path of that line from here, if the words lead to here or further.
    path: Option<&'p [&'p str]>,
    parts: Parts,
}

impl<'p> Place<'p> {
    /// Returns whether a live request needs what is below this child.
    fn is_needed(&self, child: &Command, sources: &[ValuesFrom<'_>]) -> bool {
        self.line.is_none_or(|line| {
            line.may_reach(child) || sources.iter().any(|source| source.is_checked)
        })
    }

    /// Returns the external subcommands that are offered here.
    fn external(&self) -> &'p [External] {
        let line = self.line.filter(|_| self.path.is_some_and(<[_]>::is_empty));
        line.map_or(&[], |line| line.external)
    }

    /// Returns the path from the child with this name on, if the words lead there.
    fn path_below(&self, name: &str) -> Option<&'p [&'p str]> {
        let (first, path) = self.path?.split_first()?;
        (*first == name).then_some(path)
    }

    fn has_keys(&self) -> bool {
        self.line.is_some_and(|line| line.has_keys)
    }
}

/// Returns a number for each child: how many arguments it has. Building the parent adds children
/// and arguments after these. Returns `None` for the child `help` of a command that was built
/// before.
fn child_arg_counts(command: &Command) -> Vec<Option<usize>> {
    let counts = command.get_subcommands().map(|child| {
        let is_added = child.get_name() == "help"
            && !command.is_disable_help_subcommand_set()
            && is_one_of(child.get_about(), &[HELP_COMMAND_TEXT]);
        (!is_added).then(|| child.get_arguments().count())
    });
    counts.collect()
}

/// Returns whether an earlier build of the command added the argument: it is as clap makes the
/// flags for the help text and the version, or a copy of a global argument from above.
fn is_added(arg: &Arg, globals: &[Id]) -> bool {
    let texts: &[&str] = match arg.get_action() {
        ArgAction::Help if is_named(arg, "help", 'h') => &HELP_TEXTS,
        ArgAction::Version if is_named(arg, "version", 'V') => &VERSION_TEXTS,
        _ => return arg.is_global_set() && globals.contains(arg.get_id()),
    };
    is_one_of(arg.get_help(), texts)
}

/// Returns whether an argument has this id, the same long, and at most this short.
fn is_named(arg: &Arg, id: &str, short: char) -> bool {
    arg.get_id() == id
        && arg.get_long() == Some(id)
        && arg.get_short().is_none_or(|own| own == short)
}

fn is_one_of(text: Option<impl Display>, texts: &[&str]) -> bool {
    text.is_some_and(|text| texts.contains(&text.to_string().as_str()))
}

/// Builds only this command, which passes on to its children what they inherit.
///
/// Of clap's public calls, only those that render a text do this. An own usage text makes that
/// cheap. `Command::build` renders a usage for each command, and copies all commands below a
/// command for its child `help`.
fn build_alone(command: &mut Command) {
    *command = mem::take(command).override_usage("");
    command.render_usage();
}

/// Writes a command with the arguments and children that it declares, and what it inherits.
fn command_object(out: &mut String, command: &mut Command, place: &Place<'_>) {
    // Only a built command has what it inherits, and the conflicts of its arguments.
    let args = command.get_arguments().take(place.arg_count);
    let are_own: Vec<bool> = args.map(|arg| !is_added(arg, place.globals)).collect();
    let children = child_arg_counts(command);
    let globals = globals_of(command, place.globals);
    build_alone(command);
    let mut object = Object::new(out);
    command_texts(&mut object, command, place);
    let has_children = children.iter().any(Option::is_some) || !place.external().is_empty();
    command_flags(&mut object, command, has_children, place.parts);
    if place.parts == Parts::Whole {
        parser_flags(&mut object, command);
    }
    let mut position = 0;
    let args = command.get_arguments().zip(are_own).filter(|(_, is_own)| *is_own);
    object.list("args", args, |out, (arg, _)| {
        position += usize::from(arg.is_positional());
        arg_object(out, arg, position, command, place);
    });
    let children = command.get_subcommands_mut().zip(children);
    let children = children.filter_map(|(child, count)| Some(Child::Own(child, count?)));
    let external = place.external().iter().map(Child::External);
    object.list("subcommands", children.chain(external), |out, child| {
        child_object(out, child, &globals, place);
    });
    object.end();
}

/// A child of a command that is written.
enum Child<'c> {
    /// A subcommand, and how many arguments it has.
    Own(&'c mut Command, usize),
    External(&'c External),
}

fn child_object(out: &mut String, child: Child<'_>, globals: &[Id], place: &Place<'_>) {
    let (child, arg_count) = match child {
        Child::Own(child, arg_count) => (child, arg_count),
        Child::External(external) => return external_object(out, external),
    };
    let sources = place.sources.iter().filter_map(|it| it.below(child.get_name()));
    let sources: Vec<_> = sources.collect();
    if !place.is_needed(child, &sources) {
        return offered_object(out, child, place);
    }
    let path = place.path_below(child.get_name());
    let below = Place { arg_count, globals, sources: &sources, path, ..*place };
    command_object(out, child, &below);
}

/// Writes only what the parent of a command offers.
fn offered_object(out: &mut String, command: &Command, place: &Place<'_>) {
    let mut object = Object::new(out);
    object.text("name", Some(command.get_name()));
    about(&mut object, command, place);
    command_aliases(&mut object, command);
    object.flag("hide", command.is_hide_set());
    object.order(command.get_display_order());
    object.end();
}

fn external_object(out: &mut String, external: &External) {
    let mut object = Object::new(out);
    object.text("name", Some(&external.name));
    object.text("about", external.help.as_deref());
    object.flag("hide", external.is_hidden);
    object.end();
}

fn about(object: &mut Object<'_>, command: &Command, place: &Place<'_>) {
    if place.has_keys() {
        object.text("about", Some(&command_key(command)));
    } else if place.parts != Parts::Valued {
        object.shown("about", command.get_about());
    }
}

/// Returns the key that replaces the description of a command.
pub(crate) fn command_key(command: &Command) -> String {
    format!("c{:?}", command.get_name())
}

/// Returns the key that replaces the help text of an argument.
pub(crate) fn arg_key(arg: &Arg) -> String {
    format!("a{:?}", arg.get_id().as_str())
}

/// Returns the key that replaces the help text of a possible value.
pub(crate) fn value_key(arg: &Arg, value: &PossibleValue) -> String {
    format!("v{:?} {:?}", arg.get_id().as_str(), value.get_name())
}

/// Returns the ids of the global arguments of a command and of those above.
fn globals_of(command: &Command, above: &[Id]) -> Vec<Id> {
    let own = command.get_arguments().filter(|arg| arg.is_global_set());
    above.iter().cloned().chain(own.map(|arg| arg.get_id().clone())).collect()
}

/// Returns the words of the command that prints the values of an argument; none without a command.
fn words_for<'v>(arg: &Arg, sources: &[ValuesFrom<'v>]) -> &'v [String] {
    let found = sources.iter().find(|it| it.path.is_empty() && arg.get_id() == it.id);
    found.map_or(&[], |it| it.words)
}

fn command_aliases(object: &mut Object<'_>, command: &Command) {
    let visible: Vec<&str> = command.get_visible_aliases().collect();
    let hidden = command.get_all_aliases().filter(|alias| !visible.contains(alias));
    object.list("visible_aliases", &visible, |out, it| quote(out, it));
    object.list("aliases", hidden, quote);
}

fn command_texts(object: &mut Object<'_>, command: &Command, place: &Place<'_>) {
    object.text("name", Some(command.get_name()));
    object.text("bin_name", own_bin_name(command));
    about(object, command, place);
    if place.parts == Parts::Whole {
        object.shown("long_about", command.get_long_about());
        object.shown("after_help", command.get_after_help());
    }
    object.text("version", version(command));
    object.text("subcommand_help_heading", command.get_subcommand_help_heading());
    command_aliases(object, command);
}

/// Returns the bin name of a command. A build gives each subcommand one that ends in its name, after
/// those of the commands above and a space; it is not returned.
fn own_bin_name(command: &Command) -> Option<&str> {
    let is_added = |name: &&str| {
        name.strip_suffix(command.get_name()).is_some_and(|above| above.ends_with(' '))
    };
    command.get_bin_name().filter(|name| !is_added(name))
}

fn version(command: &Command) -> Option<&str> {
    command.get_version().or(command.get_long_version())
}

fn command_flags(object: &mut Object<'_>, command: &Command, has_children: bool, parts: Parts) {
    let no_version_flag = version(command).is_some() && command.is_disable_version_flag_set();
    let no_help_child = has_children && command.is_disable_help_subcommand_set();
    object.flag("hide", command.is_hide_set());
    object.flag("disable_help_flag", command.is_disable_help_flag_set());
    object.flag("disable_version_flag", no_version_flag);
    object.flag("disable_help_subcommand", no_help_child);
    object.flag("allow_external_subcommands", command.is_allow_external_subcommands_set());
    if parts.has_orders() {
        object.order(command.get_display_order());
    }
    object.flag("no_binary_name", command.is_no_binary_name_set());
}

/// Writes the flags that only a parser needs.
fn parser_flags(object: &mut Object<'_>, command: &Command) {
    object.flag("subcommand_required", command.is_subcommand_required_set());
    object.flag("arg_required_else_help", command.is_arg_required_else_help_set());
}

/// Returns the number of values that building gives an argument without one.
fn usual_range(arg: &Arg) -> ValueRange {
    match arg.get_value_names().map_or(0, <[_]>::len) {
        names @ 2.. => names.into(),
        _ if arg.get_action().takes_values() => ValueRange::SINGLE,
        _ => ValueRange::EMPTY,
    }
}

/// Returns the default value of an argument, unless building gives it to each argument with the same
/// action. Returns `None` for several values, because a tree file cannot hold more than one.
fn own_default(arg: &Arg) -> Option<&str> {
    let [value] = arg.get_default_values() else {
        return None;
    };
    let usual = match arg.get_action() {
        ArgAction::SetTrue => "false",
        ArgAction::SetFalse => "true",
        ArgAction::Count => "0",
        _ => return value.to_str(),
    };
    value.to_str().filter(|value| *value != usual)
}

/// Writes an argument of a built command as it was declared. `position` is its number among the
/// positional arguments.
fn arg_object(out: &mut String, arg: &Arg, position: usize, command: &Command, place: &Place<'_>) {
    let mut object = Object::new(out);
    object.text("id", Some(arg.get_id().as_str()));
    arg_names(&mut object, arg);
    if place.has_keys() {
        object.text("help", Some(&arg_key(arg)));
    } else if place.parts != Parts::Valued {
        object.shown("help", arg.get_help());
    }
    let range = arg.get_num_args().filter(|range| *range != usual_range(arg));
    let is_usual = matches!(arg.get_action(), ArgAction::Set) && range.is_none();
    if place.parts == Parts::Whole || !is_usual {
        object.word("action", arg.get_action());
    }
    if let Some(range) = range {
        value_range(object.key("num_args"), range);
    }
    // Several names mean as many values.
    let names = arg.get_value_names().unwrap_or(&[]);
    if place.parts.has_value_names() || names.len() > 1 {
        object.list("value_names", names, |out, it| quote(out, it));
    }
    if place.parts != Parts::Described {
        arg_values(&mut object, arg, place);
    }
    if place.parts == Parts::Whole {
        object.text("default_value", own_default(arg));
    }
    if place.parts.has_conflicts() {
        let conflicts = command.get_arg_conflicts_with(arg);
        object.list("conflicts_with", conflicts, |out, it| quote(out, it.get_id().as_str()));
    }
    if let Some(index) = arg.get_index().filter(|index| *index != position) {
        object.number("index", index);
    }
    object.flag("global", arg.is_global_set());
    if place.parts != Parts::Described {
        arg_lists(&mut object, arg, place.parts);
    }
    object.end();
}

/// Writes the values of an argument, or the words of the command that prints them.
fn arg_values(object: &mut Object<'_>, arg: &Arg, place: &Place<'_>) {
    let words = words_for(arg, place.sources);
    if words.is_empty() {
        object.list("possible_values", &arg.get_possible_values(), |out, value| {
            value_object(out, value, place.has_keys().then(|| value_key(arg, value)));
        });
    }
    object.list("values_from", words, |out, it| quote(out, it));
    let hint = arg.get_value_hint();
    if hint != ValueHint::Unknown {
        object.word("value_hint", hint);
    }
}

/// Writes what decides how an argument and its values are listed.
fn arg_lists(object: &mut Object<'_>, arg: &Arg, parts: Parts) {
    object.text("value_terminator", arg.get_value_terminator().map(Str::as_str));
    object.flag("required", arg.is_required_set());
    object.flag("last", arg.is_last_set());
    object.flag("hide", arg.is_hide_set());
    object.text("help_heading", arg.get_help_heading());
    if let Some(delimiter) = arg.get_value_delimiter() {
        quote_char(object.key("value_delimiter"), delimiter);
    }
    if parts.has_orders() {
        object.order(arg.get_display_order());
    }
    object.flag("allow_hyphen_values", arg.is_allow_hyphen_values_set());
}

/// Writes the names of an option, visible and hidden ones separately.
fn arg_names(object: &mut Object<'_>, arg: &Arg) {
    let visible = arg.get_visible_aliases().unwrap_or_default();
    let hidden = arg.get_all_aliases().unwrap_or_default();
    let hidden = hidden.into_iter().filter(|alias| !visible.contains(alias));
    let visible_shorts = arg.get_visible_short_aliases().unwrap_or_default();
    let hidden_shorts = arg.get_all_short_aliases().unwrap_or_default();
    let hidden_shorts = hidden_shorts.into_iter().filter(|alias| !visible_shorts.contains(alias));
    if let Some(short) = arg.get_short() {
        quote_char(object.key("short"), short);
    }
    object.text("long", arg.get_long());
    object.list("visible_short_aliases", visible_shorts.iter().copied(), quote_char);
    object.list("short_aliases", hidden_shorts, quote_char);
    object.list("visible_aliases", &visible, |out, it| quote(out, it));
    object.list("aliases", hidden, quote);
}

fn value_range(out: &mut String, range: ValueRange) {
    let _ = match range.max_values() {
        usize::MAX => write!(out, "[{}, null]", range.min_values()),
        most => write!(out, "[{}, {most}]", range.min_values()),
    };
}

/// Writes a possible value, with a key instead of its help text, if there is one.
fn value_object(out: &mut String, value: &PossibleValue, key: Option<String>) {
    let mut object = Object::new(out);
    object.text("name", Some(value.get_name()));
    match key {
        Some(key) => object.text("help", Some(&key)),
        None => object.shown("help", value.get_help()),
    }
    object.flag("hide", value.is_hide_set());
    object.end();
}

/// A JSON object that is being written. Leaves out a value that is missing, empty or `false`.
struct Object<'o> {
    out: &'o mut String,
    /// The text before the next key.
    between: &'static str,
}

impl<'o> Object<'o> {
    fn new(out: &'o mut String) -> Object<'o> {
        Object { out, between: "{\"" }
    }

    /// Begins a member. The key needs no escape.
    fn key(&mut self, key: &str) -> &mut String {
        self.out.push_str(self.between);
        self.between = ", \"";
        self.out.push_str(key);
        self.out.push_str("\": ");
        self.out
    }

    fn number(&mut self, key: &str, value: usize) {
        let _ = write!(self.key(key), "{value}");
    }

    fn text(&mut self, key: &str, value: Option<&str>) {
        if let Some(value) = value {
            quote(self.key(key), value);
        }
    }

    /// Writes a text as `text` does, from its displayed form.
    fn shown(&mut self, key: &str, value: Option<impl Display>) {
        if let Some(value) = value {
            let out = self.key(key);
            out.push('"');
            let _ = write!(Escaped(out), "{value}");
            out.push('"');
        }
    }

    /// Writes a text as `text` does, from the name of a variant of clap.
    fn word(&mut self, key: &str, value: impl Debug) {
        let _ = write!(self.key(key), "\"{value:?}\"");
    }

    fn flag(&mut self, key: &str, value: bool) {
        if value {
            self.key(key).push_str("true");
        }
    }

    fn order(&mut self, order: usize) {
        if order != NO_ORDER {
            self.number("display_order", order);
        }
    }

    fn list<T>(
        &mut self,
        key: &str,
        items: impl IntoIterator<Item = T>,
        mut put: impl FnMut(&mut String, T),
    ) {
        let mut items = items.into_iter();
        let Some(first) = items.next() else {
            return;
        };
        let out = self.key(key);
        out.push('[');
        put(out, first);
        for item in items {
            out.push_str(",\n");
            put(out, item);
        }
        out.push(']');
    }

    fn end(self) {
        self.out.push('}');
    }
}

/// Appends a text as a JSON string.
fn quote(json: &mut String, text: &str) {
    json.push('"');
    escape(json, text);
    json.push('"');
}

fn quote_char(json: &mut String, c: char) {
    quote(json, c.encode_utf8(&mut [0; 4]));
}

/// A writer that escapes what is written to it for the inside of a JSON string.
struct Escaped<'o>(&'o mut String);

impl Write for Escaped<'_> {
    fn write_str(&mut self, text: &str) -> fmt::Result {
        escape(self.0, text);
        Ok(())
    }
}

/// Appends a text, escaped for the inside of a JSON string.
fn escape(json: &mut String, text: &str) {
    let mut plain = 0;
    for (at, byte) in text.bytes().enumerate() {
        if byte >= b' ' && byte != b'"' && byte != b'\\' {
            continue;
        }
        json.push_str(&text[plain..at]);
        let _ = match byte {
            b'"' => json.write_str("\\\""),
            b'\\' => json.write_str("\\\\"),
            _ => write!(json, "\\u{byte:04x}"),
        };
        plain = at + 1;
    }
    json.push_str(&text[plain..]);
}
