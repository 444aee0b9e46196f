//! The command line of `parcel`, declared by clap's builder.

use clap::builder::PossibleValue;
use clap::{value_parser, Arg, ArgAction, Command, ValueHint};

/// The command, which was not built yet.
pub fn command() -> Command {
    Command::new("parcel")
        .version("2.4.0")
        .about("Install, update and publish packages")
        .args([
            flag("verbose", "Say more; repeat it for more detail")
                .short('v')
                .action(ArgAction::Count)
                .global(true)
                .conflicts_with("quiet"),
            flag("quiet", "Print errors only").short('q').global(true).conflicts_with("verbose"),
            option("color", "When to use colours")
                .visible_alias("colour")
                .global(true)
                .value_parser(["auto", "always", "never"]),
            option("root", "The folder \"/\" or another\\one\tto work on")
                .value_parser(value_parser!(std::path::PathBuf)),
        ])
        .subcommands(packages())
        .subcommands(project())
        .subcommands([cache(), registry()])
}

fn packages() -> [Command; 8] {
    [
        child("install", "Install packages").visible_aliases(["i", "add"]).args([
            names().required(true),
            flag("dev", "Only for development").short('D'),
            option("jobs", "Downloads at once").short('j').value_parser(value_parser!(u16)),
            flag("dry-run", "Only say what would be done").short('n').alias("simulate"),
        ]),
        child("remove", "Remove packages")
            .visible_alias("rm")
            .alias("uninstall")
            .args([names().required(true), flag("purge", "Remove their settings too")]),
        child("update", "Update packages")
            .visible_alias("up")
            .args([names(), flag("latest", "Also past the versions that fit").short('L')]),
        child("search", "Search the registries for a text").visible_alias("s").args([
            Arg::new("text").required(true),
            option("limit", "At most this many results").short('l').default_value("20"),
            option("sort", "What to sort by").value_parser([
                PossibleValue::new("name").help("By name"),
                PossibleValue::new("downloads").help("The most used first"),
                PossibleValue::new("rank").hide(true),
            ]),
        ]),
        child("info", "Show what is known of a package")
            .args([Arg::new("package").required(true), flag("json", "As JSON")]),
        child("list", "List what is installed").visible_alias("ls").args([
            flag("outdated", "Only what has a newer version").short('o'),
            option("depth", "Levels of dependencies to show"),
        ]),
        child("why", "Show why a package is installed").arg(Arg::new("package")),
        child("audit", "Look for known faults")
            .arg(option("level", "The least to report").value_parser(["low", "high"])),
    ]
}

fn project() -> [Command; 5] {
    [
        child("init", "Make a project").args([
            Arg::new("folder").value_hint(ValueHint::DirPath),
            option("template", "What to begin with").short('t').value_hint(ValueHint::DirPath),
        ]),
        child("run", "Run a script of the project").args([
            Arg::new("script"),
            option("shell", "What runs it").value_hint(ValueHint::CommandName),
            Arg::new("words").num_args(0..).last(true).allow_hyphen_values(true),
        ]),
        child("test", "Run the tests").arg(flag("watch", "Again after each change").short('w')),
        child("publish", "Publish the package").args([
            option("tag", "The tag it gets").value_hint(ValueHint::Other),
            option("otp", "The password for this one time").short('o').hide(true),
        ]),
        child("env", "Print variables").args([
            option("set", "Set a variable").num_args(2).value_names(["NAME", "VALUE"]),
            option("only", "Print these only").value_delimiter(',').help_heading("Filters"),
        ]),
    ]
}

fn cache() -> Command {
    child("cache", "Work on the cache").subcommands([
        child("clean", "Empty it").arg(option("older-than", "Only what is older, in days")),
        child("path", "Print where it is"),
        child("verify", "Check what it holds").arg(flag("fix", "Mend what can be mended")),
    ])
}

fn registry() -> Command {
    child("registry", "Work on the list of registries").arg_required_else_help(true).subcommands([
        child("add", "Add one").args([
            Arg::new("url").required(true).value_hint(ValueHint::Url),
            option("name", "What to call it"),
        ]),
        child("remove", "Remove one").visible_alias("rm").arg(Arg::new("name")),
        child("login", "Log in").args([
            option("user", "As whom").short('u').value_hint(ValueHint::Username),
            option("token", "With this token").conflicts_with("user"),
        ]),
    ])
}

fn child(name: &'static str, about: &'static str) -> Command {
    Command::new(name).about(about)
}

fn flag(name: &'static str, help: &'static str) -> Arg {
    Arg::new(name).long(name).help(help).action(ArgAction::SetTrue)
}

fn option(name: &'static str, help: &'static str) -> Arg {
    Arg::new(name).long(name).help(help)
}

fn names() -> Arg {
    Arg::new("package").num_args(0..).help("Names of packages, each with an optional @version")
}
