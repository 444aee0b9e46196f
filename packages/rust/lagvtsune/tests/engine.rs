//! Tests `engine` without a shell.

use clap::builder::PossibleValue;
use clap::{Arg, ArgAction, Command, ValueHint};
use lagvtsune::engine::{
    complete, complete_possible_values, possible_value_candidates, ArgValueCandidates,
    ArgValueCompleter, CompletionCandidate, PathCompleter, SubcommandCandidates, ValueCompleter,
};
use std::ffi::{OsStr, OsString};
use std::path::{Path, PathBuf};
use std::{env, fs, process};

fn app() -> Command {
    let level = Arg::new("level")
        .long("level")
        .visible_alias("lvl")
        .alias("degree")
        .short('l')
        .help("How \\ much: \"it\"\nis")
        .value_parser([
            PossibleValue::new("low").help("Not: much"),
            PossibleValue::new("a:b"),
            PossibleValue::new("secret").hide(true),
        ])
        .value_delimiter(',')
        .help_heading("Tuning");
    let quiet = Arg::new("quiet").long("quiet").short('q').action(ArgAction::SetTrue).hide(true);
    let run = Command::new("run").visible_alias("r").alias("go").about("Run: it\nMore");
    let remote = Command::new("remote").subcommand(Command::new("add").about("Add one"));
    Command::new("app").version("1").args([level, quiet]).subcommands([run, remote])
}

/// Returns the candidates for the last of the words of `app`.
fn found(words: &[&str]) -> Vec<CompletionCandidate> {
    let line: Vec<OsString> = words.iter().map(OsString::from).collect();
    complete(&mut app(), line, words.len() - 1, None).unwrap()
}

fn values(found: &[CompletionCandidate]) -> Vec<&str> {
    found.iter().map(|it| it.get_value().to_str().unwrap()).collect()
}

fn text(styled: Option<&clap::builder::StyledStr>) -> Option<String> {
    styled.map(ToString::to_string)
}

#[test]
fn candidates_are_those_of_the_command_that_words_lead_to() {
    assert_eq!(values(&found(&["app", "r"])), ["r", "remote"]);
    assert_eq!(values(&found(&["app", "remote", "a"])), ["add"]);
    assert_eq!(values(&found(&["app", "help", "remote", ""])), ["add"]);
    assert_eq!(values(&found(&["app", "--l"])), ["--level"]);
    assert_eq!(values(&found(&["app", "--level", ""])), ["low", "a:b"]);
    assert_eq!(values(&found(&["app", "--level=l"])), ["--level=low"]);
    assert_eq!(values(&found(&["app", "-ll"])), ["-llow"]);
    assert_eq!(values(&found(&["app", "--level", "low,"])), ["low,low", "low,a:b"]);
    assert_eq!(
        values(&found(&["app", "x", ""])),
        ["r", "remote", "help", "--level", "--help", "--version"]
    );
    // Hidden ones are offered if nothing else is.
    assert_eq!(values(&found(&["app", "--q"])), ["--quiet"]);
    assert_eq!(values(&found(&["app", "--deg"])), ["--degree"]);
    assert_eq!(values(&found(&["app", "g"])), ["go"]);
    assert_eq!(values(&found(&["app", "--level", "s"])), ["secret"]);
    assert_eq!(values(&found(&["app", "z"])), [] as [&str; 0]);
}

#[test]
fn candidates_have_the_texts_of_the_command() {
    let found = found(&["app", ""]);
    let of = |value: &str| found.iter().find(|it| it.get_value() == value).unwrap();
    let run = of("r");
    assert_eq!(text(run.get_help()).as_deref(), Some("Run: it\nMore"));
    assert_eq!(run.get_id().map(String::as_str), Some("command::run"));
    assert_eq!(text(run.get_tag()).as_deref(), Some("Commands"));
    assert!(run.get_display_order().is_some() && !run.is_hide_set());
    let level = of("--level");
    assert_eq!(text(level.get_help()).as_deref(), Some("How \\ much: \"it\"\nis"));
    assert_eq!(level.get_id().map(String::as_str), Some("arg::level"));
    assert_eq!(text(level.get_tag()).as_deref(), Some("Tuning"));
    let help = of("--help");
    assert_eq!(help.get_id().map(String::as_str), Some("arg::help"));
    assert_eq!(text(help.get_tag()).as_deref(), Some("Options"));
    assert!(help.get_help().is_some());
    let child = of("help");
    assert_eq!(child.get_id().map(String::as_str), Some("command::help"));
}

#[test]
fn values_have_the_tag_of_their_argument() {
    let offered = found(&["app", "--level", ""]);
    assert_eq!(text(offered[0].get_help()).as_deref(), Some("Not: much"));
    assert_eq!(offered[1].get_help(), None);
    for candidate in &offered {
        assert_eq!(text(candidate.get_tag()).as_deref(), Some("--level <level>"));
        assert_eq!(candidate.get_id(), None);
    }
    assert!(found(&["app", "--level", "s"])[0].is_hide_set());
    assert!(found(&["app", "--degr"])[0].is_hide_set());
}

#[test]
fn the_word_must_be_there_and_no_program_s_name() {
    for (words, index) in [(&["app"][..], 1), (&["app"], 0), (&[], 0), (&["app", "r"], 7)] {
        let line = words.iter().map(OsString::from).collect();
        let error = complete(&mut app(), line, index, None).unwrap_err();
        assert_eq!(error.to_string(), "no completion generated", "{words:?} {index}");
    }
    let mut unnamed = app().no_binary_name(true);
    let found = complete(&mut unnamed, vec!["ru".into(), "x".into()], 0, None).unwrap();
    assert_eq!(values(&found), ["run"]);
}

/// Makes a directory with files, and removes it at the end.
struct Folder(PathBuf);

impl Folder {
    fn new(name: &str) -> Folder {
        let path = env::temp_dir().join(format!("lagvtsune-{name}-{}", process::id()));
        for folder in ["src", ".git"] {
            fs::create_dir_all(path.join(folder)).unwrap();
        }
        for file in ["a.txt", "b c", ".rc", "src/main.rs"] {
            fs::write(path.join(file), "").unwrap();
        }
        Folder(path)
    }
}

impl Drop for Folder {
    fn drop(&mut self) {
        fs::remove_dir_all(&self.0).unwrap();
    }
}

#[test]
fn paths_are_those_below_the_current_directory() {
    let folder = Folder::new("engine");
    let path = Arg::new("path").value_hint(ValueHint::AnyPath);
    let mut app = Command::new("app").disable_help_flag(true).arg(path);
    let mut found =
        |word: &str| complete(&mut app, vec!["app".into(), word.into()], 1, Some(&folder.0));
    let root = found("").unwrap();
    assert_eq!(values(&root), [".", "a.txt", "b c", "src/"]);
    assert!(root.iter().all(|it| text(it.get_tag()).as_deref() == Some("[path]")), "{root:?}");
    assert_eq!(values(&found("src/").unwrap()), ["src/main.rs"]);
    for (typed, expected) in [(".g", ".git/"), (".r", ".rc")] {
        let hidden = found(typed).unwrap();
        assert_eq!(values(&hidden), [expected]);
        assert!(hidden[0].is_hide_set());
    }
}

#[test]
fn a_path_completer_offers_what_is_wanted() {
    let folder = Folder::new("paths");
    let at = |completer: PathCompleter| completer.current_dir(&folder.0);
    let offered = |completer: &PathCompleter, typed: &str| -> Vec<String> {
        let found = completer.complete(OsStr::new(typed));
        found.iter().map(|it| it.get_value().to_str().unwrap().to_owned()).collect()
    };
    let all = [".", ".git/", ".rc", "a.txt", "b c", "src/"];
    assert_eq!(offered(&at(PathCompleter::any()), ""), all);
    assert_eq!(offered(&at(PathCompleter::default()), ""), all);
    // Directories follow the files, because files may be below them.
    let files = [".rc", "a.txt", "b c", ".git/", "src/", "-"];
    assert_eq!(offered(&at(PathCompleter::file().stdio()), ""), files);
    assert_eq!(offered(&at(PathCompleter::file().stdio()), "b"), ["b c"]);
    assert_eq!(offered(&at(PathCompleter::dir()), ""), [".", ".git/", "src/"]);
    assert_eq!(offered(&at(PathCompleter::dir()), "src/m"), [] as [&str; 0]);
    let rust = |path: &Path| path.extension().is_some_and(|it| it == "rs");
    assert_eq!(offered(&at(PathCompleter::any().filter(rust)), "src/"), ["src/main.rs"]);
}

#[test]
fn a_completer_s_calls_reach_its_function() {
    struct Numbered;
    impl ValueCompleter for Numbered {
        fn complete(&self, current: &OsStr) -> Vec<CompletionCandidate> {
            vec![CompletionCandidate::new(current)]
        }
        fn complete_at(&self, arg_index: usize, _: &OsStr) -> Vec<CompletionCandidate> {
            vec![CompletionCandidate::new(arg_index.to_string())]
        }
    }
    let completer = ArgValueCompleter::new(Numbered);
    assert_eq!(values(&completer.complete(OsStr::new("x"))), ["x"]);
    assert_eq!(values(&completer.complete_at(3, OsStr::new("x"))), ["3"]);
    let function =
        ArgValueCompleter::new(|current: &OsStr| vec![CompletionCandidate::new(current)]);
    assert_eq!(values(&function.complete_at(3, OsStr::new("x"))), ["x"]);
    let list = || vec![CompletionCandidate::new("a"), "b".into()];
    assert_eq!(values(&ArgValueCandidates::new(list).candidates()), ["a", "b"]);
    assert_eq!(values(&SubcommandCandidates::new(list).candidates()), ["a", "b"]);
}

#[test]
fn a_candidate_has_what_is_set() {
    let candidate = CompletionCandidate::new("b")
        .help(Some("Help".into()))
        .id(Some("id".into()))
        .tag(Some("tag".into()))
        .display_order(Some(3))
        .hide(true)
        .add_prefix("a=");
    assert_eq!(candidate.get_value(), "a=b");
    assert_eq!(text(candidate.get_help()).as_deref(), Some("Help"));
    assert_eq!(candidate.get_id().map(String::as_str), Some("id"));
    assert_eq!(text(candidate.get_tag()).as_deref(), Some("tag"));
    assert_eq!(candidate.get_display_order(), Some(3));
    assert!(candidate.is_hide_set());
    assert!(CompletionCandidate::from("a") < CompletionCandidate::from("b"));
}

#[test]
fn possible_values_are_candidates() {
    let own = || [PossibleValue::new("low").help("L"), PossibleValue::new("last").hide(true)];
    let all = possible_value_candidates(own());
    assert_eq!(values(&all), ["low", "last"]);
    assert_eq!(text(all[0].get_help()).as_deref(), Some("L"));
    assert!(!all[0].is_hide_set() && all[1].is_hide_set());
    assert_eq!(values(&complete_possible_values(OsStr::new("lo"), own())), ["low"]);
}
