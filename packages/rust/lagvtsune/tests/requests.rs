//! Tests live completion with a program that sends requests to itself, because a request is part of
//! the environment of a process.

use clap::{Arg, Command, ValueHint};
use lagvtsune::engine::{
    complete, ArgValueCandidates, ArgValueCompleter, CompletionCandidate, PathCompleter,
    SubcommandCandidates, ValueCompleter,
};
use lagvtsune::env::{EnvCompleter, Shells};
use lagvtsune::CompleteEnv;
use std::ffi::{OsStr, OsString};
use std::io::{self, Write};
use std::path::{Path, PathBuf};
use std::process::{self, Output, Stdio};
use std::{env, fs, str};

fn main() {
    // The name of the tree that this process completes.
    match env::var("APP").as_deref() {
        Ok("paths") => CompleteEnv::with_factory(paths).complete(),
        Ok("values") => values().complete(),
        Ok("completers") => completers().complete(),
        Ok("no status") => {
            let args = env::args_os();
            assert!(values().try_complete(args, None).unwrap(), "nothing is requested");
            return;
        }
        Ok("other names") => {
            CompleteEnv::with_factory(app).bin("other").completer("/opt/it").complete();
        }
        Ok("no argument") => values().values_from(&["add", "s"], "level", &["x"]).complete(),
        Ok("variable") => CompleteEnv::with_factory(app).var("OTHER").complete(),
        Ok("builtins") => completers().shells(Shells::builtins()).complete(),
        Ok("own shell") => CompleteEnv::with_factory(app).shells(Shells(&[&Own])).complete(),
        Ok("external") => external().complete(),
        Ok("numbers") => numbers().complete(),
        _ => CompleteEnv::with_factory(app).complete(),
    }
    if env::var_os("APP").is_some() {
        println!("the program itself");
        return;
    }
    replies();
    a_registration_runs_the_program();
    refusals();
    nothing_is_requested();
    paths_of_a_folder();
    values_of_a_command();
    values_of_completers();
    a_completer_gets_the_number_of_the_value();
    completers_of_the_original_s_registrations();
    external_subcommands();
    a_shell_of_the_program_s_own();
    another_variable();
    the_original_s_registrations();
    println!("requests: passed");
}

/// A command with a child and nothing else.
fn app() -> Command {
    Command::new("app").subcommand(Command::new("test").visible_alias("t"))
}

/// A command with a file path and nothing else.
fn paths() -> Command {
    let file = Arg::new("file").value_hint(ValueHint::FilePath);
    Command::new("app").disable_help_flag(true).arg(file)
}

/// A completion of a command with a value from a command, below a child.
fn values() -> CompleteEnv<'static, fn() -> Command> {
    let app: fn() -> Command = || {
        let app = Command::new("app").disable_help_flag(true);
        app.subcommand(Command::new("switch").arg(Arg::new("topic")))
    };
    CompleteEnv::with_factory(app).values_from(&["switch"], "topic", &["git", "branch"])
}

/// A completion of a command with completers of an option, a value and a path, and with a command.
fn completers() -> CompleteEnv<'static, fn() -> Command> {
    let app: fn() -> Command = || {
        let level = Arg::new("level").long("level").short('l').value_delimiter(',');
        let branch = Arg::new("branch").long("branch").short('b');
        let path = Arg::new("path").long("path");
        let set = Command::new("set").args([level, branch, path, Arg::new("word")]);
        Command::new("app").disable_help_flag(true).subcommand(set)
    };
    let levels = || {
        // A program that a completer starts must not answer the request.
        assert!(env::var_os("COMPLETE").is_none());
        let low = CompletionCandidate::new("low").help(Some("Saves\npower".into()));
        let secret = CompletionCandidate::new("hush").hide(true);
        // A candidate without a display order comes before those with one.
        let first = CompletionCandidate::new("best").display_order(Some(0)).id(Some("b".into()));
        let again = CompletionCandidate::new("again").id(Some("b".into()));
        let unfit = CompletionCandidate::new("two\nlines");
        vec![secret, first, again, unfit, low, "high".into()]
    };
    // The typed text is repeated, so that the test sees it.
    let repeat = |current: &OsStr| {
        let mut twice = current.to_owned();
        twice.push(current);
        vec![CompletionCandidate::new(twice)]
    };
    CompleteEnv::with_factory(app)
        .completer_for(&["set"], "level", ArgValueCandidates::new(levels))
        .values_from(&["set"], "branch", &["git", "branch"])
        .completer_for(&["set"], "word", ArgValueCompleter::new(repeat))
        .completer_for(&["set"], "path", ArgValueCompleter::new(PathCompleter::dir()))
}

/// A completion of a command whose completers offer the number of the value.
fn numbers() -> CompleteEnv<'static, fn() -> Command> {
    struct Numbers;
    impl ValueCompleter for Numbers {
        fn complete(&self, _: &OsStr) -> Vec<CompletionCandidate> {
            unreachable!("the number is known")
        }
        fn complete_at(&self, arg_index: usize, current: &OsStr) -> Vec<CompletionCandidate> {
            let number = CompletionCandidate::new(current).help(Some(arg_index.to_string().into()));
            vec![number.add_prefix(if current.is_empty() { "v" } else { "" })]
        }
    }
    let app: fn() -> Command = || {
        let pair = Arg::new("pair").long("pair").short('p').num_args(1..=3).global(true);
        let all = Arg::new("all").long("all").num_args(0).short('a');
        let hyphens = Arg::new("raw").long("raw").num_args(2..=4).allow_hyphen_values(true);
        let files = Arg::new("files").num_args(0..).value_delimiter(',');
        let add = Command::new("add").args([all, hyphens, files]);
        Command::new("app").disable_help_flag(true).arg(pair).subcommand(add)
    };
    CompleteEnv::with_factory(app)
        .completer_for(&[], "pair", ArgValueCompleter::new(Numbers))
        .completer_for(&["add"], "raw", ArgValueCompleter::new(Numbers))
        .completer_for(&["add"], "files", ArgValueCompleter::new(Numbers))
}

/// A completion of commands that allow external subcommands.
fn external() -> CompleteEnv<'static, fn() -> Command> {
    let app: fn() -> Command = || {
        let tool = Command::new("tool").allow_external_subcommands(true).disable_help_flag(true);
        let app = Command::new("app").allow_external_subcommands(true).disable_help_flag(true);
        app.disable_help_subcommand(true).subcommands([tool, Command::new("turn")])
    };
    let plugins = || {
        let first = CompletionCandidate::new("top").help(Some("First\nline".into()));
        vec!["turn".into(), first, CompletionCandidate::new("tab").hide(true), "x".into()]
    };
    CompleteEnv::with_factory(app)
        .subcommand_candidates_for(&[], SubcommandCandidates::new(plugins))
        .subcommand_candidates_for(&["tool"], SubcommandCandidates::new(|| vec!["hit".into()]))
}

/// A shell of the program's own.
struct Own;

impl EnvCompleter for Own {
    fn name(&self) -> &'static str {
        "own"
    }
    fn is(&self, name: &str) -> bool {
        name == "own" || name == "owner"
    }
    fn write_registration(
        &self,
        var: &str,
        name: &str,
        bin: &str,
        completer: &str,
        buf: &mut dyn Write,
    ) -> io::Result<()> {
        writeln!(buf, "{var} {name} {bin} {completer}")
    }
    fn write_complete(
        &self,
        cmd: &mut Command,
        args: Vec<OsString>,
        current_dir: Option<&Path>,
        buf: &mut dyn Write,
    ) -> io::Result<()> {
        let index = args.len() - 1;
        for candidate in complete(cmd, args, index, current_dir)? {
            write!(buf, "<{}>", candidate.get_value().to_string_lossy())?;
        }
        Ok(())
    }
}

/// Runs this program with these words, and with variables that request a completion of a tree.
fn run(tree: &str, variables: &[(&str, &str)], words: &[&str]) -> Output {
    run_with(tree, variables, words, b"")
}

/// Does the same with bytes on stdin.
fn run_with(tree: &str, variables: &[(&str, &str)], words: &[&str], input: &[u8]) -> Output {
    let mut command = process::Command::new(env::current_exe().unwrap());
    command.env("APP", tree).envs(variables.iter().copied()).args(words);
    command.stdin(Stdio::piped()).stdout(Stdio::piped()).stderr(Stdio::piped());
    let mut child = command.spawn().unwrap();
    // A program that reads nothing may have ended already.
    let _ = child.stdin.take().unwrap().write_all(input);
    child.wait_with_output().unwrap()
}

/// Returns the output of a request that must end with status 0 and without a message.
fn text(tree: &str, variables: &[(&str, &str)], words: &[&str]) -> String {
    let Output { status, stdout, stderr } = run(tree, variables, words);
    assert!(status.success() && stderr.is_empty(), "{status} {}", String::from_utf8_lossy(&stderr));
    String::from_utf8(stdout).unwrap()
}

fn replies() {
    let help = "Print this message or the help of the given subcommand(s)";
    let fish = text("app", &[("COMPLETE", "fish")], &["--", "app", ""]);
    assert_eq!(fish, format!("t\nhelp\t{help}\n--help\tPrint help\n"));
    let first = ("_CLAP_COMPLETE_INDEX", "1");
    let separator = ("_CLAP_IFS", "\n");
    let zsh = text("app", &[("COMPLETE", "zsh"), first, separator], &["--", "app"]);
    assert_eq!(zsh, format!("t\nhelp:{help}\n--help:Print help"));
    let elvish = text("app", &[("COMPLETE", "elvish"), first, separator], &["--", "app", ""]);
    assert_eq!(elvish, "t\nhelp\n--help");
}

fn a_registration_runs_the_program() {
    let fish = text("app", &[("COMPLETE", "fish")], &[]);
    let program = env::current_exe().unwrap();
    assert!(fish.contains("COMPLETE=fish"), "{fish}");
    assert!(fish.contains(program.to_str().unwrap()), "{fish}");
    assert!(fish.contains("--command app"), "{fish}");
    let other = text("other names", &[("COMPLETE", "fish")], &[]);
    assert!(other.contains("--command other") && other.contains("/opt/it"), "{other}");
    let reply = text("other names", &[("COMPLETE", "fish")], &["--", "other", "t"]);
    assert_eq!(reply, "t\n");
}

fn refusals() {
    let unknown = run("app", &[("COMPLETE", "tcsh")], &["--", "app", ""]);
    let message = "error: unknown shell `tcsh`, expected one of `bash`, `elvish`, `fish`, \
                   `powershell`, `zsh`";
    assert_eq!(unknown.status.code(), Some(2));
    assert_eq!(str::from_utf8(&unknown.stderr).unwrap().trim_end(), message);
    assert!(unknown.stdout.is_empty());
    let bash = [("COMPLETE", "bash"), ("_CLAP_COMPLETE_INDEX", "1")];
    let outside = run("app", &bash, &["--", "app"]);
    assert_eq!(outside.status.code(), Some(2));
    let message = str::from_utf8(&outside.stderr).unwrap();
    assert_eq!(message.trim_end(), "error: no completion generated");
}

fn nothing_is_requested() {
    for variables in [&[][..], &[("COMPLETE", "")], &[("COMPLETE", "0")]] {
        assert_eq!(text("app", variables, &["--", "app", ""]), "the program itself\n");
    }
}

fn paths_of_a_folder() {
    let folder = env::temp_dir().join(format!("lagvtsune-requests-{}", process::id()));
    for name in [".git", "src"] {
        fs::create_dir_all(folder.join(name)).unwrap();
    }
    fs::write(folder.join("a.txt"), "").unwrap();
    let typed = |word: PathBuf| {
        let reply = text("paths", &[("COMPLETE", "fish")], &["--", "app", word.to_str().unwrap()]);
        reply
            .lines()
            .map(|line| PathBuf::from(line.split('\t').next().unwrap()))
            .collect::<Vec<_>>()
    };
    assert_eq!(typed(folder.join("")), [folder.join("a.txt"), folder.join("src/")]);
    assert_eq!(typed(folder.join(".g")), [folder.join(".git/")]);
    assert_eq!(typed(folder.join("nothing/x")), [] as [&Path; 0]);
    let inside = process::Command::new(env::current_exe().unwrap())
        .current_dir(&folder)
        .envs([("APP", "paths"), ("COMPLETE", "fish")])
        .args(["--", "app", "a"])
        .output()
        .unwrap();
    assert_eq!(str::from_utf8(&inside.stdout).unwrap().trim_end(), "a.txt");
    fs::remove_dir_all(&folder).unwrap();
}

fn values_of_a_command() {
    let words = ["--", "app", "switch", ""];
    let request = |tree, mode, commands, input: &[u8]| {
        let fish = ("COMPLETE", "fish");
        let variables = [fish, ("_COMPLGEN_VALUES", mode), ("COMPLGEN_COMMANDS", commands)];
        let Output { status, stdout, stderr } = run_with(tree, &variables, &words, input);
        assert!(stderr.is_empty(), "{}", String::from_utf8_lossy(&stderr));
        (status.code().unwrap(), String::from_utf8(stdout).unwrap())
    };
    let lines = "main\tthe branch\nnext\n";
    let nothing = (0, String::new());
    assert_eq!(request("values", "ask", "", b""), (3, "git\x0bbranch\x0b".to_owned()));
    assert_eq!(request("values", "stdin", "", lines.as_bytes()), (0, lines.to_owned()));
    for tree in ["values", "no status"] {
        assert_eq!(request(tree, "ask", "0", b""), nothing);
        assert_eq!(request(tree, "stdin", "0", lines.as_bytes()), nothing);
    }
    assert_eq!(request("no status", "ask", "1", b""), nothing);
    // Only whole lines within 16 MiB count.
    let mut long = lines.as_bytes().to_vec();
    long.resize((16 << 20) + 1, b'x');
    assert_eq!(request("values", "stdin", "", &long), (0, lines.to_owned()));
    let wrong = run("no argument", &[("COMPLETE", "fish")], &words);
    assert_eq!(wrong.status.code(), Some(2));
    let message = str::from_utf8(&wrong.stderr).unwrap();
    assert!(message.contains("no argument \"level\" at [\"add\", \"s\"]"), "{message}");
}

fn values_of_completers() {
    let offered_if = |mode: &str, commands: &str, words: &[&str]| {
        let variables =
            [("COMPLETE", "fish"), ("_COMPLGEN_VALUES", mode), ("COMPLGEN_COMMANDS", commands)];
        let words = [&["--", "app", "set"], words].concat();
        let Output { status, stdout, stderr } = run("completers", &variables, &words);
        assert!(stderr.is_empty(), "{}", String::from_utf8_lossy(&stderr));
        (status.code().unwrap(), String::from_utf8(stdout).unwrap())
    };
    // The words that are typed, and what is offered for the last one.
    let cases: [(&[&str], &str); 10] = [
        (&["--level", ""], "low\tSaves\nhigh\nbest\n"),
        (&["--level", "l"], "low\tSaves\n"),
        (&["--level", "hu"], "hush\n"),
        (&["--level=h"], "--level=high\n"),
        (&["-lh"], "-lhigh\n"),
        (&["--level", "low,h"], "low,high\n"),
        (&["--level", "x"], ""),
        (&["ab"], "abab\n"),
        // A value that begins with a hyphen is not offered.
        (&["--", "-a"], ""),
        (&["--path", "/usr/bi"], "/usr/bin/\n"),
    ];
    for (words, expected) in cases {
        // No shell is needed, so completers do not depend on what it can do.
        for (mode, commands) in [("", ""), ("ask", ""), ("ask", "0"), ("other", "1")] {
            let offered = offered_if(mode, commands, words);
            assert_eq!(offered, (0, expected.to_owned()), "{words:?} {mode} {commands}");
        }
    }
    let branch = &["--branch", ""];
    assert_eq!(offered_if("ask", "", branch), (3, "git\x0bbranch\x0b".to_owned()));
    for (mode, commands) in [("", ""), ("ask", "0"), ("other", "")] {
        assert_eq!(offered_if(mode, commands, branch), (0, String::new()));
    }
    // A registration calls no completer.
    let fish = text("completers", &[("COMPLETE", "fish")], &[]);
    assert!(fish.contains("--command app") && !fish.contains("lagvtsune-completer"), "{fish}");
}

fn a_completer_gets_the_number_of_the_value() {
    let fish = [("COMPLETE", "fish"), ("_COMPLGEN_VALUES", "ask")];
    let cases: [(&[&str], &str); 15] = [
        (&["--pair", ""], "v\t0\n"),
        (&["--pair", "x", ""], "v\t1\n"),
        (&["--pair", "x", "y", "z"], "z\t2\n"),
        (&["--pair", "x", "--pair", "z"], "z\t0\n"),
        (&["--pair=z"], "--pair=z\t0\n"),
        (&["-pz"], "-pz\t0\n"),
        (&["-p", "x", "z"], "z\t1\n"),
        (&["add", "-ap", "x", "z"], "z\t1\n"),
        (&["add", "z"], "z\t0\n"),
        (&["add", "a", "b", "z"], "z\t2\n"),
        (&["add", "a", "b,z"], "b,z\t1\n"),
        (&["add", "a", "--all", "z"], "z\t0\n"),
        (&["add", "--", "a", "-z", "z"], "z\t2\n"),
        (&["add", "--raw", "--raw", "z"], "z\t1\n"),
        (&["--pair", "x", "add", "--pair", "z"], "z\t0\n"),
    ];
    for (words, expected) in cases {
        let words = [&["--", "app"], words].concat();
        let found = text("numbers", &fish, &words);
        let of_the_completer =
            found.lines().find(|line| line.contains('\t') && !line.contains("\tP"));
        assert_eq!(
            of_the_completer.map(|line| format!("{line}\n")).as_deref(),
            Some(expected),
            "{words:?}"
        );
    }
}

fn completers_of_the_original_s_registrations() {
    let line = |level: &str| {
        vec!["--".to_owned(), "app".into(), "set".into(), "--level".into(), level.into()]
    };
    let request = |shell: &str, level: &str| {
        let variables = [("COMPLETE", shell), ("_CLAP_COMPLETE_INDEX", "3"), ("_CLAP_IFS", "|")];
        let line = line(level);
        let words: Vec<&str> = line.iter().map(String::as_str).collect();
        text("builtins", &variables, &words)
    };
    assert_eq!(request("bash", ""), "low|high|best");
    assert_eq!(request("elvish", "l"), "low");
    assert_eq!(request("zsh", ""), "low:Saves|high|best");
    assert_eq!(request("fish", ""), "low\tSaves\nhigh\nbest\n");
    assert_eq!(request("/usr/bin/pwsh", "hu"), "hush\n");
    // The same request is answered so with the safe shells.
    let variables = [("COMPLETE", "bash"), ("_CLAP_COMPLETE_INDEX", "3"), ("_CLAP_IFS", "|")];
    assert_eq!(
        text("completers", &variables, &["--", "app", "set", "--level", ""]),
        "low|high|best"
    );
}

fn external_subcommands() {
    let fish = [("COMPLETE", "fish"), ("_COMPLGEN_VALUES", "ask")];
    let found = |words: &[&str]| text("external", &fish, &[&["--", "app"], words].concat());
    assert_eq!(found(&["t"]), "tool\nturn\ntop\tFirst\n");
    assert_eq!(found(&["ta"]), "tab\n");
    assert_eq!(found(&["tool", ""]), "hit\n");
    assert_eq!(found(&["x", "to"]), "tool\ntop\tFirst\n");
    assert_eq!(found(&["turn", "h"]), "");
    let bash = [("COMPLETE", "bash"), ("_CLAP_COMPLETE_INDEX", "1"), ("_CLAP_IFS", "|")];
    assert_eq!(text("external", &bash, &["--", "app", "to"]), "tool|top");
}

fn a_shell_of_the_program_s_own() {
    let request = |shell, words: &[&str]| text("own shell", &[("COMPLETE", shell)], words);
    let program = env::current_exe().unwrap();
    assert_eq!(request("own", &[]), format!("COMPLETE app app {}\n", program.display()));
    assert_eq!(request("/bin/owner", &["--", "app", "t"]), "<t>");
    let unknown = run("own shell", &[("COMPLETE", "bash")], &[]);
    let message = "error: unknown shell `bash`, expected one of `own`";
    assert_eq!(str::from_utf8(&unknown.stderr).unwrap().trim_end(), message);
}

fn another_variable() {
    for shell in ["bash", "elvish", "fish", "powershell", "zsh"] {
        let usual = text("app", &[("COMPLETE", shell)], &[]);
        let other = text("variable", &[("OTHER", shell)], &[]);
        let places = if shell == "powershell" { 3 } else { 1 };
        assert_eq!(usual.matches("COMPLETE").count(), places, "{usual}");
        assert_eq!(other, usual.replace("COMPLETE", "OTHER"));
    }
    assert_eq!(text("variable", &[("COMPLETE", "fish")], &[]), "the program itself\n");
    assert_eq!(text("variable", &[("OTHER", "fish")], &["--", "app", "t"]), "t\n");
}

/// A registration of the original calls the original's functions and sets its variables.
fn the_original_s_registrations() {
    for (shell, part) in [
        ("bash", "_CLAP_COMPLETE_COMP_TYPE=\"$_CLAP_COMPLETE_COMP_TYPE\" \\\n"),
        ("elvish", "_CLAP_COMPLETE_INDEX=(to-string $index) COMPLETE=\"elvish\" "),
        ("fish", "complete --keep-order --exclusive --command app --arguments \"(COMPLETE=fish "),
        ("powershell", "\nRegister-ArgumentCompleter -Native -CommandName app -ScriptBlock {\n"),
        ("zsh", "#compdef app\nfunction _clap_dynamic_completer_app() {\n"),
    ] {
        let written = text("builtins", &[("COMPLETE", shell)], &[]);
        assert!(written.contains(part), "{written}");
    }
}
