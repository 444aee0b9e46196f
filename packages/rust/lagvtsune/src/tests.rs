//! Tests the library's functions with arbitrary bytes, and with allocations that are refused.

use crate::answering::cut_after_line;
use crate::calls::{self, slices};
use crate::folder::likely_folder;
use crate::memory::in_chunks;
use crate::native::{self, as_room, Names, Request, Returned};
use crate::refusing::refused;
use crate::tree_file::{live_file, script_file, tree_file, Line, ValuesFrom};
use crate::Shell;
use clap::{value_parser, Arg, ArgAction, ArgGroup, Command, ValueEnum, ValueHint};
use std::collections::hash_map::DefaultHasher;
use std::hash::{Hash, Hasher};
use std::path::PathBuf;
use std::sync::Barrier;
use std::{str, thread};

const SHELLS: [&str; 6] = ["bash", "elvish", "fish", "nushell", "powershell", "zsh"];

const TREE: &str = r#"{"name": "app", "version": "1", "args": [
    {"id": "color", "long": "color", "short": "c", "help": "The \"colour\"",
     "possible_values": [{"name": "auto"}, {"name": "never", "help": "None"}]}],
    "subcommands": [{"name": "run", "visible_aliases": ["r"], "about": "Run it",
     "args": [{"id": "file", "long": "file", "value_hint": "AnyPath"}]}]}"#;

/// A tree with an argument whose values come from a command, and one whose values are in a file.
const ASKING: &str = r#"{"name": "app", "disable_help_flag": true, "args": [
    {"id": "branch", "long": "branch", "values_from": ["git", "branch"]},
    {"id": "user", "long": "user", "values_file": "/etc/passwd"}]}"#;

#[test]
fn a_tree_file_has_what_only_a_built_command_says() {
    let flag = |name| Arg::new(name).long(name).action(ArgAction::SetTrue);
    let files = Arg::new("files").num_args(0..).conflicts_with("out");
    let command = Command::new("app")
        .version("1")
        .propagate_version(true)
        .disable_help_flag(true)
        .arg(Arg::new("out").long("out").value_parser(value_parser!(PathBuf)).global(true))
        .args([flag("plain"), flag("color").group("style")])
        .arg(flag("quiet").conflicts_with("style").conflicts_with("version"))
        .group(ArgGroup::new("style").arg("plain"))
        .subcommand(Command::new("run").arg(files));
    let text = tree_file(&command);
    for part in [
        r#"{"name": "app", "version": "1", "disable_help_flag": true,"#,
        r#""long": "out", "action": "Set", "value_hint": "AnyPath", "global": true"#,
        "\"conflicts_with\": [\"plain\",\n\"color\",\n\"version\"]",
        r#"{"name": "run", "version": "1", "disable_help_flag": true,"#,
        r#""action": "Append", "num_args": [0, null], "conflicts_with": ["out"]"#,
    ] {
        assert!(text.contains(part), "{part} is not in {text}");
    }
    for added in [r#""id": "version""#, r#""name": "help""#] {
        assert!(!text.contains(added), "{added} is in {text}");
    }
    assert_eq!(text, tree_file(&command));
}

/// Returns the part of the tree file of a command that a line needs.
fn live(command: &Command, sources: &[ValuesFrom<'_>], words: &[&str]) -> String {
    let line = Line { words, path: &[], external: &[], has_keys: false };
    live_file(&mut command.clone(), sources, &line)
}

#[test]
fn a_live_file_has_the_words_of_commands() {
    let level = Arg::new("level").long("level").value_parser(["fast", "best"]);
    let add = Command::new("add").visible_alias("a").arg(level.clone());
    let command = Command::new("app").arg(level).subcommands([add, Command::new("list")]);
    let texts = |texts: &[&str]| texts.iter().map(|text| String::from(*text)).collect();
    let (path, words): (Vec<_>, Vec<_>) = (texts(&["add"]), texts(&["print \"it\"", ""]));
    let source = ValuesFrom { path: &path, id: "level", words: &words, is_checked: true };
    // Each request has the argument, whatever its words are, because the library checks the command.
    for line in [&[][..], &["list"], &["add"], &["x"]] {
        let text = live(&command, &[source], line);
        let (root, below) = text.split_once("\"subcommands\"").unwrap();
        assert!(root.contains(r#""possible_values""#) && !root.contains("values_from"), "{text}");
        assert!(below.contains("\"values_from\": [\"print \\\"it\\\"\",\n\"\"]"), "{text}");
        assert!(!below.contains("possible_values"), "{text}");
    }
    let unchecked = ValuesFrom { is_checked: false, ..source };
    assert!(!live(&command, &[unchecked], &["list"]).contains("values_from"));
    assert!(live(&command, &[unchecked], &["a"]).contains("values_from"));
    // An alias or another id leads to no argument.
    for (path, id) in
        [(texts(&["a"]), "level"), (texts(&["add"]), "speed"), (texts(&["add", "add"]), "level")]
    {
        let other: Vec<String> = path;
        let source = ValuesFrom { path: &other, id, ..unchecked };
        assert_eq!(live(&command, &[source], &["add"]), live(&command, &[], &["add"]));
    }
}

#[test]
fn an_output_that_is_too_long_is_cut_after_a_line() {
    let cases: [(&[u8], &[u8]); 6] = [
        (b"", b""),
        (b"a\nbcd", b"a\nbcd"),
        (b"a\nbc\nd", b"a\nbc\n"),
        (b"a\nb\ncd", b"a\nb\n"),
        (b"abcdefgh", b""),
        (b"abcde\n", b""),
    ];
    for (bytes, expected) in cases {
        let mut cut = bytes.to_vec();
        cut_after_line(&mut cut, 5);
        assert_eq!(cut, expected, "{bytes:?}");
    }
}

/// Makes a call with this much room. Returns its status, its length, and the content of the room.
fn call(shell: &str, bin: &[u8], tree: &[u8], size: usize) -> (u8, usize, Vec<u8>) {
    let mut room = vec![b'.'; size];
    let Returned { status, length } =
        native::script_in(shell.as_bytes(), bin, tree, as_room(&mut room));
    (status, length, room)
}

/// Makes a call with enough room. Returns its status and its text.
fn text_of(shell: &str, bin: &[u8], tree: &[u8]) -> (u8, String) {
    let (status, length, room) = call(shell, bin, tree, 1 << 16);
    (status, String::from_utf8(room[..length].to_vec()).unwrap())
}

#[test]
fn the_room_holds_the_text_if_it_fits() {
    let tree = br#"{"name": "app"}"#;
    let script = b"complete -c app -s h -l help -d 'Print help'\n";
    let (status, length, room) = call("fish", b"app", tree, 50);
    assert_eq!((status, length), (0, script.len()));
    assert_eq!(room, [&script[..], b"....."].concat());
    assert_eq!(call("fish", b"app", tree, script.len()), (0, script.len(), script.to_vec()));
    let small = script.len() - 1;
    assert_eq!(call("fish", b"app", tree, small), (0, script.len(), vec![b'.'; small]));
}

#[test]
fn each_status_has_its_text() {
    assert_eq!(text_of("tcsh", b"app", b"{}"), (1, "invalid variant: tcsh\n".to_owned()));
    assert_eq!(text_of("fish", b"\xff", b"{}"), (2, String::new()));
}

/// Makes a call that returns this status and text once for each of its allocations, which is
/// refused, and again after each. Returns the number of allocations.
fn refuse_each(end: u8, text: &[u8], call: impl Fn(&mut [u8]) -> Returned) -> usize {
    let mut room = vec![0; 1 << 16];
    for number in 1.. {
        let (Returned { status, length }, left) = refused(number, || call(&mut room));
        assert_eq!(left, 0, "blocks that were not freed where allocation {number} is refused");
        if status == end {
            assert_eq!(&room[..length], text);
            return number - 1;
        }
        assert_eq!((status, &room[..length]), (1, &b"out of memory\n"[..]));
        let Returned { status, length } = call(&mut room);
        assert_eq!((status, &room[..length]), (end, text));
    }
    unreachable!("each call has so many allocations")
}

/// Does the same with each block of the library, and with its chunks, as in a program.
fn refuse_each_and_chunks(end: u8, text: &[u8], call: impl Fn(&mut [u8]) -> Returned) {
    let blocks = refuse_each(end, text, &call);
    let chunks = in_chunks(|| refuse_each(end, text, &call));
    assert!(blocks > 20 && chunks > 0 && chunks < blocks, "{blocks} blocks, {chunks} chunks");
}

#[test]
fn a_refused_allocation_of_a_script_is_an_error_that_loses_nothing() {
    for shell in SHELLS {
        let (status, whole) = text_of(shell, b"app", TREE.as_bytes());
        assert_eq!(status, 0, "{whole}");
        refuse_each_and_chunks(0, whole.as_bytes(), |room| {
            native::script_in(shell.as_bytes(), b"app", TREE.as_bytes(), as_room(room))
        });
    }
}

/// The variables of a request of bash.
const REQUEST: [&str; 8] =
    ["COMPLETE", "bash", "_CLAP_COMPLETE_INDEX", "3", "_CLAP_IFS", ",", "PWD", "/w"];

/// The words of a request for a path.
const WORDS: [&str; 6] = ["app", "--", "app", "run", "--file", ""];

/// A request of bash for the paths in a directory, with the names in it if they are known.
fn request(names: Option<&'static [&'static str]>) -> Request<'static> {
    Request {
        tree: TREE.as_bytes(),
        words: slices(&WORDS),
        variables: slices(&REQUEST),
        output: b"",
        listed: if names.is_some() { b"/w/" } else { b"" },
        names: slices(names.unwrap_or(&[])),
        folders: slices(&["/w/", "/w/src"]),
        files: slices(&["/w/a.txt"]),
    }
}

#[test]
fn a_reply_wants_the_names_of_a_folder_and_then_has_its_paths() {
    let mut room = vec![b'.'; 10];
    let Returned { status, length } = native::live_in(&request(None), as_room(&mut room));
    assert_eq!((status, &room[..length]), (4, &b"/w/"[..]));
    let known = request(Some(&["src", "a.txt"]));
    let Returned { status, length } = native::live_in(&known, as_room(&mut room));
    assert_eq!((status, length), (0, ".,a.txt,src/".len()));
    let mut room = vec![0; length];
    assert_eq!(native::live_in(&known, as_room(&mut room)).status, 0);
    assert_eq!(room, b".,a.txt,src/");
}

#[test]
fn the_likely_folder_is_the_wanted_one() {
    let variables = ["COMPLETE", "fish", "HOME", "/home/me", "PWD", "/w"];
    for word in ["src/", "src/m", "/", "/x", "/x/y", "~/", "~/s/t", "./", "../", "a b/../c", "s//t"]
    {
        let words = ["app", "--", "app", "run", "--file", word];
        let made =
            Request { words: slices(&words), variables: slices(&variables), ..request(None) };
        let mut room = vec![0; 100];
        let Returned { status, length } = native::live_in(&made, as_room(&mut room));
        let wanted = str::from_utf8(&room[..length]).unwrap();
        assert_eq!(status, 4, "{word}");
        let likely = |word: &str| likely_folder(word, Some("/home/me"), Some("/w"));
        assert_eq!(likely(word).as_deref(), Some(wanted), "{word}");
        assert_eq!(likely(&format!("--file={word}")).as_deref(), Some(wanted), "{word}");
    }
}

#[test]
fn a_word_without_a_slash_has_no_likely_folder() {
    for word in ["", "src", "~", "..", "--file=a"] {
        assert_eq!(likely_folder(word, Some("/home/me"), Some("/w")), None);
    }
    assert_eq!(likely_folder("~/", None, Some("/w")), None);
    assert_eq!(likely_folder("src/", Some("/home/me"), None), None);
}

#[test]
fn a_refused_allocation_of_a_reply_is_an_error_that_loses_nothing() {
    let known = request(Some(&["src", "a.txt"]));
    refuse_each_and_chunks(0, b".,a.txt,src/", |room| native::live_in(&known, as_room(room)));
}

/// A request of fish for a value of this option, in this mode, with the output of a command.
fn asking<'r>(words: &'r [&str], variables: &'r [&str], output: &'r [u8]) -> Request<'r> {
    Request {
        tree: ASKING.as_bytes(),
        words: slices(words),
        variables: slices(variables),
        output,
        ..request(Some(&[]))
    }
}

/// Returns the status and the text of such a request.
fn asked(option: &str, mode: &str, commands: &str, output: &[u8]) -> (u8, String) {
    let words = ["app", "--", "app", option, ""];
    let variables = ["COMPLETE", "fish", "_COMPLGEN_VALUES", mode, "COMPLGEN_COMMANDS", commands];
    let mut room = vec![0; 1 << 10];
    let Returned { status, length } =
        native::live_in(&asking(&words, &variables, output), as_room(&mut room));
    (status, String::from_utf8(room[..length].to_vec()).unwrap())
}

#[test]
fn a_command_is_asked_for_and_its_lines_are_offered() {
    let output = b"main\tthe branch\nnext\n";
    let nothing = (0, String::new());
    assert_eq!(asked("--branch", "ask", "", b""), (5, "git\x0bbranch\x0b".to_owned()));
    assert_eq!(asked("--branch", "ask", "1", output), (5, "git\x0bbranch\x0b".to_owned()));
    assert_eq!(asked("--branch", "stdin", "", output).1, "main\tthe branch\nnext\n");
    assert_eq!(asked("--branch", "stdin", "", b""), nothing);
    assert_eq!(asked("--branch", "other", "", output), nothing);
    for mode in ["ask", "stdin"] {
        assert_eq!(asked("--branch", mode, "0", output), nothing, "{mode}");
        assert_eq!(asked("--user", mode, "", output), nothing, "{mode}");
    }
}

#[test]
fn a_refused_allocation_of_words_and_lines_is_an_error_that_loses_nothing() {
    let words = ["app", "--", "app", "--branch", ""];
    for (mode, end, text) in [("ask", 5, &b"git\x0bbranch\x0b"[..]), ("stdin", 0, b"main\n")] {
        let variables = ["COMPLETE", "fish", "_COMPLGEN_VALUES", mode];
        let made = asking(&words, &variables, b"main\n");
        refuse_each_and_chunks(end, text, |room| native::live_in(&made, as_room(room)));
    }
}

#[test]
fn the_values_for_which_a_word_is_asked_are_told() {
    let cases: [(&[&str], &[u8]); 5] = [
        (&["app", "--color", "a"], b"color\x000\0a\0"),
        (&["app", "-ca"], b"color\x000\0a\0"),
        (&["app", "run", "--file=x"], b"file\x000\0x\0"),
        (&["app", "run", ""], b""),
        (&["app", "--", "run", "--file", "x"], b""),
    ];
    for (words, text) in cases {
        let told = native::asked(TREE.as_bytes(), &slices(words), 0);
        assert_eq!(told, (0, text.to_vec()), "{words:?}");
    }
    let (status, text) = native::asked(TREE.as_bytes(), &slices(&["app"]), 0);
    assert_eq!((status, &text[..]), (1, &b"no completion generated\n"[..]));
    let not_utf8 = [&b"app"[..], b"\xff"];
    assert_eq!(native::asked(TREE.as_bytes(), &slices(&not_utf8), 0), (2, Vec::new()));
}

#[test]
fn a_refused_allocation_of_values_is_an_error_that_loses_nothing() {
    let words = slices(&["app", "--color", "a"]);
    refuse_each_and_chunks(0, b"color\x000\0a\0", |room| {
        native::asked_in(TREE.as_bytes(), &words, as_room(room))
    });
}

/// Requests for a registration, for words with these beginnings, and for a path.
const LINES: [&[&str]; 5] = [
    &["app"],
    &["app", "--", "app", ""],
    &["app", "--", "app", "--c"],
    &["app", "--", "app", "--color", ""],
    &WORDS,
];

/// The shells that send requests.
const LIVE_SHELLS: [&str; 5] = ["bash", "elvish", "fish", "powershell", "zsh"];

/// Returns the status and the text of the answer to a request of a shell with these words.
fn answer(shell: &str, words: &[&str]) -> (u8, Vec<u8>) {
    answer_of(TREE, shell, words)
}

/// The same with this tree file.
fn answer_of(tree: &str, shell: &str, words: &[&str]) -> (u8, Vec<u8>) {
    let index = words.len().saturating_sub(3).to_string();
    let variables =
        ["COMPLETE", shell, "_CLAP_COMPLETE_INDEX", &index, "_CLAP_IFS", "\n", "PWD", "/w"];
    let made = Request {
        words: slices(words),
        variables: slices(&variables),
        tree: tree.as_bytes(),
        ..request(Some(&["src", "a.txt"]))
    };
    let mut room = vec![0; 1 << 16];
    let Returned { status, length } = native::live_in(&made, as_room(&mut room));
    (status, room[..length].to_vec())
}

/// Returns the answers to all requests, which are made from the one with this number on.
fn answers(first: usize) -> Vec<(u8, Vec<u8>)> {
    let requests = LIVE_SHELLS.iter().flat_map(|shell| LINES.iter().map(move |line| (shell, line)));
    let mut requests: Vec<_> = requests.collect();
    requests.rotate_left(first);
    requests.into_iter().map(|(shell, line)| answer(shell, line)).collect()
}

#[test]
fn requests_at_once_are_answered_as_one_by_one() {
    const THREADS: usize = 8;
    const ROUNDS: usize = 4;
    let alone = answers(0);
    assert!(alone.iter().all(|(status, text)| *status == 0 && !text.is_empty()), "{alone:?}");
    let ready = Barrier::new(THREADS);
    // Each thread begins with another request, and does not wait for the others again. Half of them use
    // chunks.
    let rounds = |first: usize| {
        let answers = || [(); ROUNDS].map(|()| answers(first));
        ready.wait();
        if first % 2 == 0 {
            in_chunks(answers)
        } else {
            answers()
        }
    };
    thread::scope(|scope| {
        let rounds = &rounds;
        let starts: [usize; THREADS] = std::array::from_fn(|thread| 3 * thread);
        let calls = starts.map(|first| (first, scope.spawn(move || rounds(first))));
        for (first, call) in calls {
            let mut expected = alone.clone();
            expected.rotate_left(first);
            let made = call.join().unwrap();
            assert!(made.iter().all(|answers| *answers == expected), "from request {first}");
        }
    });
}

/// The names in a registration of these tests.
fn names() -> Names<'static> {
    Names::of("ASK_ME", "my-app", "my app", "/opt/it's")
}

/// What the registrations of the safe set and of the original's have at these names, by
/// `docs/TEXTS.md`.
const REGISTERED: [(bool, &str, &str); 11] = [
    (
        true,
        "bash",
        "complete -o nospace -o bashdefault -F _complgen_my_app -- 'my app'\n_complgen_my_app() {\n",
    ),
    (true, "elvish", " e:env ASK_ME=elvish _COMPLGEN_VALUES=$values '/opt/it''s' -- $@words\n"),
    (true, "fish", " --arguments \"(__complgen_my_app)\" --command 'my app'\n"),
    (true, "powershell", "-CommandName 'my app' -ScriptBlock {\n"),
    (true, "pwsh", "| & '/opt/it''s' -- @words 2>$null }\n"),
    (true, "zsh", "compdef _complgen_my_app 'my app'\n_complgen_my_app() {\n"),
    (false, "bash", " ASK_ME=\"bash\" \\\n        \"/opt/it's\" -- \"${words[@]}\" \\\n"),
    (false, "elvish", " ASK_ME=\"elvish\" '/opt/it'\\''s' -- $@words) | to-lines\n"),
    (false, "fish", " --command 'my app' --arguments \"(ASK_ME=fish '/opt/it\\\\'s' -- "),
    (false, "powershell_ise", "$env:ASK_ME = \"powershell\";\n"),
    (false, "zsh", "#compdef 'my app'\nfunction _clap_dynamic_completer_my_app() {\n"),
];

#[test]
fn a_registration_has_its_names() {
    for (safe, shell, part) in REGISTERED {
        let text = String::from_utf8(calls::registration(safe, shell, &names()).unwrap()).unwrap();
        assert!(text.contains(part), "{safe} {shell} {text}");
        assert_eq!(text.contains("_COMPLGEN_VALUES"), safe, "{shell} {text}");
    }
}

#[test]
fn a_request_and_a_call_make_the_same_registration() {
    for shell in LIVE_SHELLS {
        let names = Names::of("COMPLETE", "app", "app", "/bin/app");
        let made = calls::registration(true, shell, &names).unwrap();
        assert_eq!((0, made), answer(shell, &["/bin/app"]));
    }
}

#[test]
fn a_registration_needs_a_shell_and_texts() {
    let expected = "expected one of `bash`, `elvish`, `fish`, `powershell`, `zsh`";
    for safe in [true, false] {
        let error = calls::registration(safe, "nushell", &names()).unwrap_err();
        assert_eq!(error.to_string(), format!("unknown shell `nushell`, {expected}"));
        for place in 0..5 {
            let mut texts = [&b"fish"[..]; 5];
            texts[place] = b"fi\xff";
            let [shell, variable, name, bin, completer] = texts;
            let [variable, name, bin, completer] = [variable, name, bin, completer].map(Into::into);
            let names = Names { variable, name, bin, completer };
            assert_eq!(native::registration(safe, shell, &names, 0), (2, Vec::new()), "{place}");
        }
    }
}

#[test]
fn the_room_holds_a_registration_if_it_fits() {
    let text = calls::registration(false, "fish", &names()).unwrap();
    for size in [0, text.len() - 1, text.len(), text.len() + 3] {
        let mut room = vec![b'.'; size];
        let made = native::registration_in(false, b"fish", &names(), as_room(&mut room));
        assert_eq!((made.status, made.length), (0, text.len()));
        let written = if size < text.len() { &[][..] } else { &text };
        assert_eq!(room, [written, &vec![b'.'; size - written.len()]].concat());
    }
}

#[test]
fn a_refused_allocation_of_a_registration_is_an_error_that_loses_nothing() {
    for (safe, shell, _) in REGISTERED {
        let text = calls::registration(safe, shell, &names()).unwrap();
        let call = |room: &mut [u8]| {
            native::registration_in(safe, shell.as_bytes(), &names(), as_room(room))
        };
        let blocks = refuse_each(0, &text, call);
        let chunks = in_chunks(|| refuse_each(0, &text, call));
        assert!(blocks > 0 && chunks > 0 && chunks <= blocks, "{blocks} blocks, {chunks} chunks");
    }
}

/// A command with random subcommands and arguments. `depth` is the number of levels below it.
pub(crate) fn random_command(numbers: &mut Numbers, name: &'static str, depth: usize) -> Command {
    const HEADINGS: [&str; 3] = ["Options", "Commands", "Other"];
    let mut command = Command::new(name).about(format!("About {name}"));
    if numbers.below(3) == 0 {
        command = command.version("1.0").propagate_version(numbers.below(2) == 0);
    }
    if numbers.below(3) == 0 {
        command = command.subcommand_help_heading(HEADINGS[numbers.below(3)]);
    }
    command = command
        .hide(numbers.below(6) == 0)
        .disable_help_flag(numbers.below(5) == 0)
        .disable_help_subcommand(numbers.below(4) == 0)
        .allow_external_subcommands(numbers.below(4) == 0);
    for at in 0..numbers.below(4) {
        let arg = random_option(numbers, at, depth);
        let heading = HEADINGS[numbers.below(3)];
        command = command.arg(if numbers.below(3) == 0 { arg.help_heading(heading) } else { arg });
    }
    for id in ["first", "second"].into_iter().take(numbers.below(3)) {
        command = command.arg(random_positional(numbers, id));
    }
    if depth == 0 {
        return command;
    }
    let children = [("run", "r"), ("remote", "re"), ("list", "ls"), ("low", "l"), ("own", "auto")];
    for (name, alias) in children.into_iter().take(numbers.below(6)) {
        let child = random_command(numbers, name, depth - 1);
        let other = format!("{name}-x");
        command = command.subcommand(match numbers.below(3) {
            0 => child.alias(alias),
            1 => child.visible_alias(alias).alias(other),
            _ => child,
        });
    }
    command
}

/// Returns the option with a number at a level.
fn random_option(numbers: &mut Numbers, at: usize, depth: usize) -> Arg {
    let (long, short) = [("level", 'l'), ("color", 'c'), ("out", 'o')][at % 3];
    // A global argument has a name of its own at each level.
    let long = format!("{long}{depth}");
    let short = if depth == 0 { short } else { short.to_ascii_uppercase() };
    let mut arg = Arg::new(long.clone()).long(long.clone()).global(numbers.below(3) == 0);
    if depth < 2 {
        arg = arg.short(short);
    }
    if numbers.below(2) == 0 {
        arg = arg.help(format!("Help of {long}\nMore"));
    }
    arg = arg.hide(numbers.below(6) == 0).visible_alias(format!("{long}-too"));
    match numbers.below(8) {
        0 => arg.action(ArgAction::SetTrue),
        1 => arg.value_parser(["auto", "low", "list"]).value_delimiter(','),
        2 => arg.num_args(1..=3).value_parser(["a", "b"]),
        3 => arg.num_args(0..=2).allow_hyphen_values(true),
        4 => arg.action(ArgAction::Count).value_name("TIMES"),
        5 => arg.action(ArgAction::Append).value_name("MORE").display_order(numbers.below(3)),
        6 => arg.value_names(["FROM", "TO"]),
        _ => arg.value_hint(ValueHint::AnyPath),
    }
}

fn random_positional(numbers: &mut Numbers, id: &'static str) -> Arg {
    match numbers.below(5) {
        0 if id == "second" => Arg::new(id).num_args(0..).value_parser(["auto", "always"]),
        1 => Arg::new(id).value_hint(ValueHint::DirPath),
        2 => Arg::new(id).value_parser(["run", "auto"]).allow_hyphen_values(true),
        3 if id == "second" => Arg::new(id).num_args(1..).value_name("REST"),
        _ => Arg::new(id).help("A value"),
    }
}

/// Words of the command lines that are completed in random commands.
pub(crate) const TYPED: [&str; 24] = [
    "run",
    "remote",
    "list",
    "low",
    "own",
    "r",
    "re",
    "ls",
    "l",
    "auto",
    "run-x",
    "help",
    "-l",
    "-Lx",
    "--level0",
    "--color1=au",
    "--out2",
    "--level1-too",
    "--",
    "x",
    "-",
    "",
    "--level2=",
    "--o",
];

#[test]
fn a_live_file_answers_as_the_whole_one() {
    const ROOT: &str = "app";
    let mut numbers = Numbers(7);
    let (mut texts, mut smaller) = (0, 0);
    for _ in 0..400 {
        let command = random_command(&mut numbers, ROOT, 2);
        let whole = tree_file(&command);
        for _ in 0..10 {
            let mut line = vec![ROOT, "--", ROOT];
            line.extend((0..=numbers.below(5)).map(|_| TYPED[numbers.below(TYPED.len())]));
            let part = live(&command, &[], &line[3..line.len() - 1]);
            smaller += usize::from(2 * part.len() < whole.len());
            for shell in LIVE_SHELLS {
                let answer = answer_of(&whole, shell, &line);
                let of_part = in_chunks(|| answer_of(&part, shell, &line));
                assert_eq!(of_part, answer, "{line:?}\n{whole}\n{part}");
                texts += usize::from(answer.0 == 0 && !answer.1.is_empty());
            }
        }
    }
    assert!(texts > 5_000 && smaller > 1_000, "{texts} {smaller}");
}

#[test]
fn a_script_of_the_parts_is_that_of_the_whole_tree() {
    let mut numbers = Numbers(8);
    let (mut scripts, mut saved) = (0, 0);
    for _ in 0..300 {
        let command = random_command(&mut numbers, "app", 2);
        let whole = tree_file(&command);
        for shell in Shell::value_variants() {
            let part = script_file(&command, shell.parts());
            let of = |tree: &str| calls::script(&shell.to_string(), "app", tree);
            let (script, expected) = (in_chunks(|| of(&part)), of(&whole));
            assert_eq!(script.map_err(|it| it.to_string()), expected.map_err(|it| it.to_string()));
            scripts += 1;
            saved += whole.len() - part.len();
        }
    }
    assert!(scripts == 1_800 && saved > 100_000, "{scripts} {saved}");
}

/// Numbers that follow from a seed.
pub(crate) struct Numbers(pub(crate) u64);

impl Numbers {
    fn next(&mut self) -> u64 {
        let mut hasher = DefaultHasher::new();
        self.0.hash(&mut hasher);
        self.0 = hasher.finish();
        self.0
    }

    pub(crate) fn below(&mut self, bound: usize) -> usize {
        usize::try_from(self.next() % bound as u64).unwrap()
    }

    fn bytes(&mut self, most: usize) -> Vec<u8> {
        (0..self.below(most)).map(|_| self.next().to_le_bytes()[0]).collect()
    }

    /// Returns a tree file in which some bytes may be replaced or left out.
    fn changed_tree(&mut self, tree: &str) -> Vec<u8> {
        const OTHERS: &[u8] = b"{}[]\",:\\0 a\xff";
        let mut tree = tree.as_bytes().to_vec();
        for _ in 0..self.below(4) {
            let at = self.below(tree.len());
            if self.next() % 2 == 0 {
                tree[at] = OTHERS[self.below(OTHERS.len())];
            } else {
                tree.drain(at..(at + self.below(30)).min(tree.len()));
            }
        }
        tree
    }
}

/// Makes a call of the library with chunks, if its number is even.
fn each_second_in_chunks<R>(number: usize, call: impl FnOnce() -> R) -> R {
    if number % 2 == 0 {
        in_chunks(call)
    } else {
        call()
    }
}

#[test]
fn any_bytes_end_with_a_status() {
    let mut numbers = Numbers(1);
    let mut ends = [0; 3];
    let mut room = vec![0; 1 << 16];
    for number in 0..20_000 {
        let shell = match numbers.below(7) {
            6 => numbers.bytes(8),
            at => SHELLS[at].as_bytes().to_vec(),
        };
        let bin = if numbers.below(4) == 0 { numbers.bytes(20) } else { b"app".to_vec() };
        let tree = match numbers.below(4) {
            0 => numbers.bytes(200),
            _ => numbers.changed_tree(TREE),
        };
        let size = numbers.below(room.len());
        let call = || native::script_in(&shell, &bin, &tree, as_room(&mut room[..size]));
        ends[each_second_in_chunks(number, call).status as usize] += 1;
    }
    assert!(ends.iter().all(|count| *count > 500), "{ends:?}");
}

#[test]
fn any_names_end_with_a_status() {
    let mut numbers = Numbers(4);
    let mut ends = [0; 3];
    let mut room = vec![0; 1 << 14];
    for number in 0..20_000 {
        let shell = match numbers.below(SHELLS.len() + 1) {
            at if at < SHELLS.len() => SHELLS[at].as_bytes().to_vec(),
            _ => numbers.bytes(8),
        };
        let texts = [(); 4].map(|()| match numbers.below(8) {
            0 => numbers.bytes(20),
            _ => "it's \\\n$(x)\u{2019}".as_bytes()[..numbers.below(15)].to_vec(),
        });
        let [variable, name, bin, completer] = texts.each_ref().map(|text| (&**text).into());
        let names = Names { variable, name, bin, completer };
        let (safe, size) = (numbers.below(2) == 0, numbers.below(room.len()));
        let call = || native::registration_in(safe, &shell, &names, as_room(&mut room[..size]));
        ends[each_second_in_chunks(number, call).status as usize] += 1;
    }
    assert!(ends.iter().all(|count| *count > 500), "{ends:?}");
}

/// Returns a variable or a word that may be in a request, or arbitrary bytes.
fn word(numbers: &mut Numbers) -> Vec<u8> {
    const OTHERS: [&str; 8] = ["zsh", "fish", "tcsh", "", "/w/", "a.txt", "--color=", "HOME"];
    let known: Vec<&str> = REQUEST.into_iter().chain(WORDS).chain(OTHERS).collect();
    match known.get(numbers.below(known.len() + 2)) {
        Some(word) => word.as_bytes().to_vec(),
        None => numbers.bytes(6),
    }
}

/// Returns at most seven of them.
fn words(numbers: &mut Numbers) -> Vec<Vec<u8>> {
    (0..numbers.below(8)).map(|_| word(numbers)).collect()
}

#[test]
fn any_request_ends_with_a_status() {
    let mut numbers = Numbers(2);
    let mut ends = [0; 5];
    let mut room = vec![0; 1 << 16];
    for number in 0..20_000 {
        let tree = match numbers.below(4) {
            0 => numbers.bytes(200),
            _ => numbers.changed_tree(TREE),
        };
        let [further, variables, names, folders, files] = [(); 5].map(|()| words(&mut numbers));
        let line = &WORDS[..numbers.below(WORDS.len())];
        let shell = &REQUEST[..numbers.below(REQUEST.len() + 1)];
        let made = Request {
            tree: &tree,
            words: slices(line).into_iter().chain(slices(&further)).collect(),
            variables: slices(shell).into_iter().chain(slices(&variables)).collect(),
            output: b"a\tb\nc",
            listed: names.first().map_or(b"", |name| name),
            names: slices(&names),
            folders: slices(&folders),
            files: slices(&files),
        };
        let size = numbers.below(room.len());
        let call = || native::live_in(&made, as_room(&mut room[..size]));
        ends[each_second_in_chunks(number, call).status as usize] += 1;
    }
    assert!(ends.iter().all(|count| *count > 50), "{ends:?}");
}

#[test]
fn any_output_ends_with_a_status() {
    const MODES: [&str; 4] = ["ask", "stdin", "stdin", "other"];
    let mut numbers = Numbers(3);
    let mut ends = [0; 6];
    let mut room = vec![0; 1 << 12];
    for number in 0..20_000 {
        let tree = numbers.changed_tree(ASKING);
        let output = numbers.bytes(300);
        let variables = ["COMPLETE", "fish", "_COMPLGEN_VALUES", MODES[numbers.below(4)]];
        let typed = ["", "a", "--", "\u{e9}"][numbers.below(4)];
        let words = ["app", "--", "app", "--branch", typed];
        let made = Request { tree: &tree, ..asking(&words, &variables, &output) };
        let size = numbers.below(room.len());
        let call = || native::live_in(&made, as_room(&mut room[..size]));
        ends[each_second_in_chunks(number, call).status as usize] += 1;
    }
    let [made, failed, .., runs] = ends;
    assert!(made > 500 && failed > 500 && runs > 500, "{ends:?}");
}
