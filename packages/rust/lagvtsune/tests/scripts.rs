//! Tests the public calls.

use clap::{Arg, ArgAction, Command, ValueEnum};
use lagvtsune::aot::{try_generate, utils, Bash, Generator};
use lagvtsune::{generate, generate_to, shells, Shell};
use std::io::{self, ErrorKind, Write};
use std::{env, fs, thread};

fn app() -> Command {
    let out = Arg::new("out").long("out").help("It's \"here\"\n$x");
    Command::new("app").version("1").arg(out).subcommand(Command::new("run").about("Run it"))
}

/// Two commands with the same label in a bash script.
fn clash() -> Command {
    Command::new("app")
        .subcommand(Command::new("a").subcommand(Command::new("b__subcmd__c")))
        .subcommand(Command::new("a__subcmd__b").subcommand(Command::new("c")))
}

fn script(shell: Shell, mut command: Command) -> String {
    let mut out = Vec::new();
    generate(shell, &mut command, "app", &mut out);
    String::from_utf8(out).unwrap()
}

#[test]
fn a_script_has_the_options_and_commands() {
    let plain = script(Shell::Fish, Command::new("app"));
    assert_eq!(plain, "complete -c app -s h -l help -d 'Print help'\n");
    let whole = script(Shell::Fish, app());
    assert!(whole.contains(r#"-l out -d 'It\'s "here" $x' -r"#), "{whole}");
    assert!(whole.contains("-f -a \"run\" -d 'Run it'\n"), "{whole}");
}

#[test]
fn a_command_gives_the_same_script_again() {
    let mut command = app();
    let mut made = [Vec::new(), Vec::new()];
    for out in &mut made {
        generate(Shell::Zsh, &mut command, "app", out);
    }
    assert_eq!(made[0], made[1]);
    assert_eq!(command.get_bin_name(), Some("app"));
}

#[test]
fn a_label_clash_is_an_error_before_anything_is_written() {
    let mut out = Vec::new();
    let error = try_generate(Bash, &mut clash(), "app", &mut out).unwrap_err();
    assert!(error.to_string().contains("app__subcmd__a__subcmd__b__subcmd__c"), "{error}");
    assert!(out.is_empty());
    let folder = env::temp_dir().join(format!("lagvtsune-clash-{}", std::process::id()));
    fs::create_dir(&folder).unwrap();
    assert!(generate_to(Bash, &mut clash(), "app", &folder).is_err());
    assert_eq!(fs::read_dir(&folder).unwrap().count(), 0);
    fs::remove_dir(&folder).unwrap();
    assert!(!script(Shell::Elvish, clash()).is_empty());
}

#[test]
fn a_file_has_the_name_that_the_shell_looks_for() {
    let folder = env::temp_dir().join(format!("lagvtsune-files-{}", std::process::id()));
    fs::create_dir(&folder).unwrap();
    let names = ["app.bash", "app.elv", "app.fish", "app.nu", "_app.ps1", "_app"];
    for (shell, name) in Shell::value_variants().iter().zip(names) {
        let path = generate_to(*shell, &mut app(), "app", &folder).unwrap();
        assert_eq!(path, folder.join(name));
        assert_eq!(fs::read_to_string(path).unwrap(), script(*shell, app()));
    }
    fs::remove_dir_all(&folder).unwrap();
    let missing = generate_to(Shell::Zsh, &mut app(), "app", &folder).unwrap_err();
    assert_eq!(missing.kind(), ErrorKind::NotFound);
}

#[test]
fn a_writer_that_fails_is_the_error() {
    struct Full;
    impl Write for Full {
        fn write(&mut self, _: &[u8]) -> io::Result<usize> {
            Err(ErrorKind::StorageFull.into())
        }
        fn flush(&mut self) -> io::Result<()> {
            Ok(())
        }
    }
    let error = try_generate(Shell::Bash, &mut app(), "app", &mut Full).unwrap_err();
    assert_eq!(error.kind(), ErrorKind::StorageFull);
}

#[test]
fn without_a_bin_name_the_name_stands_for_it() {
    let mut out = Vec::new();
    Shell::Elvish.try_generate(&app(), &mut out).unwrap();
    assert_eq!(String::from_utf8(out).unwrap(), script(Shell::Elvish, app()));
}

#[test]
fn a_generator_of_the_program_s_own_is_handed_the_bin_name() {
    struct Names;
    impl Generator for Names {
        fn file_name(&self, name: &str) -> String {
            format!("{name}.txt")
        }
        fn generate(&self, cmd: &Command, buf: &mut dyn Write) {
            write!(buf, "{:?}", cmd.get_bin_name()).unwrap();
        }
    }
    let mut out = Vec::new();
    generate(Names, &mut app(), "other", &mut out);
    assert_eq!(out, b"Some(\"other\")");
}

#[test]
fn a_generator_gets_a_built_command() {
    struct Lists;
    impl Generator for Lists {
        fn file_name(&self, name: &str) -> String {
            format!("{name}.txt")
        }
        fn generate(&self, cmd: &Command, buf: &mut dyn Write) {
            let run = utils::find_subcommand_with_path(cmd, vec!["remote", "add"]);
            let flags = utils::flags(run).into_iter().map(|arg| arg.get_id().to_string());
            let values = cmd.get_arguments().filter_map(utils::possible_values).flatten();
            let values = values.map(|value| value.get_name().to_owned());
            writeln!(buf, "{:?}", utils::all_subcommands(cmd)).unwrap();
            writeln!(buf, "{:?}", utils::longs_and_visible_aliases(cmd)).unwrap();
            writeln!(buf, "{:?}", utils::shorts_and_visible_aliases(cmd)).unwrap();
            writeln!(buf, "{:?}", flags.collect::<Vec<_>>()).unwrap();
            writeln!(buf, "{:?}", values.collect::<Vec<_>>()).unwrap();
        }
    }
    let color = Arg::new("color").long("color").visible_alias("colour").short('c');
    let remote = Command::new("remote").visible_alias("r").disable_help_subcommand(true);
    let mut command = Command::new("app")
        .disable_help_subcommand(true)
        .arg(color.visible_short_alias('k').value_parser(["auto", "never"]))
        .arg(Arg::new("file"))
        .subcommand(remote.subcommand(Command::new("add")));
    let mut out = Vec::new();
    generate(Lists, &mut command, "app", &mut out);
    let expected = r#"[("remote", "app remote"), ("r", "app remote"), ("add", "app remote add")]
["colour", "color", "help"]
['k', 'c', 'h']
["help"]
["auto", "never"]
"#;
    assert_eq!(String::from_utf8(out).unwrap(), expected);
}

#[test]
fn a_built_command_gives_the_same_script() {
    let flag = |name, short| Arg::new(name).long(name).short(short).action(ArgAction::SetTrue);
    let pair = Arg::new("pair").long("pair").num_args(2).value_names(["A", "B"]);
    let command = Command::new("app")
        .version("1")
        .propagate_version(true)
        .args([flag("all", 'a').global(true), flag("brief", 'b')])
        .args([Arg::new("first").required(true), Arg::new("rest").num_args(0..)])
        .subcommand(Command::new("run").arg(pair).subcommand(Command::new("deep")))
        .subcommand(Command::new("own").disable_help_flag(true).arg(flag("help", '?')));
    let mut built = command.clone();
    built.set_bin_name("app");
    built.build();
    for shell in Shell::value_variants() {
        assert_eq!(script(*shell, command.clone()), script(*shell, built.clone()), "{shell}");
    }
}

#[test]
fn each_shell_has_a_generator_of_its_own() {
    let written = |generator: &dyn Fn(&mut Command, &mut Vec<u8>)| {
        let mut out = Vec::new();
        generator(&mut app(), &mut out);
        String::from_utf8(out).unwrap()
    };
    let own = [
        written(&|command, out| generate(shells::Bash, command, "app", out)),
        written(&|command, out| generate(shells::Elvish, command, "app", out)),
        written(&|command, out| generate(shells::Fish, command, "app", out)),
        written(&|command, out| generate(shells::Nushell, command, "app", out)),
        written(&|command, out| generate(shells::PowerShell, command, "app", out)),
        written(&|command, out| generate(shells::Zsh, command, "app", out)),
    ];
    let expected = Shell::value_variants().iter().map(|shell| script(*shell, app()));
    assert_eq!(own.to_vec(), expected.collect::<Vec<_>>());
    assert_eq!(shells::PowerShell.file_name("app"), Shell::PowerShell.file_name("app"));
}

#[test]
fn threads_may_call_at_once() {
    let calls = [(); 8].map(|()| thread::spawn(|| script(Shell::Bash, app())));
    let made = calls.map(|call| call.join().unwrap());
    assert!(made.iter().all(|text| *text == script(Shell::Bash, app())));
}

#[test]
fn a_script_that_is_longer_than_the_first_room_is_whole() {
    // fish's script names all children of a child at each of them.
    let names: Vec<String> = (0..200).map(|number| format!("sub{number}")).collect();
    let children = names.iter().map(|name| Command::new(name.clone()).about("About it"));
    let fish = script(
        Shell::Fish,
        Command::new("app").subcommand(Command::new("run").subcommands(children)),
    );
    assert!(fish.len() > 1 << 18, "{} bytes", fish.len());
    for name in names {
        assert!(fish.contains(&format!("-f -a \"{name}\" -d 'About it'\n")), "{name}");
    }
}

#[test]
fn a_shell_is_known_by_its_name_and_its_program() {
    for shell in Shell::value_variants() {
        assert_eq!(shell.to_string().parse(), Ok(*shell));
        assert_eq!(shell.to_possible_value().unwrap().get_name(), shell.to_string());
    }
    assert_eq!("Bash".parse::<Shell>(), Err("invalid variant: Bash".to_owned()));
    for path in ["/bin/bash/", "bash.exe"] {
        assert_eq!(Shell::from_shell_path(path), Some(Shell::Bash));
    }
    for path in [".bash", "", "/", "BASH"] {
        assert_eq!(Shell::from_shell_path(path), None);
    }
    assert_eq!(Shell::from_shell_path("/usr/bin/nu"), Some(Shell::Nushell));
}
