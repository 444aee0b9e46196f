//! Compares the values that completers get with those that the library completes.

use super::asked::Asked;
use super::{Request, ASK, REQUEST, STDIN};
use crate::calls::Answer;
use crate::engine::{ArgValueCandidates, Completer};
use crate::sources::Sources;
use crate::tests::{random_command, Numbers, TYPED};
use clap::Command;

/// Words with a value after `=`, and with several values.
const VALUES: [&str; 4] = ["-l=", "-vc=x", "--level1=a,l", "low,a"];

/// Gives each argument of a command a completer.
fn add_completers(command: &Command, path: &mut Vec<String>, sources: &mut Sources) {
    for arg in command.get_arguments() {
        let completer = Completer::Candidates(ArgValueCandidates::new(Vec::new));
        sources.add_completer(path.clone(), arg.get_id().as_str(), completer);
    }
    for child in command.get_subcommands() {
        path.push(child.get_name().to_owned());
        add_completers(child, path, sources);
        path.pop();
    }
}

/// Checks which part of the word is the value of the argument that a request asks for, if it asks for
/// one. Returns whether it does.
fn is_read_alike(request: Request<'_>) -> bool {
    let (sources, word) = (request.sources, request.line.last().unwrap().clone());
    let word = word.into_string().unwrap();
    let mut asked = Asked::of(request, None, false);
    asked.set(REQUEST, b"fish");
    let Answer::Run(words) = asked.call(Some(ASK)).unwrap() else {
        return false;
    };
    let id = sources.called(&words).unwrap().id;
    // The library puts the text before the value in front of each line that begins with what is typed.
    asked.request.output = format!("{}z\n", asked.value(id).unwrap().text).into_bytes();
    let offered = String::from_utf8(asked.text(STDIN).unwrap()).unwrap();
    let value = format!("{word}z");
    assert!(offered.lines().any(|line| line == value), "{value} is not in {offered}");
    true
}

#[test]
fn a_completer_gets_the_part_that_the_library_reads() {
    let mut numbers = Numbers(11);
    let mut asked = 0;
    for _ in 0..400 {
        let command = random_command(&mut numbers, "app", 2);
        let mut sources = Sources::default();
        add_completers(&command, &mut Vec::new(), &mut sources);
        for _ in 0..10 {
            let words = [&TYPED[..], &VALUES].concat();
            let typed = (0..=numbers.below(5)).map(|_| words[numbers.below(words.len())]);
            let line = ["app"].into_iter().chain(typed).map(Into::into).collect();
            let (command, sources) = (&mut command.clone(), &sources);
            let request = Request { command, sources, line, current_dir: None, may_run: false };
            asked += usize::from(is_read_alike(request));
        }
    }
    assert!(asked > 1_000, "{asked}");
}
