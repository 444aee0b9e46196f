//! The requests, and what the original answers to each.

use crate::tree::{built, command};
use clap::Command;
use clap_complete::engine::complete;
use clap_complete::env::Shells;
use clap_complete::{generate, Shell};
use clap_complete_nushell::Nushell;
use serde_json::Value;
use std::collections::HashMap;
use std::env;
use std::error::Error;
use std::ffi::OsString;
use std::path::PathBuf;

/// The text that answers a request, or an error.
pub type Answer = Result<String, Box<dyn Error>>;

/// Answers requests over the commands that it got.
#[derive(Default)]
pub struct Answers {
    commands: HashMap<String, Command>,
}

impl Answers {
    /// Answers one of these requests. KEY names a tree that was sent before:
    ///
    /// - `["tree", KEY, TREE]` takes the tree as it is; `["built", KEY, TREE]` takes one that has all
    ///   that a build adds; `["forget"]` forgets all trees. All reply with an empty text.
    /// - `["script", KEY, SHELL, BIN]` replies with a script.
    /// - `["register", KEY, SHELL, BIN]` replies with a registration for the variable `COMPLETE`, whose
    ///   completer is the program itself.
    /// - `["reply", KEY, SHELL, VARIABLES, WORDS]` replies with an adapter's reply.
    /// - `["candidates", KEY, INDEX, WORDS]` replies with the candidates, in the form of a reply to fish.
    pub fn answer(&mut self, request: &Value) -> Answer {
        let key = || text(&request[1]);
        match text(&request[0]) {
            "tree" => self.take(key(), command(&request[2])),
            "built" => self.take(key(), built(&request[2])),
            "forget" => {
                self.commands.clear();
                Ok(String::new())
            }
            "script" => script(self.command(key())?, text(&request[2]), text(&request[3])),
            "register" => registration(&self.command(key())?, text(&request[2]), text(&request[3])),
            "reply" => {
                reply(self.command(key())?, text(&request[2]), &request[3], words(&request[4]))
            }
            "candidates" => candidates(self.command(key())?, &request[2], words(&request[3])),
            other => Err(format!("no such request: {other}").into()),
        }
    }

    fn take(&mut self, key: &str, command: Command) -> Answer {
        self.commands.insert(key.to_owned(), command);
        Ok(String::new())
    }

    fn command(&self, key: &str) -> Result<Command, Box<dyn Error>> {
        Ok(self.commands.get(key).ok_or("no such tree")?.clone())
    }
}

fn script(mut command: Command, shell: &str, bin: &str) -> Answer {
    let mut script = Vec::new();
    match shell {
        "nushell" => generate(Nushell, &mut command, bin, &mut script),
        _ => generate(shell.parse::<Shell>()?, &mut command, bin, &mut script),
    }
    Ok(String::from_utf8(script)?)
}

fn registration(command: &Command, shell: &str, bin: &str) -> Answer {
    let shells = Shells::builtins();
    let adapter = shells.completer(shell).ok_or("unknown shell")?;
    let mut written = Vec::new();
    adapter.write_registration("COMPLETE", command.get_name(), bin, bin, &mut written)?;
    Ok(String::from_utf8(written)?)
}

/// Sets the variables first, because the adapters read those of the process.
fn reply(mut command: Command, shell: &str, variables: &Value, words: Vec<OsString>) -> Answer {
    for name in ["_CLAP_COMPLETE_INDEX", "_CLAP_IFS"] {
        match variables[name].as_str() {
            Some(value) => env::set_var(name, value),
            None => env::remove_var(name),
        }
    }
    let shells = Shells::builtins();
    let adapter = shells.completer(shell).ok_or("unknown shell")?;
    let mut written = Vec::new();
    adapter.write_complete(&mut command, words, folder().as_deref(), &mut written)?;
    Ok(String::from_utf8(written)?)
}

fn candidates(mut command: Command, index: &Value, words: Vec<OsString>) -> Answer {
    let index = index.as_u64().ok_or("no index")?.try_into()?;
    let mut lines = String::new();
    for found in complete(&mut command, words, index, folder().as_deref())? {
        lines += found.get_value().to_str().ok_or("not UTF-8")?;
        if let Some(help) = found.get_help() {
            lines += "\t";
            lines += help.to_string().lines().next().unwrap_or_default();
        }
        lines += "\n";
    }
    Ok(lines)
}

/// Returns the folder in which paths are completed.
fn folder() -> Option<PathBuf> {
    env::current_dir().ok()
}

fn text(value: &Value) -> &str {
    value.as_str().expect("a text")
}

fn words(value: &Value) -> Vec<OsString> {
    value.as_array().expect("words").iter().map(|word| text(word).into()).collect()
}
