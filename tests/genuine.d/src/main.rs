//! Answers requests about tree files with the original: `clap`, `clap_complete` and
//! `clap_complete_nushell`.
//!
//! Each line of the standard input is a request, as a JSON list that begins with a word. Each request
//! has one line of the standard output as its reply, an object with one key: `text` and what the
//! original writes, `error` and its error, or `panic` and the message of its panic.

mod requests;
mod tree;

use requests::Answers;
use serde_json::{json, Value};
use std::cell::RefCell;
use std::io::{self, BufRead, Write};
use std::panic::{self, AssertUnwindSafe};

thread_local! {
    /// The message of the last panic.
    static SAID: RefCell<String> = const { RefCell::new(String::new()) };
}

fn main() -> io::Result<()> {
    panic::set_hook(Box::new(|info| SAID.with(|said| *said.borrow_mut() = info.to_string())));
    let mut answers = Answers::default();
    let mut out = io::stdout().lock();
    for line in io::stdin().lock().lines() {
        let request: Value = serde_json::from_str(&line?)?;
        writeln!(out, "{}", reply(&mut answers, &request))?;
        out.flush()?;
    }
    Ok(())
}

/// Returns the reply to a request.
fn reply(answers: &mut Answers, request: &Value) -> Value {
    match panic::catch_unwind(AssertUnwindSafe(|| answers.answer(request))) {
        Ok(Ok(text)) => json!({ "text": text }),
        Ok(Err(error)) => json!({ "error": error.to_string() }),
        Err(_) => json!({ "panic": SAID.with(|said| said.take()) }),
    }
}
