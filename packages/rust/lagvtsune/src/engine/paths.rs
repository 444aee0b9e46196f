//! A completer of paths.

use super::{CompletionCandidate, ValueCompleter};
use std::ffi::OsStr;
use std::path::{Path, PathBuf};
use std::{env, fs};

type Filter = Box<dyn Fn(&Path) -> bool + Send + Sync>;

/// Completes a value as a path.
///
/// Directories that the filter rejects are offered too, because files below them may pass it.
#[derive(Default)]
pub struct PathCompleter {
    current_dir: Option<PathBuf>,
    filter: Option<Filter>,
    stdio: bool,
}

impl PathCompleter {
    /// Returns a completer of all paths.
    pub fn any() -> PathCompleter {
        PathCompleter::default()
    }

    /// Returns a completer of files.
    pub fn file() -> PathCompleter {
        PathCompleter::any().filter(Path::is_file)
    }

    /// Returns a completer of directories.
    pub fn dir() -> PathCompleter {
        PathCompleter::any().filter(Path::is_dir)
    }

    /// Also offers `-` for the standard input or output, if nothing is typed.
    pub fn stdio(mut self) -> PathCompleter {
        self.stdio = true;
        self
    }

    /// Sets the filter: the paths for which it returns true are offered.
    pub fn filter(
        mut self,
        filter: impl Fn(&Path) -> bool + Send + Sync + 'static,
    ) -> PathCompleter {
        self.filter = Some(Box::new(filter));
        self
    }

    /// Sets the directory to which relative paths refer. Without it, that is the current directory.
    pub fn current_dir(mut self, path: impl Into<PathBuf>) -> PathCompleter {
        self.current_dir = Some(path.into());
        self
    }

    fn is_wanted(&self, path: &Path) -> bool {
        self.filter.as_ref().is_none_or(|filter| filter(path))
    }

    /// Returns the directory that a path before the last slash means. `None` if it is not known.
    fn folder(&self, prefix: &Path) -> Option<PathBuf> {
        if let Ok(rest) = prefix.strip_prefix("~") {
            return Some(PathBuf::from(env::var_os("HOME")?).join(rest));
        }
        match &self.current_dir {
            Some(folder) => Some(folder.join(prefix)),
            None => Some(env::current_dir().ok()?.join(prefix)),
        }
    }

    /// Returns the candidates in the directory `folder`: those whose names begin with `name`, after
    /// `prefix`.
    fn candidates_in(&self, folder: &Path, prefix: &Path, name: &str) -> Vec<CompletionCandidate> {
        let (mut wanted, mut on_the_way) = (Vec::new(), Vec::new());
        for entry in fs::read_dir(folder).into_iter().flatten().flatten() {
            let own = entry.file_name();
            if !own.as_encoded_bytes().starts_with(name.as_bytes()) {
                continue;
            }
            let path = entry.path();
            let is_dir = path.is_dir();
            let value = if is_dir { prefix.join(&own).join("") } else { prefix.join(&own) };
            let is_hidden = own.as_encoded_bytes().starts_with(b".");
            let candidate = CompletionCandidate::new(value).hide(is_hidden);
            match self.is_wanted(&path) {
                true => wanted.push(candidate),
                false if is_dir => on_the_way.push(candidate),
                false => {}
            }
        }
        wanted.sort();
        on_the_way.sort();
        wanted.append(&mut on_the_way);
        wanted
    }
}

impl ValueCompleter for PathCompleter {
    fn complete(&self, current: &OsStr) -> Vec<CompletionCandidate> {
        let (prefix, name) = split(Path::new(current));
        let Some(folder) = self.folder(prefix) else {
            return Vec::new();
        };
        let mut candidates = Vec::new();
        if current.is_empty() && self.is_wanted(&folder) {
            candidates.push(CompletionCandidate::new("."));
        }
        candidates.extend(self.candidates_in(&folder, prefix, &name.to_string_lossy()));
        if self.stdio && current.is_empty() {
            candidates.push(CompletionCandidate::new("-").help(Some("stdio".into())));
        }
        candidates
    }
}

/// Splits a path before its last name. A path that ends in `/` or `..` has no last name.
fn split(path: &Path) -> (&Path, &OsStr) {
    let is_open = path.as_os_str().as_encoded_bytes().last().is_some_and(|byte| *byte != b'/');
    match path.file_name().filter(|_| is_open) {
        Some(name) => (path.parent().unwrap_or(Path::new("")), name),
        None => (path, OsStr::new("")),
    }
}
