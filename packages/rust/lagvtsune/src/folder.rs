//! The names in a directory, as the library receives them.

use std::fs::{self, Metadata};
use std::path::Path;

/// Guesses the directory whose names a reply for this word needs, if the word is a path or an
/// option with a path. This saves a call of the library. Returns `None` for a word without a slash,
/// which is rarely a path. If the guess is wrong, the library reports the right directory.
pub(crate) fn likely_folder(
    word: &str,
    home: Option<&str>,
    current_dir: Option<&str>,
) -> Option<String> {
    let value = match word.split_once('=') {
        Some((option, value)) if option.starts_with("--") => value,
        _ => word,
    };
    let path = Path::new(value);
    let prefix = match path.file_name() {
        Some(_) if !value.ends_with('/') => path.parent()?.to_str()?,
        _ => value,
    };
    let (base, rest) = match prefix.split_once('/') {
        Some(("~", rest)) => (home?, rest.trim_start_matches('/')),
        None if prefix == "~" => (home?, ""),
        _ => (current_dir?, prefix),
    };
    let folder = Path::new(base).join(rest);
    value.contains('/').then(|| folder.into_os_string().into_string().ok())?
}

/// The path of a directory, the names in it, and the paths among them that lead to directories and
/// files.
#[derive(Default)]
pub(crate) struct Listing {
    pub(crate) path: String,
    pub(crate) names: Vec<String>,
    pub(crate) folders: Vec<String>,
    pub(crate) files: Vec<String>,
}

impl Listing {
    /// Reads the directory with this path. An unreadable directory has no names, and names that are
    /// not UTF-8 are left out. Symbolic links are followed.
    pub(crate) fn of(path: String) -> Listing {
        let entries = fs::read_dir(&path).into_iter().flatten().flatten();
        let mut listing = Listing::default();
        listing.put(path.clone());
        for name in entries.filter_map(|entry| entry.file_name().into_string().ok()) {
            listing.put(Path::new(&path).join(&name).to_string_lossy().into_owned());
            listing.names.push(name);
        }
        listing.path = path;
        listing
    }

    /// Adds a path to the directories or to the files, if it leads to one.
    fn put(&mut self, path: String) {
        let kind = fs::metadata(&path);
        if kind.as_ref().is_ok_and(Metadata::is_dir) {
            self.folders.push(path);
        } else if kind.as_ref().is_ok_and(Metadata::is_file) {
            self.files.push(path);
        }
    }
}
