//! The part of the snapshot crate that the tests of clap_complete use.

/// A text to compare with, and whether it is meant without its wildcards.
pub struct Expected {
    pub text: &'static str,
    pub is_raw: bool,
}

pub trait IntoData {
    fn raw(self) -> Expected;
}

impl IntoData for Expected {
    fn raw(self) -> Expected {
        Expected { is_raw: true, ..self }
    }
}

/// Returns whether a text matches `pattern`, in which `[..]` matches any text in a line.
pub fn is_like(text: &str, pattern: &str) -> bool {
    let Some((before, rest)) = pattern.split_once("[..]") else {
        return text == pattern;
    };
    let Some(after) = text.strip_prefix(before) else {
        return false;
    };
    let line = after.find('\n').unwrap_or(after.len());
    let ends = after.char_indices().map(|(at, _)| at).chain([after.len()]);
    ends.filter(|at| *at <= line).any(|at| is_like(&after[at..], rest))
}

impl Expected {
    pub fn holds(&self, actual: &str) -> bool {
        // A text of several lines has a line feed more at both ends.
        let inner = self.text.strip_prefix('\n').and_then(|text| text.strip_suffix('\n'));
        let text = inner.unwrap_or(self.text);
        match self.is_raw {
            true => actual == text,
            false => is_like(actual, text),
        }
    }
}

#[macro_export]
macro_rules! str {
    ([$text:literal]) => {
        $crate::Expected { text: $text, is_raw: false }
    };
    ($text:literal) => {
        $crate::Expected { text: $text, is_raw: false }
    };
}

#[macro_export]
macro_rules! assert_data_eq {
    ($actual:expr, $expected:expr $(,)?) => {{
        let (actual, expected) = ($actual.to_string(), $expected);
        assert!(expected.holds(&actual), "expected: {}\nactual: {actual}", expected.text);
    }};
}
