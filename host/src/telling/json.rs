//! JSON, as much of it as the box writes: one object on a line.

use crate::telling::shown::steers;
use std::fmt::{self, Display};
use std::path::Path;

pub enum Json {
    Null,
    Bool(bool),
    Number(f64),
    Text(String),
    List(Vec<Json>),
    Object(Vec<(&'static str, Json)>),
}

impl From<bool> for Json {
    fn from(value: bool) -> Json {
        Json::Bool(value)
    }
}

impl From<f64> for Json {
    fn from(value: f64) -> Json {
        Json::Number(value)
    }
}

impl From<u64> for Json {
    fn from(value: u64) -> Json {
        Json::Number(value as f64)
    }
}

impl From<usize> for Json {
    fn from(value: usize) -> Json {
        Json::Number(value as f64)
    }
}

impl From<u32> for Json {
    fn from(value: u32) -> Json {
        Json::Number(value.into())
    }
}

impl From<&str> for Json {
    fn from(value: &str) -> Json {
        Json::Text(value.into())
    }
}

impl From<String> for Json {
    fn from(value: String) -> Json {
        Json::Text(value)
    }
}

/// A name; bytes that are no unicode are replaced.
impl From<&Path> for Json {
    fn from(value: &Path) -> Json {
        Json::Text(value.to_string_lossy().into())
    }
}

impl<T: Into<Json>> From<Option<T>> for Json {
    fn from(value: Option<T>) -> Json {
        value.map_or(Json::Null, Into::into)
    }
}

impl<T: Clone + Into<Json>> From<&[T]> for Json {
    fn from(values: &[T]) -> Json {
        Json::List(values.iter().cloned().map(Into::into).collect())
    }
}

fn write_text(f: &mut fmt::Formatter, value: &str) -> fmt::Result {
    write!(f, "\"")?;
    for letter in value.chars() {
        match letter {
            '"' => write!(f, "\\\"")?,
            '\\' => write!(f, "\\\\")?,
            '\n' => write!(f, "\\n")?,
            '\t' => write!(f, "\\t")?,
            letter if steers(letter) => write!(f, "\\u{:04x}", u32::from(letter))?,
            letter => write!(f, "{letter}")?,
        }
    }
    write!(f, "\"")
}

fn write_list<T>(
    f: &mut fmt::Formatter,
    [open, close]: [&str; 2],
    of: &[T],
    one: impl Fn(&mut fmt::Formatter, &T) -> fmt::Result,
) -> fmt::Result {
    write!(f, "{open}")?;
    for (place, value) in of.iter().enumerate() {
        if place > 0 {
            write!(f, ", ")?;
        }
        one(f, value)?;
    }
    write!(f, "{close}")
}

impl Display for Json {
    fn fmt(&self, f: &mut fmt::Formatter) -> fmt::Result {
        match self {
            Json::Bool(value) => write!(f, "{value}"),
            Json::Number(value) if value.is_finite() => write!(f, "{value}"),
            Json::Null | Json::Number(_) => write!(f, "null"),
            Json::Text(value) => write_text(f, value),
            Json::List(values) => write_list(f, ["[", "]"], values, |f, value| value.fmt(f)),
            Json::Object(fields) => write_list(f, ["{", "}"], fields, |f, (name, value)| {
                write_text(f, name)?;
                write!(f, ": {value}")
            }),
        }
    }
}

/// To so many digits behind the point.
pub fn rounded(value: f64, digits: i32) -> f64 {
    (value * 10f64.powi(digits)).round() / 10f64.powi(digits)
}

#[cfg(test)]
mod tests {
    use super::*;

    #[test]
    fn as_it_is_written() {
        let gaps: &[u32] = &[8, 11];
        let object = Json::Object(vec![
            ("file", Path::new("a \"b\"\\\n\u{1b}\u{202e}é.wav").into()),
            ("frames", 635usize.into()),
            ("seconds", rounded(6.333_333, 3).into()),
            ("gaps", gaps.into()),
            ("none", Json::List(vec![])),
            ("voice", None::<f64>.into()),
            ("endless", f64::INFINITY.into()),
            ("whole", true.into()),
        ]);
        assert_eq!(
            object.to_string(),
            r#"{"file": "a \"b\"\\\n\u001b\u202eé.wav", "frames": 635, "seconds": 6.333, "gaps": [8, 11], "none": [], "#
                .to_owned() + r#""voice": null, "endless": null, "whole": true}"#
        );
    }
}
