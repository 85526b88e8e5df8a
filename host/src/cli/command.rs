//! What a command is: its words, what each is for, and what runs it.

use crate::cli::words::Given;
use crate::error::Result;

/// What stands behind an option.
pub enum Takes {
    Nothing,
    /// A file or a folder that is there.
    There(&'static str),
    /// A place that is written to.
    Place(&'static str),
    /// One of these words.
    OneOf(&'static [&'static str]),
    /// A word of the user's own.
    Text(&'static str),
}

impl Takes {
    /// As help calls it.
    pub fn name(&self) -> Option<String> {
        match self {
            Takes::Nothing => None,
            Takes::There(name) | Takes::Place(name) | Takes::Text(name) => Some(name.to_string()),
            Takes::OneOf(words) => Some(words.join("|")),
        }
    }
}

pub struct Opt {
    pub name: &'static str,
    pub takes: Takes,
    pub what: &'static str,
}

impl Opt {
    pub const fn flag(name: &'static str, what: &'static str) -> Opt {
        Opt { name, takes: Takes::Nothing, what }
    }

    pub const fn of(name: &'static str, takes: Takes, what: &'static str) -> Opt {
        Opt { name, takes, what }
    }

    /// As help shows it: `--out DIR`.
    pub fn shown(&self) -> String {
        self.takes.name().map_or(self.name.into(), |takes| format!("{} {takes}", self.name))
    }
}

/// How many words a command takes besides its options, what they are called, and whether all must be there: where each
/// has a result of its own, a missing one has too.
pub struct Files {
    pub name: &'static str,
    pub least: usize,
    pub most: usize,
    pub there: bool,
}

impl Files {
    pub const NONE: Files = Files { name: "", least: 0, most: 0, there: false };

    /// One that is read.
    pub const fn one(name: &'static str) -> Files {
        Files { name, least: 1, most: 1, there: true }
    }

    /// One that is written.
    pub const fn place(name: &'static str) -> Files {
        Files { name, least: 1, most: 1, there: false }
    }

    /// So many or more, each with a result of its own.
    pub const fn from(least: usize, name: &'static str) -> Files {
        Files { name, least, most: usize::MAX, there: false }
    }
}

pub struct Command {
    /// Those of the developers begin with `dev `.
    pub name: &'static str,
    /// What it does, in a line.
    pub what: &'static str,
    /// The ways to call it, each without the name.
    pub usage: &'static [&'static str],
    pub files: Files,
    pub options: &'static [Opt],
    /// What there is to know besides.
    pub about: &'static str,
    pub examples: &'static [&'static str],
    pub run: fn(&Given) -> Result<()>,
}

impl Command {
    /// The name behind `dev`.
    pub fn short(&self) -> &'static str {
        self.name.strip_prefix("dev ").unwrap_or(self.name)
    }

    pub fn option(&self, name: &str) -> Option<&'static Opt> {
        self.options.iter().find(|option| option.name == name)
    }
}

pub fn is_help(word: &str) -> bool {
    word == "--help" || word == "-h"
}
