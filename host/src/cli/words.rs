//! A command's words, read by its table: options in front of files or behind them, `--out DIR` or `--out=DIR`, and
//! behind `--` files alone.

use crate::cli::command::{is_help, Command, Opt, Takes};
use crate::cli::near;
use crate::error::{Error, Result};
use crate::telling::shown::shown;
use std::ffi::{OsStr, OsString};
use std::io::ErrorKind;
use std::os::unix::ffi::OsStrExt;
use std::path::{Path, PathBuf};

/// What stands on the command line of a command.
pub struct Given {
    pub command: &'static Command,
    options: Vec<(&'static Opt, OsString)>,
    pub files: Vec<PathBuf>,
}

impl Given {
    /// What is wrong with the command line.
    pub fn wrong(&self, why: impl AsRef<str>) -> Error {
        Error::misused(self.command.name, why.as_ref())
    }

    fn value(&self, name: &str) -> Option<&OsStr> {
        debug_assert!(self.command.option(name).is_some(), "{name}");
        self.options.iter().find(|(option, _)| option.name == name).map(|(_, value)| &**value)
    }

    pub fn has(&self, name: &str) -> bool {
        self.value(name).is_some()
    }

    pub fn path(&self, name: &str) -> Option<PathBuf> {
        self.value(name).map(PathBuf::from)
    }

    /// A word, with U+FFFD in the place of what is no unicode.
    pub fn word(&self, name: &str) -> Option<String> {
        self.value(name).map(|value| value.to_string_lossy().into())
    }

    /// A place that must be named.
    pub fn wanted(&self, name: &str) -> Result<PathBuf> {
        let missing = || {
            let option = self.command.option(name).map_or(name.into(), Opt::shown);
            self.wrong(format!("{option} is missing"))
        };
        self.path(name).ok_or_else(missing)
    }
}

/// An option's name, and what stands behind its `=`.
fn parts(word: &OsStr) -> (OsString, Option<OsString>) {
    let bytes = word.as_bytes();
    match bytes.iter().position(|byte| *byte == b'=') {
        Some(at) => (OsStr::from_bytes(&bytes[..at]).into(), Some(OsStr::from_bytes(&bytes[at + 1..]).into())),
        None => (word.into(), None),
    }
}

/// A file that must be there.
fn look_for(given: &Given, what: &str, path: &Path) -> Result<()> {
    // `-` is standard input
    match path.symlink_metadata() {
        _ if path == Path::new("-") => Ok(()),
        Err(why) if why.kind() == ErrorKind::NotFound => {
            Err(Error::undone(format!("{}: {what}{}: no such file", given.command.name, shown(path))))
        }
        _ => Ok(()),
    }
}

/// What an option takes must be there, or be one of its words; no name is not the current folder's.
fn look(given: &Given, option: &Opt, value: &OsStr) -> Result<()> {
    let (name, told) = (option.name, shown(Path::new(value)));
    match &option.takes {
        Takes::Nothing => Ok(()),
        _ if value.is_empty() => Err(given.wrong(format!("{name}: what follows it is empty"))),
        Takes::There(_) => look_for(given, &format!("{name} "), Path::new(value)),
        Takes::OneOf(words) if !words.iter().any(|word| value == *word) => {
            Err(given.wrong(format!("{name} {told}: {} is wanted", words.join(" or "))))
        }
        _ => Ok(()),
    }
}

/// The value of an option: what stands behind its `=`, or the next word, where that is no other option.
fn value(
    given: &Given,
    option: &Opt,
    behind: Option<OsString>,
    rest: &mut std::slice::Iter<OsString>,
) -> Result<OsString> {
    let name = option.name;
    let Some(takes) = option.takes.name() else {
        return match behind {
            None => Ok(OsString::new()),
            Some(value) => Err(given.wrong(format!("{name} takes nothing; {} follows it", shown(Path::new(&value))))),
        };
    };
    let is_option =
        |word: &OsString| word.to_str().is_some_and(|word| word == "--" || given.command.option(word).is_some());
    match behind.map_or_else(|| Err(rest.next().cloned()), Ok) {
        Ok(value) => Ok(value),
        Err(None) => Err(given.wrong(format!("{name}: {takes} is missing after it"))),
        Err(Some(word)) if is_option(&word) => {
            let word = word.to_string_lossy().into_owned();
            Err(given.wrong(format!("{name}: {takes} is missing after it; {word} follows")))
        }
        Err(Some(value)) => Ok(value),
    }
}

fn take_option(given: &mut Given, word: &OsStr, rest: &mut std::slice::Iter<OsString>) -> Result<()> {
    let (name, behind) = parts(word);
    let Some(option) = name.to_str().and_then(|name| given.command.option(name)) else {
        let name = shown(Path::new(&name));
        let names = given.command.options.iter().map(|option| option.name).chain(["--help"]);
        let meant = near::nearest(&name, names);
        return Err(given.wrong(format!("unknown option {name}{}", near::did_you_mean(meant))));
    };
    if given.has(option.name) {
        return Err(given.wrong(format!("{} is given twice", option.name)));
    }
    let value = value(given, option, behind, rest)?;
    given.options.push((option, value));
    Ok(())
}

/// Neither too few files nor too many, and none without a name.
fn check_count(given: &Given) -> Result<()> {
    let files = &given.command.files;
    if let Some(more) = given.files.get(files.most) {
        return Err(given.wrong(format!("{} is one word too many", shown(more))));
    }
    if given.files.iter().any(|file| file.as_os_str().is_empty()) {
        return Err(given.wrong("a name is empty"));
    }
    if given.files.len() < files.least {
        return Err(given.wrong(format!("{} is missing", files.name)));
    }
    Ok(())
}

/// `None` where help is asked for.
pub fn read_words(command: &'static Command, words: &[OsString]) -> Result<Option<Given>> {
    let mut given = Given { command, options: Vec::new(), files: Vec::new() };
    let plain = words.iter().take_while(|word| *word != "--");
    if plain.into_iter().any(|word| word.to_str().is_some_and(is_help)) {
        return Ok(None);
    }
    let mut rest = words.iter();
    while let Some(word) = rest.next() {
        if word == "--" {
            given.files.extend(rest.by_ref().map(PathBuf::from));
        } else if word.as_bytes().starts_with(b"-") && word != "-" {
            take_option(&mut given, word, &mut rest)?;
        } else {
            given.files.push(word.into());
        }
    }
    check_count(&given)?;
    for (option, value) in &given.options {
        look(&given, option, value)?;
    }
    for file in given.files.iter().filter(|_| command.files.there) {
        look_for(&given, "", file)?;
    }
    Ok(Some(given))
}
