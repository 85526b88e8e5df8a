//! Why something could not be done: one type for the whole program. The variant gives the exit status, as the table in
//! docs/BOX.md has it. A refusal of the library keeps its number up to the end of the command.

use crate::reading::wav::Fault;
use crate::telling::refusal::Refusal;
use crate::telling::shown::shown;
use std::fmt::{self, Display};
use std::io;
use std::path::Path;

pub type Result<T, E = Error> = std::result::Result<T, E>;

/// The reason in words. If the library refused a call, also its number.
#[derive(Clone, Debug, PartialEq)]
pub struct Reason {
    pub text: String,
    pub refusal: Option<Refusal>,
}

#[derive(Clone, Debug, PartialEq)]
pub enum Error {
    /// What was asked could not be done.
    Undone(Reason),
    /// What was given is not right: the command line, or a recording that is not whole or is another bench's.
    Wrong(Reason),
    /// The file is no recording.
    NoRecording(Reason),
    /// An earlier version of the box wrote it, or it has a side sheet without a seal.
    Unsealed(Reason),
    /// The recording is not as the box wrote it.
    Damaged(Reason),
    /// The file's name says another side.
    Misnamed(Reason),
    /// More than one thing went wrong. The highest status counts.
    Several(Vec<Error>),
    /// Everything was reported already. Only the exit status is left.
    Reported(u8),
}

impl Error {
    pub fn undone(text: impl Into<String>) -> Error {
        Error::Undone(Reason::words(text))
    }

    pub fn wrong(text: impl Into<String>) -> Error {
        Error::Wrong(Reason::words(text))
    }

    /// The same status as the worst of these, which were reported already; nothing if there is none.
    pub fn reported(all: impl IntoIterator<Item = u8>) -> Result<()> {
        all.into_iter().filter(|status| *status > 0).max().map_or(Ok(()), |worst| Err(Error::Reported(worst)))
    }

    /// All of these; nothing if there is none.
    pub fn several(mut all: Vec<Error>) -> Result<()> {
        match all.len() {
            0 => Ok(()),
            1 => Err(all.remove(0)),
            _ => Err(Error::Several(all)),
        }
    }

    /// A command line that is not right, and where its help is.
    pub fn misused(command: &str, why: &str) -> Error {
        match command {
            "" => Error::wrong(format!("{why}\nsee box --help")),
            _ => Error::wrong(format!("{command}: {why}\nsee box {command} --help")),
        }
    }

    /// The exit status.
    pub fn status(&self) -> u8 {
        match self {
            Error::Undone(_) => 1,
            Error::Wrong(_) => 2,
            Error::NoRecording(_) => 3,
            Error::Unsealed(_) => 4,
            Error::Damaged(_) => 5,
            Error::Misnamed(_) => 6,
            Error::Several(all) => all.iter().map(Error::status).max().unwrap_or(0),
            Error::Reported(status) => *status,
        }
    }

    /// The library's refusal that this comes from; of several errors the first.
    pub fn refusal(&self) -> Option<Refusal> {
        match self {
            Error::Several(all) => all.iter().find_map(Error::refusal),
            _ => self.reason()?.refusal,
        }
    }

    fn reason(&self) -> Option<&Reason> {
        match self {
            Error::Undone(reason)
            | Error::Wrong(reason)
            | Error::NoRecording(reason)
            | Error::Unsealed(reason)
            | Error::Damaged(reason)
            | Error::Misnamed(reason) => Some(reason),
            Error::Several(_) | Error::Reported(_) => None,
        }
    }

    /// The same error with another text. Status and refusal stay as they are.
    pub fn reworded(self, words: impl Fn(&str) -> String) -> Error {
        self.with_words(&words)
    }

    fn with_words(self, words: &dyn Fn(&str) -> String) -> Error {
        let reworded = |reason: Reason| Reason { text: words(&reason.text), ..reason };
        match self {
            Error::Undone(reason) => Error::Undone(reworded(reason)),
            Error::Wrong(reason) => Error::Wrong(reworded(reason)),
            Error::NoRecording(reason) => Error::NoRecording(reworded(reason)),
            Error::Unsealed(reason) => Error::Unsealed(reworded(reason)),
            Error::Damaged(reason) => Error::Damaged(reworded(reason)),
            Error::Misnamed(reason) => Error::Misnamed(reworded(reason)),
            Error::Several(all) => Error::Several(all.into_iter().map(|one| one.with_words(words)).collect()),
            Error::Reported(status) => Error::Reported(status),
        }
    }

    /// The same error, with the place it is about before its text.
    pub fn within(self, place: impl Display) -> Error {
        self.reworded(|text| format!("{place}: {text}"))
    }

    /// The same error, of this file.
    pub fn at(self, path: &Path) -> Error {
        self.within(shown(path))
    }
}

impl Reason {
    pub fn words(text: impl Into<String>) -> Reason {
        Reason { text: text.into(), refusal: None }
    }
}

impl From<Refusal> for Reason {
    fn from(refusal: Refusal) -> Reason {
        Reason { text: refusal.to_string(), refusal: Some(refusal) }
    }
}

impl From<&str> for Reason {
    fn from(text: &str) -> Reason {
        Reason::words(text)
    }
}

impl From<String> for Reason {
    fn from(text: String) -> Reason {
        Reason::words(text)
    }
}

impl From<Refusal> for Error {
    fn from(refusal: Refusal) -> Error {
        Error::Undone(refusal.into())
    }
}

impl From<io::Error> for Error {
    fn from(why: io::Error) -> Error {
        Error::undone(why.to_string())
    }
}

impl From<Fault> for Error {
    fn from(fault: Fault) -> Error {
        Error::Undone(Reason { text: fault.to_string(), refusal: fault.refusal() })
    }
}

/// What is printed: a line for each thing that went wrong, nothing if it was reported already.
impl Display for Error {
    fn fmt(&self, f: &mut fmt::Formatter) -> fmt::Result {
        match self {
            Error::Several(all) => {
                let lines: Vec<String> = all.iter().map(Error::to_string).filter(|line| !line.is_empty()).collect();
                write!(f, "{}", lines.join("\n"))
            }
            _ => self.reason().map_or(Ok(()), |reason| write!(f, "{}", reason.text)),
        }
    }
}

/// Says in an error what it is about.
pub trait At<T> {
    /// The error is of this file.
    fn at(self, path: &Path) -> Result<T>;

    /// The error is of this place within a file.
    fn within(self, place: impl Display) -> Result<T>;
}

impl<T, E: Into<Error>> At<T> for Result<T, E> {
    fn at(self, path: &Path) -> Result<T> {
        self.map_err(|why| why.into().at(path))
    }

    fn within(self, place: impl Display) -> Result<T> {
        self.map_err(|why| why.into().within(place))
    }
}

#[cfg(test)]
mod tests {
    use super::*;

    /// Whatever is said around it, a refusal keeps its number, and an error its status.
    #[test]
    fn a_refusal_keeps_its_number() {
        let refusal = Refusal(52);
        for (error, status) in [
            (Error::from(refusal), 1),
            (Error::Wrong(refusal.into()), 2),
            (Error::NoRecording(refusal.into()), 3),
            (Error::Unsealed(refusal.into()), 4),
            (Error::Damaged(refusal.into()), 5),
            (Error::Misnamed(refusal.into()), 6),
        ] {
            let text = error.to_string();
            let error = Err::<(), _>(error).within("line 7").at(Path::new("a.wav")).unwrap_err();
            assert_eq!((error.status(), error.refusal()), (status, Some(refusal)));
            assert_eq!(error.to_string(), format!("a.wav: line 7: {text}"));
            let several = Error::several(vec![Error::undone("one"), error.clone(), Error::Reported(1)]).unwrap_err();
            assert_eq!((several.status(), several.refusal()), (status, Some(refusal)));
            assert_eq!(several.to_string(), format!("one\n{error}"));
        }
    }

    #[test]
    fn nothing_is_no_error() {
        assert_eq!((Error::several(vec![]), Error::reported([0, 0])), (Ok(()), Ok(())));
        assert_eq!(Error::several(vec![Error::wrong("x")]), Err(Error::wrong("x")));
        assert_eq!(Error::reported([3, 0, 5, 1]), Err(Error::Reported(5)));
        assert_eq!(Error::Reported(5).to_string(), "");
    }
}
