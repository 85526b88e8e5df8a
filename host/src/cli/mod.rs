//! The command line. Each command is a row of the table (`commands`): its words are read by it (`words`), and its help,
//! the man page and the completion are written from it.

mod clean;
pub mod command;
pub mod commands;
mod completion;
mod dictations;
pub mod help;
mod man;
mod models;
mod near;
mod sheets;
mod texts;
mod version;
pub mod words;

use crate::error::{Error, Result};
use crate::telling::answer;
use command::{is_help, Command};
use std::ffi::OsString;

/// A program of commands: the box, or the developers' own.
pub struct Program {
    /// What stands before the names of its commands: nothing, or `dev`.
    pub name: &'static str,
    pub commands: &'static [Command],
    /// Its help as a whole.
    pub help: fn() -> String,
    /// What it asks if no command is named.
    pub asks: &'static str,
}

/// The developers' commands are not in the box.
const ELSEWHERE: &str = "dev is a program of its own, tuppencehop-dev; ./box dev runs it where the project's text is";

impl Program {
    fn find(&self, name: &str) -> Result<&'static Command> {
        self.commands.iter().find(|command| command.short() == name).ok_or_else(|| self.unknown(name))
    }

    /// Why a word is no command.
    fn unknown(&self, word: &str) -> Error {
        if word == "dev" {
            return Error::misused(self.name, ELSEWHERE);
        }
        let meant = near::nearest(word, self.commands.iter().map(Command::short).chain(["help"]));
        Error::misused(self.name, &format!("unknown command {word}{}", near::did_you_mean(meant)))
    }

    /// The help of the whole, or of the command that the words name.
    fn tell_help(&self, words: &[OsString]) -> Result<()> {
        let words: Vec<_> = words.iter().map(|word| word.to_string_lossy()).collect();
        let text = match words.iter().find(|word| !is_help(word)) {
            None => (self.help)(),
            Some(name) => help::help_of(self.find(name)?),
        };
        crate::say!("{}", text.trim_end());
        Ok(())
    }

    fn run(&self, words: &[OsString]) -> Result<()> {
        let Some((first, rest)) = words.split_first() else { return Err(Error::misused(self.name, self.asks)) };
        match &*first.to_string_lossy() {
            "help" => self.tell_help(rest),
            word if is_help(word) => self.tell_help(rest),
            "--version" => {
                crate::say!("{}", version::told());
                Ok(())
            }
            word if word.starts_with('-') => {
                let meant = near::nearest(word, ["--help", "--version"]);
                let why = format!("unknown option {word}{}; a command comes first", near::did_you_mean(meant));
                Err(Error::misused(self.name, &why))
            }
            word => run_command(self.find(word)?, rest),
        }
    }
}

/// Reads a command's words, and runs it; or tells its help.
fn run_command(command: &'static Command, words: &[OsString]) -> Result<()> {
    match words::read_words(command, words)? {
        Some(given) => (command.run)(&given),
        None => {
            crate::say!("{}", help::help_of(command).trim_end());
            Ok(())
        }
    }
}

/// Says what went wrong, and gives its exit status.
fn complained(error: Error) -> u8 {
    answer::complain(&error.to_string());
    error.status()
}

/// Runs a command line, and gives its exit status.
pub fn run_program(program: &Program, words: &[OsString]) -> u8 {
    let status = program.run(words).err().map_or(0, complained);
    // what was told, but could not be written, is lost too
    status.max(answer::untold().err().map_or(0, complained))
}
