//! Help, written from the table.

use crate::cli::command::{Command, Opt};
use crate::cli::commands::COMMANDS;
use std::fmt::Write;

const WIDE: usize = 90;

/// A text in lines, each behind so many spaces.
fn wrapped(text: &str, behind: usize) -> String {
    let mut lines: Vec<String> = vec![String::new()];
    for word in text.split_whitespace() {
        let line = lines.last_mut().expect("there is one");
        if line.is_empty() {
            *line = word.into();
        } else if behind + line.len() + 1 + word.len() <= WIDE {
            *line += " ";
            *line += word;
        } else {
            lines.push(word.into());
        }
    }
    lines.join(&format!("\n{:behind$}", ""))
}

/// The exit statuses, each with its meaning.
pub const EXIT: [(u8, &str); 7] = [
    (0, "done as asked"),
    (1, "it could not be done"),
    (
        2,
        "what was given is not right: the command line, or a recording that is not whole or seems to be another \
         bench's",
    ),
    (3, "`side` finds no recording"),
    (4, "`side` finds a recording of an earlier version of the box, or a side sheet without a seal"),
    (5, "`side` finds a recording that is not as the box wrote it"),
    (6, "`side` finds a name, or a folder's name, that says the other side"),
];

fn exit(text: &mut String) {
    *text += "Exit status, of several the highest:\n";
    for (status, what) in EXIT {
        writeln!(text, "  {status}  {}", wrapped(what, 5)).unwrap();
    }
}

/// What each does, in a line.
pub fn list(text: &mut String, commands: &[Command]) {
    for command in commands {
        writeln!(text, "  {:14}  {}", command.name, command.what).unwrap();
    }
}

pub fn help_of_box() -> String {
    let mut text =
        String::from("box: cleans dictations over a grinder, and tells whose each is\n\n  box COMMAND ..\n\n");
    list(&mut text, COMMANDS);
    text += "\n  box COMMAND --help, box help COMMAND: all about one\n";
    text += "  box --help, box --version\n\n";
    text += "Options may come before or after files; --out=DIR is --out DIR; after -- come files alone.\n\n";
    text += "Examples:\n";
    for example in COMMANDS.iter().flat_map(|command| command.examples) {
        writeln!(text, "  {example}").unwrap();
    }
    text += "\n";
    exit(&mut text);
    text
}

fn option(text: &mut String, option: &Opt) {
    writeln!(text, "  {:20}  {}", option.shown(), wrapped(option.what, 24)).unwrap();
}

pub fn help_of(command: &Command) -> String {
    let mut text = format!("box {}: {}\n\n", command.name, command.what);
    for usage in command.usage {
        writeln!(text, "  {}", format!("box {} {usage}", command.name).trim_end()).unwrap();
    }
    if !command.options.is_empty() {
        text += "\nOptions:\n";
        command.options.iter().for_each(|one| option(&mut text, one));
    }
    for paragraph in command.about.split("\n\n").filter(|paragraph| !paragraph.is_empty()) {
        write!(text, "\n{}\n", wrapped(paragraph, 0)).unwrap();
    }
    if !command.examples.is_empty() {
        text += "\nExamples:\n";
        command.examples.iter().for_each(|example| writeln!(text, "  {example}").unwrap());
    }
    text
}
