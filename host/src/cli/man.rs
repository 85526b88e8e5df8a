//! The man page, written from the table.

use crate::cli::command::Command;
use crate::cli::commands::COMMANDS;
use crate::cli::help::EXIT;
use std::fmt::Write;

/// A text as roff takes it: its own signs are escaped, and no line begins with a dot or an apostrophe.
fn roff(text: &str) -> String {
    let text = text.replace('\\', "\\e").replace('-', "\\-");
    let lines = text.lines().map(|line| match line.starts_with(['.', '\'']) {
        true => format!("\\&{line}"),
        false => line.into(),
    });
    lines.collect::<Vec<_>>().join("\n")
}

fn man_of(text: &mut String, command: &Command) {
    writeln!(text, ".SS box {}\n{}", roff(command.name), roff(command.what)).unwrap();
    for usage in command.usage {
        writeln!(text, ".PP\n.B {}", roff(format!("box {} {usage}", command.name).trim_end())).unwrap();
    }
    for option in command.options {
        writeln!(text, ".TP\n.B {}\n{}", roff(&option.shown()), roff(option.what)).unwrap();
    }
    for paragraph in command.about.split("\n\n").filter(|paragraph| !paragraph.is_empty()) {
        writeln!(text, ".PP\n{}", roff(paragraph)).unwrap();
    }
    for example in command.examples {
        writeln!(text, ".PP\n.EX\n    {}\n.EE", roff(example)).unwrap();
    }
}

pub fn page() -> String {
    let mut text = format!(
        ".TH TUPPENCEHOP 1 \"\" \"tuppencehop {}\"\n.SH NAME\nbox, tuppencehop \\- clean dictations over a grinder, \
         and tell whose each is\n\
         .SH SYNOPSIS\n.B box\nCOMMAND ..\n.PP\n.B box help\n[COMMAND]\n.PP\n.B box \\-\\-version\n\
         .SH DESCRIPTION\nAt two benches, left and right, somebody dictates over a grinder. The box takes the grinder \
         away, keeps the\n\
         benches apart, and writes the side behind each recording's audio. Options may stand in front of files or \
         behind\n\
         them; \\-\\-out=DIR is \\-\\-out DIR; behind \\-\\- are files alone.\n.SH COMMANDS\n",
        env!("CARGO_PKG_VERSION")
    );
    COMMANDS.iter().for_each(|one| man_of(&mut text, one));
    text += ".SH EXIT STATUS\nOf several the highest.\n";
    for (status, what) in EXIT {
        writeln!(text, ".TP\n.B {status}\n{}", roff(what)).unwrap();
    }
    text += ".SH ENVIRONMENT\n.TP\n.B NO_COLOR\nWhere it is set, nothing is coloured.\n";
    text
}
