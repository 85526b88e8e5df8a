//! The completion for bash, written from the table.

use crate::cli::command::{Command, Takes};
use crate::cli::commands::COMMANDS;
use std::fmt::Write;

/// What may follow an option of a command.
fn values(text: &mut String, commands: &[Command]) {
    for (command, option) in commands.iter().flat_map(|one| one.options.iter().map(move |option| (one.name, option))) {
        let offer = match &option.takes {
            Takes::OneOf(words) => format!("COMPREPLY=($(compgen -W '{}' -- \"$word\")); ", words.join(" ")),
            Takes::Text(_) => String::new(),
            _ => continue,
        };
        writeln!(text, "    '{command} {}') {offer}return ;;", option.name).unwrap();
    }
}

/// The options of each command.
fn options(text: &mut String, commands: &[Command]) {
    for command in commands {
        let names: Vec<&str> = command.options.iter().map(|option| option.name).chain(["--help"]).collect();
        writeln!(text, "    '{}') options='{}' ;;", command.name, names.join(" ")).unwrap();
    }
}

const HEAD: &str = r#"# Completion of box for bash.
_box() {
    local word=${COMP_WORDS[COMP_CWORD]} before=${COMP_WORDS[COMP_CWORD-1]}
    local command=${COMP_WORDS[1]} names= options=
    COMPREPLY=()
    case $COMP_CWORD:$command in
"#;

const TAIL: &str = r#"    esac
    case $word in
    -*) COMPREPLY=($(compgen -W "$options" -- "$word")) ;;
    *) compopt -o filenames 2>/dev/null; mapfile -t COMPREPLY < <(compgen -f -- "$word") ;;
    esac
}
complete -F _box box tuppencehop
"#;

pub fn script() -> String {
    let all = COMMANDS.iter().map(Command::short).collect::<Vec<_>>().join(" ");
    let mut text = String::from(HEAD);
    for (at, names) in [("1:*", format!("{all} help --help --version")), ("2:help", all)] {
        writeln!(text, "    {at}) names='{names}' ;;").unwrap();
    }
    text += "    esac\n    [ -z \"$names\" ] || { COMPREPLY=($(compgen -W \"$names\" -- \"$word\")); return; }\n";
    text += "    case \"$command $before\" in\n";
    values(&mut text, COMMANDS);
    text += "    esac\n    case $command in\n";
    options(&mut text, COMMANDS);
    text + TAIL
}
