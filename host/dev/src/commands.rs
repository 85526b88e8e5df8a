//! The developers' commands, as `./box dev` runs them.

use crate::bench::{self, Speed};
use crate::{lags, logs, text};
use std::fmt::Write;
use tuppencehop::cli::command::{Command, Files};
use tuppencehop::cli::commands::JSON;
use tuppencehop::cli::words::Given;
use tuppencehop::cli::{help, Program};
use tuppencehop::error::Result;
use tuppencehop::telling::json::{rounded, Json};

pub const DEV: Program = Program { name: "dev", commands: COMMANDS, help: help_of_dev, asks: "which of them?" };

pub const COMMANDS: &[Command] = &[
    Command {
        name: "dev bench",
        what: "How fast the box is.",
        usage: &[""],
        files: Files::NONE,
        options: &[JSON],
        about: "\
Frames a second in pieces, as clean runs them, with either --lag; how much of a core sixteen benches leave idle; frames
in four calls each, with this program's transforms, beside the Rust text; and where a frame's time goes.",
        examples: &[],
        run: run_bench,
    },
    Command {
        name: "dev lags",
        what: "How often our own lag and that of the Rust text agree.",
        usage: &[""],
        files: Files::NONE,
        options: &[],
        about: "On the demo's voices and on seeded ones of known pitch.",
        examples: &[],
        run: run_lags,
    },
    Command {
        name: "dev logs",
        what: "How far the sound moves with the library's own logarithms.",
        usage: &[""],
        files: Files::NONE,
        options: &[],
        about: "Against those of this machine: on the demo and on ten minutes of noise and speech.",
        examples: &[],
        run: run_logs,
    },
    Command {
        name: "dev text",
        what: "How far a recording is from what the Rust text gives.",
        usage: &[""],
        files: Files::NONE,
        options: &[],
        about: "Sample by sample beside its process_frame: on the demo and on ten minutes of noise and speech.",
        examples: &[],
        run: run_text,
    },
];

fn help_of_dev() -> String {
    let mut text = String::from("box dev: what serves developers\n\n");
    help::list(&mut text, COMMANDS);
    write!(text, "\n  box dev COMMAND --help: all about one\n").unwrap();
    text
}

fn speed_json(speed: &Speed) -> Json {
    let numbers = [
        ("pieces", speed.pieces),
        ("own", speed.own),
        ("calls", speed.calls),
        ("rust", speed.rust),
        ("calls_to_rust", speed.rust / speed.calls),
        ("idle", speed.idle),
    ];
    let numbers = numbers.into_iter().map(|(name, number)| (name, rounded(number, 3).into()));
    Json::Object(numbers.chain([("status", Json::from(0u32))]).collect())
}

fn run_bench(given: &Given) -> Result<()> {
    let speed = bench::measure();
    match given.has("--json") {
        true => tuppencehop::say!("{}", speed_json(&speed)),
        false => speed.tell(),
    }
    Ok(())
}

fn run_lags(_: &Given) -> Result<()> {
    lags::lags()
}

fn run_logs(_: &Given) -> Result<()> {
    logs::logs();
    Ok(())
}

fn run_text(_: &Given) -> Result<()> {
    text::tell_distances();
    Ok(())
}
