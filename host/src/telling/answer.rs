//! What is told to people, and whether it could be told.

use crate::error::{Error, Result};
use crate::sys::terminal;
use crate::telling::shown;
use std::env;
use std::fmt;
use std::io::{self, ErrorKind, Write};
use std::sync::Mutex;

/// Why a line could not be written, the first time that this happened.
static UNTOLD: Mutex<Option<String>> = Mutex::new(None);
/// How many letters the line has that moves on the terminal.
static MOVING: Mutex<usize> = Mutex::new(0);

/// Where nobody reads any more, as behind `| head -1`, the line is lost and the work goes on: that is what they chose.
fn note(name: &str, written: io::Result<()>) {
    match written {
        Err(why) if why.kind() != ErrorKind::BrokenPipe => {
            UNTOLD.lock().unwrap().get_or_insert_with(|| format!("{name}: {why}"));
        }
        _ => {}
    }
}

/// A line to standard output.
pub fn say(words: fmt::Arguments) {
    still();
    let mut to = io::stdout().lock();
    note("standard output", writeln!(to, "{}", shown::safe(&words.to_string())).and_then(|()| to.flush()));
}

/// A line to standard error.
pub fn warn(words: fmt::Arguments) {
    still();
    note("standard error", writeln!(io::stderr(), "{}", shown::safe(&words.to_string())));
}

/// Whether standard error may be coloured: it is a terminal, and nobody asked for none.
fn is_colourful() -> bool {
    let is_set = |name: &str| env::var_os(name).is_some_and(|value| !value.is_empty());
    terminal::is_there() && !is_set("NO_COLOR") && env::var_os("TERM").is_none_or(|term| term != "dumb")
}

/// What went wrong, line by line, to standard error.
pub fn complain(why: &str) {
    let name = if is_colourful() { "\x1b[1;31mbox:\x1b[0m" } else { "box:" };
    for line in why.lines() {
        still();
        note("standard error", writeln!(io::stderr(), "{name} {}", shown::safe(line)));
    }
}

/// A line on the terminal in the place of the one before it.
pub fn moving(line: &str) {
    let (mut before, now) = (MOVING.lock().unwrap(), line.chars().count());
    let behind = before.saturating_sub(now);
    note("standard error", write!(io::stderr(), "\r{line}{:behind$}", ""));
    *before = now;
}

/// Takes the moving line away, so that another may be told.
pub fn still() {
    if *MOVING.lock().unwrap() > 0 {
        moving("");
        note("standard error", write!(io::stderr(), "\r"));
    }
}

/// Why not all that was told could be written, as on a full disk.
pub fn untold() -> Result<()> {
    UNTOLD.lock().unwrap().clone().map_or(Ok(()), |why| Err(Error::undone(why)))
}
