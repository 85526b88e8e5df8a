//! On a terminal: one line that moves, and colour; and neither where there is none, or where nobody wants it.

mod common;

use common::*;
use std::fs::{self, File};
use std::io::{Read, Write};
use std::os::fd::{AsRawFd, FromRawFd, OwnedFd};
use std::process::Stdio;
use std::sync::{Arc, Mutex};
use tuppencehop::reading::wav;

extern "C" {
    fn posix_openpt(flags: i32) -> i32;
    fn grantpt(fd: i32) -> i32;
    fn unlockpt(fd: i32) -> i32;
    fn ptsname_r(fd: i32, name: *mut u8, length: usize) -> i32;
}

/// A terminal, and what is shown on it.
struct Terminal {
    for_program: File,
    shown: Arc<Mutex<Vec<u8>>>,
}

impl Terminal {
    fn new() -> Terminal {
        const READ_AND_WRITE: i32 = 2;
        // SAFETY: a descriptor of our own, and a buffer that is lent for the length of the call
        let (fd, name) = unsafe {
            let fd = posix_openpt(READ_AND_WRITE);
            assert!(fd >= 0 && grantpt(fd) == 0 && unlockpt(fd) == 0, "a terminal");
            let fd = OwnedFd::from_raw_fd(fd);
            let mut name = [0; 100];
            assert_eq!(ptsname_r(fd.as_raw_fd(), name.as_mut_ptr(), name.len()), 0);
            (fd, name)
        };
        let name = String::from_utf8(name.into_iter().take_while(|byte| *byte != 0).collect()).unwrap();
        let for_program = File::options().read(true).write(true).open(name).unwrap();
        let (shown, mut from) = (Arc::new(Mutex::new(vec![])), File::from(fd));
        let to = shown.clone();
        std::thread::spawn(move || {
            let mut bytes = [0; 1_000];
            // it ends with a fault once nobody has it open
            while let Ok(read @ 1..) = from.read(&mut bytes) {
                to.lock().unwrap().extend(&bytes[..read]);
            }
        });
        Terminal { for_program, shown }
    }

    fn stderr(&self) -> Stdio {
        self.for_program.try_clone().unwrap().into()
    }

    fn text(&self) -> String {
        String::from_utf8_lossy(&self.shown.lock().unwrap()).into()
    }
}

/// The times that the lines of a stream tell, in seconds. A line that has not come whole is left out.
fn times(text: &str) -> Vec<u64> {
    let clocks = text.split('\r').filter_map(|line| line.split_once("  left ")?.0.split_once(':'));
    clocks.map(|(minutes, seconds)| 60 * minutes.parse::<u64>().unwrap() + seconds.parse::<u64>().unwrap()).collect()
}

/// The line of a stream tells time, level and voice of each bench, moves, and is gone at the end. It moves when samples
/// come, and no more often than every 200 ms: so samples are sent until it was seen, however slow the machine is.
#[test]
fn a_stream() {
    let path = folder("terminal-stream");
    let terminal = Terminal::new();
    let mut child = clean(&path, &["-", "--raw", "--out", "out"]);
    let mut child = child.stdin(Stdio::piped()).stderr(terminal.stderr()).spawn().unwrap();
    let mut to = child.stdin.take().unwrap();
    // the voices begin at 1.5 s
    let sound = raw(6.0);
    let mut pieces = sound.chunks(4 * 4_800).cycle();
    let seen = |text: &str| {
        let times = times(text);
        times.len() > 4 && times.last() >= Some(&5) && text.contains(" dB voice  right ")
    };
    soon("no line", || {
        to.write_all(pieces.next().unwrap()).unwrap();
        seen(&terminal.text())
    });
    drop(to);
    assert_eq!(child.wait().unwrap().code(), Some(0));
    soon("the line stays", || terminal.text().ends_with('\r'));
    // first it says how it reads samples without a header
    let text = terminal.text();
    let text = text.split_once("\r\n").unwrap().1;
    assert!(!text.contains('\n') && !text.contains("remaining"), "{text:?}");
    assert!(times(text).is_sorted(), "{text:?}");
    let last = text.trim_end_matches('\r').rsplit('\r').next().unwrap();
    assert!(!last.is_empty() && last.chars().all(|letter| letter == ' '), "{text:?}");
}

/// That of a file tells how much of it there is, and what is remaining. The file is long: the program must be at work
/// still when this test has seen the line.
#[test]
fn a_long_file() {
    let path = folder("terminal-file");
    let samples = dictations()[0].repeat(120);
    let length = samples.len() / 48_000;
    fs::write(path.join("l.wav"), wav::write(48_000, &samples)).unwrap();
    let terminal = Terminal::new();
    let mut child = clean(&path, &["--left", "l.wav", "--out", "out"]).stderr(terminal.stderr()).spawn().unwrap();
    soon("no line", || terminal.text().contains(" remaining"));
    signal(&child, INT);
    assert_eq!(child.wait().unwrap().code(), Some(2));
    soon("no reason", || terminal.text().contains("stopped after"));
    let text = terminal.text();
    let whole = format!(" of {}:{:02}, ", length / 60, length % 60);
    assert!(text.contains(" %  0:") && text.contains(&whole), "{text:?}");
    assert!(!text.contains(" left"), "{text:?}");
    // what is told behind it begins a line of its own, in colour
    assert!(text.contains("\r\u{1b}[1;31mbox:\u{1b}[0m l.wav: stopped after "), "{text:?}");
}

#[test]
fn quiet_and_without_a_terminal() {
    let path = folder("terminal-quiet");
    fs::write(path.join("l.wav"), wav::write(48_000, &dictations()[0].repeat(4))).unwrap();
    let words = ["--left", "l.wav", "--out", "out", "--force"];
    assert_eq!(run(clean(&path, &words)).why, "");
    let terminal = Terminal::new();
    let mut quiet = clean(&path, &[&words[..], &["-q"]].concat());
    assert!(quiet.stderr(terminal.stderr()).status().unwrap().success());
    assert_eq!(terminal.text(), "");
}

#[test]
fn colour_where_it_is_wanted() {
    let path = folder("terminal-colour");
    let shown = |set: &[(&str, &str)]| {
        let terminal = Terminal::new();
        let mut command = host(&path, &["wash"]);
        command.env_remove("NO_COLOR").env("TERM", "xterm").envs(set.iter().copied());
        assert_eq!(command.stderr(terminal.stderr()).status().unwrap().code(), Some(2));
        soon("nothing is told", || terminal.text().contains("see box --help\r\n"));
        terminal.text()
    };
    assert!(shown(&[]).starts_with("\u{1b}[1;31mbox:\u{1b}[0m unknown command wash"));
    assert!(shown(&[("NO_COLOR", "")]).contains('\u{1b}'));
    for set in [("NO_COLOR", "1"), ("TERM", "dumb")] {
        assert!(shown(&[set]).starts_with("box: unknown command wash"));
    }
    assert!(!run(host(&path, &["wash"])).why.contains('\u{1b}'));
}
