//! A stop: INT, TERM and HUP, and Ctrl-C at a terminal. What came is closed and kept; a second signal ends the
//! program at once.

mod common;

use common::*;
use std::ffi::{c_char, c_int, CStr};
use std::fs::{self, File};
use std::io::{pipe, Read, Write};
use std::os::fd::FromRawFd;
use std::os::unix::process::{CommandExt, ExitStatusExt};
use std::path::Path;
use std::process::{Command, Stdio};
use std::sync::atomic::{AtomicUsize, Ordering};
use std::sync::Arc;
use std::thread::{sleep, spawn};
use std::time::Duration;
use tuppencehop::reading::wav;

/// What these samples give, cleaned to their end, in a folder `whole`.
fn whole(path: &Path, samples: &[u8]) {
    let ended = fed(clean(path, &["-", "--raw", "--out", "whole"]), samples);
    assert_eq!(ended.status, Some(0), "{}", ended.why);
}

#[test]
fn a_signal_is_the_end_of_a_stream() {
    let path = folder("stop-stream");
    let samples = raw(1.7);
    whole(&path, &samples);
    for number in [INT, TERM, HUP] {
        let mut child = stream(&path);
        let mut to = child.stdin.take().unwrap();
        to.write_all(&samples).unwrap();
        soon("nothing is written", || size(&path.join("out/left.wav.part")) > 20_000);
        signal(&child, number);
        let ended = ended(child.wait_with_output().unwrap());
        assert_eq!((ended.status, &ended.why[..]), (Some(0), ""), "{number}");
        // all that had come is there, and nothing else; the stream itself was still open
        assert_eq!(names(&path.join("out")), WITH_TABLE);
        for name in WITH_TABLE {
            let read = |folder: &str| fs::read(path.join(folder).join(name)).unwrap();
            assert!(read("out") == read("whole"), "{number}: {name}");
        }
        drop(to);
        fs::remove_dir_all(path.join("out")).unwrap();
    }
}

/// A recorder that never stops does not keep the program from its end.
#[test]
fn a_stream_without_an_end() {
    let path = folder("stop-endless");
    let mut child = clean(&path, &["-", "--raw", "--out", "out"]).stdin(Stdio::piped()).spawn().unwrap();
    let (mut to, part) = (child.stdin.take().unwrap(), raw(0.5));
    let recorder = spawn(move || while to.write_all(&part).is_ok() {});
    soon("nothing is written", || size(&path.join("out/left.wav.part")) > 20_000);
    signal(&child, TERM);
    assert!(child.wait().unwrap().success());
    recorder.join().unwrap();
    assert!(sound(&path.join("out/left.wav"), "left").len() > 10_000);
}

/// Behind `nohup` a lost line is no end.
#[test]
fn a_signal_that_is_ignored() {
    let path = folder("stop-nohup");
    let samples = raw(1.7);
    whole(&path, &samples);
    let words = "trap '' HUP; exec \"$0\" clean - --raw --model house.rnn --out out";
    let mut shell = Command::new("sh");
    shell.args(["-c", words, env!("CARGO_BIN_EXE_tuppencehop")]).current_dir(&path);
    shell.stdin(Stdio::piped()).stdout(Stdio::null());
    let mut child = shell.spawn().unwrap();
    let mut to = child.stdin.take().unwrap();
    let (first, rest) = samples.split_at(100_000);
    to.write_all(first).unwrap();
    soon("nothing is written", || size(&path.join("out/left.wav.part")) > 20_000);
    signal(&child, HUP);
    sleep(Duration::from_millis(200));
    to.write_all(rest).unwrap();
    drop(to);
    assert!(child.wait().unwrap().success());
    assert!(fs::read(path.join("out/left.wav")).unwrap() == fs::read(path.join("whole/left.wav")).unwrap());
}

#[test]
fn a_signal_before_a_file_is_read_to_its_end() {
    let path = folder("stop-file");
    let samples = raw(120.0);
    let mut file = wav::write(48_000, &vec![0.0; samples.len() / 2]);
    (file[22], file[32]) = (2, 4);
    file[HEADER..].copy_from_slice(&samples);
    fs::write(path.join("both.wav"), &file).unwrap();
    let child = clean(&path, &["--both", "both.wav", "-q", "--out", "out"]).spawn().unwrap();
    soon("nothing is written", || size(&path.join("out/left.wav.part")) > 200_000);
    signal(&child, INT);
    let ended = ended(child.wait_with_output().unwrap());
    assert_eq!(ended.status, Some(2), "{}", ended.why);
    assert_eq!(names(&path.join("out")), WITH_TABLE);
    let kept = sound(&path.join("out/left.wav"), "left").len();
    assert_eq!(sound(&path.join("out/right.wav"), "right").len(), kept);
    assert!((100_000..5_000_000).contains(&kept));
    let told = format!("box: both.wav: stopped after {:.1} of 120.0 s\n", kept as f64 / 48_000.0);
    assert_eq!(ended.why, told);
}

/// Its answer can't be written, since nobody reads it: so it still runs when the second signal comes.
#[test]
fn a_second_signal_ends_at_once() {
    let path = folder("stop-twice");
    let (unread, full) = pipe().unwrap();
    let (mut filler, written) = (full.try_clone().unwrap(), Arc::new(AtomicUsize::new(0)));
    let counted = written.clone();
    let filling = spawn(move || {
        while filler.write_all(&[0; 512]).is_ok() {
            counted.fetch_add(512, Ordering::SeqCst);
        }
    });
    soon("the pipe takes all", || {
        let before = written.load(Ordering::SeqCst);
        sleep(Duration::from_millis(200));
        before > 0 && written.load(Ordering::SeqCst) == before
    });
    let mut child = clean(&path, &["-", "--raw", "--out", "out"]).stdin(Stdio::piped()).stdout(full).spawn().unwrap();
    let mut to = child.stdin.take().unwrap();
    to.write_all(&raw(0.5)).unwrap();
    soon("nothing is written", || size(&path.join("out/left.wav.part")) > 20_000);
    signal(&child, INT);
    soon("the files are not closed", || path.join("out/index.html").exists());
    sleep(Duration::from_millis(100));
    assert!(child.try_wait().unwrap().is_none());
    signal(&child, TERM);
    assert_eq!(child.wait().unwrap().signal(), Some(TERM));
    drop(unread);
    filling.join().unwrap();
}

extern "C" {
    fn posix_openpt(flags: c_int) -> c_int;
    fn grantpt(fd: c_int) -> c_int;
    fn unlockpt(fd: c_int) -> c_int;
    fn ptsname(fd: c_int) -> *const c_char;
    fn setsid() -> c_int;
}

/// A terminal: its keyboard, and its name.
fn terminal() -> (File, String) {
    const READ_AND_WRITE: c_int = 2;
    // SAFETY: each answer is looked at, and the name is copied before another could take its place
    unsafe {
        let fd = posix_openpt(READ_AND_WRITE);
        assert!(fd >= 0 && grantpt(fd) == 0 && unlockpt(fd) == 0, "no terminal");
        let name = CStr::from_ptr(ptsname(fd)).to_str().unwrap().to_string();
        (File::from_raw_fd(fd), name)
    }
}

/// Ctrl-C reaches the recorder and the program behind its pipe.
#[test]
fn control_c_at_a_terminal() {
    let path = folder("stop-terminal");
    fs::write(path.join("second.raw"), raw(1.0)).unwrap();
    let (mut keyboard, name) = terminal();
    let words = format!(
        "exec <{name} >{name} 2>&1; trap : INT; \
         while cat second.raw; do sleep 0.05; done | \"$0\" clean - --raw --csv --model house.rnn --out out; echo $? \
         >status"
    );
    let mut shell = Command::new("sh");
    shell.args(["-c", &words, env!("CARGO_BIN_EXE_tuppencehop")]).current_dir(&path);
    shell.stdin(Stdio::null()).stdout(Stdio::null()).stderr(Stdio::null());
    // SAFETY: setsid may be called between fork and exec; the terminal that is opened then is the session's own
    unsafe { shell.pre_exec(|| if setsid() > 0 { Ok(()) } else { Err(std::io::Error::last_os_error()) }) };
    let mut shell = shell.spawn().unwrap();
    soon("nothing is written", || size(&path.join("out/left.wav.part")) > 200_000);
    keyboard.write_all(b"\x03").unwrap();
    shell.wait().unwrap();
    assert_eq!(fs::read_to_string(path.join("status")).unwrap(), "0\n");
    assert_eq!(names(&path.join("out")), WITH_TABLE);
    let kept = sound(&path.join("out/left.wav"), "left").len();
    assert!(kept > 100_000 && sound(&path.join("out/right.wav"), "right").len() == kept);
    // all that stands on the screen; where nobody has the terminal open any more, reading ends in a fault
    let mut said = vec![];
    let _ = keyboard.read_to_end(&mut said);
    let said = String::from_utf8_lossy(&said);
    assert!(said.contains("left: ") && said.contains("right: "), "{said}");
}
