//! What the system may refuse: a disk that fails, a file system without locks or without `renameat2`, and bytes that
//! come back otherwise. (The calls are made to fail by a small library in front of the system's own,
//! tests/shim/shim.c.)

mod common;

use common::*;
use std::fs;
use std::io::Write;
use std::path::{Path, PathBuf};
use std::process::{Command, Stdio};
use std::sync::OnceLock;
use std::thread::sleep;
use std::time::Duration;
use tuppencehop::cleaning::demo::HOUSE;
use tuppencehop::cleaning::recorder::Side;
use tuppencehop::reading::wav;
use tuppencehop::recording::front::Front;

/// The library in front of the system's own, built once.
fn shim() -> &'static Path {
    static SHIM: OnceLock<PathBuf> = OnceLock::new();
    SHIM.get_or_init(|| {
        let place = folder("system-shim").join("shim.so");
        let text = Path::new(env!("CARGO_MANIFEST_DIR")).join("tests/shim/shim.c");
        let built = Command::new("cc").args(["-shared", "-fPIC", "-O1", "-o"]).arg(&place).arg(text).status();
        assert!(built.is_ok_and(|status| status.success()), "the shim is not built");
        place
    })
}

/// The program, of which this call of the system fails.
fn failing(mut command: Command, call: &str) -> Command {
    command.env("LD_PRELOAD", shim()).env("SHIM", call);
    command
}

/// A folder with a short recording of each bench.
fn given(name: &str) -> PathBuf {
    let path = folder(&format!("system-{name}"));
    for (name, sample) in [("l.wav", 500.0), ("r.wav", 700.0)] {
        fs::write(path.join(name), wav::write(48_000, &[[sample; 20], [-sample; 20]].concat().repeat(60))).unwrap();
    }
    path
}

const TWO: [&str; 6] = ["--left", "l.wav", "--right", "r.wav", "--out", "out"];

/// What is not on the disk was not written: a run of files leaves nothing, and says why.
#[test]
fn a_disk_that_fails_at_the_end() {
    let path = given("disk");
    let ended = run(failing(clean(&path, &TWO), "fdatasync"));
    assert_eq!(ended.status, Some(1));
    assert!(ended.why.contains("left.wav: Input/output error"), "{}", ended.why);
    assert!(!path.join("out").exists());
    // the right bench alone, so that its own file is the one that fails
    let ended = run(failing(clean(&path, &["--right", "r.wav", "--out", "out"]), "fdatasync"));
    assert_eq!(ended.status, Some(1), "{}", ended.why);
    assert!(!path.join("out").exists());
}

/// Of a stream it is found out while it runs, within seconds and not at its end; what came is left for `box mend`.
#[test]
fn a_disk_that_fails_while_a_stream_runs() {
    let path = given("stream");
    let mut command = failing(clean(&path, &["-", "--raw", "-q", "--out", "out"]), "fdatasync");
    command.env("SHIM_WHEN", path.join("now"));
    let mut child = command.stdin(Stdio::piped()).spawn().unwrap();
    let (mut to, part) = (child.stdin.take().unwrap(), raw(0.1));
    to.write_all(&raw(0.5)).unwrap();
    soon("nothing is written", || size(&path.join("out/left.wav.part")) > 20_000);
    fs::write(path.join("now"), "").unwrap();
    // the pipe stays open: it is not the end of the stream that ends the run
    let mut written = 0;
    while to.write_all(&part).is_ok() {
        written += 1;
        assert!(written < 200, "the disk fails, and nobody notices");
        sleep(Duration::from_millis(50));
    }
    let ended = ended(child.wait_with_output().unwrap());
    assert_eq!(ended.status, Some(1));
    assert!(ended.why.contains("Input/output error") && ended.why.contains("`box mend out`"), "{}", ended.why);
    assert_eq!(run(host(&path, &["mend", "out"])).status, Some(0));
    assert!(!sound(&path.join("out/left.wav"), "left").is_empty());
}

/// A file system without locks: the run is done, and it is said that no second one would be noticed.
#[test]
fn a_file_system_without_locks() {
    let path = given("locks");
    let ended = run(failing(clean(&path, &TWO), "flock"));
    assert_eq!(ended.status, Some(0), "{}", ended.why);
    assert!(ended.why.starts_with("out: no second run would be noticed here: "), "{}", ended.why);
    assert_eq!(names(&path.join("out")), WITH_TABLE);
    // where there are locks nothing is said
    assert_eq!(run(clean(&path, &[&TWO[..4], &["--out", "other"]].concat())).why, "");
}

/// Without `renameat2` the files come to their places all the same, and nothing is written over.
#[test]
fn a_file_system_without_renameat2() {
    let path = given("rename");
    let done = run(failing(clean(&path, &TWO), "renameat2"));
    assert_eq!((done.status, &*done.why), (Some(0), ""));
    assert_eq!(names(&path.join("out")), WITH_TABLE);
    // what comes to stand there meanwhile stays
    let mut command = failing(clean(&path, &["-", "--raw", "-q", "--out", "new"]), "renameat2");
    let mut child = command.stdin(Stdio::piped()).spawn().unwrap();
    let mut to = child.stdin.take().unwrap();
    to.write_all(&raw(0.5)).unwrap();
    soon("nothing is written", || size(&path.join("new/left.wav.part")) > 10_000);
    fs::write(path.join("new/right.wav"), b"somebody's").unwrap();
    drop(to);
    let ended = ended(child.wait_with_output().unwrap());
    assert!(ended.status == Some(1) && ended.why.contains("new/right.wav: it already exists"), "{}", ended.why);
    assert_eq!(fs::read(path.join("new/right.wav")).unwrap(), b"somebody's");
}

/// A model that was not written as it was handed over is not put in its place: a byte is enough.
#[test]
fn what_does_not_read_back() {
    let path = given("back");
    let words = ["import", "house.rnn", "--out", "new.rnn"];
    let ended = run(failing(host(&path, &words), "write"));
    assert_eq!(ended.status, Some(1));
    assert_eq!(ended.why, "box: new.rnn: what was written does not read back\n");
    assert!(!path.join("new.rnn").exists() && !path.join("new.rnn.part").exists());
    assert_eq!(run(host(&path, &words)).status, Some(0));
    assert_eq!(fs::read(path.join("new.rnn")).unwrap(), HOUSE);
}

/// A recording that is not on the disk as it was written gets no place: a bit is enough.
#[test]
fn a_disk_that_turns_a_bit() {
    let path = given("bit");
    let not = |place: &str, side: &str, why: &str| {
        let gets_none =
            format!("what was written is not accepted as a recording of the {side} side, and gets no place");
        format!("box: {place}: {gets_none}: {why}\n")
    };
    let audio = "its audio was changed, or the seal after it (refusal 63)";
    let ended = run(failing(clean(&path, &TWO), "write"));
    assert_eq!((ended.status, ended.why), (Some(1), not("out/left.wav", "left", audio)));
    assert!(!path.join("out").exists());
    let ended = run(failing(clean(&path, &["--right", "r.wav", "--out", "out"]), "write"));
    assert_eq!((ended.status, ended.why), (Some(1), not("out/right.wav", "right", audio)));
    assert!(!path.join("out").exists());
    // a file that is mended
    assert_eq!(run(clean(&path, &TWO)).status, Some(0));
    let whole = fs::read(path.join("out/right.wav")).unwrap();
    fs::write(path.join("torn.wav"), &whole[..whole.len() - 9]).unwrap();
    let words = ["mend", "torn.wav", "--out", "new.wav"];
    let ended = run(failing(host(&path, &words), "write"));
    assert_eq!((ended.status, ended.why), (Some(1), not("new.wav", "right", audio)));
    assert!(!path.join("new.wav").exists() && !path.join("new.wav.part").exists());
    assert_eq!(run(host(&path, &words)).status, Some(0));
    // and what a run left: two seconds, and their records
    let front = Front { side: Side::Left, began: 0, first: 0 };
    let part = path.join("left/left.wav.part");
    fs::create_dir(path.join("left")).unwrap();
    fs::write(&part, [&front.open_head()[..], &raw(1.0)].concat()).unwrap();
    fs::write(path.join("left/left.wav.sheet"), front.seal()).unwrap();
    let ended = run(failing(host(&path, &["mend", "left"]), "write"));
    let records = "the end of its records is damaged or missing (refusal 65)";
    assert_eq!((ended.status, ended.why), (Some(1), not("left/left.wav.part", "left", records)));
    assert!(part.exists() && !path.join("left/left.wav").exists());
    assert_eq!(run(host(&path, &["mend", "left"])).status, Some(0));
    assert_eq!(sound(&path.join("left/left.wav"), "left").len(), 96_000);
}

/// After a signal no more is taken than a pipe holds, whatever goes on coming: this one is always full.
#[test]
fn no_more_than_a_pipe_holds_after_a_signal() {
    let path = given("limit");
    let mut command = clean(&path, &["-", "--raw", "-q", "--out", "out"]);
    let mut child = command.stdin(fs::File::open("/dev/zero").unwrap()).spawn().unwrap();
    let part = path.join("out/left.wav.part");
    soon("nothing is written", || size(&part) > 20_000);
    let before = size(&part);
    signal(&child, TERM);
    let mut waited = 0;
    while child.try_wait().unwrap().is_none() {
        waited += 1;
        // a minute of sound is more than a mebibyte of both benches many times over
        if waited > 2_000 || size(&part) > before + 60 * 96_000 {
            child.kill().unwrap();
            panic!("it reads on after a signal");
        }
        sleep(Duration::from_millis(10));
    }
    assert!(child.wait().unwrap().success());
    assert!(!sound(&path.join("out/right.wav"), "right").is_empty());
}
