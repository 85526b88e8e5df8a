//! Where there is no room: on the disk, and for what is told.

mod common;

use common::*;
use std::fs::{self, File};
use std::io::Write;
use std::path::Path;
use std::process::{Command, Stdio};

/// A disk of 1 MB, which goes with this. `None` where nobody may mount one.
struct Disk<'a>(&'a Path);

impl Disk<'_> {
    fn new(path: &Path) -> Option<Disk<'_>> {
        let mut mount = Command::new("mount");
        mount.args(["-t", "tmpfs", "-o", "size=1m", "tmpfs"]).arg(path).stderr(Stdio::null());
        mount.status().is_ok_and(|status| status.success()).then_some(Disk(path))
    }
}

/// Past the test runner, which would keep it to itself.
fn skipped() {
    let words = b"SKIPPED, in host/tests/full.rs: a disk of 1 MB can't be mounted here\n";
    std::io::stderr().write_all(words).unwrap();
}

impl Drop for Disk<'_> {
    fn drop(&mut self) {
        let _ = Command::new("umount").arg("-l").arg(self.0).status();
    }
}

/// What was cleaned stays, it is told how to close it, and that is done as soon as there is room.
#[test]
fn a_full_disk() {
    let path = folder("full-disk");
    fs::create_dir(path.join("disk")).unwrap();
    let disk = path.join("disk");
    let Some(_disk) = Disk::new(&disk) else {
        return skipped();
    };
    fs::write(disk.join("other"), vec![1; 200_000]).unwrap();
    let ended = fed(clean(&path, &["-", "--raw", "--out", "disk/out"]), &raw(10.0));
    assert_eq!(ended.status, Some(1));
    assert!(ended.why.contains("No space left on device"), "{}", ended.why);
    assert!(ended.why.contains("`box mend disk/out`"), "{}", ended.why);
    let left = names(&disk.join("out"));
    assert!(left.contains(&"left.wav.part".into()) && left.contains(&"left.wav.sheet".into()), "{left:?}");
    let there = size(&disk.join("out/left.wav.part"));
    assert!(there > 300_000, "{there}");
    // there is no room to close it either: that is told, and all stays
    let ended = run(host(&path, &["mend", "disk/out"]));
    if ended.status != Some(0) {
        assert!(ended.why.contains("No space left on device"), "{}", ended.why);
        assert!(size(&disk.join("out/left.wav.part")) + 2 * 480 >= there);
    }
    fs::remove_file(disk.join("other")).unwrap();
    assert_eq!(run(host(&path, &["mend", "disk/out"])).status, Some(0));
    for side in ["left", "right"] {
        let kept = sound(&disk.join(format!("out/{side}.wav")), side).len() as u64;
        assert!(2 * kept + 10_000 >= there, "{kept} samples of {there} bytes");
    }
}

/// Of recordings that are there still, nothing is left on a full disk.
#[test]
fn a_full_disk_for_files() {
    let path = folder("full-files");
    fs::create_dir(path.join("disk")).unwrap();
    let disk = path.join("disk");
    let Some(_disk) = Disk::new(&disk) else {
        return skipped();
    };
    for (name, sample) in [("l.wav", 100.0), ("r.wav", 200.0)] {
        let recording = tuppencehop::reading::wav::write(48_000, &vec![sample; 480_000]);
        fs::write(path.join(name), recording).unwrap();
    }
    let ended = run(clean(&path, &["--left", "l.wav", "--right", "r.wav", "--out", "disk/out"]));
    assert!(ended.status == Some(1) && ended.why.contains("No space left on device"), "{}", ended.why);
    assert!(!disk.join("out").exists());
}

/// No file may be longer than this, in blocks of 512 bytes: a full disk where none can be mounted.
fn limited(path: &Path, blocks: u32, words: &[&str]) -> Command {
    let mut shell = Command::new("sh");
    let limit = format!("trap '' XFSZ; ulimit -f {blocks}; exec \"$0\" \"$@\"");
    shell.args(["-c", &limit, env!("CARGO_BIN_EXE_tuppencehop")]).args(words).current_dir(path);
    shell.stdin(Stdio::null()).stdout(Stdio::piped()).stderr(Stdio::piped());
    shell
}

#[test]
fn a_file_that_can_not_grow() {
    let path = folder("full-file");
    let words = ["clean", "-", "--raw", "--model", "house.rnn", "--out", "out"];
    let ended = fed(limited(&path, 400, &words), &raw(4.0));
    assert_eq!(ended.status, Some(1));
    assert!(ended.why.contains("File too large") && ended.why.contains("`box mend out`"), "{}", ended.why);
    assert_eq!(run(host(&path, &["mend", "out"])).status, Some(0));
    for side in ["left", "right"] {
        assert!(sound(&path.join(format!("out/{side}.wav")), side).len() > 90_000, "{side}");
    }
}

/// A full disk where the answer is to be written: it is told on the other line, and by the status.
#[test]
fn an_answer_that_can_not_be_written() {
    let path = folder("full-answer");
    let samples = raw(0.5);
    let full = || File::options().write(true).open("/dev/full").unwrap();
    assert_eq!(fed(clean(&path, &["-", "--raw", "--out", "out"]), &samples).status, Some(0));
    let words: [&[&str]; 7] = [
        &["side", "out/left.wav"],
        &["side", "out/left.wav", "out/right.wav", "none.wav"],
        &["mend", "out/left.wav", "--out", "copy.wav"],
        &["mend", "out"],
        &["unpack", "house.rnn", "--out", "layers"],
        &["--help"],
        &["--version"],
    ];
    for words in words {
        let ended = run({
            let mut command = host(&path, words);
            command.stdout(full());
            command
        });
        assert_eq!(ended.status, Some(1), "{words:?}");
        assert!(ended.why.contains("standard output: No space left on device"), "{words:?}: {}", ended.why);
    }
    // what was to be done is done
    assert!(path.join("copy.wav").exists() && path.join("layers").exists());
    let mut command = clean(&path, &["-", "--raw", "--out", "again"]);
    command.stdout(full());
    let ended = fed(command, &samples);
    assert_eq!(ended.status, Some(1), "{}", ended.why);
    assert!(path.join("again/left.wav").exists());
    // and on the other line, where there is something to tell
    let mut command = host(&path, &["side", "none.wav"]);
    command.stderr(full());
    assert_eq!(run(command).status, Some(1));
}

/// Who does not want to hear more is not told more, and that is no fault.
#[test]
fn nobody_reads_on() {
    let path = folder("full-pipe");
    assert_eq!(fed(clean(&path, &["-", "--raw", "--out", "out"]), &raw(0.5)).status, Some(0));
    for words in [&["side", "out/left.wav", "out/right.wav"][..], &["--help"], &["mend", "out"]] {
        let (reader, writer) = std::io::pipe().unwrap();
        drop(reader);
        let mut command = host(&path, words);
        command.stdout(writer);
        let ended = run(command);
        assert_eq!((ended.status, &ended.why[..]), (Some(0), ""), "{words:?}");
    }
}
