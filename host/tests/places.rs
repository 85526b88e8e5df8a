//! Where things are written: over nothing that stands there without `--force`, by one run at a time, and in the
//! folder itself.

mod common;

use common::*;
use std::fs;
use std::os::unix::fs::symlink;
use std::path::{Path, PathBuf};
use std::process::Stdio;
use tuppencehop::reading::wav;

/// A folder with two recordings in it.
fn given(name: &str) -> PathBuf {
    let path = folder(name);
    for (side, sample) in [("l", 5.0), ("r", 7.0)] {
        fs::write(path.join(format!("{side}.wav")), wav::write(48_000, &[sample; 4_800])).unwrap();
    }
    path
}

fn two(path: &Path, out: &str, more: &[&str]) -> Ended {
    let words = ["--left", "l.wav", "--right", "r.wav", "--out", out];
    run(clean(path, &[&words[..], more].concat()))
}

/// Every file in a folder, and what is in it; of a page all but its date, which goes by the minute.
fn contents(path: &Path) -> Vec<(String, Vec<u8>)> {
    let read = |name: &str| {
        let file = fs::read(path.join(name)).unwrap();
        match String::from_utf8(file) {
            Ok(text) => text.split('\n').filter(|line| !line.contains(">date<")).collect::<Vec<_>>().join("\n").into(),
            Err(file) => file.into_bytes(),
        }
    };
    names(path).into_iter().map(|name| (name.clone(), read(&name))).collect()
}

#[test]
fn nothing_is_written_over() {
    let path = given("places-over");
    let words: [&[&str]; 4] = [
        &["clean", "--left", "l.wav", "--right", "r.wav", "--model", "house.rnn", "--out", "clean"],
        &["demo", "demo"],
        &["unpack", "house.rnn", "--out", "layers"],
        &["pack", "--layers", "layers", "--out", "models/new.rnn"],
    ];
    for (words, out) in words.into_iter().zip(["clean", "demo", "layers", "models"]) {
        assert_eq!(run(host(&path, words)).status, Some(0));
        let all = contents(&path.join(out));
        // each of the files alone stands in the way; of the demo, which takes longer, some
        for (name, _) in all.iter().step_by(if out == "demo" { 4 } else { 1 }) {
            fs::rename(path.join(out), path.join("aside")).unwrap();
            fs::create_dir(path.join(out)).unwrap();
            fs::write(path.join(out).join(name), b"of yesterday").unwrap();
            let ended = run(host(&path, words));
            assert_eq!(ended.status, Some(1), "{name}");
            assert!(ended.why.contains(&format!("{out}/{name}: it already exists")), "{}", ended.why);
            assert!(ended.why.contains("--force"), "{}", ended.why);
            assert_eq!(contents(&path.join(out)), [(name.clone(), b"of yesterday".to_vec())]);
            // with --force it is written over, and what was set aside is gone
            assert_eq!(run(host(&path, &[words, &["--force"]].concat())).status, Some(0));
            assert!(contents(&path.join(out)) == all, "{name}");
            fs::remove_dir_all(path.join(out)).unwrap();
            fs::rename(path.join("aside"), path.join(out)).unwrap();
        }
    }
}

/// A user's own names are nobody else's.
#[test]
fn force_takes_no_name_of_the_users() {
    let path = given("places-old");
    assert_eq!(two(&path, "out", &[]).status, Some(0));
    let once = contents(&path.join("out"));
    fs::write(path.join("out/left.wav.old"), b"the user's own").unwrap();
    fs::write(path.join("out/left.wav.old-2"), b"and another").unwrap();
    assert_eq!(two(&path, "out", &["--force"]).status, Some(0));
    assert_eq!(fs::read(path.join("out/left.wav.old")).unwrap(), b"the user's own");
    assert_eq!(fs::read(path.join("out/left.wav.old-2")).unwrap(), b"and another");
    assert_eq!(names(&path.join("out")).len(), once.len() + 2);
}

/// A folder stands in the table's place: the files that were put before it are taken back, and what they replaced is
/// there again.
#[test]
fn a_place_that_can_not_be_taken() {
    let path = given("places-taken");
    fs::create_dir_all(path.join("out/frames.csv/within")).unwrap();
    fs::write(path.join("out/left.wav"), b"of yesterday").unwrap();
    let ended = two(&path, "out", &["--force"]);
    assert!(ended.status == Some(1) && ended.why.contains("out/frames.csv"), "{}", ended.why);
    assert_eq!(names(&path.join("out")), ["frames.csv", "left.wav"]);
    assert!(path.join("out/frames.csv/within").exists());
    assert_eq!(fs::read(path.join("out/left.wav")).unwrap(), b"of yesterday");
}

/// Not even `--force` writes over what is read.
#[test]
fn recordings_that_stand_in_the_folder() {
    let path = given("places-within");
    let sound = fs::read(path.join("l.wav")).unwrap();
    fs::write(path.join("left.wav"), &sound).unwrap();
    for out in [".", "../places-within"] {
        for more in [&[][..], &["--force"]] {
            let words = [&["--left", "left.wav", "--right", "r.wav", "--out", out], more].concat();
            let ended = run(clean(&path, &words));
            assert!(ended.status == Some(1) && ended.why.contains("would be written over"), "{}", ended.why);
            assert!(fs::read(path.join("left.wav")).unwrap() == sound);
        }
    }
    fs::rename(path.join("left.wav"), path.join("left.wave")).unwrap();
    let words = ["--left", "left.wave", "--right", "r.wav", "--out", "."];
    assert_eq!(run(clean(&path, &words)).status, Some(0));
}

/// A recorder that failed to start is no reason to take a good recording away.
#[test]
fn no_samples() {
    let path = given("places-empty");
    assert_eq!(two(&path, "out", &[]).status, Some(0));
    let before = contents(&path.join("out"));
    for words in [&["-", "--raw", "--out", "out", "--force"][..], &["-", "--out", "out", "--force"]] {
        let ended = run(clean(&path, words));
        assert_eq!(ended.status, Some(1), "{}", ended.why);
        assert!(contents(&path.join("out")) == before);
    }
    let ended = run(clean(&path, &["-", "--raw", "-q", "--out", "none"]));
    assert_eq!((ended.status, &ended.why[..]), (Some(1), "box: no samples came: nothing is written\n"));
    assert!(!path.join("none").exists());
}

/// No name of a folder is not the current one.
#[test]
fn an_empty_name() {
    let path = given("places-name");
    fs::write(path.join("layers"), b"").unwrap();
    let before = contents(&path);
    let words: [&[&str]; 7] = [
        &["clean", "--left", "l.wav", "--right", "r.wav", "--model", "house.rnn", "--out", ""],
        &["clean", "-", "--raw", "--model", "house.rnn", "--out", ""],
        &["demo", ""],
        &["unpack", "house.rnn", "--out", ""],
        &["pack", "--layers", "layers", "--out", ""],
        &["mend", "l.wav", "--out", ""],
        &["mend", ""],
    ];
    for words in words {
        let ended = run(host(&path, words));
        assert!(ended.status == Some(2) && ended.why.contains("--help"), "{words:?}: {}", ended.why);
        assert!(contents(&path) == before);
    }
}

/// A link is not followed, neither where a file is on its way nor where it comes to stand.
#[test]
fn links() {
    let path = given("places-links");
    fs::create_dir(path.join("out")).unwrap();
    fs::write(path.join("other"), b"somebody's").unwrap();
    for name in ["left.wav.part", "right.wav.sheet", "frames.csv.part", "index.html.part"] {
        symlink("../other", path.join("out").join(name)).unwrap();
        for more in [&[][..], &["--force"]] {
            let ended = two(&path, "out", more);
            assert!(ended.status == Some(1) && ended.why.contains(name), "{}", ended.why);
        }
        if name.starts_with("left") {
            let ended = run(host(&path, &["mend", "out"]));
            assert!(ended.status == Some(1) && ended.why.contains("it stays as it is"), "{}", ended.why);
        }
        assert_eq!(
            (names(&path.join("out")), fs::read(path.join("other")).unwrap()),
            (vec![name.into()], b"somebody's".into())
        );
        fs::remove_file(path.join("out").join(name)).unwrap();
    }
    // one that leads nowhere stands there too; with --force it is replaced, and not what it leads to
    symlink("../nowhere", path.join("out/left.wav")).unwrap();
    assert_eq!(two(&path, "out", &[]).status, Some(1));
    fs::remove_file(path.join("out/left.wav")).unwrap();
    symlink("../other", path.join("out/left.wav")).unwrap();
    assert_eq!(two(&path, "out", &["--force"]).status, Some(0));
    assert!(!path.join("out/left.wav").is_symlink() && !path.join("nowhere").exists());
    assert_eq!(fs::read(path.join("other")).unwrap(), b"somebody's");
}

#[test]
fn two_runs_in_one_folder() {
    let path = given("places-two");
    let mut first = stream(&path);
    let mut to = first.stdin.take().unwrap();
    let samples = raw(1.0);
    std::io::Write::write_all(&mut to, &samples).unwrap();
    soon("nothing is written", || size(&path.join("out/left.wav.part")) > 20_000);
    let refused = |ended: Ended| {
        assert_eq!(ended.status, Some(1));
        assert_eq!(ended.why, "box: out: another run is writing into this folder\n");
    };
    refused(fed(clean(&path, &["-", "--raw", "-q", "--out", "out"]), &samples));
    refused(two(&path, "out", &["--force"]));
    refused(run(host(&path, &["demo", "out"])));
    refused(run(host(&path, &["mend", "out"])));
    drop(to);
    assert_eq!(ended(first.wait_with_output().unwrap()).status, Some(0));
    assert_eq!(fed(clean(&path, &["-", "--raw", "--out", "once"]), &samples).status, Some(0));
    assert!(contents(&path.join("out")) == contents(&path.join("once")));
}

/// A run that is dead holds nothing.
#[test]
fn a_dead_run_holds_no_lock() {
    let path = given("places-dead");
    let mut first = clean(&path, &["-", "--raw", "--out", "out"]).stdin(Stdio::piped()).spawn().unwrap();
    soon("nothing is written", || path.join("out/frames.csv.part").exists());
    first.kill().unwrap();
    first.wait().unwrap();
    assert_eq!(run(host(&path, &["mend", "out"])).status, Some(0));
    assert_eq!(two(&path, "out", &[]).status, Some(0));
}

/// What comes to stand in a recording's place while it is made stays, and the recording too.
#[test]
fn a_place_that_is_taken_meanwhile() {
    let path = given("places-meanwhile");
    let mut child = stream(&path);
    let mut to = child.stdin.take().unwrap();
    std::io::Write::write_all(&mut to, &raw(1.0)).unwrap();
    soon("nothing is written", || size(&path.join("out/left.wav.part")) > 20_000);
    fs::write(path.join("out/right.wav"), b"somebody's").unwrap();
    drop(to);
    let ended = ended(child.wait_with_output().unwrap());
    assert_eq!(ended.status, Some(1));
    assert!(ended.why.contains("out/right.wav: it already exists"), "{}", ended.why);
    assert!(ended.why.contains("`box mend out`"), "{}", ended.why);
    assert_eq!(run(host(&path, &["mend", "out"])).status, Some(0));
    assert_eq!(fs::read(path.join("out/right.wav")).unwrap(), b"somebody's");
    assert_eq!(sound(&path.join("out/left.wav"), "left").len(), 48_000);
    assert_eq!(sound(&path.join("out/right-2.wav"), "right").len(), 48_000);
}
