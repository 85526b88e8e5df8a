//! Several recordings at a time: the same files, the same answers and the same order as one after the other.

mod common;

use common::*;
use std::collections::BTreeMap;
use std::fs;
use std::path::{Path, PathBuf};
use tuppencehop::reading::wav;

/// Recordings of different lengths, the longest one first, so that it is finished last.
const NAMES: [&str; 6] = ["a-left.wav", "b-right.wav", "c-left.wav", "d-left.wav", "e-right.wav", "f-left.wav"];
const SECONDS: [f64; 6] = [4.0, 0.3, 0.6, 0.1, 0.9, 0.2];

/// A folder with these recordings.
fn given(name: &str) -> PathBuf {
    let path = folder(name);
    for (at, (file, seconds)) in NAMES.iter().zip(SECONDS).enumerate() {
        let sound: Vec<f32> =
            dictations()[at % 2].iter().cycle().take((48_000.0 * seconds) as usize).copied().collect();
        fs::write(path.join(file), wav::write(48_000, &sound)).unwrap();
    }
    path
}

/// All files of a folder and of those in it, by name, with what they hold.
fn all(path: &Path) -> BTreeMap<PathBuf, Vec<u8>> {
    let mut found = BTreeMap::new();
    for entry in fs::read_dir(path).unwrap().map(Result::unwrap) {
        let (name, path) = (PathBuf::from(entry.file_name()), entry.path());
        match path.is_dir() {
            true => found.extend(all(&path).into_iter().map(|(inner, bytes)| (name.join(inner), bytes))),
            false => _ = found.insert(name, fs::read(path).unwrap()),
        }
    }
    found
}

/// `clean` of these recordings into the folder `out`, so many at a time, as words or as JSON; and what it wrote.
fn cleaned(path: &Path, jobs: &str, files: &[&str], more: &[&str]) -> (Ended, BTreeMap<PathBuf, Vec<u8>>) {
    let out = path.join("out");
    let _ = fs::remove_dir_all(&out);
    let ended = run(clean(path, &[&["--jobs", jobs, "--out", "out"], more, files].concat()));
    let written = if out.exists() { all(&out) } else { BTreeMap::new() };
    (ended, written)
}

#[test]
fn the_same_bytes_and_answers_in_order() {
    let path = given("jobs");
    for more in [&[][..], &["--json"], &["-q"]] {
        let (ended, wanted) = cleaned(&path, "1", &NAMES, more);
        assert_eq!((ended.status, &*ended.why), (Some(0), ""));
        assert_eq!(wanted.len(), 4 * NAMES.len(), "a recording, the table, the picture and the page of each");
        let lines: Vec<&str> = ended.said.lines().collect();
        assert_eq!(lines.len(), if more == ["-q"] { 0 } else { NAMES.len() });
        assert!(lines.iter().zip(NAMES).all(|(line, name)| line.contains(name)), "{}", ended.said);
        for jobs in ["2", "8"] {
            let (again, written) = cleaned(&path, jobs, &NAMES, more);
            assert_eq!(again, ended, "{jobs} jobs");
            assert!(written == wanted, "{jobs} jobs");
        }
        // as many as there are cores
        let out = path.join("out");
        fs::remove_dir_all(&out).unwrap();
        let again = run(clean(&path, &[&["--out", "out"], more, &NAMES[..]].concat()));
        assert!(again == ended && all(&out) == wanted);
    }
}

/// What is wrong with one leaves the others as they are, and it is told as if they were cleaned one after the other.
#[test]
fn a_refused_recording_among_them() {
    let path = given("jobs-refused");
    fs::write(path.join("c-left.wav"), b"no sound").unwrap();
    fs::remove_file(path.join("e-right.wav")).unwrap();
    for more in [&[][..], &["--json"]] {
        let (ended, wanted) = cleaned(&path, "1", &NAMES, more);
        assert_eq!(ended.status, Some(1));
        if more.is_empty() {
            let lines: Vec<&str> = ended.why.lines().collect();
            assert_eq!(lines.len(), 2, "{}", ended.why);
            assert!(lines[0].starts_with("box: c-left.wav: ") && lines[1].starts_with("box: e-right.wav: "));
        } else {
            let at = |name: &str| ended.said.lines().position(|line| line.contains(name)).unwrap();
            assert_eq!(NAMES.map(at), [0, 1, 2, 3, 4, 5]);
        }
        assert_eq!(names(&path.join("out")), ["a-left", "b-right", "d-left", "f-left"]);
        for jobs in ["2", "8"] {
            let (again, written) = cleaned(&path, jobs, &NAMES, more);
            assert!(again == ended && written == wanted, "{jobs} jobs: {}", again.why);
        }
    }
    // where nothing can be cleaned, nothing is left
    for jobs in ["1", "2", "8"] {
        let (ended, written) = cleaned(&path, jobs, &["c-left.wav", "e-right.wav"], &[]);
        assert!(ended.status == Some(1) && written.is_empty() && !path.join("out").exists(), "{jobs} jobs");
    }
}

/// A folder that is taken is refused for its file alone.
#[test]
fn a_folder_that_is_taken() {
    let path = given("jobs-taken");
    for jobs in ["1", "3"] {
        let _ = fs::remove_dir_all(path.join("out"));
        fs::create_dir_all(path.join("out/b-right")).unwrap();
        fs::write(path.join("out/b-right/right.wav"), b"mine").unwrap();
        let ended = run(clean(&path, &[&["--jobs", jobs, "--out", "out"], &NAMES[..4]].concat()));
        assert_eq!(ended.status, Some(1));
        assert!(ended.why.starts_with("box: out/b-right/right.wav: it already exists"), "{}", ended.why);
        assert_eq!(ended.said.lines().count(), 3);
        assert_eq!(fs::read(path.join("out/b-right/right.wav")).unwrap(), b"mine");
        assert_eq!(names(&path.join("out/b-right")), ["right.wav"]);
    }
}

/// A signal is the end of all that is read: what was begun is closed and kept, and what was not begun is told.
#[test]
fn a_signal() {
    let path = folder("jobs-signal");
    let files = ["a-left.wav", "b-right.wav", "c-left.wav", "d-left.wav"];
    let sound: Vec<f32> = dictations()[0].iter().cycle().take(48_000 * 120).copied().collect();
    for file in files {
        fs::write(path.join(file), wav::write(48_000, &sound)).unwrap();
    }
    let child = clean(&path, &[&["--jobs", "2", "-q", "--out", "out"], &files[..]].concat()).spawn().unwrap();
    let begun = |name: &str| size(&path.join("out").join(name)) > 200_000;
    soon("nothing is written", || begun("a-left/left.wav.part") && begun("b-right/right.wav.part"));
    signal(&child, INT);
    let ended = ended(child.wait_with_output().unwrap());
    assert_eq!(ended.status, Some(2), "{}", ended.why);
    let lines: Vec<&str> = ended.why.lines().collect();
    for (line, file) in lines.iter().zip(&files[..2]) {
        assert!(line.starts_with(&format!("box: {file}: stopped after ")), "{line}");
    }
    assert_eq!(lines[2..], ["box: c-left.wav: stopped before it", "box: d-left.wav: stopped before it"]);
    assert_eq!(names(&path.join("out")), ["a-left", "b-right"]);
    assert!(
        sound_of(&path.join("out/a-left/left.wav"), "left") && sound_of(&path.join("out/b-right/right.wav"), "right")
    );
}

/// Whether a sealed recording of this side has some sound.
fn sound_of(path: &Path, side: &str) -> bool {
    sound(path, side).len() > 50_000
}

#[test]
fn a_number_of_jobs() {
    let path = given("jobs-number");
    for word in ["0", "-1", "257", "two", "1.5", ""] {
        let ended = run(clean(&path, &["--jobs", word, "--out", "out", NAMES[0]]));
        assert_eq!(ended.status, Some(2), "{word}");
        assert!(ended.why.starts_with("box: clean: --jobs"), "{}", ended.why);
        assert!(!path.join("out").exists());
    }
    // one recording, or one of each bench, is one job
    let ended = run(clean(&path, &["--jobs", "2", "--left", NAMES[0], "--right", NAMES[1], "--out", "out"]));
    assert_eq!(ended.status, Some(2));
    assert!(ended.why.starts_with("box: clean: --jobs is for several files"), "{}", ended.why);
}
