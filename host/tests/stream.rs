//! `box clean -`: what comes of a stream is what comes of the same file, however it is delivered; and it takes no more
//! memory for a long one.

use std::fs;
use std::io::Write;
use std::path::{Path, PathBuf};
use std::process::{Child, Command, Output, Stdio};
use tuppencehop::cleaning::demo::{dictation, Rng, HOUSE};
use tuppencehop::reading::wav;

/// A folder of its own for each test, with the house model in it.
fn folder(name: &str) -> PathBuf {
    let path = Path::new(env!("CARGO_TARGET_TMPDIR")).join(format!("stream-{name}"));
    let _ = fs::remove_dir_all(&path);
    fs::create_dir_all(&path).unwrap();
    fs::write(path.join("house.rnn"), HOUSE).unwrap();
    path
}

fn clean(path: &Path, words: &[&str]) -> Child {
    let mut command = Command::new(env!("CARGO_BIN_EXE_tuppencehop"));
    command.arg("clean").args(words).args(["-q", "--csv", "--model", "house.rnn"]).current_dir(path);
    command.stdin(Stdio::piped()).stdout(Stdio::piped()).stderr(Stdio::piped()).spawn().unwrap()
}

/// Delivers bytes in parts of any lengths.
fn deliver(mut child: Child, bytes: &[u8]) -> (Output, String) {
    let (mut to, mut rng, mut rest) = (child.stdin.take().unwrap(), Rng(12), bytes);
    while !rest.is_empty() {
        let most = [3, 700, 4_000, 40_000][(rng.draw() % 4) as usize];
        let (part, behind) = rest.split_at(rest.len().min(1 + rng.draw() as usize % most));
        // a program that has stopped reads no more
        if to.write_all(part).is_err() {
            break;
        }
        rest = behind;
    }
    drop(to);
    let output = child.wait_with_output().unwrap();
    let said = String::from_utf8(output.stderr.clone()).unwrap();
    (output, said)
}

/// Both dictations as one stereo file.
fn stereo() -> Vec<u8> {
    let sides = [dictation(0).noisy, dictation(1).noisy];
    let n = sides[0].len().min(sides[1].len()) - 11;
    let mut file = wav::write(48_000, &(0..2 * n).map(|i| sides[i % 2][i / 2]).collect::<Vec<_>>());
    (file[22], file[32]) = (2, 4);
    file
}

const HEADER: usize = 44;
const WRITTEN: [&str; 5] = ["left.wav", "right.wav", "frames.csv", "benches.svg", "index.html"];

/// Whether a line of a page names its recording or its date.
fn names_it(line: &str) -> bool {
    [">recording<", ">date<"].iter().any(|word| line.contains(word))
}

fn names(path: &Path) -> Vec<String> {
    let mut names: Vec<String> =
        fs::read_dir(path).unwrap().map(|e| e.unwrap().file_name().into_string().unwrap()).collect();
    names.sort();
    names
}

#[test]
fn a_stream_is_its_file() {
    let path = folder("file");
    let file = stereo();
    fs::write(path.join("both.wav"), &file).unwrap();
    assert!(clean(&path, &["--both", "both.wav", "--out", "file"]).wait().unwrap().success());
    // a whole file with something behind its audio; headers that do not know the length; none
    let with = |size: u32| [&file[..HEADER - 4], &size.to_le_bytes(), &file[HEADER..]].concat();
    let streams = [
        ("whole", [&file[..], b"LIST of what is no sound"].concat(), &["-"][..]),
        ("none", with(0), &["-"]),
        ("two", with(0x7FFF_F024), &["-"]),
        ("four", with(u32::MAX), &["-"]),
        ("less", with(u32::MAX - 100), &["-"]),
        ("raw", file[HEADER..].to_vec(), &["--raw", "-"]),
        ("lost", [&file[HEADER..], &[1, 2, 3]].concat(), &["-", "--raw"]),
    ];
    for (name, bytes, words) in streams {
        let (output, said) = deliver(clean(&path, &[words, &["--out", name]].concat()), &bytes);
        assert!(output.status.success() && said.is_empty(), "{name}: {said}");
        assert_eq!(names(&path.join(name)), names(&path.join("file")));
        for written in WRITTEN {
            let read = |folder: &str| fs::read(path.join(folder).join(written)).unwrap();
            // a page names its recording and its date
            let lines = |file: Vec<u8>| {
                String::from_utf8_lossy(&file).lines().filter(|line| !names_it(line)).collect::<String>()
            };
            let same = match written {
                "index.html" => lines(read(name)) == lines(read("file")),
                _ => read(name) == read("file"),
            };
            assert!(same, "{name}: {written}");
        }
    }
}

#[test]
fn a_stream_with_gaps_between_its_samples() {
    let path = folder("gaps");
    let mut file = stereo();
    file[32] = 8;
    let (output, said) = deliver(clean(&path, &["-", "--out", "out"]), &file);
    assert!(output.status.code() == Some(1) && said.contains("standard input: 4 bytes are wanted"), "{said}");
    assert!(!path.join("out").exists());
}

/// The most memory that a process had so far, in KiB, while it is there.
#[cfg(target_os = "linux")]
fn peak(child: &Child) -> Option<u64> {
    let status = fs::read_to_string(format!("/proc/{}/status", child.id())).ok()?;
    status.lines().find_map(|line| line.strip_prefix("VmHWM:"))?.trim().split(' ').next()?.parse().ok()
}

/// The most memory that so many seconds of noise take.
#[cfg(target_os = "linux")]
fn peak_of(path: &Path, seconds: usize) -> u64 {
    let mut child = clean(path, &["-", "--raw", "--out", "out"]);
    let (mut to, mut rng) = (child.stdin.take().unwrap(), Rng(5));
    for _ in 0..seconds {
        let bytes: Vec<u8> = (0..2 * 48_000).flat_map(|_| ((1_000.0 * rng.number()) as i16).to_le_bytes()).collect();
        to.write_all(&bytes).unwrap();
    }
    drop(to);
    let mut most = 0;
    while child.try_wait().unwrap().is_none() {
        most = most.max(peak(&child).unwrap_or(0));
        std::thread::sleep(std::time::Duration::from_millis(1));
    }
    assert!(child.wait().unwrap().success());
    fs::remove_dir_all(path.join("out")).unwrap();
    most
}

/// What was kept of the longer one would be 30 MB: two sides of 80 seconds, before and after, as f32.
#[cfg(target_os = "linux")]
#[test]
fn a_long_stream_takes_no_more_memory() {
    let path = folder("memory");
    let [short, long] = [10, 90].map(|seconds| peak_of(&path, seconds));
    println!("10 seconds: {short} KiB at most; 90 seconds: {long} KiB");
    assert!(short > 1_000 && long < short + 512, "{short} KiB for 10 seconds, {long} KiB for 90");
}
