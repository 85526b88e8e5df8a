//! What is wrong with one bench, or with a recording: what came before it is kept, the other bench goes on, and all
//! of it is told.

mod common;

use common::*;
use std::fs;
use std::path::{Path, PathBuf};
use tuppencehop::cleaning::cleaned::Cleaned;
use tuppencehop::cleaning::demo::HOUSE;
use tuppencehop::cleaning::recorder::{Side, Way};
use tuppencehop::cleaning::run::{run as run_benches, Refused};
use tuppencehop::reading::source::Memory;
use tuppencehop::reading::wav;
use tuppencehop::telling::refusal::Refusal;

/// A recording of so many channels, as 32-bit floats.
fn floats(channels: u8, samples: &[f32]) -> Vec<u8> {
    let mut file = wav::write(48_000, &vec![0.0; 2 * samples.len()]);
    (file[20], file[22], file[32], file[34]) = (3, channels, 4 * channels, 32);
    for (to, x) in file[HEADER..].chunks_exact_mut(4).zip(samples) {
        to.copy_from_slice(&(x / 32_768.0).to_le_bytes());
    }
    file
}

/// Four seconds of each dictation, of which the right one is broken at 3.15 seconds.
const LENGTH: usize = 4 * 48_000;
const BROKEN: usize = 151_200;

fn given(name: &str) -> (PathBuf, [Vec<f32>; 2]) {
    let path = folder(name);
    let both = [0, 1].map(|bench| dictations()[bench][..LENGTH].to_vec());
    fs::write(path.join("l.wav"), floats(1, &both[0])).unwrap();
    fs::write(path.join("r.wav"), floats(1, &both[1])).unwrap();
    assert_eq!(two(&path, "l.wav", "r.wav", "whole").status, Some(0));
    (path, both)
}

fn two(path: &Path, left: &str, right: &str, out: &str) -> Ended {
    run(clean(path, &["--left", left, "--right", right, "--out", out]))
}

fn same(path: &Path, a: &str, b: &str) -> bool {
    fs::read(path.join(a)).unwrap() == fs::read(path.join(b)).unwrap()
}

/// The right recording up to the broken sample is as it would be had it ended there; the left one is as it was.
fn ends_there(path: &Path, right: &[f32]) {
    assert!(same(path, "out/left.wav", "whole/left.wav"));
    fs::write(path.join("short.wav"), floats(1, &right[..BROKEN])).unwrap();
    assert_eq!(two(path, "l.wav", "short.wav", "short").status, Some(0));
    assert!(same(path, "out/right.wav", "short/right.wav"));
    assert_eq!(names(&path.join("out")), WITH_TABLE);
}

#[test]
fn a_broken_sample_in_one_of_two_files() {
    let (path, [_, mut right]) = given("faults-files");
    right[BROKEN] = f32::NAN;
    fs::write(path.join("broken.wav"), floats(1, &right)).unwrap();
    let ended = two(&path, "l.wav", "broken.wav", "out");
    assert_eq!(ended.status, Some(2));
    assert_eq!(ended.why, "box: broken.wav: right, at 3.15 s: not a finite number\n");
    assert_eq!(ended.said, "left: 401 frames\nright: 316 frames\n");
    ends_there(&path, &right);
}

#[test]
fn a_broken_sample_in_one_channel() {
    let (path, [left, mut right]) = given("faults-channel");
    for broken in [f32::NAN, f32::INFINITY] {
        right[BROKEN] = broken;
        let mixed: Vec<f32> = (0..2 * LENGTH).map(|i| [&left, &right][i % 2][i / 2]).collect();
        let ended = fed(clean(&path, &["-", "--out", "out"]), &floats(2, &mixed));
        assert_eq!(ended.status, Some(2));
        assert_eq!(ended.why, "box: standard input: right, at 3.15 s: not a finite number\n");
        ends_there(&path, &right);
        for folder in ["out", "short"] {
            fs::remove_dir_all(path.join(folder)).unwrap();
        }
    }
    // in both, each by itself
    right[7] = f32::NAN;
    let mixed: Vec<f32> =
        (0..2 * LENGTH).map(|i| [&right[1..], &right][i % 2].get(i / 2).copied().unwrap_or(0.0)).collect();
    let ended = fed(clean(&path, &["-", "--out", "out"]), &floats(2, &mixed));
    assert_eq!(ended.status, Some(2));
    assert_eq!(ended.why.lines().count(), 2, "{}", ended.why);
    assert_eq!(["left", "right"].map(|side| sound(&path.join(format!("out/{side}.wav")), side).len()), [6, 7]);
}

/// A bench without a sample has no recording; where neither has one, nothing is written.
#[test]
fn broken_from_the_start() {
    let (path, [_, mut right]) = given("faults-start");
    right[0] = f32::NAN;
    fs::write(path.join("broken.wav"), floats(1, &right)).unwrap();
    let ended = two(&path, "l.wav", "broken.wav", "out");
    assert_eq!(ended.status, Some(2));
    assert_eq!(ended.why, "box: broken.wav: right, at 0.00 s: not a finite number\n");
    assert_eq!(ended.said, "left: 401 frames\n");
    assert_eq!(names(&path.join("out")), ["benches.svg", "frames.csv", "index.html", "left.wav"]);
    assert!(same(&path, "out/left.wav", "whole/left.wav"));
    let page = fs::read_to_string(path.join("out/index.html")).unwrap();
    assert!(page.contains("There is no recording of this bench") && !page.contains("right.wav"));
    fs::copy(path.join("broken.wav"), path.join("too.wav")).unwrap();
    let ended = two(&path, "broken.wav", "too.wav", "none");
    assert!(ended.status == Some(2) && ended.why.contains("left, at 0.00 s"), "{}", ended.why);
    assert!(!path.join("none").exists());
}

/// Its header says more than there is.
#[test]
fn a_recording_that_breaks_off() {
    let (path, [_, right]) = given("faults-half");
    let whole = floats(1, &right);
    fs::write(path.join("half.wav"), &whole[..HEADER + 4 * BROKEN + 3]).unwrap();
    let ended = two(&path, "l.wav", "half.wav", "out");
    assert_eq!(ended.status, Some(2));
    assert_eq!(ended.why, "box: half.wav: the file ends after 3.1 s, but its header announces 4.0 s\n");
    ends_there(&path, &right);
    // the last sample alone
    fs::write(path.join("half.wav"), &whole[..whole.len() - 1]).unwrap();
    let ended = two(&path, "l.wav", "half.wav", "last");
    assert_eq!(ended.status, Some(2));
    assert_eq!(ended.why, "box: half.wav: the file ends after 3.99998 s, but its header announces 4.00000 s\n");
    // a stream that knows its length
    let mut stereo = wav::write(48_000, &[9.0, 8.0].repeat(48_000));
    (stereo[22], stereo[32]) = (2, 4);
    let ended = fed(clean(&path, &["-", "--out", "stream"]), &stereo[..HEADER + 4 * 24_000]);
    assert_eq!(ended.status, Some(2));
    assert_eq!(ended.why, "box: standard input: it ends after 0.5 s, but its header announces 1.0 s\n");
    assert_eq!(sound(&path.join("stream/right.wav"), "right").len(), 24_000);
}

/// A length that nobody knew is not one that is missing.
#[test]
fn a_length_that_is_not_known() {
    let (path, [_, right]) = given("faults-open");
    for size in [u32::MAX, u32::MAX - 35, 0x7FFF_FFFF, 0x7FFF_F024] {
        let mut open = floats(1, &right);
        open[40..44].copy_from_slice(&size.to_le_bytes());
        fs::write(path.join("open.wav"), open).unwrap();
        let ended = two(&path, "l.wav", "open.wav", "out");
        assert_eq!((ended.status, &ended.why[..]), (Some(0), ""), "{size}");
        assert!(same(&path, "out/right.wav", "whole/right.wav"));
        fs::remove_dir_all(path.join("out")).unwrap();
    }
    // some 6 hours and 50 minutes are a length
    let mut long = floats(1, &right);
    long[40..44].copy_from_slice(&0x9000_0000u32.to_le_bytes());
    fs::write(path.join("long.wav"), long).unwrap();
    let ended = two(&path, "l.wav", "long.wav", "out");
    assert!(
        ended.status == Some(2) && ended.why.contains("ends after 4.0 s, but its header announces 12582.9 s"),
        "{}",
        ended.why
    );
}

#[test]
fn a_header_alone() {
    let (path, _) = given("faults-header");
    let mut header = wav::write(48_000, &[5.0; 480])[..HEADER].to_vec();
    for size in [960u32, 0, u32::MAX] {
        header[40..].copy_from_slice(&size.to_le_bytes());
        fs::write(path.join("header.wav"), &header).unwrap();
        let ended = two(&path, "l.wav", "header.wav", "out");
        assert_eq!(ended.status, Some(2), "{size}");
        assert_eq!(ended.why, "box: header.wav: no audio follows its header\n");
        assert!(same(&path, "out/left.wav", "whole/left.wav") && !path.join("out/right.wav").exists());
        fs::remove_dir_all(path.join("out")).unwrap();
        fs::copy(path.join("header.wav"), path.join("too.wav")).unwrap();
        let ended = two(&path, "header.wav", "too.wav", "out");
        assert!(ended.status == Some(2) && ended.why.contains("no audio follows its header"), "{}", ended.why);
        assert!(!path.join("out").exists());
    }
    (header[22], header[32]) = (2, 4);
    let ended = fed(clean(&path, &["-", "--out", "out"]), &header);
    assert!(ended.status == Some(2) && ended.why.contains("no audio follows its header"), "{}", ended.why);
    assert!(!path.join("out").exists());
}

/// A recorder that lost power before it mended its header.
#[test]
fn a_header_that_says_none() {
    let (path, [_, right]) = given("faults-none");
    let mut none = floats(1, &right);
    none[40..44].fill(0);
    fs::write(path.join("none.wav"), &none).unwrap();
    let ended = two(&path, "l.wav", "none.wav", "out");
    assert_eq!(ended.status, Some(2));
    let why = "box: none.wav: its header says that there is no audio; the 4.0 s after it are cleaned\n";
    assert_eq!(ended.why, why);
    assert!(same(&path, "out/right.wav", "whole/right.wav"));
    // other chunks are no audio
    let chunks = [&none[..HEADER], b"LIST\x04\0\0\0INFOnote\x03\0\0\0abc\0"].concat();
    fs::write(path.join("none.wav"), chunks).unwrap();
    let ended = two(&path, "l.wav", "none.wav", "chunks");
    assert_eq!((ended.status, &ended.why[..]), (Some(2), "box: none.wav: no audio follows its header\n"));
}

/// What begins as another file does is not taken for samples.
#[test]
fn raw_that_is_none() {
    let path = folder("faults-raw");
    let mut mp3 = vec![0; 4_000];
    for at in (0..4_000).step_by(384) {
        mp3[at..at + 4].copy_from_slice(&[0xFF, 0xFB, 0x94, 0xC4]);
    }
    let files: [(&[u8], &str); 5] = [
        (&wav::write(48_000, &[5.0; 4_800]), "a WAV file"),
        (b"fLaC\0\0\0\x22\x10\0\x10\0", "a FLAC file"),
        (b"OggS\0\x02\0\0\0\0\0\0", "an Ogg file"),
        (b"ID3\x04\0\0\0\0\0\x23TSSE", "an MP3 file"),
        (&mp3, "an MP3 file"),
    ];
    for (bytes, form) in files {
        let ended = fed(clean(&path, &["-", "--raw", "-q", "--out", "out"]), bytes);
        assert_eq!(ended.status, Some(2));
        assert_eq!(ended.why, format!("box: standard input: this is {form}, and not samples alone as --raw says\n"));
        assert!(!path.join("out").exists());
    }
    // one sample that looks like the start of MP3 is a sample
    let samples = [&[0xFF, 0xFB, 0x94, 0xC4], &raw(0.1)[..]].concat();
    assert_eq!(fed(clean(&path, &["-", "--raw", "--out", "out"]), &samples).status, Some(0));
}

/// By the library: a model that is refused for one bench ends that bench, and no other.
#[test]
fn a_model_that_is_refused_for_one() {
    let both = [0, 1].map(|bench| dictations()[bench][..48_000].to_vec());
    let run = |models: [&[u8]; 2]| {
        let mut benches = Side::BOTH.map(Cleaned::of);
        let refused =
            run_benches(&mut Memory([&both[0], &both[1]]), models, Way::Nnnoiseless, &mut benches, |_| ()).unwrap();
        (refused, benches.map(|bench| bench.after))
    };
    let (refused, whole) = run([HOUSE; 2]);
    assert_eq!(refused, [None, None]);
    let cut = &HOUSE[..HOUSE.len() - 1];
    let (refused, [left, right]) = run([HOUSE, cut]);
    let refusal = Refusal(7 + 256 * 16 + 65_536 * 5);
    assert_eq!(refused, [None, Some(Refused { refusal, sample: 0 })]);
    assert!(left == whole[0] && right.is_empty());
    let (refused, [left, right]) = run([cut, HOUSE]);
    assert_eq!(refused, [Some(Refused { refusal, sample: 0 }), None]);
    assert!(left.is_empty() && right == whole[1]);
}
