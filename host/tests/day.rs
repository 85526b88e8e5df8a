//! `box clean --split`: a made-up shift at two benches in dictations. The variables SECONDS, RIGHTS and KILLS ask for a
//! longer shift, more right channels, and more kills than the gate has time for.

mod common;
mod shift;
mod spoken;

use common::*;
use shift::{shift, stereo, Shift};
use std::collections::BTreeMap;
use std::fs::{self, File};
use std::io::Write;
use std::path::{Path, PathBuf};
use std::thread::{sleep, spawn};
use std::time::{Duration, Instant};
use tuppencehop::cleaning::demo::{Rng, HOUSE};
use tuppencehop::cleaning::recorder::Way;
use tuppencehop::cleaning::run::run as run_benches;
use tuppencehop::reading::source::Memory;
use tuppencehop::recording::files::{Files, Place};
use tuppencehop::recording::front::HEAD;
use tuppencehop::recording::judge::{judged, Told};
use tuppencehop::recording::listed::{days, wavs};

const START: &str = "2026-11-16T09:00:00";
const SIDES: [&str; 2] = ["left", "right"];
/// What is still within the library when a recorder pauses, and what waits until it is certain that no dictation
/// begins.
const WITHIN: usize = 480 + 479 + 75 * 480;

fn variable(name: &str, usual: u64) -> u64 {
    std::env::var(name).map_or(usual, |value| value.parse().unwrap())
}

/// `box clean` of a raw stream in dictations.
fn split(path: &Path, out: &str, seconds: &str, words: &[&str]) -> std::process::Command {
    let all = ["clean", "-", "--raw", "--split", seconds, "--out", out];
    host(path, &[&all[..], words].concat())
}

/// A dictation: where it is, what the judge says of it, its audio and its records.
struct Dictation {
    place: PathBuf,
    told: Told,
    audio: Vec<u8>,
    records: Vec<u8>,
}

/// The dictations of a side in a folder, in order. Each is accepted by the judge.
fn dictations(out: &Path, side: &str) -> Vec<Dictation> {
    let mut all = vec![];
    for name in wavs(out) {
        let place = out.join(&name);
        let bytes = fs::read(&place).unwrap();
        let told = judged(&mut &bytes[..]).unwrap().unwrap_or_else(|why| panic!("{}: {why}", place.display()));
        let size = u32::from_le_bytes(bytes[72..76].try_into().unwrap()) as usize;
        let records = bytes[HEAD + size + 32..bytes.len() - 16].to_vec();
        assert_eq!(records.len() as u64, 8 * told.frames);
        // the name says the side too
        assert!(name.to_string_lossy().contains(told.front.side.name()), "{}", name.display());
        if told.front.side.name() == side {
            all.push(Dictation { place, told, audio: bytes[HEAD..HEAD + size].to_vec(), records });
        }
    }
    all.sort_by_key(|one| (one.told.front.began, one.told.front.first));
    all
}

/// All bytes of these in a row.
fn in_a_row(all: &[Dictation], of: fn(&Dictation) -> &Vec<u8>) -> Vec<u8> {
    all.iter().flat_map(|one| of(one).clone()).collect()
}

/// The sample of the stream with which a dictation begins.
fn begins(one: &Dictation) -> usize {
    480 * (one.told.front.first as usize).saturating_sub(1)
}

/// Both benches of a shift, in dictations and in one piece. Every sample is in exactly one file, every frame too; each
/// dictation begins before its first word and after the words of the one before it; and nothing else is written.
#[test]
fn a_shift_in_dictations() {
    let (path, seconds) = (folder("day-shift"), variable("SECONDS", 300) as usize);
    let benches: [Shift; 2] = [1, 2].map(|seed| shift(seed, seconds, [4.0, 9.0]));
    let stream = stereo(&benches[0].samples, &benches[1].samples);
    let words = ["--start", START, "--keep-before", "--json"];
    let ended = fed(split(&path, "out", "3", &words), &stream);
    assert_eq!((ended.status, &*ended.why), (Some(0), ""));
    let whole = fed(host(&path, &["clean", "-", "--raw", "-q", "--out", "whole"]), &stream);
    assert_eq!(whole.status, Some(0), "{}", whole.why);
    let out = path.join("out");
    let mut count = 0;
    for (side, bench) in SIDES.into_iter().zip(&benches) {
        let all = dictations(&out, side);
        count += all.len();
        let one = dictations(&path.join("whole"), side);
        assert_eq!((all.len(), one.len()), (bench.words.len(), 1), "{side}");
        assert!(in_a_row(&all, |one| &one.audio) == one[0].audio, "{side}: not the same sound");
        assert!(in_a_row(&all, |one| &one.records) == one[0].records, "{side}: not the same frames");
        for (at, (one, [first, _])) in all.iter().zip(&bench.words).enumerate() {
            let begins = begins(one);
            assert!(begins <= *first, "{side} {at}: begins at {begins}, its first word at {first}");
            assert!(
                at == 0 || begins > bench.words[at - 1][1] && first - begins < 48_000,
                "{side} {at}: {begins}, {first}"
            );
            let second = u64::try_from(begins / 48_000).unwrap();
            assert_eq!(one.told.front.began, all[0].told.front.began + second, "{side} {at}");
        }
        // the originals, too, are there once
        let before: Vec<u8> = all
            .iter()
            .flat_map(|one| {
                let name = one.place.file_name().unwrap();
                fs::read(one.place.with_file_name("before").join(name)).unwrap().split_off(44)
            })
            .collect();
        let wanted: Vec<u8> = bench.samples.iter().flat_map(|x| (*x as i16).to_le_bytes()).collect();
        assert!(before == wanted, "{side}: not the same original");
    }
    assert!(count >= 10, "{count} dictations");
    assert_eq!((ended.said.lines().count(), names(&out)), (count, vec!["2026-11-16".into(), "index.html".to_string()]));
    let files = names(&out.join("2026-11-16"));
    assert_eq!(files.len(), count + 2);
    assert!(files[0].starts_with("0900") && files[0].ends_with("-left.wav"), "{}", files[0]);
    let page = fs::read_to_string(out.join("index.html")).unwrap();
    assert_eq!(page.matches("<tr><th scope=\"row\">").count(), count);
    assert_eq!(page.matches("data-before=").count(), page.matches("data-src=").count());
    what_is_missing(&path, count);
}

/// `side` tells all dictations of a folder by their times, and which are missing.
fn what_is_missing(path: &Path, count: usize) {
    let told = run(host(path, &["side", "out"]));
    assert_eq!((told.status, &*told.why), (Some(0), ""));
    let times: Vec<&str> = told.said.lines().map(|line| line.split('-').nth(2).unwrap()).collect();
    assert!(times.len() == count && times.is_sorted(), "{}", told.said);
    let left = dictations(&path.join("out"), "left");
    let [before, gone, behind] = [1, 2, 3].map(|at| &left[at]);
    fs::remove_file(&gone.place).unwrap();
    let told = run(host(path, &["side", "out"]));
    assert_eq!((told.status, told.said.lines().count()), (Some(2), count - 1));
    let name = |one: &Dictation| format!("out/2026-11-16/{}", one.place.file_name().unwrap().to_str().unwrap());
    assert!(told.why.contains("left side: frames ") && told.why.contains(&name(before)), "{}", told.why);
    assert!(told.why.contains(&name(behind)) && !told.why.contains("right"), "{}", told.why);
    let json = run(host(path, &["side", "--json", "out"]));
    assert_eq!((json.status, json.said.lines().count()), (Some(2), count));
}

/// Whatever the right bench records, the left bench's files are the same, byte for byte, and have the same names.
#[test]
fn no_other_bench_moves_a_cut() {
    let path = folder("day-apart");
    let left = shift(5, 12, [2.0, 3.0]).samples;
    let mut rng = Rng(0x5eed);
    let files = |out: &Path| -> BTreeMap<PathBuf, Vec<u8>> {
        let left = wavs(out).into_iter().filter(|name| name.to_string_lossy().contains("left"));
        left.map(|name| (name.clone(), fs::read(out.join(name)).unwrap())).collect()
    };
    let mut wanted = None;
    for number in 0..variable("RIGHTS", 4) {
        let kind = number % 4;
        let loud = [30.0, 3_000.0, 30_000.0][(rng.draw() >> 20) as usize % 3];
        let right: Vec<f32> = match kind {
            0 => (0..left.len()).map(|_| (loud * rng.number()) as f32).collect(),
            1 => shift(rng.draw() >> 8, 12, [1.0, 4.0]).samples,
            2 => vec![0.0; left.len()],
            _ => (0..left.len()).map(|i| if i / 9_000 % 2 == 0 { 0.0 } else { (loud * rng.number()) as f32 }).collect(),
        };
        let out = path.join("out");
        let _ = fs::remove_dir_all(&out);
        let ended = fed(split(&path, "out", "1", &["--start", START, "-q"]), &stereo(&left, &right));
        assert_eq!((ended.status, &*ended.said), (Some(0), ""), "{}", ended.why);
        let found = files(&out);
        assert!(found.len() >= 2, "{} dictations", found.len());
        assert!(*wanted.get_or_insert_with(|| found.clone()) == found, "right channel {number}");
    }
}

/// A recording that is full goes on in the next file, with the next frame. The audio of all, in a row, is that of one.
#[test]
fn a_full_recording_goes_on_in_the_next() {
    let path = folder("day-full");
    let both = [5, 6].map(|seed| shift(seed, 8, [1.0, 2.0]).samples);
    let cleaned = |out: &str, most: u32| {
        let out = path.join(out);
        let place = Place { out: &out, prefix: "", more: &[], force: false, once: true, csv: false };
        let mut files = Files::new(&place).unwrap().at_most(most);
        run_benches(&mut Memory([&both[0], &both[1]]), [HOUSE; 2], Way::Nnnoiseless, &mut files, |_| ()).unwrap();
        files.keep(None).unwrap();
        SIDES.map(|side| dictations(&out, side))
    };
    let (one, many) = (cleaned("one", 960 * 900), cleaned("many", 960 * 300 + 9));
    for ((one, many), side) in one.iter().zip(&many).zip(SIDES) {
        assert_eq!((one.len(), many.len()), (1, 3), "{side}");
        assert!(in_a_row(many, |one| &one.audio) == one[0].audio, "{side}");
        assert!(in_a_row(many, |one| &one.records) == one[0].records, "{side}");
        let firsts: Vec<u32> = many.iter().map(|one| one.told.front.first).collect();
        assert_eq!(firsts, [0, 301, 601], "{side}");
    }
    let written = ["benches.svg", "index.html", "left-2.wav", "left-3.wav", "left.wav", "right-2.wav", "right-3.wav"];
    assert_eq!(names(&path.join("many"))[..7], written);
    let page = fs::read_to_string(path.join("many/index.html")).unwrap();
    assert!(page.contains("<a href=\"left-2.wav\">left-2.wav</a>, <a href=\"left-3.wav\">left-3.wav</a>"));
    assert_eq!(run(host(&path, &["side", "many"])).status, Some(0));
}

/// A run that is killed after so much time, in eight times the speed of speech. How many samples of a bench had been
/// handed to it two seconds before that.
fn killed(path: &Path, stream: &[u8], after: Duration) -> usize {
    let words = ["--start", START, "-q", "--keep-before"];
    let mut child = split(path, "out", "1", &words).stdin(std::process::Stdio::piped()).spawn().unwrap();
    let (mut to, start, stream) = (child.stdin.take().unwrap(), Instant::now(), stream.to_vec());
    let recorder = spawn(move || {
        let mut delivered = vec![];
        for part in stream.chunks(8 * 4 * 48 * 20) {
            if to.write_all(part).is_err() {
                break;
            }
            delivered.push((start.elapsed(), part.len() / 4));
            sleep(Duration::from_millis(20));
        }
        (delivered, to)
    });
    sleep(after);
    child.kill().unwrap();
    child.wait().unwrap();
    let death = start.elapsed();
    let (delivered, _) = recorder.join().unwrap();
    delivered.iter().filter(|(when, _)| *when + Duration::from_secs(2) <= death).map(|(_, samples)| samples).sum()
}

/// `mend` closes what a crash left, and leaves what was closed as it is. Nothing older than two seconds is lost.
#[test]
fn killed_at_any_moment() {
    let known = folder("day-known");
    let stream = stereo(&shift(8, 14, [2.0, 3.0]).samples, &shift(9, 14, [2.0, 3.0]).samples);
    assert_eq!(fed(split(&known, "out", "1", &["--start", START, "-q"]), &stream).status, Some(0));
    let wanted = SIDES.map(|side| in_a_row(&dictations(&known.join("out"), side), |one| &one.audio));
    let mut rng = Rng(0xdead_5eed);
    for kill in 0..variable("KILLS", 5) {
        (0..10).for_each(|_| _ = rng.draw());
        let path = folder("day-killed");
        let older = killed(&path, &stream, Duration::from_millis(rng.draw() % 5_000));
        let out = path.join("out");
        if !out.exists() {
            assert_eq!(older, 0, "kill {kill}");
            continue;
        }
        let closed: BTreeMap<PathBuf, Vec<u8>> =
            wavs(&out).into_iter().map(|name| (name.clone(), fs::read(out.join(name)).unwrap())).collect();
        let again = run(host(&path, &["mend", "out"]));
        assert_eq!(again.status, Some(0), "kill {kill}: {}", again.why);
        assert!(closed.iter().all(|(name, bytes)| fs::read(out.join(name)).unwrap() == *bytes), "kill {kill}");
        for (side, wanted) in SIDES.iter().zip(&wanted) {
            let audio = in_a_row(&dictations(&out, side), |one| &one.audio);
            assert!(wanted.starts_with(&audio), "kill {kill}: {side}");
            assert!(audio.len() / 2 + WITHIN >= older, "kill {kill}: {side}: {} of {older}", audio.len() / 2);
        }
        let left = days(&out).into_iter().flat_map(|day| names(&out.join(day)));
        assert!(left.into_iter().all(|name| !name.ends_with(".part") && !name.ends_with(".sheet")), "kill {kill}");
        let told = run(host(&path, &["side", "out"]));
        assert!(told.status == Some(0) || dictations(&out, "left").is_empty(), "kill {kill}: {}", told.why);
    }
}

/// What is not right is said before anything is written.
#[test]
fn words_that_are_refused() {
    let path = folder("day-words");
    fs::write(path.join("L.wav"), tuppencehop::reading::wav::write(48_000, &vec![0.0; 48_000])).unwrap();
    let clean = |words: &[&str]| run(host(&path, &[&["clean", "--left", "L.wav", "--out", "out"], words].concat()));
    for (words, why) in [
        (&["--start", START][..], "--start is for --split"),
        (&["--keep-before"], "--keep-before is for --split"),
        (&["--split", "0"], "--split 0: a number of seconds from 1 to 3600 is wanted"),
        (&["--split", "soon"], "--split soon: a number"),
        (&["--split", "NaN"], "--split NaN: a number"),
        (&["--split", "5", "--start", "today"], "--start today: a time such as 2026-11-16T09:30:12 is wanted"),
        (&["--split", "5", "--name", "x"], "--name is not for --split"),
        (&["--split", "5", "--csv"], "--csv is not for --split"),
    ] {
        let ended = clean(words);
        assert!(ended.status == Some(2) && ended.why.contains(why), "{}", ended.why);
    }
    assert!(!path.join("out").exists());
    // another program's page is not written over
    fs::create_dir_all(path.join("out")).unwrap();
    fs::write(path.join("out/index.html"), "<p>mine").unwrap();
    let ended = clean(&["--split", "5"]);
    assert!(ended.status == Some(1) && ended.why.contains("it already exists"), "{}", ended.why);
    // no two dictations have the same name
    fs::remove_file(path.join("out/index.html")).unwrap();
    for _ in 0..3 {
        assert_eq!(clean(&["--split", "5", "--start", START, "-q"]).status, Some(0));
    }
    let wanted = ["090000-left-2.wav", "090000-left-3.wav", "090000-left.wav", "dictations.csv"];
    assert_eq!(names(&path.join("out/2026-11-16")), wanted);
    // a file's time is its last change less its length
    let old = std::time::UNIX_EPOCH + Duration::from_secs(1_000_000_000);
    File::options().write(true).open(path.join("L.wav")).unwrap().set_modified(old).unwrap();
    assert_eq!(clean(&["--split", "5", "-q"]).status, Some(0));
    let began = dictations(&path.join("out"), "left")[0].told.front.began;
    assert_eq!(began, 999_999_999);
}

/// Each bench's dictations have the time and the name of that bench's own file.
#[test]
fn each_bench_has_its_own_time() {
    let path = folder("day-times");
    for (name, seconds, modified) in [("a-left.wav", 1, 1_000_000_000), ("b-right.wav", 3, 1_000_086_400)] {
        let samples: Vec<f32> = (0..48_000 * seconds).map(|i| (i % 100) as f32 * seconds as f32).collect();
        fs::write(path.join(name), tuppencehop::reading::wav::write(48_000, &samples)).unwrap();
        let time = std::time::UNIX_EPOCH + Duration::from_secs(modified);
        File::options().write(true).open(path.join(name)).unwrap().set_modified(time).unwrap();
    }
    let words = ["clean", "--left", "a-left.wav", "--right", "b-right.wav", "--split", "2", "--json", "--out", "out"];
    let ended = run(host(&path, &words));
    assert_eq!(ended.status, Some(0), "{}", ended.why);
    for (side, began, file) in [("left", 999_999_999, "a-left.wav"), ("right", 1_000_086_397, "b-right.wav")] {
        let all = dictations(&path.join("out"), side);
        assert_eq!((all.len(), all[0].told.front.began), (1, began), "{side}");
        let told = format!("\"recording\": \"{file}\", \"side\": \"{side}\", \"began\": {began},");
        assert!(ended.said.contains(&told), "{}", ended.said);
    }
}

/// A stream in which both benches are one voice leaves nothing behind, and so does one without a sample.
#[test]
fn nothing_is_left_of_a_refused_stream() {
    let path = folder("day-refused");
    let voice = &dictations_of_the_demo()[0];
    let ended = fed(split(&path, "out", "1", &["-q"]), &stereo(voice, voice));
    assert_eq!((ended.status, path.join("out").exists()), (Some(2), false), "{}", ended.why);
    let ended = fed(split(&path, "out", "1", &["-q"]), &[]);
    assert_eq!((ended.status, path.join("out").exists()), (Some(1), false), "{}", ended.why);
}

fn dictations_of_the_demo() -> &'static [Vec<f32>; 2] {
    common::dictations()
}
