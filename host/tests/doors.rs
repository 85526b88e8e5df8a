//! Ways to a wrong side and to lost words, each tried with the program: names, identical benches, files of other kinds,
//! headers that announce too little, lists, and pipes.

mod common;
mod made;

use common::*;
use made::{noise, riff, sealed};
use std::fs;
use std::io::Write;
use std::path::{Path, PathBuf};
use std::process::{Command, Stdio};
use std::time::{Duration, Instant};
use tuppencehop::reading::wav;

/// A folder with a recording of each bench.
fn given(name: &str) -> PathBuf {
    let path = folder(&format!("doors-{name}"));
    for (name, seed) in [("left.wav", 1), ("right.wav", 2), ("a.wav", 3), ("b.wav", 4)] {
        fs::write(path.join(name), riff(&noise(4_800, seed), &[])).unwrap();
    }
    path
}

fn said(path: &Path, words: &[&str]) -> Ended {
    run(host(path, &[words, &["--out", "out"]].concat()))
}

/// The command is refused with 2 and this sentence, and nothing is written.
fn refused(path: &Path, words: &[&str], why: &str) {
    let ended = said(path, words);
    assert_eq!(ended, Ended { status: Some(2), said: String::new(), why: format!("box: {why}\n") }, "{words:?}");
    assert!(!path.join("out").exists(), "{words:?}");
}

/// The command does as asked, and says this on standard error.
fn taken(path: &Path, words: &[&str], notes: &str) {
    let ended = said(path, words);
    assert_eq!((ended.status, &*ended.why), (Some(0), notes), "{words:?}");
    fs::remove_dir_all(path.join("out")).unwrap();
}

/// What is said of a file whose name, or its folder's, says the other side.
fn by_name(file: &str, whose: &str, says: &str, bench: &str) -> String {
    format!(
        "{file}: its {whose} says {says}, but it is given as the {bench} bench's recording; use --anyway to clean \
         it as {bench} regardless"
    )
}

/// One rule for every way to name a file.
#[test]
fn a_name_that_says_the_other_side() {
    let path = given("names");
    let (left, right) = (by_name("right.wav", "name", "right", "left"), by_name("left.wav", "name", "left", "right"));
    refused(&path, &["clean", "--left", "right.wav", "--right", "left.wav"], &left);
    refused(&path, &["clean", "--left", "right.wav"], &left);
    refused(&path, &["clean", "--right", "left.wav"], &right);
    refused(&path, &["clean", "left.wav", "--side", "right"], &right);
    // before anything is written: the second file of a list, too
    refused(&path, &["clean", "a.wav", "left.wav", "--side", "right"], &right);
    for name in ["p-L.wav", "p L.wav", "patientL.wav", "p (L).wav", "p-l-2.wav", "LeftFoot.wav"] {
        fs::copy(path.join("a.wav"), path.join(name)).unwrap();
        refused(&path, &["clean", name, "--side", "right"], &by_name(name, "name", "left", "right"));
        refused(&path, &["clean", "--right", name], &by_name(name, "name", "left", "right"));
        assert_eq!(said(&path, &["clean", name]).status, Some(0), "{name}");
        let folder = path.join("out").join(Path::new(name).file_stem().unwrap());
        assert_eq!(names(&folder), ["benches.svg", "index.html", "left.wav"]);
        fs::remove_dir_all(path.join("out")).unwrap();
    }
    // the folder's name, if the file's own says nothing
    fs::create_dir(path.join("left")).unwrap();
    fs::copy(path.join("a.wav"), path.join("left/rec.wav")).unwrap();
    fs::copy(path.join("b.wav"), path.join("left/right.wav")).unwrap();
    let why = by_name("left/rec.wav", "folder's name", "left", "right");
    refused(&path, &["clean", "left/rec.wav", "--side", "right"], &why);
    refused(&path, &["clean", "--right", "left/rec.wav"], &why);
    taken(&path, &["clean", "left/rec.wav", "-q"], "");
    taken(&path, &["clean", "--left", "left/rec.wav", "--right", "left/right.wav"], "");
    // --anyway takes it, and says so; --json says it in its own way
    let note =
        "its name says right, but it is given as the left bench's recording; cleaned regardless, because of --anyway";
    taken(&path, &["clean", "--left", "right.wav", "--anyway"], &format!("right.wav: {note}\n"));
    taken(&path, &["clean", "right.wav", "--side", "left", "--anyway"], &format!("right.wav: {note}\n"));
    let ended = said(&path, &["clean", "--left", "right.wav", "--anyway", "--json"]);
    assert!(
        ended.why.is_empty() && ended.said.contains(&format!("\"notes\": [\"right.wav: {note}\"], \"status\": 0")),
        "{}",
        ended.said
    );
}

/// `side` and `mend` have the same rule.
#[test]
fn the_same_rule_for_sealed_recordings() {
    let path = given("rule");
    let left = sealed(0, &noise(960, 1));
    for name in ["p-R.wav", "p R.wav", "patientR.wav", "p (R) 2.wav"] {
        fs::write(path.join(name), &left).unwrap();
        let ended = run(host(&path, &["side", name]));
        let why = format!("box: {name}: the name says another side: left side, 3 frames, 1 heard, no gap\n");
        assert_eq!(ended, Ended { status: Some(6), said: String::new(), why });
    }
    fs::write(path.join("torn.wav"), &left[..left.len() - 3]).unwrap();
    let ended = run(host(&path, &["mend", "torn.wav", "--out", "new-R.wav"]));
    let why = "box: new-R.wav: its name says the other side: this is the left side; choose another --out\n";
    assert_eq!((ended.status, &*ended.why), (Some(2), why));
    assert!(!path.join("new-R.wav").exists());
    assert_eq!(run(host(&path, &["mend", "torn.wav", "--out", "new-L.wav"])).status, Some(0));
    // standard input has no name
    fs::create_dir(path.join("right")).unwrap();
    let ended = fed(host(&path.join("right"), &["side", "-"]), &left);
    assert_eq!(ended.status, Some(0), "{}", ended.why);
}

/// A stereo file of these two.
fn stereo(left: &[f32], right: &[f32]) -> Vec<u8> {
    let both: Vec<f32> = left.iter().zip(right).flat_map(|(l, r)| [*l, *r]).collect();
    let mut file = wav::write(48_000, &both);
    (file[22], file[32]) = (2, 4);
    file
}

const IDENTICAL: &str = "both benches' recordings are identical: one voice can't be both benches'; use --anyway to \
                         clean it as both regardless";

#[test]
fn one_voice_for_both_benches() {
    let path = given("same");
    let [left, right] = dictations();
    // a copy of one file, also if it is longer or has another name
    fs::copy(path.join("a.wav"), path.join("c.wav")).unwrap();
    refused(&path, &["clean", "--left", "a.wav", "--right", "c.wav"], &format!("a.wav: {IDENTICAL}"));
    fs::write(path.join("long.wav"), wav::write(48_000, &left[..3 * 48_000])).unwrap();
    fs::write(path.join("longer.wav"), wav::write(48_000, left)).unwrap();
    refused(&path, &["clean", "--left", "long.wav", "--right", "longer.wav"], &format!("long.wav: {IDENTICAL}"));
    // a stereo file with two equal channels, after a second and a half of silence too
    let late = [&[0.0; 72_000], &left[..]].concat();
    for both in [left, &late] {
        fs::write(path.join("both.wav"), stereo(both, both)).unwrap();
        refused(&path, &["clean", "--both", "both.wav"], &format!("both.wav: {IDENTICAL}"));
        let ended = fed(host(&path, &["clean", "-", "--out", "out"]), &stereo(both, both));
        assert_eq!((ended.status, ended.why), (Some(2), format!("box: standard input: {IDENTICAL}\n")));
        assert!(!path.join("out").exists());
    }
    let note = "both benches' recordings are identical: one voice can't be both benches'; cleaned regardless, because \
                of --anyway";
    taken(&path, &["clean", "--both", "both.wav", "--anyway"], &format!("both.wav: {note}\n"));
    // two voices over the same second of silence, and two voices
    let quiet = |voice: &[f32]| [&[0.0; 48_000], voice].concat();
    for both in [[left.clone(), right.clone()], [quiet(left), quiet(right)]] {
        fs::write(path.join("both.wav"), stereo(&both[0], &both[1])).unwrap();
        taken(&path, &["clean", "--both", "both.wav"], "");
    }
    // no sound at all is no voice
    fs::write(path.join("both.wav"), stereo(&[0.0; 96_000], &[0.0; 96_000])).unwrap();
    taken(&path, &["clean", "--both", "both.wav"], "");
}

/// A stream that is refused is refused as soon as a second of sound has come, and not at its end.
#[test]
fn one_voice_as_it_comes() {
    let path = given("live");
    let left = &dictations()[0];
    let mut child = host(&path, &["clean", "-", "--out", "out"]).stdin(Stdio::piped()).spawn().unwrap();
    let mut to = child.stdin.take().unwrap();
    to.write_all(&stereo(&left[..60_000], &left[..60_000])).unwrap();
    soon("it goes on", || child.try_wait().unwrap().is_some());
    assert_eq!((child.wait().unwrap().code(), path.join("out").exists()), (Some(2), false));
}

/// What `arecord -c 1 -t raw` gives.
fn one_channel() -> Vec<u8> {
    dictations()[0].iter().flat_map(|x| (*x as i16).to_le_bytes()).collect()
}

/// `--raw` says what it takes the bytes for, and `--channels` says what they are.
#[test]
fn samples_without_a_header() {
    let path = given("raw");
    let says = "Reading standard input as samples without a header";
    let ended = fed(host(&path, &["clean", "-", "--raw", "--out", "out"]), &raw(0.5));
    let both = format!("{says}: two channels, left and right in turn, 48,000 a second, 16 bits, little end first.\n");
    assert_eq!((ended.status, ended.why), (Some(0), both));
    assert_eq!(sound(&path.join("out/right.wav"), "right").len(), 24_000);
    fs::remove_dir_all(path.join("out")).unwrap();
    // one bench
    let samples: Vec<u8> = dictations()[1][..24_000].iter().flat_map(|x| (*x as i16).to_le_bytes()).collect();
    for words in [&["--right", "-", "--raw"][..], &["--right", "-", "--raw", "--channels", "1"]] {
        let ended = fed(host(&path, &[&["clean", "--out", "out"], words].concat()), &samples);
        let one = format!("{says}: one channel, 48,000 a second, 16 bits, little end first.\n");
        assert_eq!((ended.status, ended.why), (Some(0), one));
        assert_eq!(names(&path.join("out")), ["benches.svg", "index.html", "right.wav"]);
        assert_eq!(sound(&path.join("out/right.wav"), "right").len(), 24_000);
        fs::remove_dir_all(path.join("out")).unwrap();
    }
    // one channel that is read as two
    let ended = fed(host(&path, &["clean", "-", "--raw", "-q", "--out", "out"]), &one_channel());
    let why = "box: standard input: the samples are of one channel, and --raw reads them as two: use --left - or \
               --right -; use --anyway to clean it as both regardless\n";
    assert_eq!((ended.status, &*ended.why), (Some(2), why));
    assert!(!path.join("out").exists());
    let ended = fed(host(&path, &["clean", "-", "--raw", "-q", "--anyway", "--out", "any"]), &one_channel());
    assert_eq!((ended.status, &*ended.why), (Some(0), ""));
    for (words, why) in [
        (
            &["-", "--raw", "--channels", "1"][..],
            "--channels 1 is one bench's recording: use --left - or --right - instead of -",
        ),
        (
            &["--left", "-", "--raw", "--channels", "2"],
            "--channels 2 is a recording of both benches: use - instead of --left - or --right -",
        ),
        (&["--left", "a.wav", "--raw"], "--raw is for standard input: add -, or --left - or --right - for one bench"),
        (&["-", "--channels", "2"], "--channels is for --raw; a WAV file says its channels itself"),
        (&["--left", "-", "--right", "-"], "standard input is one recording: - takes both benches as its channels"),
    ] {
        let ended = said(&path, &[&["clean"], words].concat());
        assert_eq!((ended.status, ended.why), (Some(2), format!("box: clean: {why}\nbox: see box clean --help\n")));
    }
}

/// `--left -` is one bench from standard input, with a header.
#[test]
fn one_bench_on_standard_input() {
    let path = given("one");
    let file = wav::write(48_000, &dictations()[0][..24_000]);
    let ended = fed(host(&path, &["clean", "--left", "-", "--right", "b.wav", "--out", "out"]), &file);
    assert_eq!((ended.status, &*ended.why), (Some(0), ""));
    assert_eq!(sound(&path.join("out/left.wav"), "left").len(), 24_000);
    assert_eq!(sound(&path.join("out/right.wav"), "right").len(), 4_800);
    let page = fs::read_to_string(path.join("out/index.html")).unwrap();
    assert!(page.contains("<td>standard input</td>") && page.contains("<td>b.wav</td>"));
    let ended = fed(host(&path, &["clean", "-", "--out", "new"]), &file);
    let why = "box: standard input: it has one channel; `--left -` or `--right -` takes it as one bench's recording\n";
    assert_eq!((ended.status, &*ended.why), (Some(1), why));
    let ended = fed(host(&path, &["clean", "--left", "-", "--out", "new"]), &stereo(&[5.0; 480], &[4.0; 480]));
    let why = "box: standard input: it has two channels; `box clean -` takes them as the left and the right bench\n";
    assert_eq!((ended.status, &*ended.why), (Some(1), why));
}

/// Files of other kinds are recognised, and refused with a hint that works.
#[test]
fn files_of_other_kinds() {
    let path = given("kinds");
    let sox = |file: &str| format!("`sox {file} -r 48000 -b 24 NEW.wav` makes a file that the box reads");
    let ffmpeg =
        |file: &str| format!("`ffmpeg -i {file} -ar 48000 -c:a pcm_s24le NEW.wav` makes a file that the box reads");
    type Hint<'a> = Option<&'a dyn Fn(&str) -> String>;
    let kinds: [(&str, &[u8], &str, Hint); 11] = [
        ("x.flac", b"fLaC\0\0\0\x22\x10\0\x10\0", "a FLAC file", Some(&sox)),
        ("x.ogg", b"OggS\0\x02\0\0\0\0\0\0", "an Ogg file", Some(&ffmpeg)),
        ("x y.mp3", b"ID3\x04\0\0\0\0\0\x23TSSE", "an MP3 file", Some(&ffmpeg)),
        ("x.aiff", b"FORM\0\x01\0\x2eAIFFCOMM\0\0\0\x12", "an AIFF file", Some(&sox)),
        ("x.aifc", b"FORM\0\x01\0\x2eAIFCFVER\0\0\0\x04", "an AIFF file", Some(&sox)),
        ("x.caf", b"caff\0\x01\0\0desc\0\0\0\0", "a CAF file", Some(&ffmpeg)),
        ("x.w64", b"riff\x2e\x91\xcf\x11\xa5\xd6\x28\xdb\x04\xc1\0\0", "a W64 file", Some(&ffmpeg)),
        ("x.au", b".snd\0\0\0\x18\xff\xff\xff\xff\0\0\0\x03", "an AU file", Some(&sox)),
        ("x.m4a", b"\0\0\0\x1cftypM4A \0\0\x02\0", "an M4A or MP4 file", Some(&ffmpeg)),
        ("x.wav", b"RIFX\0\0\0\x24WAVEfmt \0\0\0\x10", "a WAV file with the big end first (RIFX)", Some(&sox)),
        ("x.txt", b"Left. Filler under the first ray.\n", "text", None),
    ];
    for (name, bytes, form, hint) in kinds {
        fs::write(path.join(name), bytes).unwrap();
        let ended = said(&path, &["clean", "--left", name]);
        let quoted = if name.contains(' ') { format!("'{name}'") } else { name.into() };
        let hint = hint.map_or(String::new(), |hint| format!("; {}", hint(&quoted)));
        assert_eq!((ended.status, ended.why), (Some(1), format!("box: {name}: not a WAV file: it is {form}{hint}\n")));
        let ended = fed(host(&path, &["clean", "-", "--raw", "-q", "--out", "out"]), bytes);
        let why = format!("box: standard input: this is {form}, and not samples alone as --raw says\n");
        assert_eq!((ended.status, ended.why), (Some(2), why));
        assert!(!path.join("out").exists());
    }
}

/// Recordings that the box does not read come with a hint.
#[test]
fn hints() {
    let path = given("hints");
    let sox = |file: &str| format!("`sox {file} -r 48000 -b 24 NEW.wav` makes a file that the box reads");
    let with = |tag: u8, channels: u8, bits: u8| {
        let mut file = wav::write(48_000, &[5.0; 9_600]);
        (file[20], file[22], file[32], file[34]) = (tag, channels, channels * (bits / 8), bits);
        file
    };
    let reads = "the box reads integers of 16, 24 and 32 bits and 32-bit floats";
    let files = [
        (
            "44.wav",
            wav::write(44_100, &[5.0; 4_410]),
            format!("it has 44100 samples a second; the box reads 48,000; {}", sox("44.wav")),
        ),
        ("f64.wav", with(3, 1, 64), format!("it has 64-bit floats; {reads}; {}", sox("f64.wav"))),
        ("i8.wav", with(1, 1, 8), format!("it has 8-bit integers; {reads}; {}", sox("i8.wav"))),
        ("alaw.wav", with(6, 1, 8), format!("it has samples in A-law; {reads}; {}", sox("alaw.wav"))),
        (
            "two.wav",
            with(1, 2, 16),
            "it has two channels; `--both two.wav` takes them as the left and the right bench".into(),
        ),
        (
            "six.wav",
            with(1, 6, 16),
            "one or two channels are wanted; this has 6; `sox six.wav NEW.wav remix 1 2` keeps the first two".into(),
        ),
    ];
    for (name, bytes, why) in files {
        fs::write(path.join(name), bytes).unwrap();
        let ended = said(&path, &["clean", "--left", name]);
        assert_eq!((ended.status, ended.why), (Some(1), format!("box: {name}: {why}\n")));
        assert!(!path.join("out").exists());
    }
    let why = "box: a.wav: it has one channel; `--left a.wav` or `--right a.wav` takes it as one bench's recording\n";
    assert_eq!(said(&path, &["clean", "--both", "a.wav"]).why, why);
}

/// A header that announces less audio than the file holds.
#[test]
fn more_audio_than_the_header_announces() {
    let path = given("more");
    let voice = &dictations()[0];
    let (whole, seconds) = (wav::write(48_000, voice), voice.len() as f64 / 48_000.0);
    let with_size = |size: u32| [&whole[..40], &size.to_le_bytes(), &whole[44..]].concat();
    fs::write(path.join("p.wav"), with_size(96_000)).unwrap();
    let ended = said(&path, &["clean", "--left", "p.wav"]);
    let why = format!(
        "box: p.wav: its header announces 1.0 s of audio, but the file holds {seconds:.1} s; the rest is not cleaned. \
         --to-the-end cleans all of it\n"
    );
    assert_eq!((ended.status, ended.why), (Some(2), why));
    assert_eq!(sound(&path.join("out/left.wav"), "left").len(), 48_000);
    fs::remove_dir_all(path.join("out")).unwrap();
    let ended = said(&path, &["clean", "--left", "p.wav", "--to-the-end"]);
    let note = format!("p.wav: its header announces 1.0 s of audio; all {seconds:.1} s are cleaned\n");
    assert_eq!((ended.status, ended.why), (Some(0), note));
    assert_eq!(sound(&path.join("out/left.wav"), "left").len(), voice.len());
    fs::remove_dir_all(path.join("out")).unwrap();
    // chunks after the audio are no audio, one that is cut among them; nor is a tag of a few bytes
    let chunk = [b"LIST", &600u32.to_le_bytes()[..], &[7; 600]].concat();
    for more in [&chunk[..], &chunk[..400], &[b"abcd", &4u32.to_le_bytes()[..], b"1234", b"TAG\0"].concat(), &[0; 128]]
    {
        fs::write(path.join("p.wav"), [&whole, more].concat()).unwrap();
        for words in [&["clean", "--left", "p.wav"][..], &["clean", "--left", "p.wav", "--to-the-end"]] {
            let ended = said(&path, words);
            assert_eq!((ended.status, &*ended.why), (Some(0), ""));
            assert_eq!(sound(&path.join("out/left.wav"), "left").len(), voice.len());
            fs::remove_dir_all(path.join("out")).unwrap();
        }
    }
}

/// A recorder's long file: RF64, whose sizes have 64 bits.
#[test]
fn long_files() {
    let path = given("rf64");
    let voice = &dictations()[0];
    let whole = wav::write(48_000, voice);
    let audio = &whole[44..];
    let rf64 = |word: &[u8; 4], size: u64, own: u32| {
        let all = [&36u64.to_le_bytes()[..], &size.to_le_bytes(), &(size / 2).to_le_bytes(), &[0; 4]].concat();
        [word, &[0xFF; 4][..], b"WAVEds64", &28u32.to_le_bytes(), &all, &whole[12..40], &own.to_le_bytes(), audio]
            .concat()
    };
    let size = audio.len() as u64;
    assert_eq!(said(&path, &["clean", "--left", "a.wav"]).status, Some(0));
    fs::remove_dir_all(path.join("out")).unwrap();
    for (word, long, own) in
        [(b"RF64", size, u32::MAX), (b"BW64", size, u32::MAX), (b"RF64", 0, u32::MAX), (b"RF64", 7, size as u32)]
    {
        let mut file = rf64(word, long, own);
        file.extend(b"LIST\x04\0\0\0abcd");
        if long != 0 {
            fs::write(path.join("p.wav"), &file).unwrap();
            let ended = said(&path, &["clean", "--left", "p.wav"]);
            assert_eq!((ended.status, &*ended.why), (Some(0), ""));
            assert_eq!(sound(&path.join("out/left.wav"), "left").len(), voice.len());
            fs::remove_dir_all(path.join("out")).unwrap();
        }
        // as a stream
        let ended = fed(host(&path, &["clean", "--left", "-", "--out", "out"]), &rf64(word, long, own));
        assert_eq!((ended.status, &*ended.why), (Some(0), ""));
        assert_eq!(sound(&path.join("out/left.wav"), "left").len(), voice.len());
        fs::remove_dir_all(path.join("out")).unwrap();
    }
    // one that is cut says so, with its own length of more than 4 GiB
    fs::write(path.join("p.wav"), rf64(b"RF64", 5 << 30, u32::MAX)).unwrap();
    let ended = said(&path, &["clean", "--left", "p.wav"]);
    assert!(ended.status == Some(2) && ended.why.contains("but its header announces 55924.1 s"), "{}", ended.why);
    // RF64 is none of ours: no side is told of it
    let left = sealed(0, &noise(960, 1));
    let head = rf64(b"RF64", 1_920, u32::MAX);
    fs::write(path.join("1.wav"), [&head[..head.len() - audio.len()], &left[76..]].concat()).unwrap();
    let ended = run(host(&path, &["side", "1.wav"]));
    let why = "box: 1.wav: another program wrote it in another form (refusal 61)\n";
    assert_eq!((ended.status, &*ended.why, &*ended.said), (Some(5), why, ""));
}

/// Two files of a list that would be written to one folder.
#[test]
fn twins() {
    let path = given("twins");
    for folder in ["x", "y"] {
        fs::create_dir(path.join(folder)).unwrap();
        fs::copy(path.join("left.wav"), path.join(folder).join("left.wav")).unwrap();
    }
    let why = "clean: x/left.wav and y/left.wav would both be written to out/left; clean them with different \
               --out\nbox: see box clean --help";
    refused(&path, &["clean", "x/left.wav", "y/left.wav"], why);
    refused(&path, &["clean", "x/left.wav", "y/left.wav", "--force"], why);
    assert_eq!(said(&path, &["clean", "x/left.wav", "right.wav"]).status, Some(0));
    assert_eq!(names(&path.join("out")), ["left", "right"]);
}

/// Makes a pipe with a name.
fn pipe(path: &Path, name: &str) -> PathBuf {
    let pipe = path.join(name);
    assert!(Command::new("mkfifo").arg(&pipe).status().unwrap().success());
    pipe
}

/// A pipe for each bench. A program that writes into both opens one after the other.
#[test]
fn pipes() {
    let path = given("pipes");
    let [left, right] = ["p1", "p2"].map(|name| pipe(&path, name));
    let child = host(&path, &["clean", "--left", "p1", "--right", "p2", "--out", "out"]).spawn().unwrap();
    let files = [0, 1].map(|bench: usize| wav::write(48_000, &dictations()[bench][..48_000]));
    let [mut l, mut r] = [&left, &right].map(|pipe| fs::OpenOptions::new().write(true).open(pipe).unwrap());
    for (l_part, r_part) in files[0].chunks(4_000).zip(files[1].chunks(4_000)) {
        l.write_all(l_part).unwrap();
        r.write_all(r_part).unwrap();
    }
    drop((l, r));
    let ended = ended(child.wait_with_output().unwrap());
    assert_eq!((ended.status, &*ended.why), (Some(0), ""));
    for side in ["left", "right"] {
        assert_eq!(sound(&path.join(format!("out/{side}.wav")), side).len(), 48_000);
    }
}

/// While nobody writes into a pipe, a signal ends the wait.
#[test]
fn a_pipe_that_nobody_writes_into() {
    for (name, number) in [("int", INT), ("term", TERM)] {
        let path = given(&format!("wait-{name}"));
        pipe(&path, "p1");
        let child = host(&path, &["clean", "--left", "p1", "--right", "b.wav", "--out", "out"]).spawn().unwrap();
        soon("it does not wait", || path.join("out/left.wav.part").exists());
        std::thread::sleep(Duration::from_millis(200));
        signal(&child, number);
        let start = Instant::now();
        let ended = ended(child.wait_with_output().unwrap());
        assert!(start.elapsed() < Duration::from_secs(5));
        let why = "box: p1: stopped before any sound came; nothing is written\n";
        assert_eq!((ended.status, &*ended.why), (Some(1), why));
        assert!(!path.join("out").exists());
    }
}

/// `-q` prints errors only, and `--csv` asks for the table.
#[test]
fn quiet_and_table() {
    let path = given("quiet");
    for words in [&["clean", "--left", "a.wav", "-q"][..], &["clean", "left.wav", "right.wav", "-q"]] {
        let ended = said(&path, words);
        assert_eq!(ended, Ended { status: Some(0), said: String::new(), why: String::new() });
        fs::remove_dir_all(path.join("out")).unwrap();
    }
    let ended = said(&path, &["clean", "--left", "right.wav", "-q"]);
    assert_eq!((ended.status, ended.said.is_empty(), ended.why.is_empty()), (Some(2), true, false));
    let both = ["clean", "--left", "a.wav", "--right", "b.wav"];
    assert_eq!(said(&path, &both).status, Some(0));
    assert_eq!(names(&path.join("out")), WRITTEN);
    assert!(!fs::read_to_string(path.join("out/index.html")).unwrap().contains("frames.csv"));
    assert_eq!(said(&path, &[&both[..], &["--csv", "--force"]].concat()).status, Some(0));
    assert_eq!(names(&path.join("out")), WITH_TABLE);
    assert!(fs::read_to_string(path.join("out/index.html")).unwrap().contains("href=\"frames.csv\""));
    // a table of another recording does not stay beside this one
    assert_eq!(said(&path, &[&both[..], &["--force"]].concat()).status, Some(0));
    assert_eq!(names(&path.join("out")), WRITTEN);
}

/// Help and the man page list every status.
#[test]
fn statuses_in_help() {
    let path = given("help");
    let help = run(host(&path, &["--help"])).said;
    let man = run(host(&path, &["man"])).said;
    for status in 0..=6 {
        assert!(help.lines().any(|line| line.starts_with(&format!("  {status}  "))), "{help}");
        assert!(man.contains(&format!(".TP\n.B {status}\n")), "{man}");
    }
    for command in ["clean", "side", "mend"] {
        assert!(run(host(&path, &[command, "--help"])).said.contains("--json"));
    }
}

/// Each answer as JSON has its status, which is the command's if it is the only one.
#[test]
fn a_status_in_each_answer() {
    let path = given("json");
    fs::write(path.join("1.wav"), sealed(0, &noise(960, 1))).unwrap();
    fs::write(path.join("R.wav"), sealed(0, &noise(960, 1))).unwrap();
    let answers: [(&[&str], i32); 9] = [
        (&["side", "1.wav"], 0),
        (&["side", "none.wav"], 1),
        (&["side", "a.wav"], 3),
        (&["side", "R.wav"], 6),
        (&["mend", "1.wav", "--out", "new.wav"], 0),
        (&["mend", "a.wav", "--out", "none.wav"], 1),
        (&["clean", "--left", "a.wav", "--out", "out"], 0),
        (&["clean", "--left", "a.wav", "--out", "out"], 1),
        (&["clean", "--left", "right.wav", "--out", "none"], 2),
    ];
    for (words, status) in answers {
        let ended = run(host(&path, &[words, &["--json"]].concat()));
        assert_eq!((ended.status, ended.said.lines().count()), (Some(status), 1), "{words:?} {}", ended.said);
        assert!(ended.said.contains(&format!(", \"status\": {status}, \"error\": ")), "{}", ended.said);
    }
}
