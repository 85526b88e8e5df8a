//! The command line as people type it: one name, help, errors that name what is wrong, options in any place, the house
//! model, one bench and many, names, and answers as JSON.

mod common;

use common::*;
use std::fs;
use std::os::unix::fs::symlink;
use std::path::{Path, PathBuf};
use std::process::{Command, Stdio};
use tuppencehop::reading::wav;

const COMMANDS: [&str; 10] =
    ["clean", "side", "mend", "demo", "import", "export", "pack", "unpack", "man", "completion"];

/// A folder with a short recording of each bench.
fn given(name: &str) -> PathBuf {
    let path = folder(&format!("words-{name}"));
    for (name, sample) in [("l.wav", 500.0), ("r.wav", 700.0)] {
        fs::write(path.join(name), wav::write(48_000, &[[sample; 20], [-sample; 20]].concat().repeat(120))).unwrap();
    }
    path
}

fn said(path: &Path, words: &[&str]) -> Ended {
    run(host(path, words))
}

fn good(path: &Path, words: &[&str]) -> String {
    let ended = said(path, words);
    assert_eq!((ended.status, &*ended.why), (Some(0), ""), "{words:?}");
    ended.said
}

#[test]
fn one_name_whatever_it_is_called_by() {
    let path = given("name");
    for name in ["box", "tuppencehop", "host"] {
        symlink(env!("CARGO_BIN_EXE_tuppencehop"), path.join(name)).unwrap();
        let run = |words: &[&str]| ended(Command::new(path.join(name)).args(words).output().unwrap());
        assert!(run(&["--version"]).said.starts_with(concat!("box ", env!("CARGO_PKG_VERSION"), " (tuppencehop), ")));
        assert!(run(&["--help"]).said.starts_with("box: "));
        assert!(run(&["wash"]).why.lines().all(|line| line.starts_with("box: ")));
    }
}

#[test]
fn the_version_names_the_commit_and_the_toolchain() {
    let told = good(&given("version"), &["--version"]);
    let git = Command::new("git").args(["rev-parse", "--short=12", "HEAD"]).output().unwrap();
    let commit = String::from_utf8(git.stdout).unwrap();
    assert!(told.contains(&format!("commit {}", commit.trim())), "{told}");
    assert!(told.contains("proved with rattle-kit-") && told.contains("built with rustc 1."), "{told}");
}

/// Help is asked for in four ways, names every option, and does nothing else.
#[test]
fn help_for_the_whole_and_for_each() {
    let path = given("help");
    let before = names(&path);
    let whole = good(&path, &["--help"]);
    assert!([&["-h"][..], &["help"]].iter().all(|words| good(&path, words) == whole));
    for command in COMMANDS {
        assert!(whole.contains(&format!("\n  {command} ")), "{command}");
        let help = good(&path, &[command, "--help"]);
        assert!(help.starts_with(&format!("box {command}: ")), "{help}");
        for words in [&[command, "-h"][..], &["help", command], &[command, "x", "--out", "y", "-h"]] {
            assert_eq!(good(&path, words), help);
        }
        assert!(help.lines().all(|line| line.chars().count() <= 100), "{help}");
    }
    for word in ["--left", "--both", "--side", "--raw", "--out DIR", "--name NAME", "--model", "--lag crate|own"] {
        assert!(good(&path, &["help", "clean"]).contains(&format!("\n  {word}")), "{word}");
    }
    assert_eq!(names(&path), before);
    // behind -- it is a file
    assert_eq!(said(&path, &["side", "--", "--help"]).status, Some(1));
}

/// Each error names what is wrong, ends with its status, and leaves nothing behind.
#[test]
fn errors_name_what_is_wrong() {
    let path = given("errors");
    fs::copy(path.join("l.wav"), path.join("n.wav")).unwrap();
    let before = names(&path);
    let two = ["clean", "--left", "l.wav", "--right", "r.wav"];
    let of = |more: &[&'static str]| [&two[..], more].concat();
    let cases = [
        (of(&["--out", "out", "--lagg", "own"]), 2, "clean: unknown option --lagg; did you mean --lag?"),
        (of(&["--ot=out"]), 2, "clean: unknown option --ot; did you mean --out?"),
        (of(&["--out", "out", "--wash"]), 2, "clean: unknown option --wash"),
        (of(&["--out", "out", "--model", "M.rnn"]), 1, "clean: --model M.rnn: no such file"),
        (of(&["--out", "out", "--lag", "mine"]), 2, "clean: --lag mine: crate or own is wanted"),
        (of(&[]), 2, "clean: --out DIR is missing"),
        (of(&["--out"]), 2, "clean: --out: DIR is missing after it"),
        (of(&["--out", "--force"]), 2, "clean: --out: DIR is missing after it; --force follows"),
        (of(&["--out="]), 2, "clean: --out: what follows it is empty"),
        (of(&["--out", "out", "--out", "other"]), 2, "clean: --out is given twice"),
        (of(&["--out", "out", "--force=yes"]), 2, "clean: --force takes nothing; yes follows it"),
        (of(&["--out", "out", "l.wav"]), 2, "clean: l.wav is one recording too many"),
        (
            of(&["--out", "out", "--raw"]),
            2,
            "clean: --raw is for standard input: add -, or --left - or --right - for one bench",
        ),
        (of(&["--out", "out", "--both", "l.wav"]), 2, "clean: --both names both benches"),
        (of(&["--out", "out", "--name", "a/b"]), 2, "clean: --name a/b: a short name without /"),
        (vec!["clean", "--out", "out"], 2, "clean: no recording is named"),
        (
            vec!["clean", "n.wav", "--out", "out"],
            2,
            "clean: n.wav: its name says neither left nor right; add --side left",
        ),
        (vec!["claen"], 2, "unknown command claen; did you mean clean?"),
        (vec!["dev", "bench"], 2, "dev is a program of its own, tuppencehop-dev; ./box dev runs it"),
        (vec!["help", "dev"], 2, "dev is a program of its own"),
        (vec!["--hepl"], 2, "unknown option --hepl; did you mean --help?"),
        (vec![], 2, "what shall be done?"),
        (vec!["help", "claen"], 2, "unknown command claen; did you mean clean?"),
        (vec!["demo"], 2, "demo: DIR is missing"),
        (vec!["demo", "out", "more"], 2, "demo: more is one word too many"),
        (vec!["side"], 2, "side: FILE or DIR is missing"),
        (vec!["mend", "l.wav"], 2, "mend: --out FILE2 is missing"),
        (vec!["mend", ".", "--out", "out"], 2, "mend: --out is for a file; a folder is mended where it is"),
        (vec!["export", "house.rnn", "--as", "c", "--out", "out"], 2, "export: --as c: rnnn is wanted"),
        (vec!["unpack", "none.rnn", "--out", "out"], 1, "unpack: none.rnn: no such file"),
        (vec!["mend", "none", "--out", "out"], 1, "mend: none: no such file"),
        (vec!["pack", "--layers", "none", "--out", "out"], 1, "pack: --layers none: no such file"),
    ];
    for (words, status, why) in cases {
        let ended = said(&path, &words);
        assert_eq!((ended.status, &*ended.said), (Some(status), ""), "{words:?}: {}", ended.why);
        assert!(ended.why.starts_with(&format!("box: {why}")), "{words:?}: {}", ended.why);
        assert_eq!(ended.why.contains("\nbox: see box "), status == 2, "{words:?}: {}", ended.why);
        assert_eq!(names(&path), before, "{words:?}");
    }
}

#[test]
fn options_in_any_place() {
    let path = given("places");
    let orders: [&[&str]; 4] = [
        &["clean", "--left", "l.wav", "--right", "r.wav", "--out", "a"],
        &["clean", "--out=b", "--right=r.wav", "--left=l.wav"],
        &["clean", "--side", "left", "--out=c", "l.wav"],
        &["clean", "l.wav", "--out", "d", "--side=left"],
    ];
    for words in orders {
        good(&path, words);
    }
    let read = |name: &str| fs::read(path.join(name)).unwrap();
    assert!(read("a/left.wav") == read("b/left.wav") && read("a/right.wav") == read("b/right.wav"));
    assert!(read("c/l/left.wav") == read("d/l/left.wav") && read("c/l/left.wav") == read("a/left.wav"));
    // a file that is called like an option
    fs::copy(path.join("a/left.wav"), path.join("--left.wav")).unwrap();
    assert!(good(&path, &["side", "--", "--left.wav"]).starts_with("--left.wav: left side, "));
    assert_eq!(said(&path, &["side", "--left.wav"]).status, Some(2));
    // an = may be in a name
    good(&path, &["clean", "--left=l.wav", "--out=e=f"]);
    assert!(path.join("e=f/left.wav").exists());
    good(&path, &["clean", "--left=l.wav", "--out=--force"]);
    assert!(path.join("--force/left.wav").exists());
}

#[test]
fn a_recording_on_standard_input_tells_its_side() {
    let path = given("stdin");
    good(&path, &["clean", "--left", "l.wav", "--out", "out"]);
    let file = fs::read(path.join("out/left.wav")).unwrap();
    let ended = fed(host(&path, &["side", "-"]), &file);
    assert_eq!(ended.status, Some(0), "{}", ended.why);
    assert_eq!(ended.said, "-: left side, 11 frames, 11 heard, no gap; sealed\n");
}

/// Where no model is named it is the house model, and the answer and the page say so.
#[test]
fn the_house_model() {
    let path = given("house");
    let words = ["clean", "--left", "l.wav", "--right", "r.wav", "--out"];
    let told = good(&path, &[&words[..], &["house"]].concat());
    assert_eq!(told, "left: 11 frames\nright: 11 frames\nCleaned with the house model, since --model names none.\n");
    let told = good(&path, &[&words[..], &["named", "--model", "house.rnn"]].concat());
    assert_eq!(told, "left: 11 frames\nright: 11 frames\n");
    for name in WRITTEN {
        assert!(fs::read(path.join("house").join(name)).unwrap() == fs::read(path.join("named").join(name)).unwrap());
    }
    assert!(fs::read_to_string(path.join("house/index.html")).unwrap().contains("house.rnn"));
}

/// One bench alone gets what it would get beside the other, and a page of its own.
#[test]
fn one_bench_alone() {
    let path = given("alone");
    good(&path, &["clean", "--left", "l.wav", "--right", "r.wav", "--out", "both"]);
    for (side, file, other) in [("left", "l.wav", "RIGHT"), ("right", "r.wav", "LEFT")] {
        let told = good(&path, &["clean", &format!("--{side}"), file, "--out", side]);
        assert!(told.starts_with(&format!("{side}: 11 frames\nCleaned")), "{told}");
        let recording = format!("{side}.wav");
        assert_eq!(names(&path.join(side)), ["benches.svg", "index.html", &recording]);
        let read = |folder: &str| fs::read(path.join(folder).join(&recording)).unwrap();
        assert!(read(side) == read("both"));
        let page = fs::read_to_string(path.join(side).join("index.html")).unwrap();
        assert!(page.contains(&format!("<h1>The {side} bench</h1>")) && !page.contains(other), "{page}");
    }
}

/// Many files: each side from its name or `--side`, one result for each, and the highest status.
#[test]
fn many_recordings() {
    let path = given("many");
    for (name, from) in [("monday_LEFT.wav", "l.wav"), ("tuesday-right.wav", "r.wav"), ("bright.wav", "r.wav")] {
        fs::rename(path.join(from), path.join(name))
            .or_else(|_| fs::copy(path.join("tuesday-right.wav"), path.join(name)).map(|_| ()))
            .unwrap();
    }
    let files = ["monday_LEFT.wav", "tuesday-right.wav"];
    let told = good(&path, &[&["clean", "--out", "out"], &files[..]].concat());
    assert_eq!(
        told,
        "monday_LEFT.wav: left side, 11 frames, in out/monday_LEFT/left.wav\n\
         tuesday-right.wav: right side, 11 frames, in out/tuesday-right/right.wav\n\
         Cleaned with the house model, since --model names none.\n"
    );
    assert!(good(&path, &["side", "out/monday_LEFT/left.wav"]).contains("left side"));
    // a name that says nothing, or another side than --side, is refused before anything is written
    for (words, why) in [
        (&["clean", "monday_LEFT.wav", "bright.wav", "--out", "new"][..], "bright.wav: its name says neither"),
        (
            &["clean", "monday_LEFT.wav", "--side", "right", "--out", "new"],
            "monday_LEFT.wav: its name says left, but it is given as the right bench's recording",
        ),
    ] {
        let ended = said(&path, words);
        assert!(ended.status == Some(2) && ended.why.contains(why), "{}", ended.why);
        assert!(!path.join("new").exists());
    }
    good(&path, &["clean", "bright.wav", "--side", "right", "--out", "new"]);
    assert!(path.join("new/bright/right.wav").exists());
    // what is wrong with one leaves the others as they are
    fs::write(path.join("torn-left.wav"), b"no sound").unwrap();
    let ended = said(&path, &["clean", "torn-left.wav", "tuesday-right.wav", "none-left.wav", "--out", "more"]);
    assert_eq!(ended.status, Some(1));
    assert!(ended.said.starts_with("tuesday-right.wav: right side, 11 frames"), "{}", ended.said);
    assert!(ended.why.contains("box: torn-left.wav: not a WAV file"), "{}", ended.why);
    assert!(ended.why.contains("box: none-left.wav: "), "{}", ended.why);
    assert_eq!(names(&path.join("more")), ["tuesday-right"]);
    assert_eq!(said(&path, &["clean", "torn-left.wav", "--out", "none"]).said, "");
}

/// A name of its own for what is written: several in one folder, and the page finds its files.
#[test]
fn a_name_of_its_own() {
    let path = given("named");
    let words = ["clean", "--left", "l.wav", "--right", "r.wav", "--out", "week", "--name"];
    for name in ["monday", "the 2nd"] {
        good(&path, &[&words[..], &[name]].concat());
        let mut all: Vec<String> = WRITTEN.map(|file| format!("{name}-{file}")).into();
        all.sort();
        assert_eq!(names(&path.join("week")).into_iter().filter(|one| one.starts_with(name)).collect::<Vec<_>>(), all);
        let page = fs::read_to_string(path.join(format!("week/{name}-index.html"))).unwrap();
        let name = name.replace(' ', "%20");
        for file in ["left.wav", "right.wav", "benches.svg"] {
            assert!(page.contains(&format!("=\"{name}-{file}\"")), "{file}");
        }
    }
    assert_eq!(names(&path.join("week")).len(), 8);
    let ended = said(&path, &[&words[..], &["monday"]].concat());
    assert!(ended.status == Some(1) && ended.why.contains("week/monday-left.wav: it already exists"), "{}", ended.why);
    good(&path, &[&words[..], &["monday", "--force"]].concat());
    // nothing that is read is written over
    fs::copy(path.join("l.wav"), path.join("x-left.wav")).unwrap();
    let ended = said(&path, &["clean", "--left", "x-left.wav", "--out", ".", "--name", "x", "--force"]);
    assert!(ended.status == Some(1) && ended.why.contains("this would be written over"), "{}", ended.why);
}

/// A named recording that was cut short is closed as any other.
#[test]
fn a_named_recording_that_was_cut_short() {
    let path = given("named-cut");
    let mut child =
        clean(&path, &["-", "--raw", "--out", "out", "--name", "monday"]).stdin(Stdio::piped()).spawn().unwrap();
    let mut to = child.stdin.take().unwrap();
    std::io::Write::write_all(&mut to, &raw(1.0)).unwrap();
    soon("nothing is written", || size(&path.join("out/left.wav.part")) > 20_000);
    child.kill().unwrap();
    child.wait().unwrap();
    assert!(good(&path, &["mend", "out"]).starts_with("out/left.wav: left side, "));
}

#[test]
fn answers_as_json() {
    let path = given("json");
    let told = good(&path, &["clean", "--left", "l.wav", "--right", "r.wav", "--out", "out", "--json"]);
    let lines: Vec<&str> = told.lines().collect();
    assert_eq!(lines.len(), 2);
    for (line, [side, file, peak]) in lines.iter().zip([["left", "l.wav", "-36.3"], ["right", "r.wav", "-33.4"]]) {
        let start = format!(
            "{{\"file\": \"out/{side}.wav\", \"recording\": \"{file}\", \"side\": \"{side}\", \"seconds\": 0.1, \
             \"frames\": 11, \"heard\": 11, \"voice\": "
        );
        assert!(line.starts_with(&start), "{line}");
        for field in ["first_voice", "gaps\": 0", "clipped\": 0", &format!("peak\": {peak}"), "noise_taken"] {
            assert!(line.contains(&format!("\"{field}")), "{line}");
        }
        assert!(line.ends_with("\"model\": \"house.rnn\", \"notes\": [], \"status\": 0, \"error\": null}"), "{line}");
    }
    fs::copy(path.join("out/left.wav"), path.join("right.wav")).unwrap();
    let ended = said(&path, &["side", "--json", "out/left.wav", "right.wav", "l.wav", "none.wav"]);
    assert_eq!((ended.status, &*ended.why), (Some(6), ""));
    let sheet = "\"side\": \"left\", \"frames\": 11, \"heard\": 11, \"gaps\": 0, \"first\": 0, \"began\": 0";
    let none = "\"side\": null, \"frames\": null, \"heard\": null, \"gaps\": null, \"first\": null, \"began\": null";
    let lines: Vec<&str> = ended.said.lines().collect();
    assert_eq!(lines[0], format!("{{\"file\": \"out/left.wav\", {sheet}, \"status\": 0, \"error\": null}}"));
    let starts = format!("{{\"file\": \"right.wav\", {none}, \"status\": 6, \"error\": \"the name says another side: ");
    assert!(lines[1].starts_with(&starts), "{}", lines[1]);
    assert!(lines[2]
        .starts_with(&format!("{{\"file\": \"l.wav\", {none}, \"status\": 3, \"error\": \"not a sealed recording: ")));
    assert!(
        lines[3].starts_with(&format!("{{\"file\": \"none.wav\", {none}, \"status\": 1, \"error\": \"No such file"))
    );
    // a torn one, and one that can't be mended
    let whole = fs::read(path.join("out/left.wav")).unwrap();
    fs::write(path.join("torn.wav"), &whole[..whole.len() - 10]).unwrap();
    let told = good(&path, &["mend", "torn.wav", "--out", "new.wav", "--json"]);
    let fields = |name: &str, lost: u32, rewritten: u32| {
        let more = "\"whole\": false, \"status\": 0, \"error\": null}\n";
        format!("\"recording\": \"{name}\", \"lost\": {lost}, \"rewritten\": {rewritten}, {more}")
    };
    assert_eq!(told, format!("{{\"file\": \"new.wav\", {sheet}, {}", fields("torn.wav", 0, 0)));
    // three records lost, and one cut within its audio
    fs::write(path.join("torn.wav"), &whole[..whole.len() - 16 - 20]).unwrap();
    let told = good(&path, &["mend", "torn.wav", "--out", "new-2.wav", "--json"]);
    assert_eq!(told, format!("{{\"file\": \"new-2.wav\", {sheet}, {}", fields("torn.wav", 0, 3)));
    fs::write(path.join("cut.wav"), &whole[..HEAD + 2_001]).unwrap();
    let told = good(&path, &["mend", "cut.wav", "--out", "new-3.wav", "--json"]);
    let four = sheet.replace("11", "4");
    assert_eq!(told, format!("{{\"file\": \"new-3.wav\", {four}, {}", fields("cut.wav", 7_600, 4)));
    let ended = said(&path, &["mend", "l.wav", "--out", "none.wav", "--json"]);
    assert_eq!((ended.status, &*ended.why), (Some(1), ""));
    assert!(
        ended.said.contains("\"recording\": \"l.wav\"") && ended.said.contains("not a sealed recording"),
        "{}",
        ended.said
    );
}

/// What can't be cleaned has an object too, and the status is that without `--json`.
#[test]
fn faults_as_json() {
    let path = given("json-faults");
    fs::write(path.join("r.wav"), b"no sound").unwrap();
    let words = ["clean", "--left", "l.wav", "--right", "r.wav", "--out", "out", "--json"];
    let ended = said(&path, &words);
    assert_eq!((ended.status, &*ended.why, ended.said.lines().count()), (Some(1), "", 2));
    let line = ended.said.lines().nth(1).unwrap();
    assert!(line.contains("\"recording\": \"r.wav\", \"side\": null") && line.contains("not a WAV file"), "{line}");
    let whole = wav::write(48_000, &[5.0; 4_800]);
    fs::write(path.join("r.wav"), &whole[..whole.len() / 2]).unwrap();
    let ended = said(&path, &words);
    assert_eq!((ended.status, &*ended.why), (Some(2), ""));
    let line = ended.said.lines().nth(1).unwrap();
    assert!(
        line.ends_with(
            "\"status\": 2, \"error\": \"r.wav: the file ends after 0.0 s, but its header announces 0.1 s\"}"
        ),
        "{line}"
    );
    // nothing came of one bench
    fs::write(path.join("r.wav"), &whole[..HEADER]).unwrap();
    let ended = said(&path, &[&words[..], &["--force"]].concat());
    assert_eq!((ended.status, &*ended.why, ended.said.lines().count()), (Some(2), "", 2));
    let line = ended.said.lines().nth(1).unwrap();
    assert!(line.starts_with("{\"file\": \"out\", \"recording\": \"r.wav\", \"side\": null"), "{line}");
    assert!(line.ends_with("\"status\": 2, \"error\": \"r.wav: no audio follows its header\"}"), "{line}");
    // many: an object for each
    fs::rename(path.join("l.wav"), path.join("a-left.wav")).unwrap();
    fs::write(path.join("b-left.wav"), b"no sound").unwrap();
    let ended = said(&path, &["clean", "a-left.wav", "b-left.wav", "--out", "many", "--json"]);
    assert_eq!((ended.status, &*ended.why, ended.said.lines().count()), (Some(1), "", 2));
    assert!(ended.said.starts_with("{\"file\": \"many/a-left/left.wav\", \"recording\": \"a-left.wav\""));
}

#[test]
fn a_crash_mended_as_json() {
    let path = given("json-crash");
    let mut child = stream(&path);
    let mut to = child.stdin.take().unwrap();
    std::io::Write::write_all(&mut to, &raw(1.0)).unwrap();
    soon("nothing is written", || size(&path.join("out/right.wav.part")) > 20_000);
    child.kill().unwrap();
    child.wait().unwrap();
    let told = good(&path, &["mend", "out", "--json"]);
    let lines: Vec<&str> = told.lines().collect();
    assert_eq!(lines.len(), 2);
    assert!(lines[0].starts_with("{\"file\": \"out/left.wav\", \"side\": \"left\", \"frames\": "), "{told}");
    assert!(
        lines[1].contains(", \"gaps\": 0, \"first\": 0, \"began\": 0, \"seconds\": 0.")
            && lines[1].ends_with("\"rewritten\": 0, \"status\": 0, \"error\": null}"),
        "{told}"
    );
    // one that can't be closed
    fs::write(path.join("out/left.wav.part"), wav::write(48_000, &[5.0; 480])).unwrap();
    fs::write(path.join("out/left.wav.sheet"), b"").unwrap();
    let ended = said(&path, &["mend", "out", "--json"]);
    assert_eq!((ended.status, &*ended.why), (Some(1), ""));
    assert!(
        ended.said.contains("\"file\": \"out\", \"side\": null") && ended.said.contains("it stays as it is"),
        "{}",
        ended.said
    );
}

/// Control characters, and those that turn a text around, are shown and not sent.
#[test]
fn names_that_steer_a_terminal() {
    let path = given("steer");
    let name = "a\u{1b}[31m\n\u{202e}left.wav";
    good(&path, &["clean", "--left", "l.wav", "--out", "out"]);
    fs::copy(path.join("out/left.wav"), path.join(name)).unwrap();
    let shown = "a\\u{1b}[31m\\n\\u{202e}left.wav";
    assert_eq!(good(&path, &["side", name]), format!("{shown}: left side, 11 frames, 11 heard, no gap; sealed\n"));
    fs::write(path.join(name), b"none").unwrap();
    let ended = said(&path, &["side", name]);
    assert!(ended.why.starts_with(&format!("box: {shown}: not a sealed recording")), "{}", ended.why);
    assert!(said(&path, &["clean", "--\u{1b}[2J"]).why.contains("unknown option --\\u{1b}[2J"));
    let ended = said(&path, &["clean", "--left", "none\u{7}", "--out", "new"]);
    assert_eq!(ended.why, "box: clean: --left none\\u{7}: no such file\n");
    let json = said(&path, &["side", "--json", name]).said;
    assert!(json.starts_with("{\"file\": \"a\\u001b[31m\\n\\u202eleft.wav\", "), "{json}");
}
