//! The exit statuses are those of the table in docs/BOX.md: a case for each of its rows, and a row for each case.

mod common;
mod made;

use common::*;
use made::{earlier, entries, front, noise, riff, sealed, sheet};
use std::collections::BTreeMap;
use std::fs::{self, File};
use std::io::Write;
use std::path::{Path, PathBuf};
use std::process::{Command, Stdio};
use tuppencehop::reading::wav;

const TWO: [&str; 6] = ["clean", "--model", "house.rnn", "--left", "l.wav", "--right"];

/// A folder with a short recording of each bench.
fn given(name: &str) -> PathBuf {
    let path = folder(&format!("status-{name}"));
    for (name, sample) in [("l.wav", 5.0), ("r.wav", 4.0)] {
        fs::write(path.join(name), wav::write(48_000, &[sample; 480])).unwrap();
    }
    path
}

/// The status of a command in a folder of its own.
fn of(name: &str, words: &[&str]) -> i32 {
    run(host(&given(name), words)).status.unwrap()
}

/// Of cleaning both, the right one being this.
fn of_right(name: &str, right: &[u8]) -> i32 {
    let path = given(name);
    fs::write(path.join("r.wav"), right).unwrap();
    run(host(&path, &[&TWO[..], &["r.wav", "--out", "out"]].concat())).status.unwrap()
}

/// Of a stream of half a second, and of what is done to it while it runs.
fn of_stream(name: &str, meanwhile: impl FnOnce(&Path, &std::process::Child)) -> i32 {
    let path = given(name);
    let mut child = stream(&path);
    let mut to = child.stdin.take().unwrap();
    to.write_all(&raw(0.5)).unwrap();
    soon("nothing is written", || size(&path.join("out/left.wav.part")) > 20_000);
    meanwhile(&path, &child);
    drop(to);
    child.wait().unwrap().code().unwrap_or(-1)
}

fn of_file_that_is_stopped() -> i32 {
    let path = given("stopped");
    fs::write(path.join("r.wav"), wav::write(48_000, &vec![4.0; 120 * 48_000])).unwrap();
    let mut child = host(&path, &[&TWO[..], &["r.wav", "-q", "--out", "out"]].concat()).spawn().unwrap();
    soon("nothing is written", || size(&path.join("out/right.wav.part")) > 20_000);
    signal(&child, INT);
    child.wait().unwrap().code().unwrap()
}

fn of_unfinished(words: &[&str], name: &str) -> i32 {
    let path = given(name);
    fs::create_dir(path.join("out")).unwrap();
    fs::write(path.join("out/left.wav.part"), wav::write(48_000, &[5.0; 480])).unwrap();
    fs::write(path.join("out/left.wav.sheet"), b"").unwrap();
    run(host(&path, words)).status.unwrap()
}

/// Of a folder in which a right recording is on its way to the left one's name.
fn of_mixed() -> i32 {
    let path = given("mixed");
    fs::create_dir(path.join("out")).unwrap();
    let mut open = sealed(1, &noise(480, 1))[..made::HEAD + 960].to_vec();
    open[4..8].fill(0xFF);
    open[72..76].fill(0xFF);
    fs::write(path.join("out/left.wav.part"), open).unwrap();
    fs::write(path.join("out/left.wav.sheet"), front(1, 0, 0)).unwrap();
    run(host(&path, &["mend", "out"])).status.unwrap()
}

fn of_taken(words: &[&str]) -> i32 {
    let path = given("taken");
    fs::create_dir(path.join("out")).unwrap();
    fs::write(path.join("out/index.html"), b"of yesterday").unwrap();
    run(host(&path, words)).status.unwrap()
}

fn of_full_disk() -> i32 {
    let path = given("full");
    let mut shell = Command::new("sh");
    let words = "trap '' XFSZ; ulimit -f 100; exec \"$0\" clean - --raw --model house.rnn --out out";
    shell.args(["-c", words, env!("CARGO_BIN_EXE_tuppencehop")]).current_dir(&path).stderr(Stdio::null());
    fed(shell, &raw(2.0)).status.unwrap()
}

/// Of telling this file's side.
fn of_side(name: &str, bytes: &[u8]) -> i32 {
    let path = given("told");
    fs::write(path.join(name), bytes).unwrap();
    run(host(&path, &["side", name])).status.unwrap()
}

/// A folder with two dictations of the left bench, of which the second does not begin where the first ends.
fn of_missing() -> i32 {
    let (path, audio) = (given("missing").join("day/2026-11-16"), noise(480, 1));
    fs::create_dir_all(&path).unwrap();
    fs::write(path.join("090000-left.wav"), sealed(0, &audio)).unwrap();
    let later = made::recording(0, 1_794_820_200, &audio, &[7 | 1 << 32]);
    fs::write(path.join("100000-left.wav"), later).unwrap();
    run(host(path.parent().unwrap(), &["side", "."])).status.unwrap()
}

fn of_answer(to: impl Into<Stdio>) -> i32 {
    let mut command = Command::new(env!("CARGO_BIN_EXE_tuppencehop"));
    command.arg("--version").stdout(to).stderr(Stdio::null()).status().unwrap().code().unwrap()
}

/// Each row, and what the program says to it.
fn cases() -> Vec<(&'static str, i32)> {
    let good = wav::write(48_000, &[5.0; 480]);
    let with_size = |size: u32| [&good[..40], &size.to_le_bytes(), &good[44..]].concat();
    let mut broken = good.clone();
    (broken[20], broken[32], broken[34]) = (3, 4, 32);
    broken[HEADER + 40..HEADER + 44].fill(0xFF);
    let (audio, left) = (noise(480, 1), sealed(0, &noise(480, 1)));
    let changed = [&left[..100], &[left[100] ^ 1], &left[101..]].concat();
    let mut more = wav::write(48_000, &[3.0; 4_800]);
    more[40..44].copy_from_slice(&960u32.to_le_bytes());
    let asked = [&TWO[..], &["r.wav", "--out", "out"]].concat();
    let mut another = 0;
    let mut while_it_runs = |path: &Path, _: &std::process::Child| another = run(host(path, &asked)).status.unwrap();
    assert_eq!(of_stream("another", &mut while_it_runs), 0);
    vec![
        ("done as asked", of("asked", &asked)),
        ("a signal ended a stream", of_stream("signal", |_, child| signal(child, TERM))),
        ("nobody reads the answer any more, as behind `head -1`", of_answer(std::io::pipe().unwrap().1)),
        (
            "a file is not there, or is no recording of 48 kHz that the box reads",
            of("none", &[&TWO[..], &["none.wav", "--out", "out"]].concat()),
        ),
        (
            "a file is not there, or is no recording of 48 kHz that the box reads",
            of_right("rate", &wav::write(8_000, &[5.0])),
        ),
        (
            "the model is refused",
            of("model", &["clean", "--left", "l.wav", "--right", "r.wav", "--model", "l.wav", "--out", "out"]),
        ),
        ("no samples came", of("empty", &["clean", "-", "--raw", "--model", "house.rnn", "--out", "out"])),
        ("something stands in the place of what is to be written", of_taken(&asked)),
        ("a run left its recordings unfinished in the folder", of_unfinished(&asked, "left")),
        ("another run is writing into the folder", another),
        ("there is no room", of_full_disk()),
        ("`mend` finds a recording that it can't close", of_unfinished(&["mend", "out"], "seal")),
        ("`mend` finds a recording that it can't close", of("mend", &["mend", "l.wav", "--out", "new.wav"])),
        ("the answer can't be written", of_answer(File::options().write(true).open("/dev/full").unwrap())),
        ("the command line is not right", of("words", &["clean", "--left", "l.wav"])),
        ("`--raw` is given another kind of file", {
            fed(clean(&given("raw"), &["-", "--raw", "--out", "out"]), &good).status.unwrap()
        }),
        ("a sample of a bench is broken", of_right("broken", &broken)),
        ("a recording breaks off, or no audio follows its header", of_right("half", &good[..500])),
        ("a recording breaks off, or no audio follows its header", of_right("header", &good[..HEADER])),
        ("the header says that there is no audio where there is", of_right("says-none", &with_size(0))),
        ("a signal ended the reading of a file", of_file_that_is_stopped()),
        ("a recording is given for the other bench than its own, or for both", {
            of("both", &[&TWO[..], &["./l.wav", "--out", "out"]].concat())
        }),
        ("a recording is given for the other bench than its own, or for both", of_right("other", &left)),
        ("a name says the other side than the one for which the file is given", {
            of("name", &["clean", "--left", "r.wav", "--out", "out"])
        }),
        ("a name says the other side than the one for which the file is given", {
            of("--side", &["clean", "l.wav", "--side", "right", "--out", "out"])
        }),
        ("the recordings of both benches are identical", of_right("same", &good)),
        ("two files of a list would be written to one folder", {
            of("twins", &["clean", "l.wav", "./l.wav", "--out", "out"])
        }),
        ("a file holds more audio than its header announces", of_right("more", &more)),
        ("`side DIR` finds that dictations are missing", of_missing()),
        ("`mend` finds files in a folder that disagree about a side", of_mixed()),
        ("`side` finds no recording", of("side", &["side", "l.wav"])),
        (
            "`side` finds a recording of an earlier version, or a side sheet without a seal",
            of_side("1.wav", &riff(&audio, &sheet(0, &entries(2)))),
        ),
        ("`side` finds a recording of an earlier version, or a side sheet without a seal", {
            of_side("1.wav", &earlier(0, &audio))
        }),
        ("`side` finds a recording that is not as the box wrote it", of_side("1.wav", &changed)),
        ("`side` finds a name, or a folder's, that says another side", of_side("right.wav", &left)),
    ]
}

/// The rows of the page's table.
fn table() -> BTreeMap<String, i32> {
    let page = Path::new(env!("CARGO_MANIFEST_DIR")).parent().unwrap().join("docs/BOX.md");
    let page = fs::read_to_string(page).unwrap();
    let (_, table) = page.split_once("| Status | When |\n|---|---|\n").unwrap();
    let row = |line: &str| {
        let (status, when) = line.strip_prefix("| ")?.strip_suffix(" |")?.split_once(" | ")?;
        Some((when.to_string(), status.parse().unwrap()))
    };
    table.lines().map_while(row).collect()
}

#[test]
fn a_case_for_each_row_of_the_page() {
    let (cases, table) = (cases(), table());
    for (when, status) in &cases {
        assert_eq!(table.get(*when), Some(status), "{when}");
    }
    for when in table.keys() {
        assert!(cases.iter().any(|(case, _)| case == when), "{when}");
    }
}
