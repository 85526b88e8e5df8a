//! The command line: what it writes, and each error with its exit status and nothing left behind.

use std::fs;
use std::path::{Path, PathBuf};
use std::process::{Command, Output, Stdio};
use tuppencehop::cleaning::demo::{dictation, HOUSE};
use tuppencehop::reading::wav;

/// A folder of its own for each test.
fn folder(name: &str) -> PathBuf {
    let path = Path::new(env!("CARGO_TARGET_TMPDIR")).join(name);
    let _ = fs::remove_dir_all(&path);
    fs::create_dir_all(&path).unwrap();
    path
}

fn host(words: &[&str]) -> Output {
    Command::new(env!("CARGO_BIN_EXE_tuppencehop")).args(words).output().unwrap()
}

/// Both recordings and the model, as files.
struct Given {
    path: PathBuf,
}

impl Given {
    fn new(name: &str) -> Given {
        let given = Given { path: folder(name) };
        given.put("left.wav", &wav::write(48_000, &dictation(0).noisy));
        given.put("right.wav", &wav::write(48_000, &dictation(1).noisy));
        given.put("house.rnn", HOUSE);
        given
    }

    fn put(&self, name: &str, bytes: &[u8]) {
        fs::write(self.path.join(name), bytes).unwrap();
    }

    fn at(&self, name: &str) -> String {
        self.path.join(name).to_str().unwrap().into()
    }

    fn clean(&self, left: &str, right: &str, model: &str, out: &str) -> Output {
        let [l, r, m, o] = [left, right, model, out].map(|name| self.at(name));
        host(&["clean", "--left", &l, "--right", &r, "--model", &m, "--out", &o, "--csv"])
    }

    /// What was asked could not be done: the run says this, and leaves no folder.
    fn fails(&self, output: Output, words: &[&str]) {
        self.ends(output, 1, words);
    }

    /// The same of words that are no command.
    fn is_wrong(&self, output: Output, words: &[&str]) {
        self.ends(output, 2, words);
    }

    fn ends(&self, output: Output, status: i32, words: &[&str]) {
        let said = String::from_utf8(output.stderr).unwrap();
        assert_eq!(output.status.code(), Some(status), "{said}");
        for word in words {
            assert!(said.contains(word), "{said}");
        }
        assert!(!self.path.join("out").exists(), "{said}");
    }
}

const WRITTEN: [&str; 5] = ["left.wav", "right.wav", "frames.csv", "benches.svg", "index.html"];

/// Whether a line of a page names its recording or its date.
fn names_it(line: &str) -> bool {
    [">recording<", ">date<"].iter().any(|word| line.contains(word))
}

#[test]
fn clean_writes_its_files() {
    let given = Given::new("clean");
    let output = given.clean("left.wav", "right.wav", "house.rnn", "out");
    assert!(output.status.success(), "{}", String::from_utf8_lossy(&output.stderr));
    let mut names: Vec<_> = fs::read_dir(given.path.join("out")).unwrap().map(|e| e.unwrap().file_name()).collect();
    let mut wanted: Vec<std::ffi::OsString> = WRITTEN.iter().map(|n| n.into()).collect();
    names.sort();
    wanted.sort();
    assert_eq!(names, wanted);
    let table = fs::read_to_string(given.path.join("out/frames.csv")).unwrap();
    assert!(table.starts_with("side,frame,heard so far,state,voice,energy\nleft,0,"));
    assert!(fs::read_to_string(given.path.join("out/benches.svg")).unwrap().starts_with("<svg"));
    let left = wav::read(&fs::read(given.path.join("out/left.wav")).unwrap()).unwrap();
    assert_eq!(left.channels[0].len(), dictation(0).noisy.len());
}

/// The sheet has the side, and a record for each row of the table.
#[test]
fn each_recording_carries_its_sheet() {
    let given = Given::new("sheets");
    assert!(given.clean("left.wav", "right.wav", "house.rnn", "out").status.success());
    let table = fs::read_to_string(given.path.join("out/frames.csv")).unwrap();
    for side in ["left", "right"] {
        let file = fs::read(given.path.join(format!("out/{side}.wav"))).unwrap();
        let rows: Vec<&str> = table.lines().filter(|line| line.starts_with(side)).collect();
        let heard = rows.iter().filter(|row| row.contains(",heard,")).count();
        let told = tuppencehop::recording::judge::judged(&mut &file[..]).unwrap().unwrap();
        let wanted = (side, rows.len() as u64, heard as u64);
        assert_eq!((told.front.side.name(), told.frames, told.heard), wanted);
        assert!(heard > 0);
        // behind the audio and its seal
        let mut start = [0; 3];
        assert_eq!(tuppence::sheet_read(&mut start, &file), 0);
        assert_eq!(start[0], wav::audio(&file[..]).unwrap().end() + 8 + 24);
    }
}

#[test]
fn another_right_recording_leaves_the_left_file_as_it_is() {
    let given = Given::new("apart");
    given.put("noise.wav", &wav::write(48_000, &dictation(0).noisy.iter().rev().map(|x| 2.0 * x).collect::<Vec<_>>()));
    assert!(given.clean("left.wav", "right.wav", "house.rnn", "one").status.success());
    assert!(given.clean("left.wav", "noise.wav", "house.rnn", "two").status.success());
    let read = |name: &str| fs::read(given.path.join(name)).unwrap();
    assert!(read("one/left.wav") == read("two/left.wav"));
    assert!(read("one/right.wav") != read("two/right.wav"));
}

#[test]
fn a_stereo_file_is_both_benches() {
    let given = Given::new("stereo");
    let sides = [dictation(0).noisy, dictation(1).noisy];
    let n = sides[0].len().min(sides[1].len());
    let mixed: Vec<f32> = (0..2 * n).map(|i| sides[i % 2][i / 2]).collect();
    let mut stereo = wav::write(48_000, &mixed);
    (stereo[22], stereo[32]) = (2, 4);
    given.put("both.wav", &stereo);
    given.put("l.wav", &wav::write(48_000, &sides[0][..n]));
    given.put("r.wav", &wav::write(48_000, &sides[1][..n]));
    let [b, m, o] = ["both.wav", "house.rnn", "one"].map(|name| given.at(name));
    assert!(host(&["clean", "--both", &b, "--model", &m, "--out", &o, "--csv"]).status.success());
    assert!(given.clean("l.wav", "r.wav", "house.rnn", "two").status.success());
    for name in WRITTEN {
        let read = |folder: &str| fs::read(given.path.join(folder).join(name)).unwrap();
        // a page names its recording and its date
        let lines =
            |file: Vec<u8>| String::from_utf8_lossy(&file).lines().filter(|line| !names_it(line)).collect::<String>();
        let same = match name {
            "index.html" => lines(read("one")) == lines(read("two")),
            _ => read("one") == read("two"),
        };
        assert!(same, "{name}");
    }
}

#[test]
fn the_demo_needs_no_files() {
    let out = folder("demo").join("out");
    let output = host(&["demo", out.to_str().unwrap(), "--csv"]);
    assert!(output.status.success());
    for name in WRITTEN.iter().chain(&["left-before.wav", "right-before.wav"]) {
        assert!(out.join(name).exists(), "{name}");
    }
    assert!(String::from_utf8(output.stdout).unwrap().contains("index.html"));
    // the page names only files that are there, and no other place
    let page = fs::read_to_string(out.join("index.html")).unwrap();
    let places = [" src=\"", " href=\""].into_iter().flat_map(|word| page.split(word).skip(1));
    let names: Vec<&str> = places.map(|rest| rest.split('"').next().unwrap()).collect();
    assert_eq!(names.len(), 6, "{names:?}");
    assert!(names.iter().all(|name| out.join(name).exists()) && !page.contains("://"), "{names:?}");
}

/// The crate's lag is the rule; our own, and plain sums, clean the same dictation a little otherwise.
#[test]
fn with_our_own_lag() {
    let given = Given::new("lag");
    let [l, r, m, one, two, three] =
        ["left.wav", "right.wav", "house.rnn", "one", "two", "three"].map(|name| given.at(name));
    let words = ["clean", "--left", &l, "--right", &r, "--model", &m, "--out"];
    assert!(host(&[&words[..], &[&one]].concat()).status.success());
    assert!(host(&[&words[..], &[&two, "--lag", "crate"]].concat()).status.success());
    assert!(host(&[&["clean", "--lag", "own"], &words[1..], &[&three]].concat()).status.success());
    for bad in [&["--lag", "mine"][..], &["--lag"], &["--raw"]] {
        given.is_wrong(host(&[&words[..], &[&given.at("out")], bad].concat()), &["--help"]);
    }
    for name in ["left.wav", "right.wav"] {
        let read = |folder: &str| {
            wav::read(&fs::read(given.path.join(folder).join(name)).unwrap()).unwrap().channels.remove(0)
        };
        let (crates, again, own) = (read("one"), read("two"), read("three"));
        assert!(crates == again && crates != own && crates.len() == own.len(), "{name}");
        let power = |list: &[f32]| list.iter().map(|x| f64::from(x * x)).sum::<f64>();
        let apart: Vec<f32> = crates.iter().zip(&own).map(|(a, b)| a - b).collect();
        assert!(power(&apart) < 0.05 * power(&crates), "{name}");
    }
}

#[test]
fn nobody_reads_what_is_said() {
    let given = Given::new("nobody");
    let mut run = Command::new(env!("CARGO_BIN_EXE_tuppencehop"));
    let mut run = run.args(["demo", &given.at("out")]).stdout(Stdio::piped()).stderr(Stdio::piped()).spawn().unwrap();
    drop(run.stdout.take());
    let output = run.wait_with_output().unwrap();
    assert_eq!((output.status.code(), &output.stderr[..]), (Some(0), &b""[..]));
    assert!(given.path.join("out/left.wav").exists());
}

#[test]
fn a_missing_file() {
    let given = Given::new("missing");
    given.fails(given.clean("none.wav", "right.wav", "house.rnn", "out"), &["none.wav"]);
    given
        .fails(given.clean("left.wav", "right.wav", "none.rnn", "out"), &["clean: --model ", "none.rnn: no such file"]);
}

/// With --or-house a model that is refused gives way to the house model, and the refusal is told.
#[test]
fn the_house_model_in_place_of_a_refused_one() {
    let given = Given::new("or_house");
    given.put("cut.rnn", &fs::read(given.path.join("house.rnn")).unwrap()[..87_520]);
    let clean = |model: &str, out: &str, more: &[&str]| {
        let [left, model, out] = ["left.wav", model, out].map(|name| given.at(name));
        host(&[&["clean", "--left", &left, "--model", &model, "--out", &out, "--csv"], more].concat())
    };
    given.fails(clean("cut.rnn", "out", &[]), &["cut.rnn: the model is refused", "(refusal 16, layer 5, vad_output)"]);
    let told = |output: Output| {
        assert!(output.status.success());
        [output.stdout, output.stderr].map(|bytes| String::from_utf8(bytes).unwrap())
    };
    let [_, why] = told(clean("cut.rnn", "trial", &["--or-house"]));
    assert!(why.contains("(refusal 16, layer 5, vad_output); the house model is used instead"), "{why}");
    let [_, none] = told(clean("house.rnn", "house", &["--or-house"]));
    assert_eq!(none, "");
    let frames = |out: &str| fs::read(given.path.join(out).join("left.wav")).unwrap()[76..].to_vec();
    assert_eq!(frames("trial"), frames("house"));
    let [json, _] = told(clean("cut.rnn", "json", &["--or-house", "--json"]));
    assert!(json.contains("\"model\": \"house.rnn\"") && json.contains("refusal 16"), "{json}");
}

/// A name in any bytes is taken as it is.
#[cfg(unix)]
#[test]
fn a_name_that_is_not_unicode() {
    use std::os::unix::ffi::OsStrExt;
    let given = Given::new("bytes");
    let name = given.path.join(std::ffi::OsStr::from_bytes(b"left-\xff.wav"));
    fs::rename(given.path.join("left.wav"), &name).unwrap();
    let clean = |model: &str| {
        let mut host = Command::new(env!("CARGO_BIN_EXE_tuppencehop"));
        host.args(["clean", "--right", &given.at("right.wav"), "--model", &given.at(model), "--out", &given.at("out")]);
        host.arg("--left").arg(&name).output().unwrap()
    };
    given.fails(clean("none.rnn"), &["none.rnn"]);
    assert!(clean("house.rnn").status.success());
}

#[test]
fn a_folder_for_a_file() {
    let given = Given::new("folder");
    fs::create_dir(given.path.join("dir.wav")).unwrap();
    given.fails(given.clean("dir.wav", "right.wav", "house.rnn", "out"), &["dir.wav"]);
}

/// One sample, and many channels.
#[test]
fn strange_recordings() {
    let given = Given::new("strange");
    ["one.wav", "two.wav"].iter().for_each(|name| given.put(name, &wav::write(48_000, &[5.0])));
    assert!(given.clean("one.wav", "two.wav", "house.rnn", "out").status.success());
    let read = |name: &str| wav::read(&fs::read(given.path.join(name)).unwrap()).unwrap().channels[0].len();
    assert_eq!((read("out/left.wav"), read("out/right.wav")), (1, 1));
    fs::remove_dir_all(given.path.join("out")).unwrap();
    let mut many = wav::write(48_000, &[0.0; 8]);
    many[22..24].copy_from_slice(&[0xFF; 2]);
    given.put("many.wav", &many);
    given.fails(given.clean("left.wav", "many.wav", "house.rnn", "out"), &["many.wav", "65535"]);
}

#[test]
fn another_sample_rate() {
    let given = Given::new("rate");
    given.put("slow.wav", &wav::write(44_100, &[0.0; 4_410]));
    given.fails(given.clean("slow.wav", "right.wav", "house.rnn", "out"), &["slow.wav", "48,000", "44100"]);
}

#[test]
fn another_format() {
    let given = Given::new("format");
    given.put("text.wav", b"no sound at all");
    given.fails(given.clean("text.wav", "right.wav", "house.rnn", "out"), &["text.wav", "not a WAV file"]);
    // 24 bits in places of four bytes
    let mut wide = wav::write(48_000, &[5.0; 96]);
    (wide[32], wide[34]) = (4, 24);
    given.put("wide.wav", &wide);
    let words = ["wide.wav: 3 bytes are wanted for a sample of each channel; this has 4"];
    given.fails(given.clean("left.wav", "wide.wav", "house.rnn", "out"), &words);
}

#[test]
fn a_refused_model() {
    let given = Given::new("model");
    given.put("cut.rnn", &HOUSE[..HOUSE.len() - 1]);
    given.fails(
        given.clean("left.wav", "right.wav", "cut.rnn", "out"),
        &["it ends within a layer's weights", "refusal 16", "layer 5", "vad_output"],
    );
    given.put("empty.rnn", b"");
    given.fails(
        given.clean("left.wav", "right.wav", "empty.rnn", "out/of/it"),
        &["refusal 11", "layer 0", "input_dense"],
    );
}

#[test]
fn an_unwritable_folder() {
    let given = Given::new("unwritable");
    let output = given.clean("left.wav", "right.wav", "house.rnn", "left.wav/out");
    given.fails(output, &["left.wav/out"]);
}

#[test]
fn full_scale_is_clipped() {
    let given = Given::new("clipped");
    let mut floats = wav::write(48_000, &[0.0; 8]);
    (floats[20], floats[32], floats[34]) = (3, 4, 32);
    for (n, words) in [(0, "1 sample was"), (1, "2 samples were")] {
        floats[44 + 4 * n..][..4].copy_from_slice(&1.0f32.to_le_bytes());
        given.put("loud.wav", &floats);
        let output = given.clean("left.wav", "loud.wav", "house.rnn", &format!("out-{n}"));
        assert!(output.status.success());
        let told = String::from_utf8(output.stderr).unwrap();
        assert!(told.contains(&format!("loud.wav: {words} beyond full scale")), "{told}");
    }
}
