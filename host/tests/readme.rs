//! Every command of the box that the README and docs/BOX.md show is run here, with files in the place of the names that
//! stand there.

mod models;

use std::fs::{self, File};
use std::io::Write;
use std::path::{Path, PathBuf};
use std::process::{Command, Stdio};
use std::thread::sleep;
use std::time::Duration;
use tuppencehop::cleaning::demo::{dictation, Rng, HOUSE};
use tuppencehop::models::layers::Layers;
use tuppencehop::reading::wav;

/// The commands of a page: what follows `./box` in a line of code, or between backticks, up to two spaces. What stands
/// behind them is a comment, so that the line can be pasted as it is.
fn commands(page: &str) -> Vec<String> {
    let mut found = Vec::new();
    for line in page.lines() {
        let blocks = line.starts_with("    ").then_some(line).into_iter();
        let spans = line.split('`').skip(1).step_by(2).filter(|_| !line.starts_with("    "));
        for code in blocks.chain(spans) {
            if let Some((_, command)) = code.split_once("./box ") {
                let (command, comment) = command.split_once("  ").unwrap_or((command, ""));
                assert!(comment.is_empty() || comment.trim_start().starts_with("# "), "{line}");
                found.push(command.trim().to_string());
            }
        }
    }
    found
}

/// A folder with all that the pages name, as if they had been followed from the top.
fn bench() -> PathBuf {
    let path = Path::new(env!("CARGO_TARGET_TMPDIR")).join("readme");
    let _ = fs::remove_dir_all(&path);
    fs::create_dir_all(&path).unwrap();
    let [left, right] = [0, 1].map(|bench| dictation(bench).noisy);
    for (names, samples) in [(["L.wav", "monday-left.wav"], &left), (["R.wav", "monday-right.wav"], &right)] {
        names.iter().for_each(|name| fs::write(path.join(name), wav::write(48_000, samples)).unwrap());
    }
    fs::create_dir_all(path.join("host/model")).unwrap();
    ["M.rnn", "host/model/house.rnn"].iter().for_each(|name| fs::write(path.join(name), HOUSE).unwrap());
    fs::write(path.join("rnn_data.c"), models::as_c(&Layers::of(HOUSE).unwrap(), &mut Rng(7))).unwrap();
    let both: Vec<f32> = left.iter().zip(&right).flat_map(|(l, r)| [*l, *r]).collect();
    let mut stereo = wav::write(48_000, &both);
    (stereo[22], stereo[32]) = (2, 4);
    fs::write(path.join("stream"), &stereo[44..]).unwrap();
    fs::write(path.join("STEREO.wav"), stereo).unwrap();
    path
}

/// Makes room for what a command writes, as if it were the first of the day.
fn make_room(folder: &Path, words: &[&str]) {
    let place = match words {
        ["demo", dir, ..] => Some(dir),
        words if words.contains(&"--force") => None,
        words => words.iter().position(|word| *word == "--out").and_then(|at| words.get(at + 1)),
    };
    let Some(place) = place.map(|place| folder.join(place)) else { return };
    let _ = fs::remove_file(&place);
    let _ = fs::remove_dir_all(&place);
}

/// A recording whose last bytes are missing.
fn tear(folder: &Path, name: &str) {
    let whole = fs::read(folder.join("out/cleaned/left.wav")).unwrap();
    fs::write(folder.join(name), &whole[..whole.len() - 10]).unwrap();
}

/// A recording with its side sheet alone, as the first ones have it.
fn unseal(folder: &Path, name: &str) {
    let file = fs::read(folder.join("DIR/left.wav")).unwrap();
    let audio = wav::audio(&file[..]).unwrap();
    let (start, end) = (audio.place as usize, audio.end() as usize);
    fs::write(folder.join(name), [&file[..36], &file[start - 8..end], &file[end + 32..]].concat()).unwrap();
}

/// A run that the power cut short.
fn cut_short(folder: &Path, dir: &str) {
    let words = ["clean", "-", "--raw", "--model", "M.rnn", "--out", dir];
    make_room(folder, &words);
    let mut host = Command::new(env!("CARGO_BIN_EXE_tuppencehop"));
    let mut child = host.args(words).current_dir(folder).stdin(Stdio::piped()).spawn().unwrap();
    let mut to = child.stdin.take().unwrap();
    to.write_all(&fs::read(folder.join("stream")).unwrap()[..400_000]).unwrap();
    let part = folder.join(dir).join("right.wav.part");
    while fs::metadata(&part).map_or(0, |about| about.len()) < 100_000 {
        sleep(Duration::from_millis(5));
    }
    child.kill().unwrap();
    child.wait().unwrap();
}

/// A command, run in the folder. A stream is read from the file of that name, and what is to be mended is made before
/// it.
fn run(folder: &Path, command: &str) {
    let words: Vec<&str> = command.split_whitespace().collect();
    make_room(folder, &words);
    // by a shell, as it would be pasted
    let mut host = Command::new("sh");
    host.args(["-c", &format!("\"$0\" {command}"), env!("CARGO_BIN_EXE_tuppencehop")]).current_dir(folder);
    match words[..] {
        ["clean", "-", "--raw", ..] => _ = host.stdin(File::open(folder.join("stream")).unwrap()),
        ["clean", "-", ..] => _ = host.stdin(File::open(folder.join("STEREO.wav")).unwrap()),
        ["clean", "--left", "-", ..] => _ = host.stdin(File::open(folder.join("L.wav")).unwrap()),
        ["mend", torn, "--out", _] => tear(folder, torn),
        ["mend", old, "--as", _, "--out", _] => unseal(folder, old),
        ["mend", dir] => cut_short(folder, dir),
        _ => {}
    }
    let output = host.output().unwrap();
    assert!(output.status.success(), "{command}: {}", String::from_utf8_lossy(&output.stderr));
}

#[test]
fn every_command_of_the_pages() {
    let root = Path::new(env!("CARGO_MANIFEST_DIR")).parent().unwrap();
    let page = |name: &str| fs::read_to_string(root.join(name)).unwrap();
    let (folder, shown) = (bench(), commands(&(page("README.md") + &page("docs/BOX.md"))));
    assert!(shown.len() > 10, "{shown:?}");
    for command in &shown {
        // the developers' program has tests of its own, and tests/box.rs installs
        if !["dev ", "install", "package"].iter().any(|word| command.starts_with(word)) {
            run(&folder, command);
        }
    }
    let words = [
        "demo",
        "clean",
        "clean -",
        "side",
        "mend torn.wav",
        "mend DIR",
        "pack",
        "unpack",
        "import",
        "export",
        "dev bench",
        "install",
        "package",
        "--help",
    ];
    for word in words {
        assert!(shown.iter().any(|command| command.starts_with(word)), "no page shows {word}");
    }
}

/// The README explains each of its own words where it first uses it.
#[test]
fn the_readme_explains_its_words() {
    let root = Path::new(env!("CARGO_MANIFEST_DIR")).parent().unwrap();
    let page = fs::read_to_string(root.join("README.md")).unwrap();
    for word in ["frame", "heard", "side sheet", "sealed", "lag", "refusal", "gate"] {
        let (explained, first) = (page.find(&format!("*{word}*")), page.find(&format!(" {word}")));
        assert!(explained.is_some_and(|at| first.is_none_or(|first| at <= first)), "{word}");
    }
}
