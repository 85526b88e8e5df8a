//! What the tests of the running program share: a folder for each, the program in it, sound, and signals.
#![allow(dead_code)]

use std::fs;
use std::io::Write;
use std::os::unix::process::CommandExt;
use std::path::{Path, PathBuf};
use std::process::{Child, Command, Output, Stdio};
use std::sync::OnceLock;
use std::thread::sleep;
use std::time::{Duration, Instant};
use tuppencehop::cleaning::demo::{dictation, HOUSE};
use tuppencehop::reading::wav;
use tuppencehop::recording::judge::{judged, Told};

/// The bytes before the audio of a plain file, and of a recording.
pub const HEADER: usize = 44;
pub const HEAD: usize = 76;
/// What `clean` writes, and what it writes with `--csv`.
pub const WRITTEN: [&str; 4] = ["benches.svg", "index.html", "left.wav", "right.wav"];
pub const WITH_TABLE: [&str; 5] = ["benches.svg", "frames.csv", "index.html", "left.wav", "right.wav"];

/// A folder of its own for each test, with the house model in it.
pub fn folder(name: &str) -> PathBuf {
    let path = Path::new(env!("CARGO_TARGET_TMPDIR")).join(name);
    let _ = fs::remove_dir_all(&path);
    fs::create_dir_all(&path).unwrap();
    fs::write(path.join("house.rnn"), HOUSE).unwrap();
    path
}

/// The program, to be run in the folder. Signals end it, though the tests themselves may run behind `nohup`
/// or in the background, where a shell has them ignored.
pub fn host(path: &Path, words: &[&str]) -> Command {
    extern "C" {
        fn signal(number: i32, handler: usize) -> usize;
    }
    let mut command = Command::new(env!("CARGO_BIN_EXE_tuppencehop"));
    command.args(words).current_dir(path).stdin(Stdio::null()).stdout(Stdio::piped()).stderr(Stdio::piped());
    // SAFETY: `signal` may be called between fork and exec, and the default, 0, needs no handler
    unsafe {
        command.pre_exec(|| {
            for number in [HUP, INT, TERM] {
                signal(number, 0);
            }
            Ok(())
        })
    };
    command
}

/// `box clean` with the house model, and the table of frames.
pub fn clean(path: &Path, words: &[&str]) -> Command {
    let mut command = host(path, &["clean", "--model", "house.rnn", "--csv"]);
    command.args(words);
    command
}

/// The same of a raw stream, into the folder `out`.
pub fn stream(path: &Path) -> Child {
    clean(path, &["-", "--raw", "-q", "--out", "out"]).stdin(Stdio::piped()).spawn().unwrap()
}

/// How a run ended: its exit status, what it said, and why.
#[derive(Debug, PartialEq)]
pub struct Ended {
    pub status: Option<i32>,
    pub said: String,
    pub why: String,
}

pub fn ended(output: Output) -> Ended {
    let text = |bytes: Vec<u8>| String::from_utf8(bytes).unwrap();
    Ended { status: output.status.code(), said: text(output.stdout), why: text(output.stderr) }
}

pub fn run(mut command: Command) -> Ended {
    ended(command.output().unwrap())
}

/// Runs it with these bytes as its standard input.
pub fn fed(mut command: Command, bytes: &[u8]) -> Ended {
    let mut child = command.stdin(Stdio::piped()).spawn().unwrap();
    let mut to = child.stdin.take().unwrap();
    // a program that has stopped reads no more
    let _ = to.write_all(bytes);
    drop(to);
    ended(child.wait_with_output().unwrap())
}

/// The program in no more memory than this, in MB.
pub fn in_memory(path: &Path, most: u32, words: &[&str]) -> Ended {
    let mut shell = Command::new("sh");
    let limit = format!("ulimit -v {} && exec \"$0\" \"$@\"", 1_024 * most);
    run({
        shell.args(["-c", &limit, env!("CARGO_BIN_EXE_tuppencehop")]).args(words).current_dir(path);
        shell
    })
}

/// The names in a folder.
pub fn names(path: &Path) -> Vec<String> {
    let mut names: Vec<String> =
        fs::read_dir(path).unwrap().map(|e| e.unwrap().file_name().into_string().unwrap()).collect();
    names.sort();
    names
}

/// Both dictations over their grinders.
pub fn dictations() -> &'static [Vec<f32>; 2] {
    static BOTH: OnceLock<[Vec<f32>; 2]> = OnceLock::new();
    BOTH.get_or_init(|| [0, 1].map(|bench| dictation(bench).noisy))
}

/// Both in turn, as raw samples; so many seconds, from the start again where they end.
pub fn raw(seconds: f64) -> Vec<u8> {
    let sides = dictations();
    let n = (48_000.0 * seconds) as usize;
    (0..2 * n).map(|i| sides[i % 2][i / 2 % sides[i % 2].len()] as i16).flat_map(i16::to_le_bytes).collect()
}

/// The audio of a recording, and what the judge tells of it.
pub fn recording(path: &Path) -> (Vec<f32>, Told) {
    let bytes = fs::read(path).unwrap_or_else(|why| panic!("{}: {why}", path.display()));
    let told = judged(&mut &bytes[..]).unwrap().unwrap_or_else(|refusal| panic!("{}: {refusal}", path.display()));
    (wav::read(&bytes).unwrap().channels.remove(0), told)
}

/// A recording of this side, and of its length.
pub fn sound(path: &Path, side: &str) -> Vec<f32> {
    let (audio, told) = recording(path);
    let frames = tuppencehop::cleaning::run::frames_of(audio.len() as u64);
    assert_eq!((told.front.side.name(), told.frames), (side, frames), "{}", path.display());
    audio
}

/// Waits for something that will be soon.
pub fn soon(what: &str, mut is_so: impl FnMut() -> bool) {
    let start = Instant::now();
    while !is_so() {
        assert!(start.elapsed() < Duration::from_secs(60), "{what}");
        sleep(Duration::from_millis(5));
    }
}

/// How many bytes a file has, none where it is not there.
pub fn size(path: &Path) -> u64 {
    fs::metadata(path).map_or(0, |about| about.len())
}

pub const HUP: i32 = 1;
pub const INT: i32 = 2;
pub const TERM: i32 = 15;

/// Sends a signal.
pub fn signal(child: &Child, number: i32) {
    extern "C" {
        fn kill(pid: i32, number: i32) -> i32;
    }
    // SAFETY: the child was not waited for yet, so the number is its own
    assert_eq!(unsafe { kill(child.id() as i32, number) }, 0);
}
