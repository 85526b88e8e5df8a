//! A crash and a power cut: `kill -9` at any moment, and files whose last blocks are gone or zeros. `box mend DIR`
//! closes what is there. So many kills as the variable KILLS says, or 20.

mod common;

use common::*;
use std::fs::{self, File};
use std::io::Write;
use std::path::{Path, PathBuf};
use std::sync::atomic::{AtomicU64, Ordering};
use std::sync::OnceLock;
use std::thread::{scope, sleep, spawn};
use std::time::{Duration, Instant};
use tuppencehop::cleaning::demo::Rng;
use tuppencehop::cleaning::recorder::Side;
use tuppencehop::reading::wav;
use tuppencehop::recording::front::{Front, SEAL};

const SIDES: [&str; 2] = ["left", "right"];
/// What a power cut may cost.
const TWO_SECONDS: usize = 2 * 48_000;
/// What is still within the library when a recorder pauses: the frame that comes out with the next one, and what is
/// no frame yet.
const WITHIN: usize = 480 + 479;

fn mend(path: &Path) -> Ended {
    run(host(path, &["mend", "out"]))
}

/// Eight seconds of both benches, raw, and cleaned to their end.
fn known() -> &'static (Vec<u8>, [Vec<f32>; 2]) {
    static KNOWN: OnceLock<(Vec<u8>, [Vec<f32>; 2])> = OnceLock::new();
    KNOWN.get_or_init(|| {
        let (path, samples) = (folder("crash-known"), raw(8.0));
        let ended = fed(clean(&path, &["-", "--raw", "--out", "out"]), &samples);
        assert_eq!(ended.status, Some(0), "{}", ended.why);
        (samples, SIDES.map(|side| sound(&path.join(format!("out/{side}.wav")), side)))
    })
}

/// A run of these samples that is killed when so much time has passed, in eight times the speed of speech. How many
/// samples of a bench had been handed to it two seconds before that.
fn killed(path: &Path, after: Duration) -> usize {
    let mut child = stream(path);
    let (mut to, start) = (child.stdin.take().unwrap(), Instant::now());
    let recorder = spawn(move || {
        let mut delivered = vec![];
        for part in known().0.chunks(8 * 4 * 48 * 20) {
            if to.write_all(part).is_err() {
                break;
            }
            delivered.push((start.elapsed(), part.len() / 4));
            sleep(Duration::from_millis(20));
        }
        // it waits, as a recorder does that is silent for a while
        (delivered, to)
    });
    sleep(after);
    child.kill().unwrap();
    child.wait().unwrap();
    let death = start.elapsed();
    let (delivered, _) = recorder.join().unwrap();
    delivered.iter().filter(|(when, _)| *when + Duration::from_secs(2) <= death).map(|(_, samples)| samples).sum()
}

/// The recordings of both sides begin as they should, up to these samples; how many samples each has.
fn begins_well(path: &Path, good: [usize; 2]) -> [usize; 2] {
    [0, 1].map(|k| {
        let file = path.join(format!("out/{}.wav", SIDES[k]));
        if !file.exists() {
            return 0;
        }
        let (audio, wanted) = (sound(&file, SIDES[k]), &known().1[k]);
        let n = audio.len().min(good[k]);
        assert!(audio.len() <= wanted.len() && audio[..n] == wanted[..n], "{}", file.display());
        audio.len()
    })
}

/// What the recordings of a folder are called on their way.
fn part(path: &Path, side: &str, ending: &str) -> PathBuf {
    path.join(format!("out/{side}.wav{ending}"))
}

/// Cuts the end of a file off, or fills it with zeros. How many bytes are as they were.
fn damage(file: &Path, cost: u64, zeros: bool) -> u64 {
    let size = size(file);
    let good = size.saturating_sub(cost);
    let open = File::options().write(true).open(file).unwrap();
    open.set_len(good).unwrap();
    if zeros {
        open.set_len(size).unwrap();
    }
    good
}

fn copy(from: &Path, to: &Path) {
    let _ = fs::remove_dir_all(to);
    fs::create_dir_all(to).unwrap();
    for name in names(from) {
        fs::copy(from.join(&name), to.join(&name)).unwrap();
    }
}

/// The same after a power cut: of each file what was written in the last two seconds may be gone, or zeros.
fn after_a_power_cut(path: &Path, cut: &Path, rng: &mut Rng) {
    copy(&path.join("out"), &cut.join("out"));
    let (mut good, mut there) = ([usize::MAX; 2], [0; 2]);
    for (k, side) in SIDES.into_iter().enumerate() {
        let samples = |bytes: u64| (bytes as usize).saturating_sub(HEAD) / 2;
        let audio = part(cut, side, ".part");
        there[k] = samples(size(&audio));
        let (seconds, zeros) = (rng.draw() % 192_000, rng.draw() & 1 == 0);
        good[k] = samples(damage(&audio, seconds, zeros));
        let (records, zeros) = (rng.draw() % 1_600, rng.draw() & 1 == 0);
        damage(&part(cut, side, ".sheet"), records, zeros);
    }
    // where all is younger than two seconds, there may be nothing to close
    let ended = mend(cut);
    assert!(ended.status == Some(0) || there.iter().any(|n| *n < TWO_SECONDS), "{}", ended.why);
    for (kept, there) in begins_well(cut, good).into_iter().zip(there) {
        assert!(kept + TWO_SECONDS + 480 >= there, "{kept} of {there}: {}", ended.said);
    }
}

#[test]
fn killed_at_any_moment() {
    let kills: u64 = std::env::var("KILLS").map_or(20, |kills| kills.parse().unwrap());
    known();
    let next = AtomicU64::new(0);
    let worker = || loop {
        let kill = next.fetch_add(1, Ordering::SeqCst);
        if kill >= kills {
            return;
        }
        let (path, cut) = (folder(&format!("crash-{kill}")), folder(&format!("crash-{kill}-cut")));
        let mut rng = Rng(0x9e37_79b9_7f4a_7c15 ^ (kill + 1) << 32);
        (0..10).for_each(|_| _ = rng.draw());
        let older = killed(&path, Duration::from_millis(rng.draw() % 3_600));
        if path.join("out").exists() {
            after_a_power_cut(&path, &cut, &mut rng);
            let ended = mend(&path);
            assert_eq!(ended.status, Some(0), "{}", ended.why);
            for kept in begins_well(&path, [usize::MAX; 2]) {
                assert!(kept + WITHIN >= older, "{kept} samples are there, {older} were older than two seconds");
            }
        } else {
            assert_eq!(older, 0);
        }
        for path in [path, cut] {
            fs::remove_dir_all(path).unwrap();
        }
    };
    scope(|threads| (0..4).for_each(|_| _ = threads.spawn(worker)));
}

/// A run that was killed when all of its samples had come.
fn left_behind(name: &str) -> PathBuf {
    let path = folder(name);
    let mut child = stream(&path);
    let mut to = child.stdin.take().unwrap();
    to.write_all(&known().0[..4 * 48_000]).unwrap();
    soon("nothing is written", || size(&part(&path, "right", ".part")) > 90_000);
    child.kill().unwrap();
    child.wait().unwrap();
    path
}

#[test]
fn what_is_told() {
    let path = left_behind("crash-told");
    let before = names(&path.join("out"));
    assert_eq!(before, ["frames.csv.part", "left.wav.part", "left.wav.sheet", "right.wav.part", "right.wav.sheet"]);
    for side in SIDES {
        let sheet = fs::read(part(&path, side, ".sheet")).unwrap();
        assert_eq!(Front::read(&sheet[..SEAL]).unwrap().side.name(), side);
        assert!(fs::read(part(&path, side, ".part")).unwrap()[44..].starts_with(&sheet[..SEAL]));
    }
    // the same folder is refused, whatever it is asked, and all stays as it was
    for words in [&["-", "--raw", "--out", "out"][..], &["-", "--raw", "--out", "out", "--force"]] {
        let ended = fed(clean(&path, words), &known().0);
        assert_eq!(ended.status, Some(1));
        assert!(ended.why.contains("`box mend out`"), "{}", ended.why);
        assert_eq!(names(&path.join("out")), before);
    }
    let ended = run(host(&path, &["mend", "out/left.wav.part", "--out", "new.wav"]));
    assert!(ended.status == Some(1) && ended.why.contains("`box mend out`"), "{}", ended.why);
    let ended = mend(&path);
    let [left, right] = begins_well(&path, [usize::MAX; 2]);
    let line = |side: &str, n: usize| {
        let frames = n / 480 + 1;
        format!(
            "out/{side}.wav: {side} side, {frames} frames, {frames} heard, no gap\nKept {:.2} s.\n",
            n as f64 / 48e3
        )
    };
    assert!(left > 44_000 && right > 44_000);
    assert_eq!((ended.status, ended.said), (Some(0), line("left", left) + &line("right", right)));
    assert_eq!(names(&path.join("out")), ["frames.csv", "left.wav", "right.wav"]);
    let table = fs::read_to_string(path.join("out/frames.csv")).unwrap();
    assert!(table.starts_with("side,frame,") && table.ends_with('\n'));
    let ended = mend(&path);
    assert_eq!((ended.status, &ended.said[..]), (Some(0), "out: there is no unfinished recording\n"));
}

/// Where records are lost they are written anew, and where a place is taken nothing is written over; both are told.
#[test]
fn what_is_missing_is_told() {
    let path = left_behind("crash-missing");
    fs::write(path.join("out/left.wav"), b"of yesterday").unwrap();
    damage(&part(&path, "left", ".sheet"), 80, false);
    damage(&part(&path, "right", ".part"), 9_600, true);
    let ended = mend(&path);
    assert_eq!(ended.status, Some(0), "{}", ended.why);
    let lines: Vec<&str> = ended.said.lines().collect();
    assert!(lines[0].starts_with("out/left-2.wav: left side, "), "{}", ended.said);
    assert!(lines[1].ends_with(" s. The records of 10 frames were lost: these are marked as heard."), "{}", ended.said);
    assert!(lines[3].ends_with(" s. The last 0.10 s are zeros, as a power cut may leave them."), "{}", ended.said);
    assert_eq!(fs::read(path.join("out/left.wav")).unwrap(), b"of yesterday");
    assert!(sound(&path.join("out/left-2.wav"), "left").len() > 40_000);
}

/// The side is in the head, and once more before the records: one of them is enough. Without both nothing is closed.
#[test]
fn a_side_that_can_not_be_told() {
    let path = left_behind("crash-seal");
    let [audio, sheet] = [".part", ".sheet"].map(|ending| part(&path, "left", ending));
    let (good, records) = (fs::read(&audio).unwrap(), fs::read(&sheet).unwrap());
    let put = |first: &[u8], second: &[u8]| {
        fs::write(&audio, first).unwrap();
        fs::write(&sheet, second).unwrap();
    };
    let bad = |first: &[u8], second: &[u8], words: &str| {
        put(first, second);
        let ended = mend(&path);
        assert_eq!(ended.status, Some(1));
        assert!(ended.why.contains(words), "{}", ended.why);
        assert!(fs::read(&audio).unwrap() == first && fs::read(&sheet).unwrap() == second);
    };
    let (no_head, no_seal) = ([&[0; HEAD][..], &good[HEAD..]].concat(), [&[0; SEAL][..], &records[SEAL..]].concat());
    let neither = "out/left.wav.part: neither its head nor its records tell its side; it stays until you move it";
    bad(&no_head, &no_seal, neither);
    bad(&no_head, b"", neither);
    let ours = "this is no file that the box wrote; it stays as it is";
    let changed = |bytes: &[u8], at: usize| [&bytes[..at], &[bytes[at] ^ 1], &bytes[at + 1..]].concat();
    // the seal of the other side, but for its checksum
    bad(&no_head, &[&records[..4], b"RGHT", &records[8..]].concat(), neither);
    bad(&changed(&good, 50), &records, &format!("out/left.wav.part: {ours}"));
    bad(&good, &changed(&records, 6), &format!("out/left.wav.sheet: {ours}"));
    bad(b"notes, which are longer than any head of a recording could be, by far, and that is a long text", b"", ours);
    // the other bench was closed all the same
    assert!(sound(&path.join("out/right.wav"), "right").len() > 40_000);
    // one of both is enough; and without records all are heard
    put(&good, &records);
    assert_eq!(mend(&path).status, Some(0));
    let whole = fs::read(path.join("out/left.wav")).unwrap();
    for (first, second) in [(&no_head, &records), (&good, &no_seal)] {
        fs::remove_file(path.join("out/left.wav")).unwrap();
        put(first, second);
        let ended = mend(&path);
        assert_eq!(ended.status, Some(0), "{}", ended.why);
        assert!(fs::read(path.join("out/left.wav")).unwrap() == whole);
    }
    for second in [None, Some(&records[..SEAL]), Some(&records[..7])] {
        fs::remove_file(path.join("out/left.wav")).unwrap();
        put(&good, second.unwrap_or_default());
        if second.is_none() {
            fs::remove_file(&sheet).unwrap();
        }
        let ended = mend(&path);
        assert_eq!(ended.status, Some(0), "{}", ended.why);
        let (audio, told) = recording(&path.join("out/left.wav"));
        assert_eq!((audio.len(), told.heard), ((good.len() - HEAD) / 2, told.frames));
        let lost = format!("The records of {} frames were lost: these are marked as heard.", told.frames);
        assert!(ended.said.contains(&lost), "{}", ended.said);
    }
}

/// The power fails again while a recording is closed: then its header says where the audio ends, and records stand
/// behind it or half of them.
#[test]
fn closing_that_was_cut_short() {
    let path = left_behind("crash-twice");
    let (once, again) = (folder("crash-once"), folder("crash-again"));
    copy(&path.join("out"), &once.join("out"));
    assert_eq!(mend(&once).status, Some(0));
    let whole = fs::read(once.join("out/left.wav")).unwrap();
    let audio = wav::audio(&whole[..]).unwrap().end() as usize;
    for there in [audio, audio + 3, audio + 8, audio + 20, audio + 32, audio + 400, whole.len() - 1, whole.len()] {
        copy(&path.join("out"), &again.join("out"));
        fs::write(part(&again, "left", ".part"), &whole[..there]).unwrap();
        assert_eq!(mend(&again).status, Some(0));
        assert!(fs::read(again.join("out/left.wav")).unwrap() == whole, "{there}");
    }
    // the recording has its place, and the records beside it were to be removed
    copy(&path.join("out"), &again.join("out"));
    fs::remove_file(part(&again, "left", ".part")).unwrap();
    let ended = mend(&again);
    assert!(ended.status == Some(1) && ended.why.contains("there is no recording beside it"), "{}", ended.why);
    fs::write(again.join("out/left.wav"), &whole).unwrap();
    assert_eq!(mend(&again).status, Some(0));
    assert_eq!(names(&again.join("out")), ["frames.csv", "left.wav", "right.wav"]);
}

/// Killed before a sample came, a run leaves nothing that would stand in the way of the next.
#[test]
fn nothing_was_recorded_yet() {
    let path = folder("crash-early");
    let mut child = stream(&path);
    soon("nothing is written", || path.join("out/frames.csv.part").exists());
    child.kill().unwrap();
    child.wait().unwrap();
    let ended = mend(&path);
    assert_eq!((ended.status, &ended.said[..]), (Some(0), "out: nothing was recorded yet\n"));
    assert_eq!(fed(clean(&path, &["-", "--raw", "--out", "out"]), &raw(0.1)).status, Some(0));
}

/// What the box did not write is not its to remove, whatever it is called.
#[test]
fn files_of_others() {
    let path = folder("crash-others");
    fs::create_dir(path.join("out")).unwrap();
    for (name, bytes) in [("left.wav.part", &b"notes"[..]), ("right.wav.sheet", b"more notes")] {
        fs::write(path.join("out").join(name), bytes).unwrap();
        if name.ends_with(".sheet") {
            fs::write(path.join("out/right.wav.part"), b"").unwrap();
        }
        let ended = mend(&path);
        assert!(ended.status == Some(1) && ended.why.contains("it stays as it is"), "{}", ended.why);
        assert_eq!(fs::read(path.join("out").join(name)).unwrap(), bytes);
    }
    // a page that a browser was loading is put where it wanted to stand
    fs::write(path.join("out/index.html.part"), b"a page").unwrap();
    assert_eq!(mend(&path).status, Some(1));
    assert_eq!(fs::read(path.join("out/index.html")).unwrap(), b"a page");
}

/// So many records of a side, numbered from 0.
fn records(side: u32, count: u32) -> Vec<u8> {
    let mut sheet = vec![0; 8 * count as usize + 16];
    let entries: Vec<u64> = (0..count).map(|n| u64::from(n) | u64::from(n % 3 == 0) << 32).collect();
    assert_eq!(tuppence::sheet_write(&mut sheet, side, &entries), 0);
    sheet.truncate(8 * count as usize);
    sheet
}

/// Ten hours, whose audio takes no room on the disk since nothing was ever written there.
#[test]
fn ten_hours_in_64_mb() {
    let path = folder("crash-hours");
    fs::create_dir(path.join("out")).unwrap();
    let (count, samples) = (3_600_001, 480 * 3_600_000u64);
    let front = Front { side: Side::Right, began: 0, first: 0 };
    fs::write(part(&path, "right", ".part"), front.open_head()).unwrap();
    let audio = File::options().write(true).open(part(&path, "right", ".part")).unwrap();
    audio.set_len(HEAD as u64 + 2 * samples).unwrap();
    let sheet = [&front.seal()[..], &records(1, count)].concat();
    fs::write(part(&path, "right", ".sheet"), sheet).unwrap();
    let ended = in_memory(&path, 64, &["mend", "out"]);
    assert_eq!(ended.status, Some(0), "{}", ended.why);
    let told = "out/right.wav: right side, 3600001 frames, 1200001 heard, no gap\nKept 36000.00 s.";
    assert!(ended.said.starts_with(told), "{}", ended.said);
    let ended = in_memory(&path, 16, &["side", "out/right.wav"]);
    assert_eq!(ended.said, "out/right.wav: right side, 3600001 frames, 1200001 heard, no gap; sealed\n");
    fs::remove_dir_all(path).unwrap();
}

/// A torn recording that is longer than the memory it is mended in.
#[test]
fn a_long_torn_sheet_in_64_mb() {
    let path = folder("crash-torn");
    let samples = 480 * 100_000u32;
    let (zeros, torn) = (File::open("/dev/zero").unwrap(), path.join("torn.wav"));
    let (bytes, checksum) = wav::checksum(&mut &zeros, 2 * u64::from(samples)).unwrap();
    let front = Front { side: Side::Left, began: 0, first: 0 };
    fs::write(&torn, front.head(2 * samples).unwrap()).unwrap();
    let mut file = File::options().append(true).open(&torn).unwrap();
    file.set_len(HEAD as u64 + bytes).unwrap();
    file.write_all(&[&front.chunk(2 * samples, checksum).unwrap()[..], &records(0, 100_001)].concat()).unwrap();
    let ended = in_memory(&path, 64, &["mend", "torn.wav", "--out", "mended.wav"]);
    assert_eq!(ended.status, Some(0), "{}", ended.why);
    assert!(ended.said.starts_with("mended.wav: left side, 100001 frames, 33334 heard, no gap\n"), "{}", ended.said);
    assert_eq!(size(&path.join("mended.wav")), size(&torn) + 16);
    assert_eq!(run(host(&path, &["side", "mended.wav"])).status, Some(0));
    fs::remove_dir_all(path).unwrap();
}
