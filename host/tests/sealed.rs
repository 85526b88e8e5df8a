//! What the box writes is one whole RIFF with its seal, and no damage makes another side of it. So many mutants as the
//! variable MUTANTS says, or 20,000.

mod common;
mod made;

use common::{folder, host, run, stream, Ended};
use made::*;
use std::fs;
use std::io::{Cursor, Write};
use std::path::{Path, PathBuf};
use tuppencehop::cleaning::demo::{Rng, HOUSE};
use tuppencehop::reading::wav;
use tuppencehop::recording::front::Front;
use tuppencehop::recording::judge::{judged, Told};
use tuppencehop::recording::mend;

/// What the box writes, made by hand of its audio and its table.
#[test]
fn one_whole_riff() {
    let path = folder("sealed-riff");
    let mut child = stream(&path);
    child.stdin.take().unwrap().write_all(&common::raw(1.3)).unwrap();
    assert!(child.wait().unwrap().success());
    let table = fs::read_to_string(path.join("out/frames.csv")).unwrap();
    for (side, name) in [(0, "left"), (1, "right")] {
        let file = fs::read(path.join(format!("out/{name}.wav"))).unwrap();
        let audio = &file[HEAD..][..2 * 62_400];
        let rows = table.lines().filter(|row| row.starts_with(name));
        let entries: Vec<u64> =
            rows.enumerate().map(|(n, row)| n as u64 + if row.contains(",heard,") { HEARD } else { 0 }).collect();
        assert_eq!(entries.len(), 131);
        assert!(file == with_entries(side, audio, &entries), "{name}");
        // RIFF says how long all is, and its four chunks are all of it
        assert_eq!(file[4..8], (file.len() as u32 - 8).to_le_bytes());
        assert!(are_chunks(&file[12..]));
        assert_eq!(wav::read(&file).unwrap().channels[0].len(), 62_400);
    }
}

/// Whether these bytes are chunks and nothing else.
fn are_chunks(bytes: &[u8]) -> bool {
    let Some((head, rest)) = bytes.split_first_chunk::<8>() else { return bytes.is_empty() };
    let size = u32::from_le_bytes([head[4], head[5], head[6], head[7]]) as usize;
    head[..4].iter().all(|byte| byte.is_ascii_graphic() || *byte == b' ')
        && rest.get(size + size % 2..).is_some_and(are_chunks)
}

/// The audio of a WAV file, as its header says.
fn audio(file: &[u8]) -> &[u8] {
    let audio = wav::audio(file).unwrap();
    &file[audio.place as usize..][..audio.size as usize]
}

/// Recordings of both sides, as long as each other in pairs.
struct Known([Vec<Vec<u8>>; 2]);

impl Known {
    fn new() -> Known {
        let lengths = [480, 959, 1_440, 1_445, 4_800];
        let of = |side: u32| {
            let one = |(n, samples): (u64, usize)| sealed(side, &noise(samples, 7 * n + u64::from(side)));
            (0..).zip(lengths).map(one).collect()
        };
        Known([of(0), of(1)])
    }

    fn any<'a>(&'a self, rng: &mut Rng) -> &'a [u8] {
        let side = &self.0[rng.draw() as usize % 2];
        &side[rng.draw() as usize % side.len()]
    }

    /// The same recording's other side.
    fn other(&self, side: usize, n: usize) -> &[u8] {
        &self.0[1 - side][n]
    }

    /// Whether some audio is that of a recording of this side, from its beginning.
    fn begins(&self, side: usize, of: &[u8]) -> bool {
        self.0[side].iter().any(|known| audio(known).starts_with(of) && !of.is_empty())
    }
}

/// Where a file's seal and its records start.
fn places(file: &[u8]) -> [usize; 2] {
    let end = wav::audio(file).unwrap().end() as usize + 8;
    [end, end + 24]
}

/// A place in a file, mostly where much depends on it.
fn place(rng: &mut Rng, file: &[u8]) -> usize {
    let near = rng.draw() as usize % 120;
    match rng.draw() % 4 {
        0 => near.min(file.len()),
        1 => file.len().saturating_sub(near),
        _ => rng.draw() as usize % (file.len() + 1),
    }
}

/// Parts of the other side's recording, which is as long, in the place of this one's.
/// Whether the front or the audio is now the other's.
fn swap(rng: &mut Rng, file: &mut [u8], other: &[u8]) -> bool {
    let [seal, records] = places(other);
    let parts = [
        HEAD..seal - 8,
        44..68,
        0..HEAD,
        seal..records,
        records..other.len(),
        seal..other.len(),
        records..other.len() - 16,
    ];
    let which = rng.draw() as usize % parts.len();
    let part = parts[which].clone();
    if file.len() == other.len() {
        file[part.clone()].copy_from_slice(&other[part]);
    }
    which < 3
}

/// Damages a file. Whether something of another recording is in it where its own front or audio was.
fn damage(rng: &mut Rng, file: &mut Vec<u8>, known: &Known, other: &[u8]) -> bool {
    let (at, kind) = (place(rng, file), rng.draw() % 8);
    match kind {
        0 | 1 if at < file.len() => file[at] ^= 1 << (rng.draw() % 8),
        2 => _ = file.splice(at..at, (0..1 + rng.draw() % 9).map(|_| rng.draw() as u8).collect::<Vec<_>>()),
        3 => _ = file.drain(at..(at + 1 + rng.draw() as usize % 9).min(file.len())),
        4 => file[at..].fill(0),
        5 => file.truncate(at),
        6 => file.extend(known.any(rng)),
        _ => return swap(rng, file, other),
    }
    kind == 6
}

/// What the judge tells of some bytes.
fn told(file: &[u8]) -> Option<Told> {
    judged(&mut &file[..]).unwrap().ok()
}

/// What becomes of a file by mending, and how.
fn mended(file: &[u8]) -> Option<(mend::Plan, Told, Vec<u8>)> {
    let plan = mend::plan_of(&mut Cursor::new(file), None).ok()?;
    let mut new = vec![];
    plan.write(&mut Cursor::new(file), &mut new).unwrap();
    let told = told(&new).expect("what is mended is accepted");
    assert_eq!(told.front, plan.front);
    assert_eq!(plan.whole, new == file);
    Some((plan, told, new))
}

/// Damage of every kind, alone and together: of no file the other side is told, and none becomes one by mending. What
/// is told is the audio of a recording of that side, and so is what is mended, if its end seal is there. If that was
/// cut off, the side is the front's, and the recording's own, unless a part of another recording was put in its place.
#[test]
fn mutants() {
    let many: usize = std::env::var("MUTANTS").map_or(20_000, |many| many.parse().unwrap());
    let (known, rng) = (Known::new(), &mut Rng(0x51de));
    let (mut counts, mut cut) = ([0; 3], 0);
    for i in 0..many {
        let (side, n) = (i % 2, i / 2 % known.0[0].len());
        let mut file = known.0[side][n].clone();
        let damaged = |_| damage(rng, &mut file, &known, known.other(side, n));
        let mixed = (0..1 + i % 3).map(damaged).filter(|mixed| *mixed).count() > 0;
        if let Some(told) = told(&file) {
            assert!(known.begins(told.front.side as usize, audio(&file)), "mutant {i}: {told}");
            counts[0] += 1;
        }
        let Some((plan, told, new)) = mended(&file) else { continue };
        counts[1 + usize::from(plan.whole)] += 1;
        if plan.says == mend::Says::Seal {
            assert!(known.begins(told.front.side as usize, audio(&new)), "mutant {i}: {told}");
        } else {
            assert_eq!(Front::read(&file[44..68]), Ok(told.front), "mutant {i}");
            assert!(mixed || told.front.side as usize == side, "mutant {i}: {told}");
            assert!(file[HEAD..].starts_with(audio(&new)), "mutant {i}");
            cut += 1;
        }
    }
    // some are as good as they were, some are mended, and some are neither
    let [as_they_were, mended, whole] = counts;
    assert!(as_they_were == whole && (many / 1_000..many / 10).contains(&whole), "{counts:?}");
    assert!((many / 5..4 * many / 5).contains(&mended) && (many / 20..mended).contains(&cut), "{counts:?}, {cut}");
}

/// A right recording, cut anywhere and filled up with zeros as a power cut leaves it: it is never left.
#[test]
fn two_thousand_power_cuts() {
    let whole = sealed(1, &noise(9_600, 3));
    let mut closed = 0;
    for cut in (0..whole.len()).rev().step_by(whole.len() / 2_000) {
        let mut file = whole.clone();
        file[cut..].fill(0);
        assert!(told(&file).is_none() || file == whole, "{cut}");
        match mend::plan_of(&mut Cursor::new(&file), None) {
            Ok(plan) => {
                assert_eq!(plan.front.side.name(), "right");
                closed += 1;
            }
            Err(why) => assert!(!why.to_string().contains("left"), "{why}"),
        }
    }
    assert!(closed > 2_000, "{closed}");
}

/// Both recordings of a dictation, cleaned and as they were.
fn dictated(name: &str) -> PathBuf {
    let path = folder(name);
    for (name, seed) in [("a.wav", 1), ("b.wav", 2)] {
        fs::write(path.join(name), riff(&noise(4_800, seed), &[])).unwrap();
    }
    assert_eq!(clean(&path, &["--left", "a.wav", "--right", "b.wav"], "DIR").status, Some(0));
    path
}

fn clean(path: &Path, words: &[&str], out: &str) -> Ended {
    run(host(path, &[&["clean", "--model", "house.rnn"], words, &["--out", out]].concat()))
}

/// A recording that says itself that it is the other bench's, by its seal or by its sheet, is refused.
#[test]
fn the_other_bench() {
    let path = dictated("sealed-other");
    assert_eq!(fs::read(path.join("house.rnn")).unwrap(), HOUSE);
    let refused = |words: &[&str], why: &str| {
        let ended = clean(&path, words, "new");
        let why = format!("box: {why} regardless\n");
        assert_eq!(ended, Ended { status: Some(2), said: String::new(), why });
        assert!(!path.join("new").exists());
    };
    let given = |what: &str, is: &str, bench: &str| {
        let given = format!("it is given as the {bench} bench's recording; use --anyway to clean it as {bench}");
        format!("{what} says {is}, but {given}")
    };
    let why = given("DIR/right.wav: its seal", "right", "left");
    refused(&["--left", "DIR/right.wav", "--right", "b.wav"], &why);
    let why = given("DIR/left.wav: its seal", "left", "right");
    refused(&["--left", "a.wav", "--right", "DIR/left.wav"], &why);
    // a sheet alone, and a seal whose sheet was torn
    let right = fs::read(path.join("DIR/right.wav")).unwrap();
    let [_, records] = places(&right);
    fs::write(path.join("old.wav"), riff(audio(&right), &right[records..])).unwrap();
    refused(&["--left", "old.wav", "--right", "b.wav"], &given("old.wav: its side sheet", "right", "left"));
    fs::write(path.join("torn.wav"), &right[..records]).unwrap();
    refused(&["--left", "torn.wav", "--right", "b.wav"], &given("torn.wav: its seal", "right", "left"));
    // one that was cut: its front says it
    fs::write(path.join("cut.wav"), &right[..HEAD + 2_000]).unwrap();
    refused(&["--left", "cut.wav", "--right", "b.wav"], &given("cut.wav: its seal", "right", "left"));
    // one recording for both, by whatever name
    fs::hard_link(path.join("a.wav"), path.join("c.wav")).unwrap();
    for other in ["a.wav", "./a.wav", "c.wav"] {
        let why = "a.wav: one recording can't be both benches'; use --anyway to clean it as both";
        refused(&["--left", "a.wav", "--right", other], why);
    }
    assert_eq!(clean(&path, &["--left", "DIR/left.wav", "--right", "DIR/right.wav"], "again").status, Some(0));
    let anyway = ["--left", "DIR/right.wav", "--anyway", "--right", "DIR/right.wav"];
    assert_eq!(clean(&path, &anyway, "anyway").status, Some(0));
}
