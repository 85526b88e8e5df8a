//! Each line of the program that decides a side has a test here, or a unit test, that fails if the line is wrong.
//! tools/mutants.sh makes them wrong, one by one, and names the test that must fail. The recordings are short, so that
//! it takes seconds.

mod common;
mod made;

use common::*;
use made::{chunk, entries, noise, riff, seal, sealed, sheet};
use std::fs;
use std::path::{Path, PathBuf};
use tuppencehop::cleaning::cleaned::Summary;
use tuppencehop::cleaning::demo::dictation;
use tuppencehop::cleaning::recorder::{Frame, Heard, Side};
use tuppencehop::page;
use tuppencehop::page::picture;
use tuppencehop::reading::block::packed;
use tuppencehop::reading::wav;
use tuppencehop::recording::judge::judged;

const SIDES: [&str; 2] = ["left", "right"];

/// A twentieth of a second of a tone of each bench's own.
fn tone(bench: usize) -> Vec<f32> {
    let (level, period) = [(900.0, 40), (5_000.0, 64)][bench];
    (0..2_400).map(|i| if i % period < period / 2 { level } else { -level }).collect()
}

/// A folder with `l.wav` and `r.wav`, one of each bench, and `both.wav` with both.
fn given(name: &str) -> PathBuf {
    let path = folder(&format!("sides-{name}"));
    for (name, bench) in [("l.wav", 0), ("r.wav", 1)] {
        fs::write(path.join(name), wav::write(48_000, &tone(bench))).unwrap();
    }
    let both: Vec<f32> = tone(0).into_iter().zip(tone(1)).flat_map(|(l, r)| [l, r]).collect();
    let mut stereo = wav::write(48_000, &both);
    (stereo[22], stereo[32]) = (2, 4);
    fs::write(path.join("both.wav"), stereo).unwrap();
    path
}

fn cleaned(path: &Path, words: &[&str], out: &str) -> Ended {
    run(clean(path, &[words, &["--out", out]].concat()))
}

fn bytes(path: &Path, name: &str) -> Vec<u8> {
    fs::read(path.join(name)).unwrap_or_else(|why| panic!("{name}: {why}"))
}

/// The page's card of each bench.
fn cards(page: &str) -> [&str; 2] {
    let mut cards = page.split("<section").skip(1).map(|card| card.split("</section>").next().unwrap());
    [cards.next().unwrap(), cards.next().unwrap()]
}

/// Whatever way the recordings come, each is cleaned by itself, sealed as its own side, and stands under its name.
#[test]
fn each_recording_comes_out_on_its_own_side() {
    let path = given("ways");
    let alone = |side: &str, file: &str| {
        let out = format!("{side}-{file}-alone");
        assert_eq!(cleaned(&path, &[&format!("--{side}"), file], &out).status, Some(0));
        assert_eq!(names(&path.join(&out)), ["benches.svg", "frames.csv", "index.html", &format!("{side}.wav")]);
        bytes(&path, &format!("{out}/{side}.wav"))
    };
    let wanted = [alone("left", "l.wav"), alone("right", "r.wav")];
    let audio = |file: &[u8]| file[HEAD..HEAD + 4_800].to_vec();
    assert!(audio(&wanted[0]) != audio(&wanted[1]));
    // the same sound on the other bench is the same but for the seal and the sheet
    fs::copy(path.join("l.wav"), path.join("same.wav")).unwrap();
    let other = alone("right", "same.wav");
    assert!(audio(&other) == audio(&wanted[0]) && other != wanted[0]);
    let raw = bytes(&path, "both.wav")[HEADER..].to_vec();
    assert_eq!(cleaned(&path, &["--left", "l.wav", "--right", "r.wav"], "two").status, Some(0));
    assert_eq!(cleaned(&path, &["--right", "r.wav", "--left", "l.wav"], "turned").status, Some(0));
    assert_eq!(cleaned(&path, &["--both", "both.wav"], "stereo").status, Some(0));
    assert_eq!(fed(clean(&path, &["-", "--out", "stream"]), &bytes(&path, "both.wav")).status, Some(0));
    assert_eq!(fed(clean(&path, &["-", "--raw", "--out", "raw"]), &raw).status, Some(0));
    for out in ["two", "turned", "stereo", "stream", "raw"] {
        for (side, wanted) in SIDES.iter().zip(&wanted) {
            assert!(bytes(&path, &format!("{out}/{side}.wav")) == *wanted, "{out}, {side}");
        }
    }
    // by the names of files, each with a folder of its own
    fs::copy(path.join("l.wav"), path.join("a-left.wav")).unwrap();
    fs::copy(path.join("r.wav"), path.join("a-right.wav")).unwrap();
    fs::copy(path.join("r.wav"), path.join("a.wav")).unwrap();
    assert_eq!(cleaned(&path, &["a-left.wav", "a-right.wav"], "many").status, Some(0));
    assert_eq!(cleaned(&path, &["a.wav", "--side", "right"], "said").status, Some(0));
    assert!(bytes(&path, "many/a-left/left.wav") == wanted[0]);
    assert!(bytes(&path, "many/a-right/right.wav") == wanted[1]);
    assert!(bytes(&path, "said/a/right.wav") == wanted[1]);
}

/// The front seal's side, the end seal's, the records' and the trailer's are the bench's.
#[test]
fn what_is_written_says_its_side_four_times() {
    let path = given("written");
    assert_eq!(cleaned(&path, &["--left", "l.wav", "--right", "r.wav"], "out").status, Some(0));
    for (side, number) in [("left", 0u8), ("right", 1)] {
        let file = bytes(&path, &format!("out/{side}.wav"));
        assert_eq!(&file[44..52], if number == 0 { b"TUPBLEFT" } else { b"TUPBRGHT" });
        let chunk = &file[HEAD + 4_800..];
        assert_eq!(&chunk[..4], b"side");
        assert_eq!(&chunk[8..16], if number == 0 { b"TUPPLEFT" } else { b"TUPPRGHT" });
        let records = &chunk[32..chunk.len() - 16];
        assert!(records.len() == 8 * 6 && records.chunks_exact(8).all(|record| record[5] == number), "{side}");
        assert_eq!(chunk[chunk.len() - 8], number);
        assert_eq!(run(host(&path, &["side", &format!("out/{side}.wav")])).said.split(' ').nth(1), Some(side));
    }
    // the table's rows are of both, in turn
    let table = fs::read_to_string(path.join("out/frames.csv")).unwrap();
    let rows: Vec<Vec<&str>> = table.lines().skip(1).map(|row| row.split(',').collect()).collect();
    for (at, row) in rows.iter().enumerate() {
        assert_eq!((row[0], row[1]), (SIDES[at % 2], &*(at / 2).to_string()));
    }
    // the left tone is quieter than the right one, in every heard frame
    let energy = |row: &Vec<&str>| row[5].parse::<f64>().unwrap_or(0.0);
    assert!(rows.chunks_exact(2).skip(1).take(4).all(|pair| energy(&pair[0]) < energy(&pair[1])), "{table}");
}

/// A recording that is sealed for one bench is not sealed for the other, alone or beside another.
#[test]
fn a_seal_of_the_other_bench() {
    let path = given("sealed");
    for (number, is) in SIDES.iter().enumerate() {
        let bench = SIDES[1 - number];
        let name = format!("{bench}-1.wav");
        fs::write(path.join(&name), sealed(number as u32, &noise(960, 1))).unwrap();
        let (option, own) = (format!("--{bench}"), format!("--{is}"));
        let given = format!("it is given as the {bench} bench's recording; use --anyway to clean it as {bench}");
        let why = format!("box: {name}: its seal says {is}, but {given} regardless\n");
        for words in [&[&*option, &*name][..], &[&option, &name, &own, "l.wav"], &[&name]] {
            let ended = cleaned(&path, words, "new");
            assert!(ended.status == Some(2) && ended.why.starts_with(&why), "{words:?}: {}", ended.why);
            assert!(!path.join("new").exists());
        }
        fs::copy(path.join(&name), path.join("one.wav")).unwrap();
        assert_eq!(cleaned(&path, &[&own, "one.wav"], is).status, Some(0));
        assert_eq!(cleaned(&path, &[&option, "one.wav", "--anyway"], bench).status, Some(0));
        fs::remove_dir_all(path.join(bench)).unwrap();
        fs::remove_dir_all(path.join(is)).unwrap();
    }
}

/// An editor put a chunk between the audio and the seal: what the seal says counts still.
#[test]
fn a_seal_that_does_not_stand_where_the_audio_ends() {
    let path = given("displaced");
    let audio = noise(960, 1);
    let list = [b"LIST", &4u32.to_le_bytes()[..], b"INFO"].concat();
    let displaced = |seal_of: u32, sheet_of: u32| {
        let side = chunk(&seal(seal_of, &audio), &sheet(sheet_of, &entries(3)));
        riff(&audio, &[&list[..], &side].concat())
    };
    for (number, is) in SIDES.iter().enumerate() {
        let (n, bench) = (number as u32, SIDES[1 - number]);
        let refused = |why: &str| {
            let ended = cleaned(&path, &[&format!("--{bench}"), "1.wav"], "new");
            let why = format!("box: 1.wav: {why} says {is}, but it is given as the {bench} bench's recording");
            assert!(ended.status == Some(2) && ended.why.starts_with(&why), "{}", ended.why);
            assert!(!path.join("new").exists());
        };
        fs::write(path.join("1.wav"), displaced(n, n)).unwrap();
        refused("its seal");
        let ended = run(host(&path, &["side", "1.wav"]));
        assert_eq!(ended.status, Some(5));
        assert!(ended.why.contains("its seal is not where its audio ends"), "{}", ended.why);
        // the seal is asked first, and the sheet too
        fs::write(path.join("1.wav"), displaced(n, 1 - n)).unwrap();
        refused("its seal");
        fs::write(path.join("1.wav"), displaced(1 - n, n)).unwrap();
        refused("its side sheet");
    }
}

/// What is read is not written over, on whichever side, with `--force` too.
#[test]
fn what_is_read_is_not_written_over() {
    let path = given("over");
    for (file, side) in [("l.wav", "left"), ("r.wav", "right")] {
        let name = format!("{side}.wav");
        fs::copy(path.join(file), path.join(&name)).unwrap();
        let other = if side == "left" { ["--right", "r.wav"] } else { ["--left", "l.wav"] };
        for more in [&[][..], &other] {
            for force in [&[][..], &["--force"]] {
                let option = format!("--{side}");
                let words = [&[&*option, &*name], more, force].concat();
                let ended = cleaned(&path, &words, ".");
                let why = format!("box: {name}: this would be written over; name another folder with --out\n");
                assert_eq!(ended, Ended { status: Some(1), said: String::new(), why });
                assert!(bytes(&path, &name) == bytes(&path, file));
            }
        }
        // the other side's name is in the way too: what stands there would be lost
        let option = if side == "left" { "--right" } else { "--left" };
        assert_eq!(cleaned(&path, &[option, &name, "--force"], ".").status, Some(1));
        assert!(bytes(&path, &name) == bytes(&path, file));
        fs::remove_file(path.join(&name)).unwrap();
    }
}

/// What breaks off is marked on its own card, and on no other.
#[test]
fn a_broken_recording_is_marked_on_its_own_card() {
    let path = given("marked");
    let whole = [bytes(&path, "l.wav"), bytes(&path, "r.wav")];
    for (bench, side) in SIDES.iter().enumerate() {
        let file = ["l.wav", "r.wav"][bench];
        fs::write(path.join(file), &whole[bench][..3_000]).unwrap();
        let ended = cleaned(&path, &["--left", "l.wav", "--right", "r.wav"], side);
        assert!(
            ended.status == Some(2) && ended.why.starts_with(&format!("box: {file}: the file ends after")),
            "{}",
            ended.why
        );
        let page = fs::read_to_string(path.join(side).join("index.html")).unwrap();
        let marked = cards(&page).map(|card| card.contains("Broken off"));
        assert_eq!(marked, [bench == 0, bench == 1], "{side}");
        fs::write(path.join(file), &whole[bench]).unwrap();
    }
    // of one recording with both, both are
    let both = bytes(&path, "both.wav");
    fs::write(path.join("both.wav"), &both[..6_000]).unwrap();
    assert_eq!(cleaned(&path, &["--both", "both.wav"], "stereo").status, Some(2));
    let page = fs::read_to_string(path.join("stereo/index.html")).unwrap();
    assert_eq!(cards(&page).map(|card| card.contains("Broken off")), [true; 2]);
}

/// A recording of so many channels, as 32-bit floats.
fn floats(channels: u8, samples: &[f32]) -> Vec<u8> {
    let mut file = wav::write(48_000, &vec![0.0; 2 * samples.len()]);
    (file[20], file[22], file[32], file[34]) = (3, channels, 4 * channels, 32);
    file.splice(HEADER.., samples.iter().flat_map(|x| (x / 32_768.0).to_le_bytes()));
    file
}

/// A sample that is no number ends its own channel.
#[test]
fn a_broken_sample_ends_its_own_bench() {
    let path = given("nan");
    for (bench, side) in SIDES.iter().enumerate() {
        let mut both: Vec<f32> = tone(0).into_iter().zip(tone(1)).flat_map(|(l, r)| [l, r]).collect();
        both[2 * 1_200 + bench] = f32::NAN;
        fs::write(path.join("nan.wav"), floats(2, &both)).unwrap();
        let ended = cleaned(&path, &["--both", "nan.wav"], side);
        assert_eq!(ended.why, format!("box: nan.wav: {side}, at 0.03 s: not a finite number\n"));
        let lengths = SIDES.map(|name| sound(&path.join(side).join(format!("{name}.wav")), name).len());
        assert_eq!(lengths, [0, 1].map(|other| if other == bench { 1_200 } else { 2_400 }));
        let page = fs::read_to_string(path.join(side).join("index.html")).unwrap();
        assert_eq!(cards(&page).map(|card| card.contains("Broken off")), [bench == 0, bench == 1]);
        // alone
        let mut one = tone(bench);
        one[1_200] = f32::INFINITY;
        fs::write(path.join("one.wav"), floats(1, &one)).unwrap();
        let ended = cleaned(&path, &[&format!("--{side}"), "one.wav"], &format!("{side}-alone"));
        assert_eq!(ended.why, format!("box: one.wav: {side}, at 0.03 s: not a finite number\n"));
    }
}

/// Two benches that are told apart by all that is said of them: the left one has a gap and a voice from frame 40 on.
fn benches() -> [Summary; 2] {
    Side::BOTH.map(|side| {
        let mut summary = Summary::of(side);
        let level = if side == Side::Left { 100.0 } else { 9_000.0 };
        summary.before(&[level; 38_400]);
        summary.after(&packed(&[level / 2.0; 38_400]));
        for number in (0..81).filter(|number| side == Side::Right || *number != 5) {
            let probability = if side == Side::Left && number >= 40 { 0.9 } else { 0.1 };
            let heard = Heard::Voice { probability, energy: 1.0 };
            summary.frame(&Frame::of(side, number, heard, number));
        }
        summary.about.name = ["one.wav", "two.wav"][side as usize].into();
        summary
    })
}

/// A card speaks of its own bench alone, and plays its own recordings.
#[test]
fn each_card_is_of_its_own_bench() {
    let page = page::html(&benches(), Some(["left-before.wav", "right-before.wav"]), "", true);
    for (side, card) in SIDES.iter().zip(cards(&page)) {
        let other = SIDES[usize::from(*side == "left")];
        // but for a place in the style sheet's words
        let words = card.replace("style=\"left: ", "");
        assert!(!words.contains(other) && !words.contains(&other.to_uppercase()), "{side}: {words}");
        for text in [
            format!("<h2 id=\"{side}\">{}</h2>", side.to_uppercase()),
            format!(
                "<audio id=\"{side}-before\" controls preload=\"metadata\" aria-label=\"{side} bench, before \
                 cleaning\" src=\"{side}-before.wav\">"
            ),
            format!(
                "<audio id=\"{side}-after\" controls preload=\"metadata\" aria-label=\"{side} bench, after \
                 cleaning\" src=\"{side}.wav\">"
            ),
            format!("<caption>The {side} recording</caption>"),
            format!("data-player=\"{side}-before\""),
            format!("data-player=\"{side}-after\""),
        ] {
            assert!(card.contains(&text), "{side}: {text}");
        }
    }
    let [left, right] = cards(&page);
    assert!(left.contains("one.wav") && right.contains("two.wav"));
    assert!(left.contains("in 1 gap") && !right.contains("in 1 gap"));
    assert!(right.contains("−11.2 dB of full scale") && left.contains("−50.3 dB of full scale"), "{right}");
    assert!(left.contains("data-at=\"0.39\"") && right.contains("no voice was found"));
    // each card has the picture of its own: the very same strip as alone
    for (bench, card) in benches().iter().zip([left, right]) {
        let mut strip = String::new();
        picture::strip(&mut strip, bench, picture::Strip::After, bench.seconds());
        assert!(card.contains(&strip));
    }
}

/// A page with a name before its files plays those, and a page of one bench shows that one alone.
#[test]
fn a_page_plays_the_files_beside_it() {
    let path = given("named");
    let words = ["--left", "l.wav", "--right", "r.wav", "--name", "monday"];
    assert_eq!(cleaned(&path, &words, "out").status, Some(0));
    let page = fs::read_to_string(path.join("out/monday-index.html")).unwrap();
    for (side, card) in SIDES.iter().zip(cards(&page)) {
        assert!(card.contains(&format!("src=\"monday-{side}.wav\"")), "{side}");
        assert!(card.contains(if *side == "left" { ">l.wav<" } else { ">r.wav<" }), "{side}");
    }
    for (side, file) in [("left", "l.wav"), ("right", "r.wav")] {
        assert_eq!(cleaned(&path, &[&format!("--{side}"), file], side).status, Some(0));
        let page = fs::read_to_string(path.join(side).join("index.html")).unwrap();
        assert_eq!(page.matches("<section").count(), 1);
        assert!(page.contains(&format!("<title>The {side} bench</title>")));
        assert!(page.contains(&format!("<h2 id=\"{side}\">{}</h2>", side.to_uppercase())));
    }
}

/// In the picture of both, a label stands before its own strip.
#[test]
fn each_label_is_of_its_own_strip() {
    let benches = benches();
    let svg = picture::svg(&benches);
    let mut rest = &svg[..];
    for bench in &benches {
        for which in picture::Strip::BOTH {
            let label = format!(">{} {}</text>\n", bench.side.name(), which.name());
            let (_, behind) = rest.split_once(&label).unwrap_or_else(|| panic!("{label}"));
            let (of_this, _) = behind.split_once("</g>\n</g>").or(behind.split_once("</g>\n<text")).unwrap();
            let mut strip = String::new();
            picture::strip(&mut strip, bench, which, 0.8);
            assert!(of_this.contains(strip.lines().next().unwrap()), "{label}{of_this}");
            rest = behind;
        }
    }
    // a bench without sound says so beside its own name
    let [left, _] = benches;
    let svg = picture::svg(&[left, Summary::of(Side::Right)]);
    assert!(svg.split(">right before</text>\n").nth(1).unwrap().starts_with("<text class=\"ink\" x=\"120\""));
    assert!(!svg.split(">left before</text>\n").nth(1).unwrap().starts_with("<text"));
}

/// The demo's recordings before cleaning are each bench's own, and so are those after it.
#[test]
fn the_demo_keeps_its_sides() {
    let path = given("demo");
    assert_eq!(run(host(&path, &["demo", "out"])).status, Some(0));
    for (bench, side) in SIDES.iter().enumerate() {
        let before = bytes(&path, &format!("out/{side}-before.wav"));
        assert!(before == wav::write(48_000, &dictation(bench).noisy), "{side}");
        let file = format!("out/{side}-before.wav");
        assert_eq!(run(host(&path, &["clean", &format!("--{side}"), &file, "--out", side])).status, Some(0));
        assert!(bytes(&path, &format!("{side}/{side}.wav")) == bytes(&path, &format!("out/{side}.wav")), "{side}");
    }
    let page = fs::read_to_string(path.join("out/index.html")).unwrap();
    for (side, card) in SIDES.iter().zip(cards(&page)) {
        assert!(card.contains(&format!("src=\"{side}-before.wav\"")) && card.contains(&format!("src=\"{side}.wav\"")));
    }
}

/// A run of half a second that was cut short.
fn cut_short(path: &Path) {
    let mut child = stream(path);
    let mut to = child.stdin.take().unwrap();
    std::io::Write::write_all(&mut to, &raw(0.5)).unwrap();
    soon("nothing is written", || size(&path.join("out/right.wav.part")) > 20_000);
    child.kill().unwrap();
    child.wait().unwrap();
}

/// Exchanges the names of both benches' files with these endings.
fn exchange(path: &Path, endings: &[&str]) {
    for ending in endings {
        let [left, right] = SIDES.map(|side| path.join(format!("out/{side}.wav.{ending}")));
        let aside = path.join("aside");
        fs::rename(&left, &aside).unwrap();
        fs::rename(&right, &left).unwrap();
        fs::rename(&aside, &right).unwrap();
    }
}

/// A run that was cut short is closed as the sides that its files say. If these, or their names, disagree, nothing is
/// closed, and that is said.
#[test]
fn what_is_mended_keeps_its_side() {
    let path = given("mended");
    cut_short(&path);
    let before = names(&path.join("out"));
    let contents = || before.iter().map(|name| bytes(&path, &format!("out/{name}"))).collect::<Vec<_>>();
    for (exchanged, why) in [
        (&["part"][..], "its head says right, but out/left.wav.sheet says left"),
        (&["sheet"], "its head says left, but out/left.wav.sheet says right"),
        (&["part", "sheet"], "its name says left, but its head says right"),
    ] {
        exchange(&path, exchanged);
        let there = contents();
        let ended = run(host(&path, &["mend", "out"]));
        let why = format!("box: out/left.wav.part: {why}; nothing is closed, and all files stay as they are\n");
        assert!(ended.status == Some(2) && ended.why.starts_with(&why), "{}", ended.why);
        assert_eq!((ended.why.lines().count(), &*ended.said), (2, ""));
        assert!(names(&path.join("out")) == before && contents() == there);
        exchange(&path, exchanged);
    }
    // one bench's files alone in the place of the other's
    let aside = path.join("aside");
    for ending in ["part", "sheet"] {
        let [left, right] = SIDES.map(|side| path.join(format!("out/{side}.wav.{ending}")));
        fs::rename(&left, aside.with_extension(ending)).unwrap();
        fs::copy(right, left).unwrap();
    }
    assert_eq!(run(host(&path, &["mend", "out"])).status, Some(2));
    assert_eq!(names(&path.join("out")), before);
    for ending in ["part", "sheet"] {
        fs::rename(aside.with_extension(ending), path.join(format!("out/left.wav.{ending}"))).unwrap();
    }
    // records of the other side behind the right seal
    let sheets = SIDES.map(|side| bytes(&path, &format!("out/{side}.wav.sheet")));
    fs::write(path.join("out/right.wav.sheet"), [&sheets[1][..24], &sheets[0][24..]].concat()).unwrap();
    let ended = run(host(&path, &["mend", "out"]));
    let why = "out/right.wav.part: its head says right, but records in out/right.wav.sheet say left; nothing is closed";
    assert!(ended.status == Some(2) && ended.why.contains(why), "{}", ended.why);
    assert_eq!(names(&path.join("out")), before);
    fs::write(path.join("out/right.wav.sheet"), &sheets[1]).unwrap();
    assert_eq!(run(host(&path, &["mend", "out"])).status, Some(0));
    let sounds = SIDES.map(|side| sound(&path.join(format!("out/{side}.wav")), side));
    let own = SIDES.map(|side| {
        let bench = usize::from(side == "right");
        let file = wav::write(48_000, &dictations()[bench][..24_000]);
        fs::write(path.join("own.wav"), file).unwrap();
        assert_eq!(cleaned(&path, &[&format!("--{side}"), "own.wav"], side).status, Some(0));
        sound(&path.join(format!("{side}/{side}.wav")), side)
    });
    for (sound, own) in sounds.iter().zip(&own) {
        assert!(sound.len() > 5_000 && sound[..] == own[..sound.len()]);
    }
}

/// A torn recording keeps the side of its seal; without a seal a person says it, and it must be that of its records.
#[test]
fn a_torn_recording_keeps_its_side() {
    let path = given("torn");
    let audio = noise(2_400, 3);
    for (number, side) in SIDES.iter().enumerate() {
        let (whole, other) = (sealed(number as u32, &audio), SIDES[1 - number]);
        fs::write(path.join("torn.wav"), &whole[..whole.len() - 10]).unwrap();
        let mend = |words: &[&str]| run(host(&path, &[&["mend", "torn.wav", "--out", "new.wav"], words].concat()));
        assert_eq!(mend(&["--as", other]).status, Some(1));
        assert!(mend(&["--as", other]).why.contains(&format!("its seal says {side}")));
        assert_eq!(mend(&[]).status, Some(0));
        let file = bytes(&path, "new.wav");
        assert_eq!(judged(&mut &file[..]).unwrap().unwrap().front.side.name(), *side);
        fs::remove_file(path.join("new.wav")).unwrap();
        // without a seal
        fs::write(path.join("torn.wav"), riff(&audio, &sheet(number as u32, &entries(6)))).unwrap();
        let why = mend(&[]).why;
        assert!(why.contains(&format!("it is the {side} side, as its records say, adds --as {side}")), "{why}");
        assert!(mend(&["--as", other]).why.contains(&format!("its records are of the {side} side")));
        assert_eq!(mend(&["--as", side]).status, Some(0));
        sound(&path.join("new.wav"), side);
        fs::remove_file(path.join("new.wav")).unwrap();
    }
}

/// The answer as JSON names each bench's own recording and its own numbers.
#[test]
fn an_answer_is_of_its_own_bench() {
    let path = given("json");
    let ended = cleaned(&path, &["--left", "l.wav", "--right", "r.wav", "--json"], "out");
    let lines: Vec<&str> = ended.said.lines().collect();
    for (bench, side) in SIDES.iter().enumerate() {
        let file = ["l.wav", "r.wav"][bench];
        let start = format!("{{\"file\": \"out/{side}.wav\", \"recording\": \"{file}\", \"side\": \"{side}\", ");
        assert!(lines[bench].starts_with(&start), "{}", lines[bench]);
        assert!(lines[bench].contains(["\"peak\": -31.2", "\"peak\": -16.3"][bench]), "{}", lines[bench]);
    }
    let ended = cleaned(&path, &["--left", "l.wav", "--right", "r.wav"], "words");
    assert!(ended.said.starts_with("left: 6 frames\nright: 6 frames\n"), "{}", ended.said);
}
