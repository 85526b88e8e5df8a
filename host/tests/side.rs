//! `box side`: a line for each sealed recording; of any other no side, but a reason and an exit status of its own.

mod common;
mod made;

use common::{ended, fed, folder, host, in_memory, run, Ended};
use made::*;
use std::fs::{self, File};
use std::io::{Seek, SeekFrom, Write};
use std::path::PathBuf;
use std::process::Command;
use std::sync::atomic::{AtomicU32, Ordering};
use tuppencehop::recording::judge::judged;

/// What is told of these files, in a folder of their own.
fn side(name: &str, files: &[(&str, &[u8])]) -> Ended {
    let path = folder(&format!("told-{name}"));
    for (name, bytes) in files {
        fs::write(path.join(name), bytes).unwrap();
    }
    let names: Vec<&str> = files.iter().map(|(name, _)| *name).collect();
    run(host(&path, &[&["side"], &names[..]].concat()))
}

/// Of one file: no side is told, but this, with this status.
fn untold(bytes: &[u8], status: i32, why: &str) {
    static NEXT: AtomicU32 = AtomicU32::new(0);
    let ended = side(&NEXT.fetch_add(1, Ordering::SeqCst).to_string(), &[("1.wav", bytes)]);
    assert_eq!(ended, Ended { status: Some(status), said: String::new(), why: format!("box: 1.wav: {why}\n") });
}

#[test]
fn a_line_for_each_recording() {
    let (left, right) = (sealed(0, &noise(1_440, 1)), sealed(1, &noise(2_001, 2)));
    let said =
        "l.wav: left side, 4 frames, 2 heard, no gap; sealed\nr.wav: right side, 6 frames, 2 heard, no gap; sealed\n";
    assert_eq!(
        side("each", &[("l.wav", &left), ("r.wav", &right)]),
        Ended { status: Some(0), said: said.into(), why: String::new() }
    );
}

/// What is said of files that the judge accepts, with a first frame and a start of their own.
#[test]
fn a_recording_that_goes_on_from_another() {
    let frames: Vec<u64> = (41_210..41_213).collect();
    let later = recording(0, 1_794_803_400, &noise(1_440, 1), &frames);
    let wrapped = recording(1, 0, &noise(960, 1), &[u32::MAX.into(), HEARD]);
    let said = "l.wav: left side, frames 41,210 to 41,212, 0 heard, no gap, begun 2026-11-16 04:30:00 UTC; sealed\n\
                r.wav: right side, frames 4,294,967,295 to 0, 1 heard, no gap; sealed\n";
    let files: [(&str, &[u8]); 2] = [("l.wav", &later), ("r.wav", &wrapped)];
    assert_eq!(side("later", &files), Ended { status: Some(0), said: said.into(), why: String::new() });
    let path = folder("told-later-json");
    fs::write(path.join("l.wav"), &later).unwrap();
    let json = run(host(&path, &["side", "--json", "l.wav"])).said;
    assert!(json.contains("\"gaps\": 0, \"first\": 41210, \"began\": 1794803400, \"status\": 0"), "{json}");
    // a frame that does not follow the one before it, or one too few
    for entries in [&[41_210, 41_212, 41_213][..], &[41_210, 41_211], &[41_210, 41_211, 41_212, 41_213]] {
        let path = folder("told-later");
        fs::write(path.join("1.wav"), recording(0, 0, &noise(1_440, 1), entries)).unwrap();
        let ended = run(host(&path, &["side", "1.wav"]));
        assert_eq!((ended.status, &*ended.said), (Some(5), ""), "{entries:?}: {}", ended.why);
    }
}

/// There is no quick look: a side is told after the whole file was judged.
#[test]
fn no_quick_look() {
    let path = folder("told-quick");
    fs::write(path.join("l.wav"), sealed(0, &noise(480, 1))).unwrap();
    let ended = run(host(&path, &["side", "--quick", "l.wav"]));
    assert!(ended.status == Some(2) && ended.why.contains("unknown option --quick"), "{}", ended.why);
}

const NOT_SEALED: &str = "not a sealed recording: another program saved it, or it was never sealed. Ask for the file \
                          as the box wrote it (refusal 61)";

#[test]
fn no_recording_at_all() {
    let audio = noise(960, 1);
    for bytes in [
        &[][..],
        &[0; 15],
        &[0; 16],
        &[0; 200],
        b"notes",
        &riff(&audio, &[]),
        &riff(&[noise(960, 2), vec![0; 960]].concat(), &[]),
        &riff(&audio, &sheet(1, &[])),
        &riff(&audio, &sheet(2, &[])),
        &sealed(0, &audio)[..40],
    ] {
        untold(bytes, 3, NOT_SEALED);
    }
    // another program kept the audio and the chunks behind it, and not the one before it
    let left = sealed(0, &audio);
    untold(&riff(&audio, b"LIST\x04\0\0\0INFO"), 3, NOT_SEALED);
    untold(&[&left[..36], &left[68..HEAD + 1_920]].concat(), 3, NOT_SEALED);
}

/// As earlier versions of the box wrote them, or others. No side is told of them.
#[test]
fn what_was_written_before() {
    let audio = noise(960, 1);
    let why =
        "an earlier version of the box sealed it; `box mend 1.wav --out NEW.wav` checks it and writes it as this \
               version does";
    untold(&earlier(0, &audio), 4, why);
    untold(&earlier(1, &audio), 4, why);
    let why = "a side sheet without a seal tells no side; if somebody knows the side, `box mend 1.wav --as left --out \
               NEW.wav` (or `--as right`) seals it";
    for side in 0..2 {
        untold(&riff(&audio, &sheet(side, &entries(3))), 4, why);
        untold(&sheet(side, &entries(3)), 4, why);
        untold(&riff(&audio, &sheet(side, &[7, 8 + HEARD, 9])), 4, why);
    }
    // what does not number up is no sheet
    untold(&riff(&audio, &sheet(1, &[7, 8 + HEARD, 10])), 3, NOT_SEALED);
    let mut broken = earlier(1, &audio);
    broken[HEADER + 1_920 + 12] ^= 1;
    untold(&broken, 5, "its seal is damaged: its own checksum does not fit it (refusal 52)");
}

/// Each part of a recording, cut or changed: what is said of it, and which command mends it.
#[test]
fn what_is_not_as_it_was_written() {
    let (audio, other) = (noise(48_000, 1), noise(48_000, 2));
    let left = sealed(0, &audio);
    let (end, whole) = (HEAD + 96_000, left.len());
    let mend = |does: &str| format!("`box mend 1.wav --out NEW.wav` {does}");
    let changed = |at: usize| [&left[..at], &[left[at] ^ 1], &left[at + 1..]].concat();
    // the head
    for at in [4, 24, 30, 36, 70, 73] {
        untold(&changed(at), 5, &format!("its head was changed; {} (refusal 61)", mend("restores it")));
    }
    for at in [44, 48, 52, 60, 67] {
        untold(&changed(at), 5, &format!("its front seal is damaged; {} (refusal 61)", mend("restores it")));
    }
    let mut open = left[..HEAD + 960].to_vec();
    open[4..8].fill(0xFF);
    open[72..HEAD].fill(0xFF);
    untold(&open, 5, &format!("it was not finished; {} (refusal 61)", mend("closes it")));
    // the audio
    let cut = "the file ends after 0.50 of the 1.00 s of its audio";
    untold(&left[..HEAD + 48_000], 5, &format!("{cut}; {} (refusal 62)", mend("closes it there")));
    let not_of = "its audio is not the one that it was sealed with (refusal 63)";
    for at in [HEAD, HEAD + 50_000, end - 1] {
        untold(&changed(at), 5, not_of);
    }
    let front = front(0, 0, 0);
    untold(&fronted(&front, &other, &left[end..]), 5, not_of);
    // what is between the audio and the records
    let ends = format!("the file ends where its audio does; {} (refusal 63)", mend("closes it"));
    (0..32).for_each(|there| untold(&left[..end + there], 5, &ends));
    let of = |seal: &[u8], sheet: &[u8]| fronted(&front, &audio, &chunk(seal, sheet));
    let good = sheet(0, &entries(101));
    untold(&of(&seal(1, &audio), &good), 5, "its front seal says left, and its end seal right (refusal 63)");
    untold(&of(&[0; 24], &good), 5, "its seal is damaged: it is none (refusal 51)");
    untold(&changed(end + 12), 5, "its seal is damaged: its own checksum does not fit it (refusal 52)");
    let mut nobody = seal(0, &audio)[..20].to_vec();
    nobody[4..8].copy_from_slice(b"BOTH");
    nobody.extend(crc32(&nobody).to_le_bytes());
    let why = "its seal is damaged: it names neither the left nor the right side (refusal 53)";
    untold(&of(&nobody, &good), 5, why);
    // the records, and their end
    let records =
        format!("the records of its frames are damaged or missing (refusal 64); {}", mend("writes them anew"));
    untold(&left[..end + 32], 5, &records);
    untold(&left[..end + 400], 5, &records);
    untold(&of(&seal(0, &audio), &sheet(1, &entries(101))), 5, &records);
    untold(&of(&seal(0, &audio), &sheet(0, &[&entries(100)[..], &[101]].concat())), 5, &records);
    untold(&changed(whole - 16 - 3), 5, &records);
    let trailer = format!("the end of its records is damaged or missing (refusal 65); {}", mend("writes them anew"));
    untold(&left[..whole - 1], 5, &trailer);
    untold(&changed(whole - 16 - 8 + 4), 5, &trailer);
    untold(&changed(whole - 1), 5, &trailer);
    // two files, one behind the other
    let joined = [left.clone(), sealed(1, &other)].concat();
    let why = format!("another recording was joined to its end; {} (refusal 66)", mend("keeps the first"));
    untold(&joined, 5, &why);
    untold(&joined[..joined.len() - 1], 5, &why);
    let mut changed = joined.clone();
    changed[100] ^= 1;
    untold(&changed, 5, not_of);
}

/// A file that is still being made, by its name.
#[test]
fn what_is_still_being_made() {
    let path = folder("told-part");
    let mut open = sealed(0, &noise(480, 1))[..HEAD + 500].to_vec();
    open[4..8].fill(0xFF);
    open[72..HEAD].fill(0xFF);
    fs::create_dir(path.join("out")).unwrap();
    fs::write(path.join("out/left.wav.part"), &open).unwrap();
    let ended = run(host(&path, &["side", "out/left.wav.part"]));
    let why = "box: out/left.wav.part: it was not finished; `box mend out` closes it (refusal 61)\n";
    assert_eq!(ended, Ended { status: Some(5), said: String::new(), why: why.into() });
}

/// A tag at the end of a sealed recording is named, and so is the command that takes it away again.
#[test]
fn a_tag_that_was_added() {
    let path = folder("told-tag");
    let left = sealed(0, &noise(960, 1));
    for (name, tag) in [("a b.wav", &b"TAG\0\0"[..]), ("id3.wav", b"id3 \x04\0\0\0abcd"), ("one.wav", b"x")] {
        fs::write(path.join(name), [&left, tag].concat()).unwrap();
        let quoted = if name.contains(' ') { format!("'{name}'") } else { name.into() };
        let bytes = if tag.len() == 1 { "1 byte was".into() } else { format!("{} bytes were", tag.len()) };
        let ended = run(host(&path, &["side", name]));
        let why = format!(
            "box: {name}: another program changed it: {bytes} added after its end, such as a tag; \
             `box mend {quoted} --out NEW.wav` restores it (refusal 66)\n"
        );
        assert_eq!(ended, Ended { status: Some(5), said: String::new(), why });
        let new = format!("new-{name}");
        let ended = run(host(&path, &["mend", name, "--out", &new]));
        assert_eq!(ended.status, Some(0), "{}", ended.why);
        assert!(ended.said.contains(&format!("The {} bytes after its end are left out.", tag.len())), "{}", ended.said);
        assert!(fs::read(path.join(new)).unwrap() == left);
    }
}

/// Every byte of a small recording changed to every other value, and every byte missing or twice: none is accepted, and
/// of none a side is told.
#[test]
fn no_byte_may_be_another() {
    let path = folder("told-bytes");
    for side in 0..2 {
        let whole = recording(side, 1_794_803_400, &noise(7, 3), &[5 + HEARD]);
        assert!(judged(&mut &whole[..]).unwrap().is_ok());
        for at in 0..whole.len() {
            let mut changed = whole.clone();
            for _ in 0..255 {
                changed[at] = changed[at].wrapping_add(1);
                assert!(judged(&mut &changed[..]).unwrap().is_err(), "byte {at}");
            }
            let shorter = [&whole[..at], &whole[at + 1..]].concat();
            let longer = [&whole[..at], &[whole[at], whole[at]], &whole[at + 1..]].concat();
            assert!(
                judged(&mut &shorter[..]).unwrap().is_err() && judged(&mut &longer[..]).unwrap().is_err(),
                "byte {at}"
            );
        }
        // the same by the program, one value of each byte, in one run
        let names: Vec<String> = (0..whole.len()).map(|at| format!("{at}.wav")).collect();
        for (at, name) in names.iter().enumerate() {
            let mut changed = whole.clone();
            changed[at] ^= 1 << (at % 8);
            fs::write(path.join(name), changed).unwrap();
        }
        let words: Vec<&str> = ["side"].into_iter().chain(names.iter().map(|name| &**name)).collect();
        let ended = run(host(&path, &words));
        assert_eq!((&*ended.said, ended.why.lines().count()), ("", whole.len()));
        assert!(!ended.why.contains("left side") && !ended.why.contains("right side"));
    }
}

/// The side is in the file, so a wrong name is found out; but only where it is one.
#[test]
fn a_name_that_says_the_other_side() {
    let (left, right) = (sealed(0, &noise(480, 1)), sealed(1, &noise(480, 2)));
    let files: [(&str, &[u8]); 8] = [
        ("left.wav", &right),
        ("RIGHT-2.wav", &right),
        ("left-or-right.wav", &left),
        ("Wright 2024.wav", &left),
        ("Wright left foot.wav", &right),
        ("a_R.wav", &left),
        ("a-L.wav", &left),
        ("bright.wav", &left),
    ];
    let ended = side("named", &files);
    let told = |side: &str| format!("{side} side, 2 frames, 1 heard, no gap");
    let said = |name: &str, side: &str| format!("{name}: {}; sealed\n", told(side));
    let good =
        [("RIGHT-2.wav", "right"), ("left-or-right.wav", "left"), ("Wright 2024.wav", "left"), ("a-L.wav", "left")];
    let good = good.map(|(name, side)| said(name, side)).concat() + &said("bright.wav", "left");
    let bad = [("left.wav", "right"), ("Wright left foot.wav", "right"), ("a_R.wav", "left")];
    let bad = bad.map(|(name, side)| format!("box: {name}: the name says another side: {}\n", told(side))).concat();
    assert_eq!(ended, Ended { status: Some(6), said: good, why: bad });
}

#[test]
fn a_folder_that_says_the_other_side() {
    let path = folder("told-folder").join("left bench");
    fs::create_dir(&path).unwrap();
    fs::write(path.join("1.wav"), sealed(1, &noise(480, 2))).unwrap();
    fs::write(path.join("2.wav"), sealed(0, &noise(480, 1))).unwrap();
    fs::write(path.join("right.wav"), sealed(1, &noise(480, 2))).unwrap();
    let ended = run(host(&path, &["side", "1.wav", "2.wav", "right.wav"]));
    assert_eq!((ended.status, ended.said.lines().count()), (Some(6), 2));
    assert!(ended.why.starts_with("box: 1.wav: the folder's name says another side: right side"), "{}", ended.why);
    assert_eq!(run(host(path.parent().unwrap(), &["side", "left bench/1.wav"])).status, Some(6));
}

/// Of several files the highest status, and the good ones are told all the same.
#[test]
fn the_highest_status() {
    let (good, audio) = (sealed(0, &noise(480, 1)), noise(480, 1));
    let ended =
        side("several", &[("1.wav", &good), ("2.wav", &riff(&audio, &sheet(0, &entries(2)))), ("3.wav", &[0; 16])]);
    assert_eq!((ended.status, ended.said.lines().count(), ended.why.lines().count()), (Some(4), 1, 2), "{ended:?}");
    let path = folder("told-missing");
    let ended = run(host(&path, &["side", "none.wav"]));
    assert!(ended.status == Some(1) && ended.why.contains("none.wav: No such file"), "{ended:?}");
    assert_eq!(run(host(&path, &["side"])).status, Some(2));
}

/// A pipe is judged as its bytes arrive. What is refused can't be looked at again, and gets the words of its number.
#[test]
fn a_recording_through_a_pipe() {
    let path = folder("told-pipe");
    let left = sealed(0, &noise(4_800, 1));
    let piped = |bytes: &[u8]| fed(host(&path, &["side", "-"]), bytes);
    let said = "-: left side, 11 frames, 4 heard, no gap; sealed\n";
    assert_eq!(piped(&left), Ended { status: Some(0), said: said.into(), why: String::new() });
    let (end, whole) = (HEAD + 9_600, left.len());
    let changed = |at: usize| [&left[..at], &[left[at] ^ 1], &left[at + 1..]].concat();
    for (bytes, status, why) in [
        (b"notes".to_vec(), 3, NOT_SEALED),
        (changed(5), 3, NOT_SEALED),
        (left[..end - 1].to_vec(), 5, "it ends within its audio (refusal 62)"),
        (changed(200), 5, "its audio was changed, or the seal after it (refusal 63)"),
        (changed(end + 32), 5, "the records of its frames are damaged or missing (refusal 64)"),
        (changed(whole - 1), 5, "the end of its records is damaged or missing (refusal 65)"),
        ([&left[..], b"TAG"].concat(), 5, "something was added after its end (refusal 66)"),
    ] {
        let ended = piped(&bytes);
        assert_eq!(ended, Ended { status: Some(status), said: String::new(), why: format!("box: -: {why}\n") });
    }
    // a pipe with a name
    let words = "mkfifo p && (cat 1.wav >p & exec \"$0\" side p)";
    fs::write(path.join("1.wav"), &left).unwrap();
    let mut shell = Command::new("sh");
    shell.args(["-c", words, env!("CARGO_BIN_EXE_tuppencehop")]).current_dir(&path);
    assert_eq!(ended(shell.output().unwrap()).said, said.replace("-:", "p:"));
}

/// A pipe is not laid down anywhere, and takes no more memory than a part of it: 300 MB in 16 MB, without a folder for
/// temporary files.
#[test]
fn a_long_pipe_takes_no_memory_and_no_room() {
    let path = folder("told-long-pipe");
    let size = 300_000_000u32;
    let head = with_entries(1, &[], &[]);
    let mut whole = [&head[..72], &size.to_le_bytes()].concat();
    let frames = size.div_ceil(960) + 1;
    whole[4..8].copy_from_slice(&(116 + size + 8 * frames).to_le_bytes());
    fs::write(path.join("head"), &whole).unwrap();
    let limit = "(cat head; head -c 300000000 /dev/zero) | (ulimit -v 16384; TMPDIR=/nowhere exec \"$0\" side -)";
    let mut shell = Command::new("sh");
    shell.args(["-c", limit, env!("CARGO_BIN_EXE_tuppencehop")]).current_dir(&path);
    let ended = ended(shell.output().unwrap());
    // all of it was read: the audio is there, and nothing after it
    let why = "box: -: its audio was changed, or the seal after it (refusal 63)\n";
    assert_eq!(ended, Ended { status: Some(5), said: String::new(), why: why.into() });
}

/// A file of five GB that takes no room, and ends in these bytes.
fn huge(name: &str, end: &[u8]) -> PathBuf {
    let path = folder(name);
    let mut file = File::create(path.join("1.wav")).unwrap();
    file.write_all(&riff(&[0; 960], &[])).unwrap();
    file.seek(SeekFrom::Start(5_000_000_000)).unwrap();
    file.write_all(end).unwrap();
    path
}

/// Whatever a trailer or a chunk claims, a few MB are enough.
#[test]
fn what_is_claimed_takes_no_memory() {
    let claims = |count: u32, side: u32| [8 * count, count, side, 0].map(u32::to_le_bytes).concat();
    let looked = |name: &str, end: &[u8]| {
        let path = huge(name, end);
        let ended = in_memory(&path, 16, &["side", "1.wav"]);
        fs::remove_dir_all(path).unwrap();
        (ended.status, ended.why)
    };
    // records of the other side, and eight million silent frames 0 of the left one
    let why = format!("box: 1.wav: {NOT_SEALED}\n");
    assert_eq!(looked("told-claims-right", &claims(536_870_911, 1)), (Some(3), why.clone()));
    assert_eq!(looked("told-claims-left", &claims(8_000_000, 0)), (Some(3), why));
}
