//! `box mend FILE`: whose side is told, what is kept and what is lost, and that the file that is read stays as it is.

mod common;
mod made;

use common::{folder, host, run, Ended};
use made::*;
use std::fs;
use std::io::Cursor;
use std::path::Path;
use std::process::Command;
use tuppencehop::cleaning::demo::Rng;
use tuppencehop::recording::judge::judged;
use tuppencehop::recording::mend::plan_of;

fn mend(path: &Path, words: &[&str]) -> Ended {
    run(host(path, &[&["mend"], words].concat()))
}

/// What is told of a file that is to be mended, and what it becomes.
fn mended(bytes: &[u8], more: &[&str]) -> (Ended, Option<Vec<u8>>) {
    let path = folder("mend-one");
    fs::write(path.join("1.wav"), bytes).unwrap();
    let ended = mend(&path, &[&["1.wav", "--out", "new.wav"], more].concat());
    assert_eq!(fs::read(path.join("1.wav")).unwrap(), bytes);
    assert!(!path.join("new.wav.part").exists());
    (ended, fs::read(path.join("new.wav")).ok())
}

fn closed(bytes: &[u8], more: &[&str], said: &str, wanted: &[u8]) {
    let (ended, new) = mended(bytes, more);
    assert_eq!(ended, Ended { status: Some(0), said: said.into(), why: String::new() });
    assert!(new.as_deref() == Some(wanted), "{said}");
    assert!(judged(&mut &wanted[..]).unwrap().is_ok());
}

fn refused(bytes: &[u8], more: &[&str], why: &str) {
    let (ended, new) = mended(bytes, more);
    let why = format!("box: 1.wav: {why}\n");
    assert_eq!((ended, new), (Ended { status: Some(1), said: String::new(), why }, None));
}

/// The entries of so many frames, of which those from a place on are heard.
fn heard_from(place: usize, frames: u64) -> Vec<u64> {
    let mut entries = entries(frames);
    entries[place..].iter_mut().for_each(|entry| *entry |= HEARD);
    entries
}

/// One after the other, since they share a folder.
#[test]
fn what_is_kept() {
    let audio = noise(1_500, 1);
    let right = sealed(1, &audio);
    let (records, whole) = (right.len() - 16 - 8 * 5, right.len());
    let all = "new.wav: right side, 5 frames, 2 heard, no gap\nKept 0.03 s.\n";
    for torn in [&right[..whole - 16], &right[..whole - 1], &right[..whole - 9]] {
        closed(torn, &[], all, &right);
    }
    // what follows the sheet is no part of it
    let first = format!("{} Another recording follows in the file: this is the first one.\n", all.trim_end());
    closed(&[&right[..], &sealed(0, &noise(480, 2))].concat(), &[], &first, &right);
    // the sizes of the head, its format, and the front seal: the end seal is of this audio
    for place in [5, 24, 73] {
        let mut changed = right.clone();
        changed[place] ^= 1;
        closed(&changed, &[], all, &right);
    }
    let late = recording(1, 7, &audio, &[41_210, 41_211, 41_212 + HEARD, 41_213]);
    let mut changed = late.clone();
    changed[52] ^= 1;
    let told = "new.wav: right side, frames 41,210 to 41,213, 1 heard, no gap\nKept 0.03 s.\n";
    closed(&changed, &[], told, &recording(1, 0, &audio, &[41_210, 41_211, 41_212 + HEARD, 41_213]));
    // lost records are written as heard, and no audio is dropped that the seal proves
    for (torn, lost) in [(records + 32, 4), (records + 39, 4), (records + 18, 2), (records + 8, 1), (records, 0)] {
        let told = with_entries(1, &audio, &heard_from(lost, 5));
        let heard = heard_from(lost, 5).iter().filter(|entry| **entry >= HEARD).count();
        let lost = match 5 - lost {
            1 => "The record of 1 frame was lost: it is marked as heard.".into(),
            many => format!("The records of {many} frames were lost: these are marked as heard."),
        };
        let said = format!("new.wav: right side, 5 frames, {heard} heard, no gap\nKept 0.03 s. {lost}\n");
        closed(&right[..torn], &[], &said, &told);
        // filled up with zeros; the last byte of a record is one anyway
        let mut zeros = right.clone();
        zeros[torn..].fill(0);
        if torn != records + 39 {
            closed(&zeros, &[], &said, &told);
        }
    }
    let whole = "new.wav: right side, 5 frames, 2 heard, no gap\nIt was sealed: the file is copied as it was.\n";
    closed(&right, &[], whole, &right);
    closed(&right, &["--as", "right"], whole, &right);
    closed(
        &late,
        &[],
        &told
            .replace("Kept 0.03 s.", "It was sealed: the file is copied as it was.")
            .replace("no gap\n", "no gap, begun 1970-01-01 00:00:07 UTC\n"),
        &late,
    );
    what_a_cut_leaves();
    what_is_refused();
    what_an_earlier_version_wrote();
    what_a_person_says();
}

/// Cut within its audio or its seal, a recording still says its side in front.
fn what_a_cut_leaves() {
    let audio = noise(48_000, 1);
    let right = sealed(1, &audio);
    let unproved = "The seal after its audio was lost: nothing proves that this audio is as it was.";
    let cut = |bytes: usize, lost: &str| {
        let (kept, frames) = (bytes / 2 * 2, (bytes / 2).div_ceil(480) + 1);
        let told = format!("new.wav: right side, {frames} frames, {frames} heard, no gap\n");
        let rewritten = format!("The records of {frames} frames were lost: these are marked as heard.");
        let said = format!("{told}Kept {:.2} s.{lost} {rewritten} {unproved}\n", bytes as f64 / 96_000.0);
        let heard = heard_from(0, frames as u64);
        closed(&right[..HEAD + bytes], &[], &said, &with_entries(1, &audio[..kept], &heard));
    };
    cut(2, " The 1.00 s after them are not in the file.");
    cut(48_000, " The 0.50 s after them are not in the file.");
    cut(48_001, " The 0.50 s after them are not in the file.");
    let frames = 101;
    let told = format!("new.wav: right side, {frames} frames, {frames} heard, no gap\nKept 1.00 s.");
    let rewritten = format!("The records of {frames} frames were lost: these are marked as heard.");
    let all = with_entries(1, &audio, &heard_from(0, frames));
    for there in [0, 3, 8, 12, 31] {
        closed(&right[..HEAD + 96_000 + there], &[], &format!("{told} {rewritten} {unproved}\n"), &all);
    }
    // the rest filled up with zeros, as a power cut may leave it
    let mut zeros = right.clone();
    zeros[HEAD + 48_000..].fill(0);
    let (ended, new) = mended(&zeros, &[]);
    let said = "The last 0.50 s are zeros, as a power cut may leave them. The seal after its audio was lost";
    assert!(ended.status == Some(0) && ended.said.contains(said), "{ended:?}");
    assert_eq!(judged(&mut &new.unwrap()[..]).unwrap().unwrap().front.side.name(), "right");
    // a copy of what is still being made
    let mut open = right[..HEAD + 9_600].to_vec();
    open[4..8].fill(0xFF);
    open[72..76].fill(0xFF);
    let (ended, new) = mended(&open, &[]);
    assert_eq!(ended.status, Some(0), "{}", ended.why);
    assert!(new.unwrap() == with_entries(1, &audio[..9_600], &heard_from(0, 11)));
}

/// Two hundred files cut at random places: each is mended as its own side, and nothing is missing but what was cut.
#[test]
fn two_hundred_cuts() {
    let rng = &mut Rng(0xC07);
    let mut kinds = [0; 2];
    for cut in 0..200 {
        let (side, audio) = (cut % 2, noise(500 + rng.draw() as usize % 3_000, cut.into()));
        let first = if cut % 4 < 2 { 0 } else { 41_210 };
        let frames = entries(audio.len().div_ceil(960) as u64 + u64::from(first == 0));
        let whole = recording(side, 1_794_803_400, &audio, &frames.iter().map(|n| n + first).collect::<Vec<_>>());
        // half of them anywhere, and half of them after the audio
        let least = if rng.draw() & 1 == 0 { HEAD + 2 } else { HEAD + audio.len() };
        let file = &whole[..least + rng.draw() as usize % (whole.len() - least)];
        let plan = plan_of(&mut Cursor::new(file), None).unwrap_or_else(|why| panic!("cut {cut}: {why}"));
        let mut new = vec![];
        plan.write(&mut Cursor::new(file), &mut new).unwrap();
        let told = judged(&mut &new[..]).unwrap().unwrap_or_else(|why| panic!("cut {cut}: {why}"));
        let kept = (file.len() - HEAD).min(audio.len()) / 2 * 2;
        assert_eq!((told.front.side as u32, told.front.began, told.front.first), (side, 1_794_803_400, first as u32));
        assert!(new[HEAD..HEAD + kept] == audio[..kept] && new[HEAD + kept..].starts_with(b"side"), "cut {cut}");
        kinds[usize::from(kept == audio.len())] += 1;
    }
    assert!(kinds.iter().all(|many| *many > 20), "{kinds:?}");
}

fn what_is_refused() {
    let (audio, other) = (noise(1_500, 1), noise(1_500, 2));
    let right = sealed(1, &audio);
    let seal_at = HEAD + 3_000 + 8;
    refused(&right[..HEAD], &[], "there is no audio in it");
    refused(b"notes", &[], "not a WAV file: it is text");
    let why = "not a sealed recording: another program saved it, or it was never sealed. Ask for the file as the box \
               wrote it (refusal 61)";
    refused(&riff(&audio, &[]), &[], why);
    let hint = "who knows that it is the right side, as its front seal says, adds --as right";
    let elsewhere = "its audio is not the one that it was sealed with";
    refused(&[&right[..500], &[7], &right[501..]].concat(), &[], &format!("{elsewhere}; {hint}"));
    // a byte inserted: what is where the seal should be is none
    let inserted = [&right[..500], &[7], &right[500..]].concat();
    let none = "its seal is damaged: it is none (refusal 51)";
    refused(&inserted, &[], &format!("{none}; {hint}"));
    // front and end of two sides; records of the other side
    let two = fronted(&front(0, 0, 0), &audio, &chunk(&seal(1, &audio), &sheet(1, &entries(5))));
    refused(&two, &[], "its front seal says left, and its end seal right");
    refused(&two, &["--as", "left"], "its front seal says left, and its end seal right");
    refused(&two, &["--as", "right"], "its seal says left");
    let two = fronted(&front(0, 0, 0), &audio, &chunk(&seal(0, &audio), &sheet(1, &entries(5))));
    refused(&two, &[], "its records are of the right side");
    refused(&two, &["--as", "right"], "its seal says left");
    refused(&right, &["--as", "left"], "its seal says right");
    let swapped = fronted(&front(1, 0, 0), &other, &right[seal_at - 8..]);
    refused(&swapped, &[], &format!("{elsewhere}; {hint}"));
    let mut broken = right.clone();
    broken[seal_at + 4..seal_at + 8].copy_from_slice(b"LEFT");
    let why = "its seal is damaged: its own checksum does not fit it (refusal 52)";
    refused(&broken, &[], &format!("{why}; {hint}"));
    refused(&broken, &["--as", "left"], "its seal says right");
    // nothing tells where the audio ends
    let mut lost = right[..right.len() - 20].to_vec();
    lost[73] ^= 1;
    refused(&lost, &[], "its head was changed, and nothing tells where its audio ends");
    let (ended, new) = mended(&right, &["--as", "both"]);
    assert_eq!((ended.status, new), (Some(2), None));
}

/// A recording of an earlier version, without a front seal, is written anew.
fn what_an_earlier_version_wrote() {
    let (audio, other) = (noise(1_500, 1), noise(1_500, 2));
    let (right, new) = (earlier(1, &audio), sealed(1, &audio));
    let told = "new.wav: right side, 5 frames, 2 heard, no gap\nKept 0.03 s. An earlier version of the box wrote it.\n";
    closed(&right, &[], told, &new);
    closed(&right, &["--as", "right"], told, &new);
    closed(&right[..right.len() - 9], &[], told, &new);
    // its seal proves its audio, and no record is left
    let records = right.len() - 16 - 8 * 5;
    let lost =
        "new.wav: right side, 5 frames, 5 heard, no gap\nKept 0.03 s. The records of 5 frames were lost: these are \
                marked as heard. An earlier version of the box wrote it.\n";
    closed(&right[..records], &[], lost, &with_entries(1, &audio, &heard_from(0, 5)));
    refused(&right, &["--as", "left"], "its seal says right");
    refused(&right[..3_000], &[], "the file ends within its audio (refusal 37)");
    let hint = "who knows that it is the right side, as its records say, adds --as right";
    let swapped = riff(&other, &right[HEADER + 3_000..]);
    refused(&swapped, &[], &format!("its audio is not the one that it was sealed with; {hint}"));
    let old = riff(&audio, &sheet(1, &entries(5)));
    refused(&old, &[], &format!("a side sheet without a seal tells no side; {hint}"));
    let two = riff(&audio, &chunk(&seal(0, &audio), &sheet(1, &entries(5))));
    refused(&two, &[], "its records are of the right side");
    let elsewhere = "its seal is not where its audio ends: bytes were added or taken away";
    refused(&[&right[..500], &[7], &right[500..]].concat(), &[], elsewhere);
    refused(&[&right[..500], &[7], &right[500..]].concat(), &["--as", "right"], elsewhere);
}

/// Where no seal tells the side of this audio, a person may; and the answer says so.
fn what_a_person_says() {
    let audio = noise(1_500, 1);
    let right = sealed(1, &audio);
    let said = |more: &str| {
        let told = "new.wav: right side, 5 frames, 2 heard, no gap\nKept 0.03 s.";
        format!("{told}{more} That it is the right side is in no seal: you said so.\n")
    };
    let mut broken = right.clone();
    broken[HEAD + 3_000 + 8] = 0;
    closed(&broken, &["--as", "right"], &said(""), &right);
    let swapped = fronted(&front(1, 0, 0), &noise(1_500, 2), &right[HEAD + 3_000..]);
    closed(&swapped, &["--as", "right"], &said(""), &sealed(1, &noise(1_500, 2)));
    let old = riff(&audio, &sheet(1, &entries(5)));
    let earlier = " An earlier version of the box wrote it.";
    closed(&old, &["--as", "right"], &said(earlier), &right);
    refused(&old, &["--as", "left"], "its records are of the right side");
}

/// Where there is no room for the whole file, nothing of it is left.
#[cfg(unix)]
#[test]
fn no_room() {
    let path = folder("mend-room");
    fs::write(path.join("whole.wav"), sealed(0, &noise(480, 1))).unwrap();
    let limited = "trap '' XFSZ; ulimit -f 1; exec \"$0\" mend whole.wav --out copy.wav";
    let output = Command::new("sh")
        .args(["-c", limited, env!("CARGO_BIN_EXE_tuppencehop")])
        .current_dir(&path)
        .output()
        .unwrap();
    let why = String::from_utf8(output.stderr).unwrap();
    assert!(output.status.code() == Some(1) && why.contains("copy.wav: File too large"), "{why}");
    assert!(!path.join("copy.wav").exists() && !path.join("copy.wav.part").exists());
}

#[test]
fn the_file_itself_is_not_written() {
    let path = folder("mend-itself");
    let file = sealed(0, &noise(960, 1));
    let torn = &file[..file.len() - 9];
    fs::write(path.join("torn.wav"), torn).unwrap();
    fs::hard_link(path.join("torn.wav"), path.join("linked.wav")).unwrap();
    for out in ["./torn.wav", "linked.wav"] {
        let ended = mend(&path, &["torn.wav", "--out", out]);
        assert_eq!(ended.status, Some(1));
        assert!(ended.why.contains("exists"), "{}", ended.why);
    }
    assert_eq!(fs::read(path.join("torn.wav")).unwrap(), torn);
}
