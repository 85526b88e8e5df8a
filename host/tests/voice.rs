//! Where the first voice begins: on the demo, on noise alone, and on recordings with a known first word (`spoken`).

mod common;
mod spoken;

use common::*;
use spoken::{noise_alone, recording, NOISES};
use std::fs;
use std::path::Path;
use tuppencehop::reading::wav;

/// The second at which the box finds the first voice of each of these recordings.
fn first_voices(path: &Path, recordings: &[Vec<f32>]) -> Vec<Option<f64>> {
    let names: Vec<String> = (0..recordings.len()).map(|n| format!("rec {n}.wav")).collect();
    for (name, samples) in names.iter().zip(recordings) {
        fs::write(path.join(name), wav::write(48_000, samples)).unwrap();
    }
    let names: Vec<&str> = names.iter().map(|name| &**name).collect();
    let words = [&["clean", "--side", "left", "--json", "--out", "out"], &names[..]].concat();
    let ended = run(host(path, &words));
    assert_eq!(ended.status, Some(0), "{}", ended.why);
    let field = |line: &str| line.split("\"first_voice\": ").nth(1).unwrap().split(',').next().unwrap().parse().ok();
    ended.said.lines().map(field).collect()
}

/// The demo's first words begin at 1.55 s; the page's button plays from there.
#[test]
fn the_demo() {
    let path = folder("voice-demo");
    assert_eq!(run(host(&path, &["demo", "out"])).status, Some(0));
    let page = fs::read_to_string(path.join("out/index.html")).unwrap();
    let found: Vec<f64> =
        page.split("data-at=\"").skip(1).map(|rest| rest.split('"').next().unwrap().parse().unwrap()).collect();
    assert_eq!(found.len(), 2, "{found:?}");
    assert!(found.iter().all(|at| (1.4..1.7).contains(at)), "{found:?}");
}

#[test]
fn no_voice_in_noise() {
    let path = folder("voice-noise");
    let all: Vec<(usize, f64)> =
        (0..NOISES.len()).flat_map(|kind| [300.0, 1_000.0, 3_000.0].map(|level| (kind, level))).collect();
    let recordings: Vec<Vec<f32>> = all.iter().map(|(kind, level)| noise_alone(7, *kind, *level, 10)).collect();
    for ((kind, level), found) in all.iter().zip(first_voices(&path, &recordings)) {
        assert_eq!(found, None, "{} noise of {level}", NOISES[*kind]);
    }
    let page = fs::read_to_string(path.join("out/rec 0/index.html")).unwrap();
    assert!(page.contains("<td>no voice was found</td>"));
}

/// Within 0.15 s for at least 19 of 20, and no word that is found late.
#[test]
fn known_first_words() {
    let spoken: Vec<_> = (0..20).map(|seed| recording(seed, None)).collect();
    let recordings: Vec<Vec<f32>> = spoken.iter().map(|one| one.samples.clone()).collect();
    let found = first_voices(&folder("voice-words"), &recordings);
    let late: Vec<f64> = found.iter().zip(&spoken).map(|(found, one)| found.unwrap_or(1e9) - one.first_word).collect();
    assert!(late.iter().filter(|late| late.abs() <= 0.15).count() >= 19, "{late:.2?}");
    assert!(late.iter().all(|late| *late <= 0.15), "{late:.2?}");
}

/// A word at the very beginning, while the network settles, is not found late.
#[test]
fn a_word_at_the_beginning() {
    let leads = [0.0, 0.05, 0.1, 0.2];
    let spoken: Vec<_> = leads.iter().zip(0..).map(|(lead, seed)| recording(seed, Some(*lead))).collect();
    let recordings: Vec<Vec<f32>> = spoken.iter().map(|one| one.samples.clone()).collect();
    let found = first_voices(&folder("voice-early"), &recordings);
    for (found, one) in found.iter().zip(&spoken) {
        assert!(found.is_some_and(|found| found <= one.first_word + 0.15), "{found:?} for {}", one.first_word);
    }
}
