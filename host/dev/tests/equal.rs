//! What the box gives is what the Rust text's `process_frame` gives, but for the last bits of transforms and
//! logarithms.
//! In four calls a frame, with the text's own, it is the same bit for bit but for the signs of zeros. And however a
//! recording is cut, it is the same.

#[path = "../../tests/models/mod.rs"]
mod models;

use tuppencehop::cleaning::demo::{dictation, minutes, HOUSE};
use tuppencehop::cleaning::recorder::{Frame, Recorder, Side, Way, PIECE};
use tuppencehop::cleaning::run::{frames_of, in_memory};
use tuppencehop::reading::block::Block;
use tuppencehop::FRAME;
use tuppencehop_dev::calls::Calls;
use tuppencehop_dev::reference::Reference;
use tuppencehop_dev::text::{beside_text, Distance};

/// One bench by the text: its output, and the voice of each frame.
fn by_the_text(recording: &[f32], model: &[u8]) -> (Vec<f32>, Vec<f32>) {
    let mut reference = Reference::new(model).unwrap();
    let (mut output, mut voices) = (Vec::new(), Vec::new());
    // past its end there is silence
    let mut samples = recording.to_vec();
    samples.resize(FRAME * frames_of(recording.len() as u64) as usize, 0.0);
    for frame in samples.chunks_exact(FRAME) {
        let mut out = [0.0; FRAME];
        voices.push(reference.frame(frame, &mut out));
        output.extend(out);
    }
    output.drain(..FRAME.min(output.len()));
    output.truncate(recording.len());
    (output, voices)
}

fn alike(a: f32, b: f32) -> bool {
    a == b || (a.is_nan() && b.is_nan())
}

/// What a bench received in four calls a frame: all that came out, and what each frame was.
type Received = (Vec<f32>, Vec<Frame>);

/// Both benches as the text has them, a frame of each in turn, and silence behind each.
fn in_four_calls(recordings: [&[f32]; 2], model: &[u8]) -> [Received; 2] {
    let (mut calls, mut received) = (Calls::default(), [const { (vec![], vec![]) }; 2]);
    let silent = recordings.map(|samples| {
        let mut samples = samples.to_vec();
        samples.resize(FRAME * frames_of(samples.len() as u64) as usize, 0.0);
        samples
    });
    Side::BOTH.into_iter().for_each(|side| calls.open(side, model).unwrap());
    for at in (0..silent[0].len().max(silent[1].len())).step_by(FRAME) {
        for (side, samples) in Side::BOTH.into_iter().zip(&silent) {
            let Some(samples) = samples.get(at..at + FRAME) else { continue };
            let ((output, frames), mut out) = (&mut received[side as usize], [0.0; FRAME]);
            frames.push(calls.frame(side, samples, model, &mut out).unwrap());
            output.extend(out);
        }
    }
    received
}

fn both_agree(left: &[f32], right: &[f32], model: &[u8]) {
    let received = in_four_calls([left, right], model);
    for ((side, before), (output, frames)) in Side::BOTH.into_iter().zip([left, right]).zip(received) {
        let ((wanted, voices), name) = (by_the_text(before, model), side.name());
        assert_eq!((output.len(), frames.len()), (FRAME * voices.len(), voices.len()));
        // what comes out of a frame belongs to the one before it
        for (i, (a, b)) in output.iter().skip(FRAME).zip(wanted).enumerate() {
            assert!(alike(*a, b), "{name}, sample {i}: {a} and {b}");
        }
        for (i, (frame, voice)) in frames.iter().zip(voices).enumerate() {
            assert_eq!(frame.number() as usize, i);
            let ours = frame.heard.voice();
            assert!(alike(ours, voice), "{name}, frame {i}: voice {ours} and {voice}");
        }
    }
}

/// What the box writes is the same, rounded to 16 bits, but for a sample of a thousand at most, which is one off.
fn both_are_written(left: &[f32], right: &[f32], model: &[u8]) {
    for bench in in_memory([left, right], model, Way::Nnnoiseless).unwrap() {
        assert_eq!(bench.before, if bench.side == Side::Left { left } else { right });
        let (output, voices) = by_the_text(&bench.before, model);
        let rounded: Vec<f32> = output.iter().map(|x| x.round().clamp(-32_768.0, 32_767.0)).collect();
        assert_eq!((bench.after.len(), bench.frames.len()), (rounded.len(), voices.len()));
        let off: Vec<f32> = bench.after.iter().zip(&rounded).map(|(a, b)| (a - b).abs()).filter(|x| *x > 0.0).collect();
        let (name, most) = (bench.side.name(), rounded.len().div_ceil(1_000));
        assert!(off.iter().all(|x| *x == 1.0) && off.len() <= most, "{name}: {} of {}", off.len(), rounded.len());
    }
}

#[test]
fn the_demo() {
    let [left, right] = [0, 1].map(|bench| dictation(bench).noisy);
    both_agree(&left, &right, HOUSE);
    both_are_written(&left, &right, HOUSE);
}

#[test]
fn ten_minutes_of_noise_and_speech() {
    both_agree(&minutes(10, 0), &minutes(10, 1), &models::model());
}

#[test]
fn recordings_of_odd_lengths() {
    let sound = dictation(0).noisy;
    for n in [0, 1, 479, 480, 481, 5_000] {
        both_agree(&sound[..n], &sound[7_000..7_000 + 2 * n], &models::model());
        both_are_written(&sound[..n], &sound[7_000..7_000 + 2 * n], &models::model());
    }
}

/// Whether it is what the text gives but for the last bits: no sample is as much as a tenth of a 16-bit unit away.
fn is_near(distance: &Distance) -> bool {
    distance.most < 0.1 && distance.below() > 120.0 && distance.voice < 1e-4
}

#[test]
fn as_the_text_gives_it_but_for_the_last_bits() {
    for bench in [0, 1] {
        for recording in [dictation(bench).noisy, minutes(1, bench)] {
            let distance = beside_text(&recording, HOUSE, Way::Nnnoiseless);
            assert!(is_near(&distance), "{distance:?}, {} dB", distance.below());
        }
        // our own lag, where it is another, moves it much further
        let distance = beside_text(&dictation(bench).noisy, HOUSE, Way::Own);
        assert!(distance.most > 100.0 && distance.below() < 60.0, "{distance:?}, {} dB", distance.below());
    }
}

/// All that a recorder gives, by pieces of these lengths in turn.
fn cut(way: Way, samples: &[f32], lengths: &[usize]) -> (Vec<u8>, Vec<Frame>) {
    let (mut recorder, mut output, mut frames, mut rest) = (Recorder::new(way), vec![], vec![], samples);
    let model = models::model();
    recorder.open(Side::Right, &model).unwrap();
    for length in lengths.iter().cycle() {
        let (piece, behind) = rest.split_at(rest.len().min(*length));
        let each = |frame: Frame, out: &[u8]| {
            frames.push(frame);
            output.extend(out);
        };
        recorder.feed(Side::Right, &Block::of(piece), &model, each).unwrap();
        rest = behind;
        if rest.is_empty() {
            break;
        }
    }
    (output, frames)
}

#[test]
fn however_it_is_cut() {
    let sound = &dictation(1).noisy[..200 * FRAME + 7];
    for way in [Way::Nnnoiseless, Way::Own] {
        let whole = cut(way, sound, &[FRAME]);
        assert_eq!(whole.1.len(), 200);
        let voices = whole.1.iter().map(|frame| frame.heard.voice());
        assert!(voices.clone().fold(0.0, f32::max) > 0.1 + voices.fold(1.0, f32::min), "the voice hardly moves");
        for lengths in [&[1][..], &[479, 2, 1, 960], &[PIECE], &[3 * PIECE + 1, 5], &[sound.len()]] {
            assert!(cut(way, sound, lengths) == whole, "{way:?}, {lengths:?}");
        }
    }
}
