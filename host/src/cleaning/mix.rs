//! Ways in which one bench's voice could be sealed as the other's. They are looked for before anything is written, and
//! what is found is refused. With `--anyway` it is taken, and reported.

use crate::cleaning::clean::Inputs;
use crate::cleaning::recorder::Side;
use crate::error::{Error, Result};
use crate::reading::block::Block;
use crate::reading::source::Source;
use crate::telling::found::Found;
use crate::telling::names;
use crate::telling::shown::line_of;
use crate::{FRAME, RATE};
use std::fs::{self, File};
use std::os::unix::fs::MetadataExt;
use std::path::Path;

/// What speaks against a recording, and what `--anyway` does.
struct Doubt {
    why: String,
    anyway: String,
}

impl Doubt {
    /// Something about this file is of the other side than the bench for which it is given.
    fn of_side(what: &str, other: Side, given: Side) -> Doubt {
        let (other, given) = (other.name(), given.name());
        let why = format!("{what} says {other}, but it is given as the {given} bench's recording");
        Doubt { why, anyway: format!("clean it as {given} regardless") }
    }

    /// An error; or with `--anyway` a note.
    fn settled(self, path: &Path, anyway: bool) -> Result<String> {
        let Doubt { why, anyway: done } = self;
        match anyway {
            true => Ok(line_of(path, format!("{why}; cleaned regardless, because of --anyway"))),
            false => Err(Error::wrong(format!("{why}; use --anyway to {done}")).at(path)),
        }
    }
}

/// What in a recording says that it is the other bench's. (A pipe is not opened: what is read of it is gone.)
fn by_seal(path: &Path, side: Side) -> Option<Doubt> {
    fs::metadata(path).ok().filter(|about| about.is_file())?;
    let found = Found::of(&mut File::open(path).ok()?).ok()?;
    let (what, other) = found.sides().find(|(_, other)| *other != side)?;
    Some(Doubt::of_side(what, other, side))
}

fn by_name(path: &Path, side: Side) -> Option<Doubt> {
    let (other, whose) = names::meant(path).filter(|(other, _)| *other != side)?;
    Some(Doubt::of_side(&format!("its {whose}"), other, side))
}

/// Whether two names are of one file.
fn is_one(left: &Path, right: &Path) -> bool {
    let file = |path: &Path| fs::metadata(path).map(|about| (about.dev(), about.ino()));
    file(left).is_ok_and(|left| file(right).is_ok_and(|right| left == right))
}

const SAME: &str = "one recording can't be both benches'";

fn both_the_same(why: &str) -> Doubt {
    Doubt { why: why.into(), anyway: "clean it as both regardless".into() }
}

/// Refuses one file for both benches, and a file whose name, seal or side sheet says the other bench. With `anyway`
/// these come back as notes.
pub fn check(inputs: &Inputs, anyway: bool) -> Result<Vec<String>> {
    let given: Vec<(&Path, Side)> = match inputs {
        Inputs::One { side, file } => vec![(file, *side)],
        Inputs::Two { left, right } => vec![(left, Side::Left), (right, Side::Right)],
        Inputs::Stereo(_) => vec![],
    };
    let mut notes = vec![];
    if let Inputs::Two { left, right } = inputs {
        if is_one(left, right) {
            notes.push(both_the_same(SAME).settled(left, anyway)?);
        }
    }
    for (path, side) in given {
        for doubt in [by_seal(path, side), by_name(path, side)].into_iter().flatten() {
            notes.push(doubt.settled(path, anyway)?);
        }
    }
    Ok(notes)
}

/// Both benches' samples are compared over the first second that contains sound.
const SECOND: u64 = RATE as u64;

/// Below this the samples of both channels in turn are one sound: see [`Turns`].
const SMOOTHER: f64 = 0.85;

/// Whether two channels are one that was read as two, each second sample as the other bench's. Then a sample lies
/// closer to the line between its neighbours in the other channel than to that between its neighbours in its own, which
/// are twice as far away. Of two microphones it is the other way round: the demo's benches give 5, the noise of two
/// microphones 1, and the demo's voices read in turns 0.67.
#[derive(Default)]
struct Turns {
    /// The last samples, left and right in turn. The newest is the last.
    last: [f64; 5],
    samples: u64,
    /// The squared distances from the neighbours in the other channel, and from those in its own.
    distances: [f64; 2],
}

impl Turns {
    fn pair(&mut self, left: f32, right: f32) {
        for sample in [left, right] {
            self.last.rotate_left(1);
            self.last[4] = sample.into();
            self.samples += 1;
            let [a, b, c, d, e] = self.last;
            if self.samples >= 5 {
                self.distances[0] += (c - (b + d) / 2.0).powi(2);
                self.distances[1] += (c - (a + e) / 2.0).powi(2);
            }
        }
    }

    fn are_one(&self) -> bool {
        self.distances[0] < SMOOTHER * self.distances[1]
    }
}

/// What the comparison of both benches' samples has given.
#[derive(Clone, Copy, Debug, PartialEq)]
enum Compared {
    /// Nothing yet.
    Going,
    /// The benches differ, or one of them has nothing to compare.
    Apart,
    /// The benches are the same.
    Identical,
    /// The benches are one channel that was read as two.
    OneInTurns,
}

/// Recordings of both benches as they come. They end as soon as both are found to be one and the same voice, unless
/// that is allowed.
pub struct Apart<'a, S> {
    source: &'a mut S,
    allowed: bool,
    /// For samples without a header, of which nobody but the command line says how many channels they have.
    turns: Option<Turns>,
    compared: Compared,
    /// How many samples of each were compared, from the first one on that is not 0, and whether any differ.
    heard: u64,
    differ: bool,
    /// Samples of each bench whose counterpart has not come yet.
    waiting: [Vec<f32>; 2],
}

impl<S> Apart<'_, S> {
    /// `is_pair`: whether there are two benches to compare.
    pub fn new(source: &mut S, is_pair: bool, allowed: bool) -> Apart<'_, S> {
        let compared = if is_pair { Compared::Going } else { Compared::Apart };
        Apart { source, allowed, turns: None, compared, heard: 0, differ: false, waiting: [vec![], vec![]] }
    }

    /// The same, for samples that come left and right in turn without a header.
    pub fn in_turns(self, is_raw: bool) -> Self {
        Apart { turns: is_raw.then(Turns::default), ..self }
    }

    /// What speaks against both recordings: nothing, or an error, or with `--anyway` a note.
    pub fn found(&self, name: &Path) -> Result<Option<String>> {
        match self.compared {
            Compared::Identical => {
                let why = "both benches' recordings are identical: one voice can't be both benches'";
                both_the_same(why).settled(name, self.allowed).map(Some)
            }
            Compared::OneInTurns => {
                let why = "the samples are of one channel, and --raw reads them as two: use --left - or --right -";
                both_the_same(why).settled(name, self.allowed).map(Some)
            }
            _ => Ok(None),
        }
    }

    /// Whether nothing more is handed on.
    fn is_refused(&self) -> bool {
        matches!(self.compared, Compared::Identical | Compared::OneInTurns) && !self.allowed
    }

    fn compare(&mut self, blocks: &[Block; 2]) {
        if self.compared != Compared::Going {
            return;
        }
        self.waiting.iter_mut().zip(blocks).for_each(|(waiting, block)| waiting.extend(block.samples()));
        let [left, right] = &mut self.waiting;
        let length = left.len().min(right.len());
        for (left, right) in left.drain(..length).zip(right.drain(..length)) {
            if self.heard == SECOND {
                break;
            }
            self.heard += u64::from(self.heard > 0 || left != 0.0 || right != 0.0);
            self.differ |= left != right;
            self.turns.iter_mut().for_each(|turns| turns.pair(left, right));
        }
        self.compared = self.concluded(blocks.iter().any(Block::is_empty));
    }

    /// What follows from the samples that were compared; `ended` if no more come of one of the benches.
    fn concluded(&self, ended: bool) -> Compared {
        let frames = self.heard / FRAME as u64;
        match &self.turns {
            None if self.differ => Compared::Apart,
            _ if !ended && self.heard < SECOND => Compared::Going,
            _ if !self.differ && frames >= 1 => Compared::Identical,
            Some(turns) if turns.are_one() && frames >= 10 => Compared::OneInTurns,
            _ => Compared::Apart,
        }
    }
}

impl<S: Source> Source for Apart<'_, S> {
    fn next(&mut self) -> [Block; 2] {
        if self.is_refused() {
            return Side::BOTH.map(|_| Block::silence(0));
        }
        let blocks = self.source.next();
        self.compare(&blocks);
        blocks
    }
}

#[cfg(test)]
mod tests {
    use super::*;
    use crate::reading::source::Memory;

    /// Whether two recordings are refused, and how many samples of the left one were handed on.
    fn refused(left: &[f32], right: &[f32], allowed: bool) -> (bool, usize) {
        let (mut memory, mut count) = (Memory([left, right]), 0);
        let mut apart = Apart::new(&mut memory, true, allowed);
        loop {
            let [left, right] = apart.next();
            count += left.len();
            if left.is_empty() && right.is_empty() {
                let found = apart.found(Path::new("x"));
                assert_eq!(found.is_err(), apart.is_refused());
                return (apart.compared == Compared::Identical, count);
            }
        }
    }

    #[test]
    fn one_voice_for_both() {
        let sound: Vec<f32> = (0..100_000).map(|i| (i * 7_919 % 2_003) as f32 - 1_000.0).collect();
        let quiet = [vec![0.0; 60_000], sound.clone()].concat();
        for both in [&sound, &quiet] {
            let (is_refused, count) = refused(both, both, false);
            assert!(is_refused && count < both.len());
            assert_eq!(refused(both, both, true), (true, both.len()));
        }
        // one sample of the first second differs, or a later one
        for (place, wanted) in [(47_999, false), (48_000, true)] {
            let mut other = sound.clone();
            other[place] += 1.0;
            assert_eq!(refused(&sound, &other, false).0, wanted, "{place}");
        }
        // less than a second, less than a frame, and none
        assert!(refused(&sound[..1_000], &sound[..1_000], false).0);
        assert!(refused(&sound[..1_000], &sound[..700], false).0);
        assert!(!refused(&sound[..400], &sound[..400], false).0);
        assert!(!refused(&sound, &[], false).0 && !refused(&[0.0; 1_000], &[0.0; 1_000], false).0);
    }

    /// Whether these samples, read as two channels in turn, are found to be one.
    fn one_in_turns(samples: &[f32]) -> bool {
        let channel = |first: usize| samples.iter().skip(first).step_by(2).copied().collect::<Vec<f32>>();
        let (left, right) = (channel(0), channel(1));
        let mut memory = Memory([&left, &right]);
        let mut apart = Apart::new(&mut memory, true, false).in_turns(true);
        while !apart.next().iter().all(Block::is_empty) {}
        apart.found(Path::new("x")).is_err()
    }

    #[test]
    fn one_channel_read_as_two() {
        use crate::cleaning::demo::{dictation, grinder, Rng};
        let voices = [0, 1].map(|bench| dictation(bench).noisy);
        for voice in &voices {
            assert!(one_in_turns(voice) && one_in_turns(&voice[..20_000]));
            assert!(one_in_turns(&[vec![0.0; 9_000], voice.clone()].concat()));
        }
        let grinder: Vec<f32> = grinder(96_000, 3, 50.0, 300.0).iter().map(|x| (900.0 * x) as f32).collect();
        assert!(one_in_turns(&grinder));
        // two voices; the same hum in both, each with its own noise; one bench alone
        let both =
            |left: &[f32], right: &[f32]| left.iter().zip(right).flat_map(|(l, r)| [*l, *r]).collect::<Vec<f32>>();
        let mut rng = Rng(9);
        let mut noise = |level: f64| (0..96_000).map(|_| (level * rng.number()) as f32).collect::<Vec<f32>>();
        let hum: Vec<f32> = (0..96_000).map(|i| 8_000.0 * (i as f32 / 152.8).sin()).collect();
        let with = |noise: Vec<f32>| hum.iter().zip(noise).map(|(a, b)| a + b).collect::<Vec<f32>>();
        let (a, b) = (with(noise(300.0)), with(noise(300.0)));
        assert!(!one_in_turns(&both(&voices[0], &voices[1])) && !one_in_turns(&both(&a, &b)));
        assert!(!one_in_turns(&both(&noise(900.0), &noise(900.0))));
        assert!(!one_in_turns(&both(&voices[0], &vec![0.0; 96_000])));
    }
}
