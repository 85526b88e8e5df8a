//! Request 12: dictation in pieces of any lengths on sixteen interleaved benches, against the text's; and the same
//! samples cut in two ways.

use crate::answers::Answers;
use crate::ask::{Caller, PIECE, RESUME};
use crate::beside::{Beside, Damage};
use crate::desk::{BENCHES, DUE, PROGRESS, SHARE, UNFINISHED, WAIT, WAITING};
use crate::rng::Rng;
use crate::surface::{Surface, OURS};
use crate::tally::Tally;
use crate::{cutting, Options};

pub fn compare(options: &Options) -> Tally {
    let mut tally = Tally::new("pieces");
    let frames = options.calls(3_000);
    let met = compare_with(&mut tally, options.seed, frames, &OURS);
    tally.note(&met.told());
    for cut in 0..frames / 10 {
        cutting::in_two_ways(&mut tally, options.seed + cut, &OURS);
    }
    tally
}

/// How pieces and resumes were answered; and how many of these, pieces first, paused.
#[derive(Default)]
struct Met {
    answers: Answers,
    paused: [u64; 2],
}

impl Met {
    fn count(&mut self, call: u32, number: u32, record: &[u32]) {
        self.answers.count(call, number, record);
        self.paused[(call - PIECE) as usize] += u64::from(number == 0 && record[UNFINISHED] > 0);
    }

    fn told(&self) -> String {
        let Met { answers, paused } = self;
        let one = |call: u32, name: &str, paused: u64| {
            let [done, crates] = [answers.done(call), answers.of_crate(call)];
            format!("{done} {name}, {crates} in the crate's way, {paused} paused; refused {}", answers.refused(call))
        };
        format!("{}\n  {}", one(PIECE, "pieces", paused[0]), one(RESUME, "resumes, a frame each", paused[1]))
    }
}

/// Any desk against the desk by the text, until so many frames were completed in pieces.
fn compare_with(tally: &mut Tally, seed: u64, frames: u64, desk: &Surface) -> Met {
    let rng = &mut Rng::new(seed);
    let mut both = Beside::new(rng, desk);
    let mut callers: [_; BENCHES] = std::array::from_fn(|side| Caller::in_pieces(side as u32, 45));
    let mut met = Met::default();
    while met.answers.done(RESUME) < frames {
        let (side, ask, answered) = both.turn(tally, rng, &mut callers, damage);
        if ask.call >= PIECE {
            met.count(ask.call, answered.number, &both.theirs.records[side]);
        }
    }
    met
}

/// Mostly none. Else a record with the new numbers at their limits, one at a time, or several that may belong together;
/// samples that wait changed from outside; or what befalls any call.
pub fn damage(rng: &mut Rng, side: usize, record: &[u32]) -> Damage {
    let piece = rng.pick(&[1, 479, 480, 481, 1_000, 4_095, 4_096, 4_097]);
    let noted = record[UNFINISHED];
    let progress =
        |rng: &mut Rng, piece: u32| rng.pick(&[0, 1, 480, piece / 2, piece, piece.wrapping_add(1), u32::MAX]);
    let waiting = rng.pick(&[1, 478, 479, 480, u32::MAX]);
    let due = rng.below(6) as u32;
    match rng.below(200) {
        0..=2 => Damage::Record(vec![(WAITING, waiting)]),
        3..=5 => Damage::Record(vec![(UNFINISHED, piece)]),
        6..=9 => Damage::Record(vec![(PROGRESS, progress(rng, noted))]),
        10..=12 => Damage::Record(vec![(DUE, due)]),
        13..=14 => Damage::Record(vec![(DUE, rng.pick(&[1, due])), (WAITING, waiting), (UNFINISHED, 0), (PROGRESS, 0)]),
        15..=18 => {
            let of_piece = [(UNFINISHED, piece), (PROGRESS, progress(rng, piece))];
            Damage::Record([&[(DUE, rng.pick(&[3, 3, due])), (WAITING, 0)][..], &of_piece].concat())
        }
        19..=22 => Damage::Store(side * SHARE + WAIT.start + rng.below(WAIT.len()), vec![rng.float()]),
        23..=26 => Damage::Store(side * SHARE + WAIT.start + rng.below(10), vec![rng.float()]),
        27 | 28 => Damage::Closed,
        29..=100 => Damage::any(rng, side),
        _ => Damage::None,
    }
}

#[cfg(test)]
mod tests {
    use super::*;
    use crate::beside::TEXT;

    /// The desk by the text against itself: every refusal is met, and pieces that pause and that do not.
    #[test]
    fn every_refusal_is_met() {
        let mut tally = Tally::new("pieces");
        let met = compare_with(&mut tally, 3, 600, &TEXT);
        assert_eq!(met.answers.numbers(PIECE), [0, 1, 2, 3, 4, 5, 9], "{}", met.told());
        assert_eq!(met.answers.numbers(RESUME), [0, 1, 2, 3, 4, 5, 7, 8, 9], "{}", met.told());
        for (call, paused) in [PIECE, RESUME].into_iter().zip(met.paused) {
            let some = 1..met.answers.done(call);
            assert!(some.contains(&paused) && some.contains(&met.answers.of_crate(call)), "{}", met.told());
        }
        assert_eq!(tally.differences, 0, "{}", tally.report());
    }
}
