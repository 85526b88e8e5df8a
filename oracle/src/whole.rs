//! A frame and a piece in one call, on sixteen interleaved benches and among all other calls: bit for bit beside the
//! halves and pieces that they are by definition, on a second store. And every two faults at once, of which the lower
//! number answers.

use crate::answers::Answers;
use crate::ask::{Ask, Caller, FRAME, TAKE};
use crate::beside::{Beside, Damage};
use crate::desk::{BENCHES, SHARE, WAIT, WAITING};
use crate::dictation::completed;
use crate::rng::Rng;
use crate::surface::{LENT, OURS};
use crate::tally::Tally;
use crate::{faults, pieces, Options};

pub fn compare(options: &Options) -> Tally {
    let mut tally = Tally::new("whole");
    let (frames, rng) = (options.calls(3_000), &mut Rng::new(options.seed));
    let met = compare_with(&mut tally, rng, frames, Beside::exactly(&mut Rng::new(options.seed), &OURS, &LENT));
    tally.note(&met.told());
    // the text has plain sums for its transforms, which take their time
    compare_with(&mut tally, rng, frames / 40, Beside::new(&mut Rng::new(options.seed), &OURS));
    faults::every_two(&mut tally, rng, &OURS);
    tally
}

/// How frames and takes were answered; how many frames the takes completed, and how many takes completed none.
#[derive(Default)]
struct Met {
    answers: Answers,
    in_takes: u64,
    without: u64,
}

impl Met {
    fn count(&mut self, ask: &Ask, number: u32, before: &[u32]) {
        self.answers.count(ask.call, number, before);
        if ask.call == TAKE && number == 0 {
            let frames = completed(before[WAITING] as usize, ask.given[0].len());
            self.in_takes += frames as u64;
            self.without += u64::from(frames == 0);
        }
    }

    fn frames(&self) -> u64 {
        self.answers.done(FRAME) + self.in_takes
    }

    fn told(&self) -> String {
        let Met { answers, in_takes, without } = self;
        let one = |call: u32, name: &str| {
            let [done, crates] = [answers.done(call), answers.of_crate(call)];
            format!("{done} {name}, {crates} in the crate's way; refused {}", answers.refused(call))
        };
        let pieces = format!("pieces of {in_takes} frames, {without} of none");
        format!("{}\n  {}", one(FRAME, "frames"), one(TAKE, &pieces))
    }
}

/// Two desks, until so many frames were completed in whole calls.
fn compare_with(tally: &mut Tally, rng: &mut Rng, frames: u64, mut both: Beside) -> Met {
    let mut callers: [_; BENCHES] = std::array::from_fn(|side| Caller::with_whole(side as u32, 10, 50));
    let mut met = Met::default();
    while met.frames() < frames {
        let (side, ask, answered) = both.turn(tally, rng, &mut callers, damage);
        if ask.call >= FRAME {
            met.count(&ask, answered.number, &answered.before.records[side]);
        }
    }
    met
}

/// As for pieces, and more records of closed sides; and the last sample that waits, or the place behind it, which
/// nobody looks at.
fn damage(rng: &mut Rng, side: usize, record: &[u32]) -> Damage {
    let waiting = record[WAITING] as usize;
    match rng.below(60) {
        0 if (1..WAIT.len()).contains(&waiting) => {
            let place = rng.pick(&[waiting - 1, waiting]);
            Damage::Store(side * SHARE + WAIT.start + place, vec![rng.float()])
        }
        1 => Damage::Closed,
        _ => pieces::damage(rng, side, record),
    }
}

#[cfg(test)]
mod tests {
    use super::*;
    use crate::desk::broken;
    use crate::lent::{frame, take};
    use crate::surface::{Surface, Whole};

    /// What is counted where these whole calls stand beside those that are made of the others.
    fn beside(whole: Option<Whole>, frames: u64) -> (Met, Tally) {
        let desk = Surface { whole, ..OURS };
        let mut tally = Tally::new("whole");
        let met = compare_with(&mut tally, &mut Rng::new(3), frames, Beside::exactly(&mut Rng::new(4), &desk, &LENT));
        faults::every_two(&mut tally, &mut Rng::new(5), &desk);
        (met, tally)
    }

    #[test]
    fn every_refusal_is_met() {
        let (met, tally) = beside(None, 1_000);
        for call in [FRAME, TAKE] {
            assert_eq!(met.answers.numbers(call), [0, 1, 2, 3, 4, 5, 7, 8, 9], "{}", met.told());
            assert!((1..met.answers.done(call)).contains(&met.answers.of_crate(call)), "{}", met.told());
        }
        assert!(met.without > 0 && met.in_takes > met.answers.done(TAKE), "{}", met.told());
        assert_eq!(tally.differences, 0, "{}", tally.report());
    }

    const RIGHT: Whole = Whole {
        frame: |r, s, side, xs, model, out, answer| frame(&LENT, r, s, side, xs, model, out, answer),
        take: |r, s, side, xs, model, out, answers| take(&LENT, r, s, side, xs, model, out, answers),
    };

    /// With the machine's logarithms.
    const MACHINES: Surface = Surface {
        logs: |logs, sums| {
            logs.iter_mut().zip(sums).for_each(|(log, x)| *log = x.log10());
            0
        },
        ..LENT
    };

    fn frames(record: &[u32], piece: &[f32]) -> usize {
        record.get(WAITING).map_or(0, |waiting| completed(*waiting as usize, piece.len()))
    }

    /// Whole calls that are wrong in one thing each.
    const WRONG: [(&str, Whole); 6] = [
        (
            "a frame with the machine's logarithms",
            Whole { frame: |r, s, side, xs, m, out, answer| frame(&MACHINES, r, s, side, xs, m, out, answer), ..RIGHT },
        ),
        (
            "a piece with the machine's logarithms",
            Whole { take: |r, s, side, xs, m, out, answers| take(&MACHINES, r, s, side, xs, m, out, answers), ..RIGHT },
        ),
        (
            "9 in front of 7 and 8",
            Whole {
                frame: |r, s, side, xs, m, out, answer| match frame(&LENT, r, s, side, xs, m, out, answer) {
                    number if matches!(number % 256, 7 | 8) && broken(xs) => 9,
                    number => number,
                },
                ..RIGHT
            },
        ),
        (
            "a model that nobody looks at where no frame is completed",
            Whole {
                take: |r, s, side, xs, m, out, answers| match take(&LENT, r, s, side, xs, m, out, answers) {
                    number if number % 256 == 7 && frames(r, xs) == 0 => 0,
                    number => number,
                },
                ..RIGHT
            },
        ),
        (
            "a refusal that changes the last bit of a number of the share",
            Whole {
                frame: |r, s, side, xs, m, out, answer| {
                    let number = frame(&LENT, r, s, side, xs, m, out, answer);
                    if number == 8 {
                        let last = &mut s[side as usize * SHARE + WAIT.end];
                        *last = f32::from_bits(last.to_bits() ^ 1);
                    }
                    number
                },
                ..RIGHT
            },
        ),
        (
            "an answer behind those of the frames",
            Whole {
                take: |r, s, side, xs, m, out, answers| {
                    let frames = frames(r, xs);
                    let number = take(&LENT, r, s, side, xs, m, out, answers);
                    if let (0, Some(behind)) = (number, answers.get_mut(3 * frames)) {
                        *behind = 0.0;
                    }
                    number
                },
                ..RIGHT
            },
        ),
    ];

    #[test]
    fn wrong_whole_calls_are_noticed() {
        assert_eq!(beside(Some(RIGHT), 200).1.differences, 0);
        for (what, wrong) in WRONG {
            assert!(beside(Some(wrong), 200).1.differences > 0, "{what} is not noticed");
        }
    }
}
