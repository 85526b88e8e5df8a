//! features.rs and denoise.rs: whole frames in four calls, on the sides of one store.

use crate::answers::Answers;
use crate::ask::{Caller, FIRST_HALF, SECOND_HALF};
use crate::beside::{Beside, Damage};
use crate::desk::{BENCHES, INDEX};
use crate::rng::Rng;
use crate::shadow::Shadow;
use crate::surface::{Surface, OURS};
use crate::tally::Tally;
use crate::Options;

pub fn compare(options: &Options) -> Tally {
    compare_with(options, &OURS)
}

/// Any desk against the desk by the text.
pub fn compare_with(options: &Options, desk: &Surface) -> Tally {
    let mut tally = Tally::new("frame");
    let rng = &mut Rng::new(options.seed);
    let mut both = Beside::new(rng, desk);
    let mut callers: [_; BENCHES] = std::array::from_fn(|side| Caller::new(side as u32));
    let mut shadows: [_; BENCHES] = std::array::from_fn(|_| Shadow::default());
    let (calls, mut answers) = (options.calls(24_000), Answers::default());
    // a call in eight, at least, ends a frame
    while tally.compared < calls || shadows.iter().map(|s| s.frames).sum::<u64>() < calls / 8 {
        let side = rng.below(BENCHES);
        let ask = callers[side].ask(rng, &both.theirs.records[side]);
        let damage = Damage::any(rng, side);
        let answered = both.put(&mut tally, side, &ask, &damage);
        callers[side].answered(&ask, answered.number, &answered.lent);
        answers.count(ask.call, answered.number, &both.theirs.records[side]);
        if let Some(touched) = damage.befalls(side) {
            shadows[touched].touched();
        }
        if answered.number == 0 && ask.call >= FIRST_HALF {
            // a half's two calls are not seen one by one, nor those of a piece
            shadows[side].touched();
        } else if answered.number == 0 {
            let [was, is] = [&answered.before, &both.theirs].map(|w| (w.share(side), w.records[side][INDEX]));
            if let Some(what) = shadows[side].follow(&ask, &answered.lent, was, is) {
                let what = format!("the text's process_frame differs from the four calls in {what}\n");
                tally.differs(|text| text.push_str(&what));
            }
        }
    }
    let half = |call: u32| format!("{}, {} in the crate's way", answers.done(call), answers.of_crate(call));
    tally.note(&format!("first halves {}; second halves {}", half(FIRST_HALF), half(SECOND_HALF)));
    tally
}

#[cfg(test)]
mod tests {
    use super::*;
    use crate::beside::TEXT;
    use crate::desk::{self, BENCH, FINDER_MEM, RECORD, SHARE, WAY};

    /// The desk by the text against itself: what remains is the comparison of its frames with `process_frame`.
    #[test]
    fn four_calls_are_a_frame() {
        let options = Options { calls: Some(8_000), seed: 5, ..Options::default() };
        let tally = compare_with(&options, &TEXT);
        assert_eq!(tally.differences, 0, "{}", tally.report());
    }

    /// Desks that take a way or a bench wrongly, each in one thing.
    const WRONG: [(&str, Surface); 5] = [
        ("an opening that forgets the way", Surface { open_crate: desk::open, ..TEXT }),
        (
            "a way 2 that is taken for 1",
            Surface {
                call1: |r, s, side, xs, window| {
                    if r.get(WAY) == Some(&2) {
                        r[WAY] = 1;
                    }
                    desk::call1(r, s, side, xs, window)
                },
                ..TEXT
            },
        ),
        (
            "a closed side that has a way",
            Surface {
                call1: |r, s, side, xs, window| match desk::call1(r, s, side, xs, window) {
                    2 if r.len() == RECORD && r[..WAY] == [0; WAY] => 3,
                    number => number,
                },
                ..TEXT
            },
        ),
        (
            "a record of another bench that is taken",
            Surface {
                call1: |r, s, side, xs, window| {
                    let saved = r.to_vec();
                    if let Some(bench @ 1..) = r.get_mut(BENCH) {
                        *bench = side.wrapping_add(1);
                    }
                    let number = desk::call1(r, s, side, xs, window);
                    if number > 0 {
                        r.copy_from_slice(&saved);
                    }
                    number
                },
                ..TEXT
            },
        ),
        (
            "a finder that remembers nothing",
            Surface {
                first_half: |r, s, side, xs, sums| {
                    let saved = s.to_vec();
                    if r.get(WAY) == Some(&1) {
                        let share = s.get_mut(side as usize * SHARE..).unwrap_or_default();
                        share.get_mut(FINDER_MEM).unwrap_or_default().fill(0.0);
                    }
                    let number = desk::first_half(r, s, side, xs, sums);
                    if number > 0 {
                        s.copy_from_slice(&saved);
                    }
                    number
                },
                ..TEXT
            },
        ),
    ];

    #[test]
    fn wrong_ways_and_benches_are_noticed() {
        for (what, wrong) in WRONG {
            let options = Options { calls: Some(4_000), seed: 6, ..Options::default() };
            assert!(compare_with(&options, &wrong).differences > 0, "{what} is not noticed");
        }
    }
}
