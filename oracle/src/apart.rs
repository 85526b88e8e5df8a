//! The benches apart: two whole runs through the static library. One bench makes the same calls in both; the calls of
//! the others, their moments, the store's first contents and what the one's answer buffers held differ. What the one
//! receives is compared bit for bit. Every bench is the one in its turn.

use crate::answers::Answers;
use crate::ask::{Ask, Caller, FRAME, TAKE};
use crate::desk::{BENCHES, RECORD, STORE};
use crate::rng::{Mood, Rng};
use crate::surface::OURS;
use crate::tally::{Given, Tally};
use crate::Options;
use std::ops::Range;

/// So many of 80 calls begin a piece where call 1 is due: each comes to some fifteen calls, with all their transforms.
const PIECES: usize = 2;
/// And so many are whole.
const WHOLE: usize = 2;

/// What a run has of its own.
struct Run {
    rng: Rng,
    store: Vec<f32>,
    records: Vec<Vec<u32>>,
    callers: [Caller; BENCHES],
}

impl Run {
    fn new(seed: u64) -> Run {
        let mut rng = Rng::new(seed);
        let store = rng.list_of(STORE, Mood::Any);
        let callers = std::array::from_fn(|bench| Caller::with_whole(bench as u32, PIECES, WHOLE));
        Run { rng, store, records: vec![vec![0; RECORD]; BENCHES], callers }
    }

    /// Any number of calls of any other benches.
    fn others(&mut self, one: usize) {
        for _ in 0..self.rng.pick(&[0, 0, 0, 1, 1, 3]) {
            let bench = (one + 1 + self.rng.below(BENCHES - 1)) % BENCHES;
            let (caller, record) = (&mut self.callers[bench], &mut self.records[bench]);
            let ask = caller.ask(&mut self.rng, record);
            let (number, lent) = ask.put(&OURS, record, &mut self.store);
            caller.answered(&ask, number, &lent);
        }
    }

    /// A call of the one, whose answer buffers hold this run's own numbers beforehand: what it is answered, and of that
    /// the bits that are the one's to receive.
    fn one(&mut self, one: usize, ask: &Ask) -> (u32, Vec<Vec<f32>>, Vec<u32>) {
        let held: Vec<_> = ask.held.iter().map(|held| self.rng.list_of(held.len(), Mood::Any)).collect();
        let (mut lent, before) = (held.clone(), self.records[one].clone());
        let number = ask.put_lending(&mut lent, &OURS, &mut self.records[one], &mut self.store);
        let written = match number {
            0 => ask.written(&before, &self.records[one]),
            _ => vec![0..0; lent.len()],
        };
        let each = lent.iter().zip(&held).zip(written);
        let bits = each.flat_map(|((lent, held), written)| received(lent, held, written)).collect();
        (number, lent, bits)
    }
}

/// What was written; and whether the rest, which is not the one's to receive, is as it was held.
fn received(lent: &[f32], held: &[f32], written: Range<usize>) -> Vec<u32> {
    let mut bits: Vec<u32> = lent[written.clone()].iter().map(|x| x.to_bits()).collect();
    let same =
        |places: Range<usize>| lent[places.clone()].iter().zip(&held[places]).all(|(a, b)| a.to_bits() == b.to_bits());
    bits.push(u32::from(same(0..written.start) && same(written.end..lent.len())));
    bits
}

/// So many calls of one bench.
fn compare_one(tally: &mut Tally, answers: &mut Answers, one: usize, seed: u64, calls: u64) {
    let mut caller = Caller::with_whole(one as u32, PIECES, WHOLE);
    let rng = &mut Rng::new(seed);
    let mut runs = [Run::new(seed + 1), Run::new(seed + 2)];
    for _ in 0..calls {
        let ask = caller.ask(rng, &runs[0].records[one]);
        let [a, b] = &mut runs;
        a.others(one);
        b.others(one);
        // lists of its own for each run, so that what one changes is not the other's
        let (again, words) = (ask.clone(), ask.words());
        let given = [ask.named(&words), again.named(&words)].concat();
        let given = Given::new(&given);
        let ((number, lent, got), (other, _, gots)) = (a.one(one, &ask), b.one(one, &again));
        tally.judge(
            "apart: what the one bench receives in one run, and in the other",
            given,
            &[(&number).into(), (&got).into(), (&a.records[one]).into()],
            &[(&other).into(), (&gots).into(), (&b.records[one]).into()],
        );
        caller.answered(&ask, number, &lent);
        answers.count(ask.call, number, &runs[0].records[one]);
    }
}

pub fn compare(options: &Options) -> Tally {
    let mut tally = Tally::new("apart");
    let (calls, mut answers) = (options.calls(100_000), Answers::default());
    for one in 0..BENCHES {
        let turn = one as u64;
        let calls = calls * (turn + 1) / BENCHES as u64 - calls * turn / BENCHES as u64;
        compare_one(&mut tally, &mut answers, one, options.seed + 3 * turn, calls);
    }
    let whole = |call: u32| format!("{}, {} in the crate's way", answers.done(call), answers.of_crate(call));
    tally.note(&format!("the one's frames in one call {}; its pieces in one call {}", whole(FRAME), whole(TAKE)));
    tally
}
