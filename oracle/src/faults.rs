//! Whole calls with every fault at its limit, and with every two at once: the lower number answers, and nothing
//! changes.

use crate::ask::{Ask, FRAME, TAKE};
use crate::desk::{
    self, Way, BENCH, COUNTS, DUE, FINDER_MEM, INDEX, PROGRESS, RECORD, STORE, UNFINISHED, WAIT, WAITING, WAY,
};
use crate::dictation::{completed, LONGEST};
use crate::models::{self, Shape};
use crate::rng::{Mood, Rng};
use crate::surface::{Surface, LENT};
use crate::tally::{floats, kept, By, Given, Tally, Value};

pub const SIDE: u32 = 15;
pub const SHAPE: Shape = [2, 3, 4, 5];

/// A call, and what it meets.
#[derive(Clone)]
struct Case {
    ask: Ask,
    /// The frames that it completes.
    frames: usize,
    record: Vec<u32>,
    store: Vec<f32>,
}

impl Case {
    fn given(&mut self) -> &mut Vec<f32> {
        &mut self.ask.given[0]
    }

    /// The first place behind the samples that wait, and those in front of it.
    fn waits(&mut self) -> (&mut f32, &mut [f32]) {
        let waiting = self.record[WAITING] as usize;
        let share = &mut desk::share_of(&mut self.store, SIDE)[WAIT.start..];
        let (wait, behind) = share.split_at_mut(waiting);
        (&mut behind[0], wait)
    }

    /// What its finder remembers.
    fn found(&mut self) -> &mut [f32] {
        &mut desk::share_of(&mut self.store, SIDE)[FINDER_MEM]
    }

    /// The same bench, asked for so many samples to be taken; every buffer is as short as may be.
    fn asking(mut self, rng: &mut Rng, call: u32, samples: usize) -> Case {
        self.frames = completed(self.record[WAITING] as usize, samples);
        self.ask.call = call;
        self.ask.given = vec![rng.list_of(samples, Mood::Small)];
        self.ask.held = [480, 3].map(|each| rng.list_of(each * self.frames, Mood::Any)).to_vec();
        self
    }
}

/// A change to a case, and the refusal that it brings: 0 for none.
pub type Fault<C> = (u32, fn(&mut C));

/// A record of the longest piece, of which one sample is in a frame.
pub fn unfinished(record: &mut [u32]) {
    for (at, number) in [(DUE, 3), (WAITING, 0), (UNFINISHED, LONGEST as u32), (PROGRESS, 1)] {
        record[at] = number;
    }
}

/// A closed side's record that notes a way.
pub fn closed_with_a_way(record: &mut [u32]) {
    record.fill(0);
    record[WAY] = 1;
}

/// A closed side's record that still says whose it is.
pub fn closed_but_for_its_bench(record: &mut [u32]) {
    record.fill(0);
    record[BENCH] = SIDE + 1;
}

/// What any whole call is refused by.
const ANY: &[Fault<Case>] = &[
    (0, |c| c.given()[0] = -32_768.0),
    (0, |c| *c.given().last_mut().unwrap() = 32_767.0),
    (0, |c| c.found().fill(f32::NAN)),
    (0, |c| c.found().fill(f32::INFINITY)),
    (1, |c| c.ask.side = 16),
    (1, |c| c.ask.side = u32::MAX),
    (2, |c| c.store.truncate(STORE - 1)),
    (2, |c| c.store.push(0.0)),
    (2, |c| c.record.truncate(RECORD - 1)),
    (2, |c| c.record.push(0)),
    (2, |c| c.record[DUE] = 5),
    (2, |c| c.record[INDEX] = 8),
    (2, |c| (c.record[DUE], c.record[COUNTS.start]) = (1, 0)),
    (2, |c| c.record[COUNTS.end - 1] = 128),
    (2, |c| c.record[WAITING] = 480),
    (2, |c| (c.record[DUE], c.record[UNFINISHED], c.record[PROGRESS]) = (1, 1, 1)),
    (2, |c| (c.record[UNFINISHED], c.record[PROGRESS]) = (0, 1)),
    (2, |c| c.record[UNFINISHED] = LONGEST as u32 + 1),
    (2, |c| c.record[WAY] = 2),
    (2, |c| c.record[WAY] = 3),
    (2, |c| c.record[WAY] = u32::MAX),
    (2, |c| closed_with_a_way(&mut c.record)),
    (2, |c| (c.record[DUE], c.record[BENCH]) = (1, 0)),
    (2, |c| c.record[BENCH] = SIDE),
    (2, |c| c.record[BENCH] = 17),
    (2, |c| c.record[BENCH] = u32::MAX),
    (2, |c| closed_but_for_its_bench(&mut c.record)),
    (2, |c| (c.record[DUE], c.ask.side) = (1, 0)),
    (2, |c| (c.record[DUE], c.ask.side) = (1, SIDE - 1)),
    (3, |c| c.record.fill(0)),
    (4, |c| (c.record[DUE], c.record[WAITING]) = (2, 0)),
    (4, |c| (c.record[DUE], c.record[WAITING]) = (3, 0)),
    (4, |c| unfinished(&mut c.record)),
    (5, |c| c.given().clear()),
    (7, |c| _ = c.ask.model.pop()),
    (7, |c| c.ask.model.push(0)),
    (7, |c| c.ask.model.clear()),
    (7, |c| c.ask.model[0] = 41),
    (8, |c| c.ask.model = models::of_shape(&mut Rng::new(1), [2, 4, 4, 5])),
    (8, |c| c.ask.model = models::of_shape(&mut Rng::new(1), [2, 3, 3, 5])),
    (8, |c| c.ask.model = models::of_shape(&mut Rng::new(1), [2, 3, 4, 6])),
    (9, |c| c.given()[0] = f32::from_bits(0xC700_0001)),
    (9, |c| *c.given().last_mut().unwrap() = f32::from_bits(0x46FF_FE01)),
    (9, |c| *c.given().last_mut().unwrap() = f32::NAN),
];

const OF_FRAMES: &[Fault<Case>] = &[
    (4, |c| c.record[WAITING] = 1),
    (4, |c| c.record[WAITING] = 479),
    (5, |c| _ = c.given().pop()),
    (5, |c| c.given().push(0.0)),
    (5, |c| c.ask.held[0].push(0.0)),
    (5, |c| c.ask.held[1].push(0.0)),
];

const OF_TAKES: &[Fault<Case>] =
    &[(0, |c| c.ask.held[0].push(0.5)), (0, |c| c.ask.held[1].push(0.5)), (5, |c| c.given().resize(LONGEST + 1, 0.0))];

/// Where a frame is completed.
const COMPLETING: &[Fault<Case>] =
    &[(5, |c| c.ask.held[0].truncate(480 * c.frames - 1)), (5, |c| c.ask.held[1].truncate(3 * c.frames - 1))];

/// Where samples wait.
const OF_WAITING: &[Fault<Case>] = &[
    (0, |c| *c.waits().0 = f32::NAN),
    (9, |c| *c.waits().1.last_mut().unwrap() = f32::INFINITY),
    (9, |c| c.waits().1[0] = f32::NAN),
];

/// A bench of a way that has done two frames, and where so many samples wait.
fn bench(rng: &mut Rng, way: Way, waiting: usize) -> Case {
    let (mut record, mut store, model) = (vec![0; RECORD], rng.list(STORE), models::of_shape(rng, SHAPE));
    assert_eq!(LENT.opening(way)(&mut record, &mut store, SIDE, &model), 0);
    let ask = Ask { side: SIDE, way, model, ..Ask::default() };
    let mut case = Case { ask, frames: 0, record, store }.asking(rng, TAKE, 960 + waiting);
    let (number, _) = case.ask.put(&LENT, &mut case.record, &mut case.store);
    assert_eq!((number, case.record[WAITING] as usize), (0, waiting));
    case
}

/// The lists of faults that a case may have.
fn faults(case: &Case) -> Vec<Fault<Case>> {
    let mut faults = ANY.to_vec();
    faults.extend(if case.ask.call == FRAME { OF_FRAMES } else { OF_TAKES });
    if case.frames > 0 {
        faults.extend(COMPLETING);
    }
    if case.record[WAITING] > 0 {
        faults.extend(OF_WAITING);
    }
    faults
}

/// A case with these faults: those that bring no refusal first, and then the lower ones over the higher; and the lowest
/// number.
pub fn befallen<C: Clone>(case: &C, mut faults: Vec<Fault<C>>) -> (C, u32) {
    faults.sort_by_key(|(number, _)| std::cmp::Reverse(number.wrapping_sub(1)));
    let mut case = case.clone();
    faults.iter().for_each(|(_, change)| change(&mut case));
    let lowest = faults.iter().map(|(number, _)| *number).filter(|number| *number > 0).min();
    (case, lowest.unwrap_or(0))
}

/// All that a call leaves.
fn all<'a>(numbers: &'a [u32; 2], case: &'a Case, lent: &'a [Vec<f32>], by: By) -> Vec<Value<'a>> {
    vec![numbers.into(), (&case.record).into(), by(&case.store), by(&lent[0]), by(&lent[1])]
}

/// A desk beside the reference, and the reference's number beside the lowest of the faults.
fn judge(tally: &mut Tally, desk: &Surface, case: &Case, lowest: u32) {
    let ask = &case.ask;
    let words = ask.words();
    let mut given = ask.named(&words);
    given.extend([("record", Value::from(&case.record)), ("store", (&case.store).into())]);
    let given = Given::new(&given);
    let (mut ours, mut wanted) = (case.clone(), case.clone());
    let (number, lent) = ask.put(desk, &mut ours.record, &mut ours.store);
    let (want, lents) = ask.put(&LENT, &mut wanted.record, &mut wanted.store);
    // of refusal 7, not the model's own number and layer
    let (told, expected) = ([number, want % 256], [want, lowest]);
    let (left, right) = (all(&told, &ours, &lent, floats), all(&expected, &wanted, &lents, kept));
    tally.judge("a whole call with two faults", given, &left, &right);
}

/// Each case of either way without a fault, with each, and with every two of different numbers.
pub fn every_two(tally: &mut Tally, rng: &mut Rng, desk: &Surface) {
    let calls = [(FRAME, 0, 480), (TAKE, 0, 480), (TAKE, 100, 5), (TAKE, 100, 1_000), (TAKE, 479, LONGEST)];
    let cases = Way::BOTH.into_iter().flat_map(|way| calls.map(|call| (way, call)));
    for (way, (call, waiting, samples)) in cases {
        let case = bench(rng, way, waiting).asking(rng, call, samples);
        judge(tally, desk, &case, 0);
        let faults = faults(&case);
        for (i, one) in faults.iter().enumerate() {
            let others = faults[..i].iter().filter(|other| other.0 != one.0).map(|other| vec![*one, *other]);
            for both in std::iter::once(vec![*one]).chain(others) {
                let (case, lowest) = befallen(&case, both);
                judge(tally, desk, &case, lowest);
            }
        }
    }
}
