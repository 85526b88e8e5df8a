//! Any desk beside the desk by the text, or beside another: both are asked the same, and all that they answer and leave
//! is compared.

use crate::ask::{Ask, Caller, FRAME, PIECE, RESUME, SECOND_HALF, TAKE};
use crate::desk::{self, BENCH, BENCHES, COUNTS, EX, FINDER_MEM, LAG, RECORD, SHARE, STORE, WAIT, WAY, X};
use crate::rng::{Mood, Rng};
use crate::surface::Surface;
use crate::tally::{floats, kept, signed, By, Given, Tally, Value};
use crate::{dictation, logs};
use std::ops::Range;

/// The desk by the text.
pub const TEXT: Surface = Surface {
    open: desk::open,
    open_crate: desk::open_crate,
    call1: desk::call1,
    call2: desk::call2,
    call2_own: desk::call2_own,
    call3: desk::call3,
    call4: desk::call4,
    first_half: desk::first_half,
    second_half: desk::second_half,
    piece: dictation::piece,
    resume: dictation::resume,
    logs: logs::nearest,
    whole: None,
};

/// A desk's store and all its records.
#[derive(Clone)]
pub struct World {
    pub store: Vec<f32>,
    pub records: Vec<Vec<u32>>,
}

impl World {
    /// A store of any numbers, and every side closed.
    pub fn new(rng: &mut Rng) -> World {
        World { store: rng.list(STORE), records: vec![vec![0; RECORD]; BENCHES] }
    }

    pub fn share(&self, side: usize) -> &[f32] {
        &self.store[side * SHARE..][..SHARE]
    }
}

/// What the text, or whoever stands for it, answered, and its world before that.
pub struct Answered {
    pub number: u32,
    pub lent: Vec<Vec<f32>>,
    pub before: World,
}

/// The two desks; whether they must agree bit for bit.
pub struct Beside<'a> {
    desk: &'a Surface,
    reference: &'a Surface,
    exact: bool,
    ours: World,
    pub theirs: World,
}

impl Beside<'_> {
    pub fn new<'a>(rng: &mut Rng, desk: &'a Surface) -> Beside<'a> {
        let ours = World::new(rng);
        Beside { desk, reference: &TEXT, exact: false, theirs: ours.clone(), ours }
    }

    /// Bit for bit beside another desk. All damage is passing, that of the store too.
    pub fn exactly<'a>(rng: &mut Rng, desk: &'a Surface, reference: &'a Surface) -> Beside<'a> {
        Beside { reference, exact: true, ..Beside::new(rng, desk) }
    }

    /// Any side's turn, with some damage by its record: which one it was, what it asked, and what it was answered.
    pub fn turn(
        &mut self,
        tally: &mut Tally,
        rng: &mut Rng,
        callers: &mut [Caller; BENCHES],
        damage: fn(&mut Rng, usize, &[u32]) -> Damage,
    ) -> (usize, Ask, Answered) {
        let side = rng.below(BENCHES);
        let mut record = self.theirs.records[side].clone();
        let damage = damage(rng, side, &record);
        // now and then what is asked fits the record as it is damaged
        if rng.once_in(2) {
            damage.befall(&mut record);
        }
        let ask = callers[side].ask(rng, &record);
        let answered = self.put(tally, side, &ask, &damage);
        callers[side].answered(&ask, answered.number, &answered.lent);
        (side, ask, answered)
    }

    /// Both suffer the damage, are asked, and are compared; a passing damage is mended.
    pub fn put(&mut self, tally: &mut Tally, side: usize, ask: &Ask, damage: &Damage) -> Answered {
        let Beside { desk, reference, exact, ours, theirs } = self;
        let passing = damage.passing() || (*exact && !matches!(damage, Damage::None));
        let saved = passing.then(|| [ours.clone(), theirs.clone()]);
        for world in [&mut *ours, theirs] {
            damage.apply(world, side);
        }
        let (held, before) = (ours.clone(), theirs.clone());
        let words = ask.words();
        let given = given(&words, ask, &held);
        let given = Given::new(&given);
        let (number, lent) = ask.put(desk, &mut ours.records[side], &mut ours.store);
        let (want, wanted) = ask.put(reference, &mut theirs.records[side], &mut theirs.store);
        if want == 0 && !*exact {
            let written = ask.written(&before.records[side], &theirs.records[side]);
            // a maximum, which leaves the signs of zeros open, stands in call 3 alone
            let by = if matches!(ask.call, 3 | SECOND_HALF | RESUME | FRAME | TAKE) { floats } else { signed };
            let left = all(&number, parts(&lent, &written, [floats; 2]), ours, side, [floats; 3]);
            let right = all(&want, parts(&wanted, &written, [kept, by]), theirs, side, [signed, kept, floats]);
            tally.judge(what(ask), given, &left, &right);
        } else {
            let (lents, world) = if want == 0 { (&wanted, &*theirs) } else { (&ask.held, &held) };
            let left = all(&number, whole(&lent, floats), ours, side, [floats; 3]);
            let right = all(&want, whole(lents, kept), world, side, [kept; 3]);
            tally.judge(what(ask), given, &left, &right);
        }
        if let Some([a, b]) = saved {
            self.mend(side, ask, want, [a, b]);
        }
        Answered { number: want, lent: wanted, before }
    }

    /// A refused call is as if it had never been; an accepted one leaves the counts that the models of this side agree
    /// with.
    fn mend(&mut self, side: usize, ask: &Ask, want: u32, saved: [World; 2]) {
        for (world, saved) in [&mut self.ours, &mut self.theirs].into_iter().zip(saved) {
            if want != 0 {
                *world = saved;
            } else if ask.call != 0 {
                world.records[side][COUNTS].copy_from_slice(&saved.records[side][COUNTS]);
            }
        }
    }
}

fn what(ask: &Ask) -> &'static str {
    match ask.call {
        PIECE => "a piece",
        RESUME => "a resume",
        FRAME => "a frame in one call",
        TAKE => "a piece in one call",
        _ => "frame",
    }
}

/// All that a call is given.
fn given<'a>(words: &'a [u32], ask: &'a Ask, world: &'a World) -> Vec<(&'static str, Value<'a>)> {
    let mut given = ask.named(words);
    given.extend(ask.held.iter().map(|list| ("held", list.into())));
    given.extend(world.records.iter().map(|record| ("record", record.into())));
    given.push(("store", (&world.store).into()));
    given
}

/// The answer buffers, each in three parts: what lies in front of the places that are written, these, and what lies
/// behind.
fn parts<'a>(lent: &'a [Vec<f32>], written: &[Range<usize>], [beside, by]: [By; 2]) -> Vec<Value<'a>> {
    let each = lent.iter().zip(written);
    each.flat_map(|(list, at)| [beside(&list[..at.start]), by(&list[at.clone()]), beside(&list[at.end..])]).collect()
}

fn whole(lent: &[Vec<f32>], by: By) -> Vec<Value<'_>> {
    lent.iter().map(|list| by(list)).collect()
}

/// All that a call leaves: the number, the answer buffers, the records, the side's places of what its finder remembers
/// and of the samples that wait, and the store; and how these three are compared. (A refused call may have named a
/// side, or been lent a store, that has no such places.)
fn all<'a>(
    number: &'a u32,
    lent: Vec<Value<'a>>,
    world: &'a World,
    side: usize,
    [by_finder, by_waiting, by_store]: [By; 3],
) -> Vec<Value<'a>> {
    let mut all = vec![Value::from(number)];
    all.extend(lent);
    all.extend(world.records.iter().map(Value::from));
    let share = world.store.get(side * SHARE..).unwrap_or(&[]);
    all.push(by_finder(share.get(FINDER_MEM).unwrap_or(&[])));
    all.push(by_waiting(share.get(WAIT).unwrap_or(&[])));
    all.push(by_store(&world.store));
    all
}

/// What befalls a store or a record from outside before a call.
pub enum Damage {
    None,
    /// A record with other numbers at some places.
    Record(Vec<(usize, u32)>),
    /// The record of a closed side.
    Closed,
    /// A record of another length.
    RecordLength(usize),
    /// A store of another length.
    StoreLength(usize),
    /// Other numbers in the store, from a place on.
    Store(usize, Vec<f32>),
}

impl Damage {
    /// Now and then some.
    pub fn any(rng: &mut Rng, side: usize) -> Damage {
        let share = side * SHARE;
        let mood = if rng.once_in(4) { rng.mood() } else { rng.pick(&[Mood::Small, Mood::Unit, Mood::Whole]) };
        match rng.below(800) {
            0..=14 => Damage::Record(vec![(rng.below(RECORD), rng.pick(&BORDERS))]),
            15..=19 => Damage::RecordLength(rng.pick(&[0, 1, 7, RECORD - 1, RECORD + 1])),
            20..=24 => Damage::Closed,
            25..=30 => Damage::StoreLength(rng.pick(&[0, SHARE, 2 * SHARE, STORE - 1, STORE + 1, 2 * STORE])),
            31 => Damage::Store(share, rng.list_of(SHARE, mood)),
            32 | 33 => Damage::Store(share + X.start, rng.list_of(X.len(), mood)),
            // around the border of silence
            34 | 35 => {
                let mut ex = vec![0.0; 22];
                let border = 0.04f32;
                ex[rng.below(22)] = rng.pick(&[border, border.next_down(), f32::NAN, -1.0, 0.0]);
                Damage::Store(share + EX.start, ex)
            }
            36 => Damage::Store(share + LAG, vec![rng.float()]),
            // a lag that no call kept
            38..=41 => Damage::Store(share + LAG, vec![rng.pick(&LAGS)]),
            37 => Damage::Store(rng.below(STORE), vec![rng.of(mood)]),
            // a last period that no finder kept
            42..=45 => Damage::Store(share + FINDER_MEM.start, vec![rng.pick(&LAGS)]),
            46 => Damage::Store(share + FINDER_MEM.start, vec![rng.float(), rng.float()]),
            47..=58 => Damage::Record(vec![(WAY, rng.pick(&[2, 3, u32::MAX]))]),
            // a closed side has no way
            59..=62 => Damage::Record((0..RECORD).map(|at| (at, u32::from(at == WAY))).collect()),
            63..=74 => Damage::Record(vec![(BENCH, another_bench(rng, side))]),
            // a closed side's record belongs to no bench
            75..=77 => Damage::Record((0..BENCH).map(|at| (at, 0)).chain([(BENCH, side as u32 + 1)]).collect()),
            _ => Damage::None,
        }
    }

    /// Whose share or record it is, if anyone's. (A store of another length is refused, and mended.)
    pub fn befalls(&self, side: usize) -> Option<usize> {
        match self {
            Damage::None => None,
            Damage::Store(at, _) => Some(at / SHARE),
            _ => Some(side),
        }
    }

    /// Whether it is mended after the call: where that was refused, wholly, else the record's counts.
    fn passing(&self) -> bool {
        !matches!(self, Damage::None | Damage::Store(..))
    }

    fn apply(&self, world: &mut World, side: usize) {
        match self {
            Damage::StoreLength(len) => world.store.resize(*len, 1.0),
            Damage::Store(at, numbers) => world.store[*at..][..numbers.len()].copy_from_slice(numbers),
            _ => self.befall(&mut world.records[side]),
        }
    }

    /// What becomes of the side's record.
    pub fn befall(&self, record: &mut Vec<u32>) {
        match self {
            Damage::Record(places) => places.iter().for_each(|(at, number)| record[*at] = *number),
            Damage::Closed => record.fill(0),
            Damage::RecordLength(len) => record.resize(*len, 1),
            Damage::None | Damage::StoreLength(_) | Damage::Store(..) => {}
        }
    }
}

/// What the record of an open side must not say of its bench: any other bench's number, none, and numbers that no bench
/// has.
pub fn another_bench(rng: &mut Rng, side: usize) -> u32 {
    let other = (side + 1 + rng.below(BENCHES - 1)) % BENCHES;
    rng.pick(&[other as u32 + 1, other as u32 + 1, 0, BENCHES as u32 + 1, u32::MAX])
}

/// Lags at the borders of what a second half and a finder read, between whole numbers, and none.
const LAGS: [f32; 12] =
    [-0.0, -1.0, 0.999, 1.0, 59.5, 767.999, 768.0, 768.5, 1e9, f32::INFINITY, f32::NEG_INFINITY, f32::NAN];

/// Numbers at the borders of what a record may hold.
const BORDERS: [u32; 20] =
    [0, 1, 2, 3, 4, 5, 6, 7, 8, 126, 127, 128, 255, 256, 479, 480, 4_096, 4_097, 65_536, u32::MAX];
