//! Openings and calls as a caller makes them: mostly the one that is due with arguments that fit, now and then another.

use crate::desk::{Way, DUE, PROGRESS, UNFINISHED, WAITING};
use crate::dictation::{completed, under_way, LONGEST};
use crate::finder;
use crate::lent;
use crate::models::{self, Shape};
use crate::rng::{Mood, Rng};
use crate::surface::Surface;
use crate::tally::Value;
use std::ops::Range;

/// Calls 1 and 2, and calls 3 and 4, in one.
pub const FIRST_HALF: u32 = 5;
pub const SECOND_HALF: u32 = 6;
/// A piece of dictation, and what takes it on from a pause.
pub const PIECE: u32 = 7;
pub const RESUME: u32 = 8;
/// A frame in one call, and a piece.
pub const FRAME: u32 = 9;
pub const TAKE: u32 = 10;

/// One call: its arguments, and what its answer buffers hold before it. Call 0 is an opening.
#[derive(Clone, Default)]
pub struct Ask {
    pub call: u32,
    pub side: u32,
    /// Samples; the first spectrum; the second spectrum and the logarithms; the inverse. Of the halves, samples;
    /// logarithms. A piece; the same and logarithms. Samples; a piece.
    pub given: Vec<Vec<f32>>,
    /// Call 2's; none for its sister, which finds its own.
    pub lag: Option<u32>,
    /// That of an opening.
    pub way: Way,
    pub model: Vec<u8>,
    pub held: Vec<Vec<f32>>,
}

impl Ask {
    /// The numbers of a call: its own, the side, an opening's way, and call 2's lag.
    pub fn words(&self) -> Vec<u32> {
        [self.call, self.side, self.way as u32].into_iter().chain(self.lag).collect()
    }

    /// What a call is given to read, by name; `words` are its numbers.
    pub fn named<'a>(&'a self, words: &'a [u32]) -> Vec<(&'static str, Value<'a>)> {
        let mut named = vec![("call, side, way, lag", words.into()), ("model", (&self.model).into())];
        named.extend(self.given.iter().map(|list| ("given", list.into())));
        named
    }

    /// Asks a desk. The number returned, and what the answer buffers hold afterwards.
    pub fn put(&self, desk: &Surface, record: &mut [u32], store: &mut [f32]) -> (u32, Vec<Vec<f32>>) {
        let mut lent = self.held.clone();
        let number = self.put_lending(&mut lent, desk, record, store);
        (number, lent)
    }

    /// The same with answer buffers that hold something else beforehand.
    pub fn put_lending(&self, lent: &mut [Vec<f32>], desk: &Surface, record: &mut [u32], store: &mut [f32]) -> u32 {
        match (self.call, &self.given[..], lent) {
            (0, [], []) => desk.opening(self.way)(record, store, self.side, &self.model),
            (1, [samples], [window]) => (desk.call1)(record, store, self.side, samples, window),
            (2, [spectrum], [window, sums]) => match self.lag {
                Some(lag) => (desk.call2)(record, store, self.side, spectrum, lag, window, sums),
                None => (desk.call2_own)(record, store, self.side, spectrum, window, sums),
            },
            (3, [spectrum, logs], [out, answer]) => {
                (desk.call3)(record, store, self.side, spectrum, logs, &self.model, out, answer)
            }
            (4, [inverse], [out]) => (desk.call4)(record, store, self.side, inverse, out),
            (FIRST_HALF, [samples], [sums]) => (desk.first_half)(record, store, self.side, samples, sums),
            (SECOND_HALF, [logs], [out, answer]) => {
                (desk.second_half)(record, store, self.side, logs, &self.model, out, answer)
            }
            (PIECE, [piece], [out, sums]) => (desk.piece)(record, store, self.side, piece, out, sums),
            (RESUME, [piece, logs], [out, sums, answer]) => {
                (desk.resume)(record, store, self.side, piece, logs, &self.model, out, sums, answer)
            }
            (FRAME, [samples], [out, answer]) => match &desk.whole {
                Some(whole) => (whole.frame)(record, store, self.side, samples, &self.model, out, answer),
                None => lent::frame(desk, record, store, self.side, samples, &self.model, out, answer),
            },
            (TAKE, [piece], [out, answers]) => match &desk.whole {
                Some(whole) => (whole.take)(record, store, self.side, piece, &self.model, out, answers),
                None => lent::take(desk, record, store, self.side, piece, &self.model, out, answers),
            },
            _ => unreachable!("a call of another shape"),
        }
    }

    /// The places of each answer buffer that an accepted call writes, by the record before it and after it: those of a
    /// frame that is completed, and sums where a piece pauses. What has nothing to do with a piece writes whole
    /// buffers.
    pub fn written(&self, before: &[u32], after: &[u32]) -> Vec<Range<usize>> {
        let sums = if noted(after, UNFINISHED) > 0 { 0..22 } else { 0..0 };
        match self.call {
            PIECE => vec![0..0, sums],
            RESUME => {
                let (frame, _) = under_way(noted(before, PROGRESS));
                vec![480 * (frame - 1)..480 * frame, sums, 0..3]
            }
            TAKE => {
                let frames = completed(noted(before, WAITING), self.given[0].len());
                vec![0..480 * frames, 0..3 * frames]
            }
            _ => self.held.iter().map(|held| 0..held.len()).collect(),
        }
    }
}

/// A number of a record, which may be too short to have it.
fn noted(record: &[u32], at: usize) -> usize {
    record.get(at).map_or(0, |number| *number as usize)
}

/// The samples of a sound: twenty frames.
const SOUND: usize = 9_600;

/// What an opening began.
#[derive(Clone, Default)]
struct Session {
    /// Whether NaNs, infinities and huge numbers may come in. (The filter's memories keep a NaN until the next
    /// opening.)
    wild: bool,
    shape: Shape,
    model: Vec<u8>,
    /// What is recorded, over and over; where it is nothing, any numbers are.
    sound: Vec<f32>,
}

/// The caller of one side. What it asks follows from its own numbers and from what it was answered.
#[derive(Default)]
pub struct Caller {
    side: u32,
    session: Session,
    /// The session of an opening not yet answered.
    next: Session,
    spectrum: Vec<f32>,
    sums: Vec<f32>,
    /// Where call 1 is due, so many of 80 calls begin a piece, and so many are whole.
    pieces: usize,
    whole: usize,
    /// So many samples of the sound were recorded.
    recorded: usize,
    /// The piece last lent, and its output as it was left.
    piece: Vec<f32>,
    out: Vec<f32>,
}

impl Caller {
    pub fn new(side: u32) -> Caller {
        Caller { side, ..Caller::default() }
    }

    /// One that begins so many pieces in 80 calls where call 1 is due.
    pub fn in_pieces(side: u32, pieces: usize) -> Caller {
        Caller { pieces, ..Caller::new(side) }
    }

    /// One that besides makes so many whole calls in 80 there.
    pub fn with_whole(side: u32, pieces: usize, whole: usize) -> Caller {
        Caller { whole, ..Caller::in_pieces(side, pieces) }
    }

    /// Mostly a call that is due. The plain sums that a half is held against take their time: one call in twelve is
    /// one.
    fn call(&self, rng: &mut Rng, due: usize, unfinished: usize, waiting: usize) -> u32 {
        let calls = if self.whole > 0 { TAKE } else { RESUME } as usize;
        match (rng.below(80), due) {
            (0, _) => 0,
            (1..=3, _) => 1 + rng.below(calls) as u32,
            _ if unfinished > 0 => RESUME,
            // a frame is refused where samples wait
            (n, 1) if n >= 80 - self.whole => match if waiting > 0 { rng.once_in(20) } else { !rng.once_in(4) } {
                true => FRAME,
                false => TAKE,
            },
            _ if waiting > 0 => PIECE,
            (4..=16, 1) => FIRST_HALF,
            (4..=16, 3) => SECOND_HALF,
            (n, 1) if n < 17 + self.pieces => PIECE,
            (_, due) => due as u32,
        }
    }

    /// The next call, by the side's record.
    pub fn ask(&mut self, rng: &mut Rng, record: &[u32]) -> Ask {
        // a damaged record may note any number
        let (due, unfinished, waiting) =
            (noted(record, DUE).min(4), noted(record, UNFINISHED), noted(record, WAITING).min(479));
        let call = self.call(rng, due, unfinished, waiting);
        let mut ask = match call {
            0 => self.opening(rng),
            1 => self.samples(rng),
            2 => self.first(rng),
            3 => self.second(rng),
            4 => self.inverse(rng),
            FIRST_HALF => Ask { held: vec![held(rng, 22)], ..self.samples(rng) },
            SECOND_HALF => {
                let mut ask = self.second(rng);
                ask.given.remove(0);
                Ask { held: vec![held(rng, 480), held(rng, 3)], ..ask }
            }
            PIECE => self.piece(rng, waiting),
            FRAME => Ask { model: self.model(rng), held: vec![held(rng, 480), held(rng, 3)], ..self.samples(rng) },
            TAKE => self.take(rng, waiting),
            _ => self.resume(rng, unfinished, noted(record, PROGRESS)),
        };
        ask.call = call;
        ask.side = if rng.once_in(80) { rng.pick(&[16, 17, 256, 65_536, u32::MAX]) } else { self.side };
        ask
    }

    /// What was answered.
    pub fn answered(&mut self, ask: &Ask, number: u32, lent: &[Vec<f32>]) {
        match (ask.call, number) {
            (0, 0) => self.session = std::mem::take(&mut self.next),
            (2, 0) => {
                self.spectrum.clone_from(&ask.given[0]);
                self.sums.clone_from(&lent[1]);
            }
            (FIRST_HALF, 0) => self.sums.clone_from(&lent[0]),
            (PIECE | RESUME, 0) => {
                self.piece.clone_from(&ask.given[0]);
                self.out.clone_from(&lent[0]);
                self.sums.clone_from(&lent[1]);
            }
            _ => {}
        }
    }

    fn opening(&mut self, rng: &mut Rng) -> Ask {
        let shape = models::shape(rng);
        let model = if rng.once_in(8) { models::any(rng) } else { models::of_shape(rng, shape) };
        let sound = if rng.once_in(2) { finder::recorded(rng, SOUND) } else { vec![] };
        self.next = Session { wild: rng.once_in(2), shape, model: model.clone(), sound };
        Ask { model, way: Way::any(rng), ..Ask::default() }
    }

    /// Mostly what a recorder gives. Now and then a sample is at an end or beyond it: the first, the last or any.
    fn recorded(&mut self, rng: &mut Rng, len: usize) -> Vec<f32> {
        let mut samples = match self.session.sound.len() {
            0 => self.list(rng, len, Mood::Audio),
            _ => self.sounded(wrong(rng, len)),
        };
        if rng.once_in(8) && !samples.is_empty() {
            let (last, any) = (samples.len() - 1, rng.below(samples.len()));
            samples[rng.pick(&[0, last, any])] = rng.pick(&ENDS);
        }
        samples
    }

    /// The next samples of the sound.
    fn sounded(&mut self, len: usize) -> Vec<f32> {
        let from = self.recorded;
        self.recorded += len;
        self.session.sound.iter().cycle().skip(from % SOUND).take(len).copied().collect()
    }

    fn samples(&mut self, rng: &mut Rng) -> Ask {
        Ask { given: vec![self.recorded(rng, 480)], held: vec![held(rng, 960)], ..Ask::default() }
    }

    fn piece(&mut self, rng: &mut Rng, waiting: usize) -> Ask {
        let len = if rng.once_in(40) { rng.pick(&[0, LONGEST + 1, 65_536]) } else { piece_length(rng, waiting) };
        let piece = self.recorded(rng, len);
        let held = vec![at_least(rng, 480 * completed(waiting, piece.len())), held(rng, 22)];
        Ask { given: vec![piece], held, ..Ask::default() }
    }

    fn take(&mut self, rng: &mut Rng, waiting: usize) -> Ask {
        let mut ask = self.piece(rng, waiting);
        ask.held[1] = at_least(rng, 3 * completed(waiting, ask.given[0].len()));
        Ask { model: self.model(rng), ..ask }
    }

    /// Mostly with the piece and the output that were lent before. Other samples of the noted length are taken as well.
    fn resume(&mut self, rng: &mut Rng, unfinished: usize, progress: usize) -> Ask {
        let second = self.second(rng);
        let piece = match self.piece.len() == unfinished && !rng.once_in(20) {
            true => self.piece.clone(),
            false => self.recorded(rng, unfinished.clamp(1, LONGEST)),
        };
        let (_, waited) = under_way(progress);
        let frames = completed(waited, piece.len());
        let out = match self.out.len() >= 480 * frames && !rng.once_in(20) {
            true => self.out.clone(),
            false => at_least(rng, 480 * frames),
        };
        let given = vec![piece, second.given[1].clone()];
        Ask { given, held: vec![out, held(rng, 22), held(rng, 3)], ..second }
    }

    fn first(&mut self, rng: &mut Rng) -> Ask {
        let spectrum = self.spectrum(rng);
        let lag = match rng.below(30) {
            0 => Some(0),
            1 => Some(60),
            2 | 3 => Some(768),
            4 => Some(769),
            5 => Some(rng.pick(&[770, 65_536, 65_536 + 768, u32::MAX - 1, u32::MAX])),
            6..=15 => None,
            _ => Some(rng.below(769) as u32),
        };
        Ask { given: vec![spectrum], lag, held: vec![held(rng, 960), held(rng, 22)], ..Ask::default() }
    }

    fn second(&mut self, rng: &mut Rng) -> Ask {
        let mut spectrum = self.spectrum(rng);
        // mostly akin to the first, so that the bands correlate
        if !rng.once_in(4) && spectrum.len() == self.spectrum.len() {
            let (akin, other) = (rng.of(Mood::Small) * 2.0, rng.unit() * 0.5);
            for (p, x) in spectrum.iter_mut().zip(&self.spectrum) {
                *p = akin * x + other * *p;
            }
        }
        let mut logs = self.list(rng, 22, Mood::Small);
        if !rng.once_in(4) && logs.len() == self.sums.len() {
            logs = self.sums.iter().map(|x| x.log10()).collect();
        }
        let model = self.model(rng);
        let held = vec![held(rng, 961), held(rng, 3)];
        Ask { given: vec![spectrum, logs], model, held, ..Ask::default() }
    }

    /// Mostly that of the opening.
    fn model(&self, rng: &mut Rng) -> Vec<u8> {
        match rng.below(16) {
            0 => models::any(rng),
            1 => models::good(rng),
            // another model with the same three counts
            2..=4 => {
                let [_, vad, noise, denoise] = self.session.shape;
                let dense = 1 + rng.below(85usize.saturating_sub(vad).clamp(1, 6));
                models::of_shape(rng, [dense, vad, noise, denoise])
            }
            _ => self.session.model.clone(),
        }
    }

    fn inverse(&mut self, rng: &mut Rng) -> Ask {
        let inverse = self.list(rng, 960, Mood::Audio);
        Ask { given: vec![inverse], held: vec![held(rng, 480)], ..Ask::default() }
    }

    fn list(&self, rng: &mut Rng, len: usize, mood: Mood) -> Vec<f32> {
        let len = wrong(rng, len);
        if self.session.wild && rng.once_in(4) {
            rng.list(len)
        } else if rng.once_in(10) {
            rng.list_of(len, Mood::Zeros)
        } else {
            rng.list_of(len, mood)
        }
    }

    /// Quiet, near the silence's border, or loud; some bands may have nothing.
    fn spectrum(&self, rng: &mut Rng) -> Vec<f32> {
        let len = wrong(rng, 961);
        if self.session.wild && rng.once_in(4) {
            return rng.list(len);
        }
        let loud = rng.pick(&[0.0, 1.0, 5.0, 6.0, 7.0, 30.0, 1e3, 1e3, 1e4, 1e4, 1e5, 1e5, 1e6, 1e6]);
        let (from, to) = if rng.once_in(2) { (0, len) } else { (rng.below(len + 1), rng.below(len + 1)) };
        (0..len).map(|i| if (from..to).contains(&i) { rng.of(Mood::Small) * loud } else { 0.0 }).collect()
    }
}

/// Both ends of what call 1 takes, what lies next to them, and what is no number.
const ENDS: [f32; 11] = [
    -32_768.0,
    32_767.0,
    -0.0,
    f32::from_bits(0xC700_0001),
    f32::from_bits(0x46FF_FE01),
    32_768.0,
    f32::INFINITY,
    f32::NEG_INFINITY,
    f32::NAN,
    f32::MAX,
    f32::MIN,
];

/// Short, around a frame and two, at the longest and any; or what completes a frame, so that nothing waits behind it.
pub fn piece_length(rng: &mut Rng, waiting: usize) -> usize {
    match rng.below(12) {
        0 | 1 => 1 + rng.below(9),
        2 => rng.pick(&[240, 479, 481, 959, 960, 961]),
        3 | 4 => 480,
        5 => rng.pick(&[LONGEST - 1, LONGEST]),
        6..=8 => 480 * (1 + rng.below(4)) - waiting,
        _ => 1 + rng.below(LONGEST),
    }
}

/// What a buffer of at least n numbers holds before the call: mostly so many, or more, now and then too few.
fn at_least(rng: &mut Rng, n: usize) -> Vec<f32> {
    let len = match rng.below(40) {
        0 => n.saturating_sub(1),
        1 => rng.below(n + 1),
        2..=9 => n + rng.below(1_000),
        _ => n,
    };
    rng.list_of(len, Mood::Any)
}

/// Mostly n.
fn wrong(rng: &mut Rng, n: usize) -> usize {
    match rng.below(250) {
        0 => n.saturating_sub(1),
        1 => n + 1,
        2 => 0,
        3 => rng.below(2 * n),
        _ => n,
    }
}

/// What an answer buffer of mostly n numbers holds before the call: anything.
fn held(rng: &mut Rng, n: usize) -> Vec<f32> {
    let n = wrong(rng, n);
    rng.list_of(n, Mood::Any)
}
