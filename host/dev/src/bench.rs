//! `box dev bench`: how fast the box is, beside the Rust text's `process_frame`.

use crate::calls::{Calls, Spent};
use crate::reference::Reference;
use std::thread::sleep;
use std::time::{Duration, Instant};
use tuppencehop::cleaning::demo::{grinder, HOUSE};
use tuppencehop::cleaning::recorder::{Recorder, Side, Way, NOTE, RECORD, STORE};
use tuppencehop::reading::block::{packed, Block, Layout};
use tuppencehop::FRAME;

const FRAMES: usize = 1_000;
const ROUNDS: usize = 7;
/// The benches of a store, how often each is fed in real time, and for how long.
const BENCHES: usize = 16;
const TICK: Duration = Duration::from_millis(10);
const TICKS: u32 = 300;

/// The middle one.
fn median(mut times: Vec<Duration>) -> Duration {
    times.sort();
    times[times.len() / 2]
}

/// The time of so many frames of one bench in pieces.
fn pieces(recorder: &mut Recorder, recorded: &Block) -> Duration {
    recorder.open(Side::Left, HOUSE).expect("the house model");
    let (start, mut count) = (Instant::now(), 0);
    let fed = recorder.feed(Side::Left, recorded, HOUSE, |_, _| count += 1);
    assert!(fed.is_ok() && count == FRAMES, "the frames");
    start.elapsed()
}

/// The same in four calls each.
fn in_calls(calls: &mut Calls, samples: &[f32]) -> Duration {
    calls.open(Side::Left, HOUSE).expect("the house model");
    let (start, mut out) = (Instant::now(), [0.0; FRAME]);
    for frame in samples.chunks_exact(FRAME) {
        calls.frame(Side::Left, frame, HOUSE, &mut out).expect("the frame is due and fits");
    }
    start.elapsed()
}

/// The same by the text.
fn by_the_text(samples: &[f32]) -> Duration {
    let mut reference = Reference::new(HOUSE).expect("the house model");
    let (start, mut out) = (Instant::now(), [0.0; FRAME]);
    for frame in samples.chunks_exact(FRAME) {
        reference.frame(frame, &mut out);
    }
    start.elapsed()
}

/// Sixteen benches over one store, each fed 10 ms of sound every 10 ms: the percent of the time in which there is
/// nothing to do.
fn idle(samples: &[f32]) -> f64 {
    let (mut store, mut records) = (vec![0.0; STORE], [[0; RECORD]; BENCHES]);
    for (side, record) in (0..).zip(&mut records) {
        Way::Nnnoiseless.open(record, &mut store, side, HOUSE).expect("the house model");
    }
    let (mut out, mut note, mut answer) = ([0; 2 * FRAME], [0; NOTE], [0.0; 3]);
    let Layout { format, channels } = Layout::CLEANED;
    let (start, mut busy) = (Instant::now(), Duration::ZERO);
    for (samples, due) in samples.chunks_exact(FRAME).zip(1..=TICKS) {
        let (block, begun) = (packed(samples), Instant::now());
        for (side, record) in (0..).zip(&mut records) {
            let (out, note, answer) = (&mut out, &mut note, &mut answer);
            let refused =
                tuppence::feed(record, &mut store, side, &block, format, channels, 0, HOUSE, out, note, answer);
            assert_eq!(refused, 0, "a frame is due and fits");
        }
        busy += begun.elapsed();
        sleep((due * TICK).saturating_sub(start.elapsed()));
    }
    100.0 * (1.0 - busy.as_secs_f64() / start.elapsed().as_secs_f64())
}

fn per_second(time: Duration) -> f64 {
    FRAMES as f64 / time.as_secs_f64()
}

fn tell(what: &str, per_second: f64) {
    let times = per_second / 100.0;
    tuppencehop::say!("{what}: {per_second:.0} frames a second, {times:.0} times as fast as it is spoken");
    // a bench speaks a frame every 10 ms
    tuppencehop::say!("  one core serves {:.0} benches in real time", times.floor());
}

/// Frames of one bench a second: in pieces as the box runs them, the same with our own lag, in four calls each, and by
/// the Rust text; how much of a core sixteen benches leave idle; and where the time goes.
pub struct Speed {
    pub pieces: f64,
    pub own: f64,
    pub calls: f64,
    pub rust: f64,
    /// In percent.
    pub idle: f64,
    of_pieces: [(&'static str, Duration); 2],
    of_calls: [(&'static str, Duration); 7],
}

impl Speed {
    pub fn tell(&self) {
        tell("one bench in pieces, all by the library", self.pieces);
        tuppencehop::say!("  sixteen benches in real time leave {:.1} % of a core idle", self.idle);
        tell("the same with --lag own", self.own);
        tell("one bench in four calls a frame, the text's lag, this program's transforms and logarithms", self.calls);
        tuppencehop::say!("process_frame of the Rust text with the same three: {:.0} frames a second", self.rust);
        tuppencehop::say!("time of the four calls, the Rust = 1: {:.2}", self.rust / self.calls);
        parts_of("of a frame in pieces", &self.of_pieces);
        parts_of("of a frame in four calls", &self.of_calls);
    }
}

pub fn measure() -> Speed {
    let samples: Vec<f32> = grinder(FRAMES * FRAME, 7, 100.0, 340.0).iter().map(|x| (1_000.0 * x) as f32).collect();
    let (recorded, mut times) = (Block::of(&samples), [const { vec![] }; 4]);
    let (mut recorder, mut own, mut calls) =
        (Recorder::new(Way::Nnnoiseless), Recorder::new(Way::Own), Calls::default());
    for _ in 0..ROUNDS {
        times[0].push(pieces(&mut recorder, &recorded));
        times[1].push(pieces(&mut own, &recorded));
        times[2].push(in_calls(&mut calls, &samples));
        times[3].push(by_the_text(&samples));
    }
    let beside = times[0].iter().sum::<Duration>() - recorder.spent;
    let [in_pieces, with_own, in_calls, rust] = times.map(median);
    Speed {
        pieces: per_second(in_pieces),
        own: per_second(with_own),
        calls: per_second(in_calls),
        rust: per_second(rust),
        idle: idle(&samples),
        of_pieces: [("the library", recorder.spent), ("the rest", beside)],
        of_calls: of_calls(&calls.spent),
    }
}

fn of_calls(spent: &Spent) -> [(&'static str, Duration); 7] {
    [
        ("call 1", spent.calls[0]),
        ("call 2", spent.calls[1]),
        ("call 3", spent.calls[2]),
        ("call 4", spent.calls[3]),
        ("transforms", spent.transforms),
        ("lag", spent.lag),
        ("logarithms", spent.logarithms),
    ]
}

fn parts_of(what: &str, parts: &[(&str, Duration)]) {
    let whole: Duration = parts.iter().map(|p| p.1).sum();
    tuppencehop::say!("{what}:");
    for (name, time) in parts {
        tuppencehop::say!(
            "  {name:11} {:5.1} %  {:6.1} us",
            100.0 * time.as_secs_f64() / whole.as_secs_f64(),
            1e6 * time.as_secs_f64() / (ROUNDS * FRAMES) as f64
        );
    }
}
