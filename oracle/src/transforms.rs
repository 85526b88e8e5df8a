//! Request 08: both transforms, bit for bit against the plain sums in f32, and beside the same sums in f64.

use crate::rng::{Mood, Rng};
use crate::tally::{thousands, Given, Tally};
use crate::{named, values, Options};
use std::f64::consts::TAU;

/// The table that the request names: the nearest f32 to each cosine of m/960 of a turn, 0 at 240 and 720.
pub fn cosines() -> [f32; 960] {
    std::array::from_fn(|m| if m % 480 == 240 { 0.0 } else { (TAU * m as f64 / 960.0).cos() as f32 })
}

/// Forward, as the request has it.
pub fn plain_forward(c: &[f32; 960], spectrum: &mut [f32], x: &[f32]) {
    for k in 0..481 {
        let (mut re, mut im) = (0.0, 0.0);
        for n in 0..960 {
            re += x[n] * c[k * n % 960];
            im += x[n] * c[(k * n + 240) % 960];
        }
        match k {
            0 => spectrum[0] = re,
            _ => spectrum[2 * k - 1..=2 * k].copy_from_slice(&[re, im]),
        }
    }
}

/// The inverse, as the request has it.
pub fn plain_inverse(c: &[f32; 960], x: &mut [f32], spectrum: &[f32]) {
    for n in 0..960 {
        let mut sum = 0.0 + spectrum[0];
        for k in 1..480 {
            sum += 2.0 * spectrum[2 * k - 1] * c[k * n % 960];
            sum += 2.0 * spectrum[2 * k] * c[(k * n + 240) % 960];
        }
        x[n] = sum + spectrum[959] * c[480 * n % 960];
    }
}

/// The sums in f64, over cosines and sines of their own.
struct Wide {
    cos: Vec<f64>,
    sin: Vec<f64>,
}

impl Wide {
    fn new() -> Wide {
        let turn = |m: usize| TAU * m as f64 / 960.0;
        Wide { cos: (0..960).map(|m| turn(m).cos()).collect(), sin: (0..960).map(|m| turn(m).sin()).collect() }
    }

    fn forward(&self, x: &[f32]) -> Vec<f64> {
        let sum = |part: &[f64], k: usize| (0..960).map(|n| x[n] as f64 * part[k * n % 960]).sum::<f64>();
        let mut spectrum = vec![sum(&self.cos, 0)];
        spectrum.extend((1..481).flat_map(|k| [sum(&self.cos, k), -sum(&self.sin, k)]));
        spectrum
    }

    fn inverse(&self, spectrum: &[f32]) -> Vec<f64> {
        let twice = |k: usize, n: usize| {
            let [re, im] = [spectrum[2 * k - 1] as f64, spectrum[2 * k] as f64];
            2.0 * (re * self.cos[k * n % 960] - im * self.sin[k * n % 960])
        };
        let once = |n: usize| spectrum[0] as f64 + spectrum[959] as f64 * self.cos[480 * n % 960];
        (0..960).map(|n| once(n) + (1..480).map(|k| twice(k, n)).sum::<f64>()).collect()
    }
}

/// The largest error, in f32 units at the largest number.
fn units(ours: &[f32], wide: &[f64]) -> f64 {
    let top = wide.iter().fold(0.0f64, |top, x| top.max(x.abs())) as f32;
    let unit = (f32::from_bits(top.to_bits() + 1) - top) as f64;
    ours.iter().zip(wide).fold(0.0, |worst: f64, (a, b)| worst.max((*a as f64 - b).abs())) / unit
}

/// One transform: how ours is called, the same in plain Rust, and the sums in f64.
struct Side<'a> {
    name: &'static str,
    lengths: [usize; 2],
    ours: Ours,
    plain: Plain,
    wide: &'a dyn Fn(&[f32]) -> Vec<f64>,
    noise: Error,
    steady: Error,
}

/// The largest error against f64 that was met, in units, and the largest that is no difference.
#[derive(Clone, Copy)]
struct Error {
    most: f64,
    worst: f64,
}

/// Numbers whose sums grow in one direction: all the same, and a tone at bin 160. The roundings of a plain sum add up
/// over them, and cancel over noise.
fn steady(len: usize) -> Vec<Vec<f32>> {
    let tone = |size: f64, bin: usize, turn: f64| {
        let angle = move |i: usize| TAU * ((bin * i % 960) as f64 / 960.0 + turn);
        (0..len).map(|i| (size * angle(i).cos()) as f32).collect()
    };
    let of_size = |size: f64| [tone(size, 0, 0.0), tone(size, 160, 0.0), tone(size, 160, 0.25)];
    [0.1, 1.0, 1_000.0, 32_767.0].into_iter().flat_map(of_size).collect()
}

/// Both zeros apart, all NaNs alike.
fn bits(list: &[f32]) -> Vec<u32> {
    list.iter().map(|x| if x.is_nan() { 0x7fc0_0000 } else { x.to_bits() }).collect()
}

impl Side<'_> {
    fn compare(&mut self, tally: &mut Tally, rng: &mut Rng, c: &[f32; 960]) {
        let [out, x] = self.lengths.map(|n| rng.near(n));
        let fits = [out, x] == self.lengths;
        // every other call has numbers whose sums in f64 say something
        let ordinary = rng.once_in(2);
        let mood = rng.pick(&[Mood::Audio, Mood::Small, Mood::Unit, Mood::Whole]);
        let out = rng.list(out);
        let x = if ordinary { rng.list_of(x, mood) } else { rng.list(x) };
        let ours = self.call(tally, c, out, &x, fits);
        if fits && ordinary {
            self.noise = self.hold(tally, &ours, &x, self.noise);
        }
    }

    fn compare_steady(&mut self, tally: &mut Tally, c: &[f32; 960]) {
        let [out, x] = self.lengths;
        for x in steady(x) {
            let ours = self.call(tally, c, vec![0.0; out], &x, true);
            self.steady = self.hold(tally, &ours, &x, self.steady);
        }
    }

    /// One call, bit for bit against the same in plain Rust; what it left in `out`.
    fn call(&self, tally: &mut Tally, c: &[f32; 960], out: Vec<f32>, x: &[f32], fits: bool) -> Vec<f32> {
        let (mut ours, mut want, x) = (out.clone(), out.clone(), x.to_vec());
        let given = named![out, x];
        let given = Given::new(given);
        let (number, mut due) = ((self.ours)(&mut ours, &x), 5u32);
        if fits {
            (self.plain)(c, &mut want, &x);
            due = 0;
        }
        let [ours_bits, want_bits] = [bits(&ours), bits(&want)];
        tally.judge(self.name, given, values![number, ours_bits], values![due, want_bits]);
        ours
    }

    /// The largest error, with that of one call among them.
    fn hold(&self, tally: &mut Tally, ours: &[f32], x: &[f32], error: Error) -> Error {
        let off = units(ours, &(self.wide)(x));
        if off > error.most {
            tally.differs(|text| *text += &format!("{}: {off:.1} units from the sums in f64\n", self.name));
        }
        Error { worst: error.worst.max(off), ..error }
    }
}

type Ours = fn(&mut [f32], &[f32]) -> u32;
type Plain = fn(&[f32; 960], &mut [f32], &[f32]);

/// Both transforms of a group, and the most units by which rounding may move their numbers, of noise and of steady
/// signals.
pub(crate) struct Pair {
    pub ours: [Ours; 2],
    pub plain: [Plain; 2],
    pub most: f64,
    pub most_steady: f64,
}

pub(crate) fn held_against(group: &'static str, options: &Options, pair: Pair) -> Tally {
    let mut tally = Tally::new(group);
    let rng = &mut Rng::new(options.seed);
    let (c, wide) = (cosines(), Wide::new());
    let (forward, inverse) = (|x: &[f32]| wide.forward(x), |x: &[f32]| wide.inverse(x));
    let Pair { ours, plain, most, most_steady } = pair;
    let [noise, steady] = [most, most_steady].map(|most| Error { most, worst: 0.0 });
    let side =
        |i: usize, name, lengths, wide| Side { name, lengths, ours: ours[i], plain: plain[i], wide, noise, steady };
    let mut sides = [
        side(0, "forward", [961, 960], &forward as &dyn Fn(&[f32]) -> Vec<f64>),
        side(1, "inverse", [960, 961], &inverse),
    ];
    let calls = options.calls(2000);
    for _ in 0..calls {
        sides.iter_mut().for_each(|side| side.compare(&mut tally, rng, &c));
    }
    for side in &mut sides {
        side.compare_steady(&mut tally, &c);
        tally.note(&format!(
            "{}: largest error against f64 {:.1} f32 units at the largest number, of {} calls; of steady signals {:.1}",
            side.name,
            side.noise.worst,
            thousands(calls),
            side.steady.worst
        ));
    }
    tally
}

pub fn compare(options: &Options) -> Tally {
    let pair = Pair {
        ours: [tuppence::forward, tuppence::inverse],
        plain: [plain_forward, plain_inverse],
        // more would be a wrong sum and not its rounding: half a unit for each of 960 additions is the most there is
        most: 64.0,
        most_steady: 480.0,
    };
    held_against("transforms", options, pair)
}
