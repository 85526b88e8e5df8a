//! util.rs: the functions of one or two numbers, narrowing, and the high-pass filter.

use crate::rng::Rng;
use crate::tally::{exactly, Given, Tally, Value};
use crate::{named, values, Options};
use nnnoiseless_text::probe::util;

/// A function of one number: its name, ours, and the Rust's.
type One = (&'static str, fn(f32) -> f32, fn(f32) -> f32);

const ONES: [One; 4] = [
    ("tansig", tuppence::tansig, util::tansig_approx),
    ("sigmoid", tuppence::sigmoid, util::sigmoid_approx),
    ("relu", tuppence::relu, relu),
    ("sqrt", tuppence::sqrt, f32::sqrt),
];

/// Of two zeros `max` is defined to give +0 where one is +0, and `min` the left one. What the compiled Rust gives there
/// is its compiler's choice.
fn max(a: f32, b: f32) -> f32 {
    if a == 0.0 && b == 0.0 {
        f32::from_bits(a.to_bits() & b.to_bits())
    } else {
        a.max(b)
    }
}

fn min(a: f32, b: f32) -> f32 {
    if a == b {
        a
    } else {
        a.min(b)
    }
}

fn relu(x: f32) -> f32 {
    max(util::relu(x), 0.0)
}

pub fn compare(options: &Options) -> Tally {
    let mut tally = Tally::new("numbers");
    let rng = &mut Rng::new(options.seed);
    if options.all {
        every(&mut tally);
    } else {
        sample(&mut tally, rng, options.calls(2_000_000));
    }
    let calls = options.calls(if options.all { 10_000_000 } else { 200_000 });
    narrow(&mut tally, rng, calls);
    filter(&mut tally, rng, calls);
    tally
}

fn one(tally: &mut Tally, (name, ours, rusts): One, x: f32) {
    let (a, b) = (ours(x), rusts(x));
    if exactly(a, b) {
        tally.compared += 1;
    } else {
        number(tally, name, named![x], a, b);
    }
}

/// A number returned. The signs of zeros count.
fn number(tally: &mut Tally, name: &str, given: &[(&str, Value)], ours: f32, wanted: f32) {
    tally.judge(name, Given::new(given), values![ours], &[Value::Signed(&[wanted])]);
}

/// Every f32 there is, on two threads.
fn every(tally: &mut Tally) {
    let half = |from: u32, to: u32| {
        let mut tally = Tally::new("numbers");
        for f in ONES {
            (from..=to).for_each(|bits| one(&mut tally, f, f32::from_bits(bits)));
        }
        tally
    };
    std::thread::scope(|scope| {
        let low = scope.spawn(|| half(0, 0x7fff_ffff));
        tally.join(half(0x8000_0000, 0xffff_ffff));
        tally.join(low.join().unwrap());
    });
}

fn sample(tally: &mut Tally, rng: &mut Rng, calls: u64) {
    for _ in 0..calls {
        let [x, low, high] = [rng.float(), rng.float(), rng.float()];
        // around the steps of the table, whose numbers lie within 8, too
        let step = (rng.below(801) as f32 - 400.0) * 0.02 + rng.unit() * 1e-5;
        for f in ONES {
            one(tally, f, if rng.once_in(2) { x } else { step });
        }
        number(tally, "max", named![x, low], tuppence::max(x, low), max(x, low));
        number(tally, "min", named![x, low], tuppence::min(x, low), min(x, low));
        // where low is not at most high, the Rust panics
        let (low, high) = if low > high { (high, low) } else { (low, high) };
        if low <= high {
            number(tally, "clamp", named![x, low, high], tuppence::clamp(x, low, high), x.clamp(low, high));
        }
    }
}

/// An f64 that narrows in an interesting way: any bits, or beside an f32, or beside the middle of two.
fn double(rng: &mut Rng) -> f64 {
    let near = rng.float() as f64;
    let nudge = rng.pick(&[0, 1, u64::MAX]);
    match rng.below(3) {
        0 => f64::from_bits(rng.bits()),
        1 => f64::from_bits(near.to_bits().wrapping_add(nudge)),
        _ => f64::from_bits((near.to_bits() | 0x1000_0000).wrapping_add(nudge)),
    }
}

fn narrow(tally: &mut Tally, rng: &mut Rng, calls: u64) {
    for _ in 0..calls {
        // below the normal numbers of f32 the middles lie elsewhere
        let x = double(rng) * rng.pick(&[1.0, 1.0, 1.0, f64::powi(2.0, -126), f64::powi(2.0, -140)]);
        let bits = x.to_bits();
        number(tally, "narrow", named![bits], tuppence::narrow(x), x as f32);
    }
}

fn filter(tally: &mut Tally, rng: &mut Rng, calls: u64) {
    for _ in 0..calls {
        let len = if rng.once_in(64) { rng.pick(&[479, 480, 481]) } else { rng.below(24) };
        let input = rng.list(len);
        let len = rng.near(len);
        let output = rng.list(len);
        let len = rng.near(2);
        let memory = if rng.once_in(2) { vec![0.0; len] } else { rng.list(len) };
        let len = rng.near(4);
        let mut coefficients = rng.list(len);
        if len == 4 && rng.once_in(2) {
            coefficients = vec![-1.99599, 0.99600, -2.0, 1.0];
        }
        let given = named![output, memory, coefficients, input];
        let given = Given::new(given);
        let (mut ours, mut ours_memory) = (output.clone(), memory.clone());
        let number = tuppence::filter(&mut ours, &mut ours_memory, &coefficients, &input);
        let left = values![number, ours, ours_memory];
        if let ([a0, a1, b0, b1], [m0, m1], true) = (&coefficients[..], &memory[..], input.len() == output.len()) {
            let (mut rusts, mut memory) = (output.clone(), [*m0, *m1]);
            util::Biquad { a: [*a0, *a1], b: [*b0, *b1] }.filter(&mut rusts, &mut memory, &input);
            tally.judge("filter", given, left, &[(&0u32).into(), Value::Signed(&rusts), Value::Signed(&memory)]);
        } else {
            tally.judge("filter", given, left, &[(&5u32).into(), Value::Kept(&output), Value::Kept(&memory)]);
        }
    }
}
