//! pitch.rs: the leaves below the search for a pitch.

use crate::rng::Rng;
use crate::tally::{Given, Tally};
use crate::{named, values, Options};
use nnnoiseless_text::probe::pitch;

pub fn compare(options: &Options) -> Tally {
    let mut tally = Tally::new("pitch");
    let rng = &mut Rng::new(options.seed);
    let t = &mut tally;
    fixed(t, rng);
    let calls = options.calls(100_000);
    for _ in 0..calls {
        inner_prod(t, rng);
        lpc(t, rng);
        random_xcorr(t, rng);
        random_best_pitch(t, rng);
        fir5(t, rng);
        autocorr(t, rng);
    }
    for _ in 0..calls / 50 {
        downsample(t, rng);
    }
    tally
}

/// The cases that the rules name.
fn fixed(tally: &mut Tally, rng: &mut Rng) {
    for ys in [7, 8] {
        xcorr(tally, &rng.list(4), &rng.list(4), &rng.list(ys));
    }
    best_pitch(tally, &[7, 7], &[], &[], 0);
    best_pitch(tally, &[7, 7], &[], &[], 1);
    best_pitch(tally, &[7, 7], &[1.0], &[1.0; 3], usize::MAX);
}

/// A short length, or now and then a long one.
fn length(rng: &mut Rng, long: usize) -> usize {
    match rng.below(200) {
        0 => rng.near(long),
        _ => rng.below(21),
    }
}

/// A length of at least n, or now and then beside it.
fn enough(rng: &mut Rng, n: usize) -> usize {
    match rng.below(8) {
        0 => n.saturating_sub(1),
        1 => n.saturating_sub(1 + rng.below(4)),
        2 | 3 => n + rng.below(9),
        _ => n,
    }
}

/// A count that is no length: around n, or far too large.
fn count(rng: &mut Rng, n: usize) -> usize {
    match rng.below(12) {
        0 => n + 1,
        1 => rng.pick(&[usize::MAX, usize::MAX - 1, usize::MAX - 3, usize::MAX / 2 + 1, 1 << 62, 1 << 32]),
        2 => rng.below(n + 2),
        _ => n,
    }
}

fn inner_prod(tally: &mut Tally, rng: &mut Rng) {
    let len = length(rng, 480);
    let n = count(rng, len);
    let xs = rng.list(len);
    let len = enough(rng, len);
    let ys = rng.list(len);
    let len = rng.near(1);
    let sum = rng.list(len);
    let size = n as u64;
    tally.leaf(
        "inner_prod",
        named![sum, xs, ys, size],
        sum.len() == 1 && n <= xs.len() && n <= ys.len(),
        &sum,
        |sum| tuppence::inner_prod(sum, &xs, &ys, n),
        |sum| sum[0] = pitch::inner_prod(&xs, &ys, n),
    );
}

fn lpc(tally: &mut Tally, rng: &mut Rng) {
    let len = length(rng, 24);
    let out = rng.list(len);
    let len = enough(rng, len + 1);
    let mut ac = rng.list(len);
    // as of a signal, so that the recursion runs on
    if rng.once_in(2) && len > 0 {
        let x = rng.list(len + 30);
        pitch::celt_autocorr(&x, &mut ac);
    }
    tally.leaf(
        "lpc",
        named![out, ac],
        ac.len() > out.len(),
        &out,
        |out| tuppence::lpc(out, &ac),
        |out| pitch::lpc(out, &ac),
    );
}

fn random_xcorr(tally: &mut Tally, rng: &mut Rng) {
    let (len, lags) = match rng.below(2000) {
        0 => (480, 294),
        _ => (length(rng, 100), length(rng, 60)),
    };
    let (out, xs) = (rng.list(lags), rng.list(len));
    let least = match rng.below(2) {
        0 => (len + lags).saturating_sub(1),
        _ => len - len % 4 + lags - lags % 4,
    };
    let ys = enough(rng, least);
    xcorr(tally, &out, &xs, &rng.list(ys));
}

fn xcorr(tally: &mut Tally, out: &[f32], xs: &[f32], ys: &[f32]) {
    let fours = |n: usize| n - n % 4;
    let (m, n) = (out.len(), xs.len());
    tally.leaf(
        "pitch_xcorr",
        &[("xcorr", out.into()), ("xs", xs.into()), ("ys", ys.into())],
        m == 0 || (ys.len() >= n + m - 1 && ys.len() >= fours(n) + fours(m)),
        out,
        |out| tuppence::pitch_xcorr(out, xs, ys),
        |out| pitch::pitch_xcorr(xs, ys, out),
    );
}

fn random_best_pitch(tally: &mut Tally, rng: &mut Rng) {
    let pitches: Vec<u64> = (0..rng.near(2)).map(|_| rng.bits()).collect();
    let (len, lags) = (length(rng, 240), length(rng, 147));
    let ys = enough(rng, len + lags);
    let (mut xcorr, ys) = (rng.list(lags), rng.list(ys));
    // as the search has it, or positive throughout
    match rng.below(3) {
        0 if ys.len() >= len + lags => pitch::pitch_xcorr(&ys[..len - len % 4], &ys[..], &mut xcorr[..lags - lags % 4]),
        1 => xcorr.iter_mut().for_each(|x| *x = x.abs()),
        _ => {}
    }
    let len = count(rng, len);
    best_pitch(tally, &pitches, &xcorr, &ys, len);
}

fn best_pitch(tally: &mut Tally, pitches: &[u64], xcorr: &[f32], ys: &[f32], len: usize) {
    let size = len as u64;
    let given = [("pitches", pitches.into()), ("xcorr", xcorr.into()), ("ys", ys.into()), ("len", (&size).into())];
    let given = Given::new(&given);
    let (mut a, mut b) = (pitches.to_vec(), pitches.to_vec());
    let number = tuppence::find_best_pitch(&mut a, xcorr, ys, len);
    let mut want = 5u32;
    if b.len() == 2 && xcorr.len().checked_add(len).is_some_and(|n| n <= ys.len()) {
        let (first, second) = pitch::find_best_pitch(xcorr, ys, len);
        b = vec![first as u64, second as u64];
        want = 0;
    }
    tally.judge("find_best_pitch", given, values![number, a], values![want, b]);
}

fn fir5(tally: &mut Tally, rng: &mut Rng) {
    let (len, nums) = (length(rng, 864), rng.near(5));
    let (xs, num) = (rng.list(len), rng.list(nums));
    tally.leaf(
        "fir5",
        named![xs, num],
        num.len() == 5,
        &xs,
        |xs| tuppence::fir5(xs, &num),
        |xs| pitch::fir5_in_place(xs, &num),
    );
}

fn autocorr(tally: &mut Tally, rng: &mut Rng) {
    let (acs, len) = (rng.near(5), length(rng, 864));
    let (ac, x) = (rng.list(acs), rng.list(len));
    tally.leaf(
        "autocorr",
        named![ac, x],
        ac.len() == 5 && x.len() >= 5,
        &ac,
        |ac| tuppence::autocorr(ac, &x),
        |ac| pitch::celt_autocorr(&x, ac),
    );
}

fn downsample(tally: &mut Tally, rng: &mut Rng) {
    let (lows, len) = (rng.near(864), rng.near(1728));
    let (x_lp, x) = (rng.list(lows), rng.list(len));
    tally.leaf(
        "downsample",
        named![x_lp, x],
        x_lp.len() == 864 && x.len() == 1728,
        &x_lp,
        |x_lp| tuppence::downsample(x_lp, &x),
        |x_lp| pitch::pitch_downsample(&x, x_lp),
    );
}
