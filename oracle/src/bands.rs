//! lib.rs: band correlation and gain, the DCT, windowing.

use crate::rng::Rng;
use crate::tally::Tally;
use crate::{bins, named, Options};
use nnnoiseless_text::probe::bands;

pub fn compare(options: &Options) -> Tally {
    let mut tally = Tally::new("bands");
    let rng = &mut Rng::new(options.seed);
    for _ in 0..options.calls(100_000) {
        band_corr(&mut tally, rng);
        band_gain(&mut tally, rng);
        dct(&mut tally, rng);
        window(&mut tally, rng);
        window_in_place(&mut tally, rng);
    }
    tally
}

/// A list of about n numbers.
fn about(rng: &mut Rng, n: usize) -> Vec<f32> {
    let len = rng.near(n);
    rng.list(len)
}

fn band_corr(tally: &mut Tally, rng: &mut Rng) {
    let (out, x) = (about(rng, 22), about(rng, 961));
    let p = if rng.once_in(3) { x.clone() } else { about(rng, 961) };
    tally.leaf(
        "band_corr",
        named![out, x, p],
        out.len() == 22 && x.len() == 961 && p.len() == 961,
        &out,
        |out| tuppence::band_corr(out, &x, &p),
        |out| bands::compute_band_corr(out, &bins(&x), &bins(&p)),
    );
}

fn band_gain(tally: &mut Tally, rng: &mut Rng) {
    let (out, gains) = (about(rng, 481), about(rng, 22));
    tally.leaf(
        "band_gain",
        named![out, gains],
        out.len() == 481 && gains.len() == 22,
        &out,
        |out| tuppence::band_gain(out, &gains),
        |out| bands::interp_band_gain(out, &gains),
    );
}

fn dct(tally: &mut Tally, rng: &mut Rng) {
    let (out, x) = (about(rng, 22), about(rng, 22));
    tally.leaf(
        "dct",
        named![out, x],
        out.len() == 22 && x.len() == 22,
        &out,
        |out| tuppence::dct(out, &x),
        |out| bands::dct(out, &x),
    );
}

fn window(tally: &mut Tally, rng: &mut Rng) {
    let (out, x) = (about(rng, 960), about(rng, 960));
    tally.leaf(
        "window",
        named![out, x],
        out.len() == 960 && x.len() == 960,
        &out,
        |out| tuppence::window(out, &x),
        |out| bands::apply_window(out, &x),
    );
}

fn window_in_place(tally: &mut Tally, rng: &mut Rng) {
    let xs = about(rng, 960);
    tally.leaf(
        "window_in_place",
        named![xs],
        xs.len() == 960,
        &xs,
        tuppence::window_in_place,
        bands::apply_window_in_place,
    );
}
