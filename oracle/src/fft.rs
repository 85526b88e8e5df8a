//! The fast transforms, bit for bit against the same definition in plain Rust, and beside the plain sums in f64.

use crate::tally::Tally;
use crate::transforms::{held_against, Pair};
use crate::Options;
use std::ops::{Add, Mul, Sub};

#[derive(Clone, Copy, Default)]
struct Complex {
    re: f32,
    im: f32,
}

impl Add for Complex {
    type Output = Complex;
    fn add(self, y: Complex) -> Complex {
        Complex { re: self.re + y.re, im: self.im + y.im }
    }
}

impl Sub for Complex {
    type Output = Complex;
    fn sub(self, y: Complex) -> Complex {
        Complex { re: self.re - y.re, im: self.im - y.im }
    }
}

impl Mul<Complex> for f32 {
    type Output = Complex;
    fn mul(self, y: Complex) -> Complex {
        Complex { re: self * y.re, im: self * y.im }
    }
}

impl Complex {
    /// x + i y
    fn plus_i(self, y: Complex) -> Complex {
        Complex { re: self.re - y.im, im: self.im + y.re }
    }

    /// x − i y
    fn minus_i(self, y: Complex) -> Complex {
        Complex { re: self.re + y.im, im: self.im - y.re }
    }

    /// Turned back by t/960 of a turn.
    fn turned(self, c: &[f32; 960], t: usize) -> Complex {
        let (p, q) = (c[t], c[t + 240]);
        Complex { re: self.re * p - self.im * q, im: self.re * q + self.im * p }
    }

    fn swapped(self) -> Complex {
        Complex { re: self.im, im: self.re }
    }
}

/// The transform of two to five numbers.
fn bins<const R: usize>(c: &[f32; 960], x: [Complex; R]) -> [Complex; R] {
    let mut out = x;
    match x[..] {
        [a, b] => out.copy_from_slice(&[a + b, a - b]),
        [a, b, d] => {
            let (u, v) = (a + c[320] * (b + d), c[560] * (b - d));
            out.copy_from_slice(&[a + (b + d), u.plus_i(v), u.minus_i(v)]);
        }
        [a, b, d, e] => {
            let (s, t, u, v) = (a + d, a - d, b + e, b - e);
            out.copy_from_slice(&[s + u, t.minus_i(v), s - u, t.plus_i(v)]);
        }
        [a, b, d, e, f] => {
            let (s, t, u, v) = (b + f, d + e, b - f, d - e);
            let (near, far) = (a + (c[192] * s + c[384] * t), a + (c[384] * s + c[192] * t));
            let (g, h) = (c[432] * u + c[624] * v, c[624] * u - c[432] * v);
            out.copy_from_slice(&[a + (s + t), near.plus_i(g), far.plus_i(h), far.minus_i(h), near.minus_i(g)]);
        }
        _ => unreachable!("two to five numbers"),
    }
    out
}

/// Each lane joins R numbers that stand m apart; its number j is turned by m · j · k/480 of a turn, but in the first
/// stage.
fn stage<const R: usize>(c: &[f32; 960], m: usize, z: [Complex; 480]) -> [Complex; 480] {
    let lanes = 480 / R;
    let mut out = [Complex::default(); 480];
    for k in 0..lanes / m {
        for p in 0..m {
            let number = |j: usize| {
                let x = z[R * m * k + p + m * j];
                if j == 0 || lanes == m {
                    x
                } else {
                    x.turned(c, 2 * m * j * k)
                }
            };
            for (q, bin) in bins::<R>(c, std::array::from_fn(number)).into_iter().enumerate() {
                out[lanes * q + m * k + p] = bin;
            }
        }
    }
    out
}

/// 480 = 5 · 3 · 4 · 2 · 4
fn transformed(c: &[f32; 960], z: [Complex; 480]) -> [Complex; 480] {
    let z = stage::<5>(c, 96, z);
    let z = stage::<3>(c, 32, z);
    let z = stage::<4>(c, 8, z);
    let z = stage::<2>(c, 4, z);
    stage::<4>(c, 1, z)
}

pub fn fast_forward(c: &[f32; 960], spectrum: &mut [f32], x: &[f32]) {
    let z = transformed(c, std::array::from_fn(|i| Complex { re: x[2 * i], im: x[2 * i + 1] }));
    spectrum[0] = z[0].re + z[0].im;
    for k in 1..481 {
        let (a, b) = (z[k % 480], z[480 - k]);
        let even = c[160] * Complex { re: a.re + b.re, im: a.im - b.im };
        let odd = c[160] * Complex { re: a.im + b.im, im: b.re - a.re };
        let bin = even + odd.turned(c, k);
        spectrum[2 * k - 1..=2 * k].copy_from_slice(&[bin.re, bin.im]);
    }
}

pub fn fast_inverse(c: &[f32; 960], x: &mut [f32], spectrum: &[f32]) {
    let bin = |k: usize| match k {
        0 => Complex { re: spectrum[0], im: 0.0 },
        480 => Complex { re: spectrum[959], im: 0.0 },
        _ => Complex { re: spectrum[2 * k - 1], im: spectrum[2 * k] },
    };
    let merged = |k: usize| {
        let (a, b, p, q) = (bin(k), bin(480 - k), c[k], c[k + 240]);
        let (d, s) = (a.re - b.re, a.im + b.im);
        Complex { re: a.re + b.re + (d * q - s * p), im: a.im - b.im + (d * p + s * q) }
    };
    // the parts swapped before and behind turn the other way
    let z = transformed(c, std::array::from_fn(|k| merged(k).swapped()));
    for (pair, z) in x.chunks_exact_mut(2).zip(z) {
        pair.copy_from_slice(&[z.im, z.re]);
    }
}

pub fn compare(options: &Options) -> Tally {
    let pair = Pair {
        ours: [tuppence::fft_forward, tuppence::fft_inverse],
        plain: [fast_forward, fast_inverse],
        // more would be a wrong step and not its rounding
        most: 16.0,
        most_steady: 16.0,
    };
    held_against("fft", options, pair)
}
