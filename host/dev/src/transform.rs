//! The forward and inverse real transforms of 960 numbers, neither of them normalised: a complex transform of 480
//! numbers, worked out in f64 and rounded once.

use std::f64::consts::TAU;

const HALF: usize = 480;
/// Numbers of a window.
pub const WINDOW: usize = 2 * HALF;
/// Numbers of a spectrum: bin 0, which is real, then the real and imaginary parts of bins 1 to 480.
pub const SPECTRUM: usize = WINDOW + 1;

#[derive(Clone, Copy, Default)]
struct Complex {
    re: f64,
    im: f64,
}

impl Complex {
    fn turn(part: f64) -> Complex {
        let (im, re) = (part * TAU).sin_cos();
        Complex { re, im }
    }

    fn conj(self) -> Complex {
        Complex { re: self.re, im: -self.im }
    }

    fn times_i(self) -> Complex {
        Complex { re: -self.im, im: self.re }
    }
}

impl std::ops::Add for Complex {
    type Output = Complex;
    fn add(self, other: Complex) -> Complex {
        Complex { re: self.re + other.re, im: self.im + other.im }
    }
}

impl std::ops::Sub for Complex {
    type Output = Complex;
    fn sub(self, other: Complex) -> Complex {
        Complex { re: self.re - other.re, im: self.im - other.im }
    }
}

impl std::ops::Mul for Complex {
    type Output = Complex;
    fn mul(self, other: Complex) -> Complex {
        Complex { re: self.re * other.re - self.im * other.im, im: self.re * other.im + self.im * other.re }
    }
}

/// The roots of unity that the transforms need.
pub struct Transform {
    /// e^(-2πik/960)
    turns: Vec<Complex>,
}

impl Default for Transform {
    fn default() -> Transform {
        Transform { turns: (0..WINDOW).map(|k| Complex::turn(-(k as f64) / WINDOW as f64)).collect() }
    }
}

impl Transform {
    /// The transform of `n` numbers that stand `step` apart, by its smallest factor first; n · step is 480.
    fn complex(&self, out: &mut [Complex], x: &[Complex], n: usize, step: usize) {
        if n == 1 {
            out[0] = x[0];
            return;
        }
        let radix = [5, 3, 2].into_iter().find(|r| n.is_multiple_of(*r)).unwrap();
        let part = n / radix;
        let mut parts = vec![Complex::default(); n];
        for r in 0..radix {
            self.complex(&mut parts[r * part..(r + 1) * part], &x[r * step..], part, step * radix);
        }
        for k in 0..n {
            out[k] = (0..radix).fold(Complex::default(), |sum, r| {
                sum + parts[r * part + k % part] * self.turns[2 * step * r * k % WINDOW]
            });
        }
    }

    pub fn forward(&self, window: &[f32], spectrum: &mut [f32]) {
        let z: Vec<Complex> =
            window.chunks_exact(2).map(|pair| Complex { re: pair[0].into(), im: pair[1].into() }).collect();
        let mut whole = vec![Complex::default(); HALF];
        self.complex(&mut whole, &z, HALF, 1);
        for k in 0..=HALF {
            let (a, b) = (whole[k % HALF], whole[(HALF - k) % HALF].conj());
            let odd = (a - b).times_i() * self.turns[k];
            let x = Complex { re: 0.5 * (a.re + b.re - odd.re), im: 0.5 * (a.im + b.im - odd.im) };
            if k == 0 {
                spectrum[0] = x.re as f32;
            } else {
                spectrum[2 * k - 1] = x.re as f32;
                spectrum[2 * k] = if k == HALF { 0.0 } else { x.im as f32 };
            }
        }
    }

    /// Bins 1 to 479 are taken twice, bin 0 and the real part of bin 480 once.
    pub fn inverse(&self, spectrum: &[f32], window: &mut [f32]) {
        let bin = |k: usize| match k {
            0 => Complex { re: spectrum[0].into(), im: 0.0 },
            HALF => Complex { re: spectrum[WINDOW - 1].into(), im: 0.0 },
            _ => Complex { re: spectrum[2 * k - 1].into(), im: spectrum[2 * k].into() },
        };
        // The inverse is the forward transform of the conjugate, conjugated.
        let z: Vec<Complex> = (0..HALF)
            .map(|k| {
                let (a, b) = (bin(k), bin(HALF - k).conj());
                (a + b + ((a - b) * self.turns[k].conj()).times_i()).conj()
            })
            .collect();
        let mut whole = vec![Complex::default(); HALF];
        self.complex(&mut whole, &z, HALF, 1);
        for (pair, z) in window.chunks_exact_mut(2).zip(whole) {
            pair[0] = z.re as f32;
            pair[1] = -z.im as f32;
        }
    }
}

#[cfg(test)]
mod tests {
    use super::*;

    fn window() -> Vec<f32> {
        (0..WINDOW).map(|i| ((i * i * 7919) % 2003) as f32 - 1000.0).collect()
    }

    #[test]
    fn forward_is_the_plain_sum() {
        let (x, mut got) = (window(), vec![0.0; SPECTRUM]);
        Transform::default().forward(&x, &mut got);
        for k in 0..=HALF {
            let (mut re, mut im) = (0.0, 0.0);
            for (n, x) in x.iter().enumerate() {
                let turn = Complex::turn(-((k * n % WINDOW) as f64) / WINDOW as f64);
                re += f64::from(*x) * turn.re;
                im += f64::from(*x) * turn.im;
            }
            let at = (2 * k).saturating_sub(1);
            assert!((f64::from(got[at]) - re).abs() < 1.0, "bin {k}");
            assert!(k == 0 || (f64::from(got[2 * k]) - im).abs() < 1.0, "bin {k}");
        }
    }

    #[test]
    fn inverse_of_forward_is_960_times() {
        let (x, mut spectrum, mut back) = (window(), vec![0.0; SPECTRUM], vec![0.0; WINDOW]);
        let transform = Transform::default();
        transform.forward(&x, &mut spectrum);
        transform.inverse(&spectrum, &mut back);
        for (x, y) in x.iter().zip(back) {
            assert!((960.0 * x - y).abs() < 1.0);
        }
    }
}
