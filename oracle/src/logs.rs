//! Our own logarithm, held against the nearest f32 to the true one, which is decided by more digits than an f64 has.

use crate::rng::{Mood, Rng};
use crate::tally::{exactly, signed, thousands, Given, Tally};
use crate::{named, values, Options};
use std::ops::RangeInclusive;

/// The digits of an f64 that an f32 has no room for, and what they are at a midpoint of two f32.
const DROPPED: u64 = (1 << 29) - 1;
const MIDDLE: u64 = 1 << 28;

/// So many f64 units from a midpoint the f64 logarithm is trusted; nearer, the fine one decides.
const TRUSTED: u64 = 64;

/// Natural logarithms in whole numbers of 2^-96, by series of fractions: off by less than 2^16 of them.
struct Fine {
    ln_2: i128,
    ln_10: i128,
}

const PLACES: i32 = 96;
const OFF: u128 = 1 << 16;

/// ln((n + d) / (n - d)), for an n below 2^25 and a d up to a third of it.
fn series(d: i128, n: i128) -> i128 {
    let mut power = (2 << PLACES) * d / n;
    let mut sum = 0;
    let mut k = 1;
    while power > 0 {
        sum += power / k;
        power = power * d / n * d / n;
        k += 2;
    }
    sum
}

impl Fine {
    fn new() -> Fine {
        let ln_2 = series(1, 3);
        Fine { ln_2, ln_10: 3 * ln_2 + series(1, 9) }
    }

    /// ln(x), of a positive finite x.
    fn ln(&self, x: f32) -> i128 {
        let bits = (x as f64).to_bits();
        let exponent = (bits >> 52) as i128 - 1023;
        let digits = (bits & ((1 << 52) - 1)) as i128 >> 29;
        exponent * self.ln_2 + series(digits, (1 << 24) + digits)
    }

    /// d ln(10), of a d from 2^-40 to 2^20 in size.
    fn natural(&self, d: f64) -> i128 {
        let bits = d.abs().to_bits();
        let shift = 1075 - (bits >> 52) as i128;
        let digits = ((bits & ((1 << 52) - 1)) | (1 << 52)) as i128;
        let [high, low] = [digits >> 28, digits & ((1 << 28) - 1)];
        (((self.ln_10 * high) >> (shift - 28)) + ((self.ln_10 * low) >> shift)) * d.signum() as i128
    }

    /// The nearest f32 to log10(x), of a positive finite x.
    fn nearest(&self, x: f32) -> f32 {
        let near = (x as f64).log10();
        let bits = near.to_bits();
        if (bits & DROPPED).abs_diff(MIDDLE) > TRUSTED {
            return near as f32;
        }
        let [ln, middle] = [self.ln(x), self.natural(f64::from_bits(bits & !DROPPED | MIDDLE))];
        assert!((ln - middle).unsigned_abs() > 2 * OFF, "{x:e}: the digits worked out do not tell");
        let inner = f64::from_bits(bits & !DROPPED) as f32;
        if ln.abs() > middle.abs() {
            f32::from_bits(inner.to_bits() + 1)
        } else {
            inner
        }
    }

    /// How far the f64 logarithm that is trusted lies from the true one, in its last digits.
    fn error(&self, x: f32) -> f64 {
        let near = (x as f64).log10();
        let unit = f64::from_bits(near.to_bits() + 1).abs() - near.abs();
        (self.ln(x) - self.natural(near)) as f64 / f64::powi(2.0, PLACES) / std::f64::consts::LN_10 / unit
    }
}

/// The f32 whose f64 logarithm lies less than 16 of its last digits from a midpoint of two f32. At 0EFEEE7A the sum of
/// our parts falls on the midpoint.
#[rustfmt::skip]
const NEAR_MIDPOINTS: [u32; 116] = [
    0x0197_b60d, 0x0220_be43, 0x0225_f259, 0x0278_6410, 0x041b_3e8a, 0x0436_b84d, 0x058e_cd6a, 0x06cb_926d,
    0x0859_817b, 0x0898_717b, 0x0a4d_4ce8, 0x0ab6_67dd, 0x0cb0_1343, 0x0dbb_17ab, 0x0e10_c607, 0x0efe_ee7a,
    0x10b8_8aec, 0x116f_a037, 0x120b_93dc, 0x1266_ada7, 0x13ae_78d3, 0x13b5_7a47, 0x1596_4dc5, 0x186a_5f7f,
    0x1944_e975, 0x19d1_6a17, 0x1bad_e731, 0x1e21_dd95, 0x1e3e_83fb, 0x1eac_122f, 0x214a_9d50, 0x2151_0e0f,
    0x21d3_45c2, 0x22fd_44a4, 0x245c_3ce7, 0x260b_1d0e, 0x262c_a79a, 0x27b9_df50, 0x2846_c871, 0x2968_5724,
    0x2ae9_0442, 0x2b1b_73f9, 0x2bb4_e779, 0x2d43_e0a3, 0x2eba_fb78, 0x2f14_9212, 0x3069_ba56, 0x30a7_b216,
    0x32a3_0a9c, 0x33b5_ebfc, 0x344b_cd43, 0x3563_66fb, 0x3899_bcdf, 0x3989_424b, 0x3a09_faf4, 0x3bac_79b1,
    0x3c69_5cc0, 0x3e4e_72fb, 0x3f5f_de1b, 0x40d6_b904, 0x427a_28e9, 0x42da_5020, 0x4307_9cce, 0x4334_b31f,
    0x4488_7214, 0x45bd_edc8, 0x4679_4f5e, 0x4992_71d9, 0x4d5a_ad22, 0x4dff_4ddc, 0x5038_f940, 0x51e7_3790,
    0x5374_f20f, 0x5390_82ba, 0x54fd_bb27, 0x56f8_c876, 0x5735_f401, 0x575e_626b, 0x57d7_70b4, 0x5b2d_0c6e,
    0x5ba6_4f3d, 0x5d61_0fe9, 0x5ee4_3ec7, 0x5f33_15a3, 0x5fc1_d68d, 0x604d_f02c, 0x607b_e3ab, 0x6105_67e4,
    0x626a_85e5, 0x62a6_c1dd, 0x6307_980c, 0x63bf_4495, 0x63ce_2f36, 0x64a9_7e0f, 0x6571_6a23, 0x6590_3d25,
    0x6617_abaf, 0x678e_7825, 0x681b_e041, 0x6a58_1bf5, 0x6bc5_af05, 0x6d26_1a13, 0x6da8_a20d, 0x6f59_2c3c,
    0x6ff9_3d5b, 0x707f_e458, 0x7110_16a5, 0x721f_eeb7, 0x73cb_20d6, 0x74bf_b209, 0x76aa_a09a, 0x7717_1318,
    0x78bc_d7de, 0x7cea_0c14, 0x7d59_4696, 0x7f63_62e7,
];

/// What IEEE 754 has, and the nearest f32 where that is a number.
fn wanted(fine: &Fine, x: f32) -> f32 {
    match x {
        0.0 => f32::NEG_INFINITY,
        f32::INFINITY => x,
        _ if x > 0.0 => fine.nearest(x),
        _ => f32::NAN,
    }
}

fn one(tally: &mut Tally, fine: &Fine, x: f32) {
    let (ours, nearest) = (tuppence::log10(x), wanted(fine, x));
    if exactly(ours, nearest) {
        tally.compared += 1;
    } else {
        tally.judge("log10", Given::new(named![x]), values![ours], &[signed(&[nearest])]);
    }
}

pub fn compare(options: &Options) -> Tally {
    let mut tally = Tally::new("logs");
    let (fine, rng) = (&Fine::new(), &mut Rng::new(options.seed));
    NEAR_MIDPOINTS.iter().for_each(|bits| one(&mut tally, fine, f32::from_bits(*bits)));
    if options.all {
        every(&mut tally, fine);
    }
    sample(&mut tally, fine, rng, options.calls(1_000_000));
    lists(&mut tally, fine, rng, options.calls(1_000_000) / 100);
    tally
}

/// Every f32 there is, on two threads; and how often the machine's own logarithm is not the nearest.
fn every(tally: &mut Tally, fine: &Fine) {
    let part = |range: RangeInclusive<u32>| {
        let (mut tally, mut machines) = (Tally::new("logs"), 0);
        for x in range.map(f32::from_bits) {
            one(&mut tally, fine, x);
            machines += !exactly(x.log10(), wanted(fine, x)) as u64;
        }
        (tally, machines)
    };
    let (low, high) = std::thread::scope(|scope| {
        let low = scope.spawn(|| part(0..=0x3f7f_ffff));
        let high = part(0x3f80_0000..=0xffff_ffff);
        (low.join().unwrap(), high)
    });
    tally.note(&format!("f32::log10 of this machine is not the nearest at {} f32", thousands(low.1 + high.1)));
    tally.join(low.0);
    tally.join(high.0);
}

/// Numbers of every kind; and that the f64 logarithm is to be trusted.
fn sample(tally: &mut Tally, fine: &Fine, rng: &mut Rng, calls: u64) {
    let mut worst = 0.0f64;
    for _ in 0..calls {
        let x = match rng.below(4) {
            0 => rng.float(),
            1 => 1.0 + rng.of(Mood::Small) * rng.pick(&[1.0, 1e-3, 1e-6]),
            _ => f32::from_bits(rng.below(0x7f80_0000) as u32),
        };
        one(tally, fine, x);
        if rng.once_in(16) && x > 0.0 && x.is_finite() && x != 1.0 {
            worst = worst.max(fine.error(x).abs());
        }
    }
    if worst > TRUSTED as f64 / 2.0 {
        tally.differs(|text| *text += &format!("the f64 logarithm is off by {worst:.1} of its last digits\n"));
    }
    tally
        .note(&format!("the f64 logarithm, trusted beyond {TRUSTED} of its last digits, is off by at most {worst:.2}"));
}

/// The 22 of a frame by the reference.
pub fn nearest(logs: &mut [f32], sums: &[f32]) -> u32 {
    if logs.len() != 22 || sums.len() != 22 {
        return 5;
    }
    let fine = Fine::new();
    logs.iter_mut().zip(sums).for_each(|(log, x)| *log = wanted(&fine, *x));
    0
}

/// The 22 of a frame, refused calls included.
fn lists(tally: &mut Tally, fine: &Fine, rng: &mut Rng, calls: u64) {
    for _ in 0..calls {
        let [out, sums] = [rng.near(22), rng.near(22)].map(|n| rng.list(n));
        let fits = out.len() == 22 && sums.len() == 22;
        let rusts = |out: &mut [f32]| out.iter_mut().zip(&sums).for_each(|(out, x)| *out = wanted(fine, *x));
        tally.leaf("logs", named![out, sums], fits, &out, |out| tuppence::logs(out, &sums), rusts);
    }
}

#[cfg(test)]
mod tests {
    use super::*;

    /// Worked out elsewhere, to 300 binary digits.
    #[test]
    fn the_reference_beside_midpoints() {
        let fine = Fine::new();
        let known = [
            (0x0197_b60d, 0xc215_0401),
            (0x0220_be43, 0xc213_b609),
            (0x0225_f259, 0xc213_a7de),
            (0x0efe_ee7a, 0xc1e9_9d23),
            (0x7d59_4696, 0x4215_06a5),
            (0x7f63_62e7, 0x4219_ebe5),
        ];
        for (x, nearest) in known {
            assert!(NEAR_MIDPOINTS.contains(&x));
            assert_eq!(fine.nearest(f32::from_bits(x)).to_bits(), nearest);
        }
        assert_eq!([1.0, 10.0, 1e10].map(|x| fine.nearest(x)), [0.0, 1.0, 10.0]);
    }
}
