//! Samples are measured once, for the page, the picture and the pauses, in parts that lie within a frame.

use crate::FRAME;
use std::ops::Range;

/// Some samples of one frame: the least and the largest, which 0 lies between, the sum of their squares, and how many
/// they are.
#[derive(Clone, Copy, Debug, PartialEq)]
pub struct Measured {
    pub ends: [f32; 2],
    pub squares: f64,
    pub samples: usize,
}

/// So many samples are measured at a time. Samples of 16 bits have squares whose sum is exact in any order.
const LANES: usize = 8;

/// Eight measurements that do not wait for each other.
struct Lanes {
    low: [f32; LANES],
    high: [f32; LANES],
    squares: [f64; LANES],
}

impl Lanes {
    fn note(&mut self, lane: usize, x: f32) {
        self.low[lane] = if x < self.low[lane] { x } else { self.low[lane] };
        self.high[lane] = if x > self.high[lane] { x } else { self.high[lane] };
        self.squares[lane] += f64::from(x) * f64::from(x);
    }
}

impl Measured {
    pub fn of(samples: &[f32]) -> Measured {
        let mut lanes = Lanes { low: [0.0; LANES], high: [0.0; LANES], squares: [0.0; LANES] };
        let eights = samples.chunks_exact(LANES);
        let rest = eights.remainder();
        for eight in eights {
            (0..LANES).for_each(|lane| lanes.note(lane, eight[lane]));
        }
        rest.iter().enumerate().for_each(|(lane, x)| lanes.note(lane, *x));
        let (low, high) = (lanes.low.iter().copied(), lanes.high.iter().copied());
        let ends = [low.fold(0.0, f32::min), high.fold(0.0, f32::max)];
        Measured { ends, squares: lanes.squares.iter().sum(), samples: samples.len() }
    }

    /// The same of samples of 16 bits, the little end first.
    pub fn of_bytes(bytes: &[u8]) -> Measured {
        let (mut low, mut high, mut squares) = (0, 0, 0);
        for pair in bytes.chunks_exact(2) {
            let x = i16::from_le_bytes([pair[0], pair[1]]);
            (low, high) = (x.min(low), x.max(high));
            squares += u64::from(i32::from(x).pow(2) as u32);
        }
        Measured { ends: [low.into(), high.into()], squares: squares as f64, samples: bytes.len() / 2 }
    }
}

/// So many samples from a place on, cut where a frame ends: the place of each part, and which of them it is.
pub fn within_frames(place: u64, length: usize) -> impl Iterator<Item = (u64, Range<usize>)> {
    let mut from = 0;
    std::iter::from_fn(move || {
        let at = place + from as u64;
        let part = from..length.min(from + FRAME - (at % FRAME as u64) as usize);
        from = part.end;
        (!part.is_empty()).then_some((at, part))
    })
}

#[cfg(test)]
mod tests {
    use super::*;
    use crate::cleaning::demo::Rng;
    use crate::reading::block::packed;

    /// Of any number of samples, the ends among them, it is what a plain loop gives; so it is of their bytes.
    #[test]
    fn as_a_plain_loop_gives() {
        let mut rng = Rng(3);
        for length in (0..40).chain([479, 480]) {
            let mut samples: Vec<f32> = (0..length).map(|_| (20_000.0 * rng.number()).round() as f32).collect();
            if let Some(last) = samples.last_mut() {
                *last = [-32_768.0, 32_767.0][length % 2];
            }
            let ends = samples.iter().fold([0.0f32; 2], |ends, x| [ends[0].min(*x), ends[1].max(*x)]);
            let squares = samples.iter().map(|x| f64::from(*x).powi(2)).sum();
            let wanted = Measured { ends, squares, samples: length };
            assert_eq!(Measured::of(&samples), wanted, "{length} samples");
            assert_eq!(Measured::of_bytes(&packed(&samples)), wanted, "{length} samples");
        }
    }

    #[test]
    fn cut_where_frames_end() {
        let all = |place, length| within_frames(place, length).collect::<Vec<_>>();
        assert_eq!(all(0, 1_000), [(0, 0..480), (480, 480..960), (960, 960..1_000)]);
        assert_eq!(all(470, 11), [(470, 0..10), (480, 10..11)]);
        assert_eq!((all(7, 0), all(479, 1), all(480, 480)), (vec![], vec![(479, 0..1)], vec![(480, 0..480)]));
    }
}
