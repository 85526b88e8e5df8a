//! `vectors`: a fixed list of the text's answers, for the program crates/replay, which needs no Rust; to standard
//! output.
//!
//! The list is words of 32 bits, little end first, record after record to its end. A record is
//!
//! - the leaf's number;
//! - how many lists it was given, and each list: its length, then its words. They are the leaf's parameters in the
//!   order of the C surface; an answer buffer comes with what it holds before the call. A number by itself is a list of
//!   one;
//! - how many lists are expected, and each list likewise: first the number returned, a list of one, then each answer
//!   buffer as it is left, in the order of the parameters. A refused call leaves it as it was.
//!
//! A word is the bits of an f32, but sizes, pitches and numbers returned are whole numbers. All NaNs are taken alike,
//! and both zeros.
//!
//! | bands | | pitch | |
//! |---|---|---|---|
//! | 0 | `band_corr(out, x, p)` | 5 | `inner_prod(sum, xs, ys, n)` |
//! | 1 | `band_gain(out, bands)` | 6 | `lpc(lpc, ac)` |
//! | 2 | `dct(out, x)` | 7 | `pitch_xcorr(xcorr, xs, ys)` |
//! | 3 | `window(out, x)` | 8 | `find_best_pitch(pitches, xcorr, ys, len)` |
//! | 4 | `window_in_place(xs)` | 9 | `fir5(xs, num)` |
//! | | | 10 | `autocorr(ac, x)` |
//! | | | 11 | `downsample(x_lp, x)` |

use nnnoiseless_text::probe::{bands, pitch};
use oracle::bins;
use oracle::rng::{Mood, Rng};
use std::io::Write;

/// The list so far.
struct List(Vec<u32>);

impl List {
    fn lists(&mut self, lists: &[Vec<u32>]) {
        self.0.push(lists.len() as u32);
        for list in lists {
            self.0.push(list.len() as u32);
            self.0.extend(list);
        }
    }

    /// A leaf whose first parameter is its answer buffer: the text's answer, or where there is none 5 and nothing
    /// changed.
    fn leaf(&mut self, leaf: u32, given: &[&[f32]], more: &[u32], answer: Option<impl FnOnce(&mut [f32])>) {
        let mut lists: Vec<Vec<u32>> = given.iter().map(|list| bits(list)).collect();
        lists.extend(more.iter().map(|word| vec![*word]));
        self.0.push(leaf);
        self.lists(&lists);
        let mut out = given[0].to_vec();
        let number = if answer.is_some() { 0 } else { 5 };
        if let Some(answer) = answer {
            answer(&mut out);
        }
        self.lists(&[vec![number], bits(&out)]);
    }

    fn refused(&mut self, leaf: u32, given: &[&[f32]], more: &[u32]) {
        self.leaf(leaf, given, more, None::<fn(&mut [f32])>);
    }
}

fn bits(list: &[f32]) -> Vec<u32> {
    list.iter().map(|x| x.to_bits()).collect()
}

const MOODS: [Mood; 6] = [Mood::Audio, Mood::Small, Mood::Sprinkled, Mood::Whole, Mood::Tiny, Mood::Huge];

fn of_bands(list: &mut List, rng: &mut Rng) {
    for mood in &MOODS[..4] {
        let (out, x, p) = (rng.list_of(22, Mood::Any), rng.list_of(961, *mood), rng.list_of(961, *mood));
        list.leaf(0, &[&out, &x, &p], &[], Some(|out: &mut [f32]| bands::compute_band_corr(out, &bins(&x), &bins(&p))));
    }
    for mood in &MOODS[..5] {
        let (out, x) = (rng.list_of(481, Mood::Any), rng.list_of(22, *mood));
        list.leaf(1, &[&out, &x], &[], Some(|out: &mut [f32]| bands::interp_band_gain(out, &x)));
    }
    for mood in MOODS {
        let (out, x) = (rng.list_of(22, Mood::Any), rng.list_of(22, mood));
        list.leaf(2, &[&out, &x], &[], Some(|out: &mut [f32]| bands::dct(out, &x)));
    }
    for mood in &MOODS[..2] {
        let (out, x) = (rng.list_of(960, Mood::Any), rng.list_of(960, *mood));
        list.leaf(3, &[&out, &x], &[], Some(|out: &mut [f32]| bands::apply_window(out, &x)));
        let xs = rng.list_of(960, *mood);
        list.leaf(4, &[&xs], &[], Some(bands::apply_window_in_place));
    }
    let any = |rng: &mut Rng, n| rng.list_of(n, Mood::Any);
    for [out, x, p] in [[22, 960, 961], [22, 961, 962], [21, 0, 0]] {
        list.refused(0, &[&any(rng, out), &any(rng, x), &any(rng, p)], &[]);
    }
    for [leaf, out, x] in [[1, 480, 22], [1, 481, 23], [2, 22, 21], [2, 23, 22], [3, 0, 960], [3, 960, 0], [3, 9, 9]] {
        list.refused(leaf as u32, &[&any(rng, out), &any(rng, x)], &[]);
    }
    for xs in [0, 959] {
        list.refused(4, &[&any(rng, xs)], &[]);
    }
}

/// Lists that fit, short ones in every mood.
fn of_pitch(list: &mut List, rng: &mut Rng) {
    for mood in MOODS {
        let sum = rng.list_of(1, Mood::Any);
        for n in [0, 3, 4, 13] {
            let (xs, ys) = (rng.list_of(n + 1, mood), rng.list_of(n, mood));
            let answer = |sum: &mut [f32]| sum[0] = pitch::inner_prod(&xs, &ys, n);
            list.leaf(5, &[&sum, &xs, &ys], &[n as u32], Some(answer));
        }
        let mut ac = [0.0; 5];
        pitch::celt_autocorr(&rng.list_of(40, mood), &mut ac);
        let out = rng.list_of(4, Mood::Any);
        list.leaf(6, &[&out, &ac], &[], Some(|out: &mut [f32]| pitch::lpc(out, &ac)));
        for [m, n, ys] in [[0, 3, 0], [4, 4, 8], [6, 9, 14], [9, 0, 8], [5, 7, 20]] {
            let (out, xs, ys) = (rng.list_of(m, Mood::Any), rng.list_of(n, mood), rng.list_of(ys, mood));
            list.leaf(7, &[&out, &xs, &ys], &[], Some(|out: &mut [f32]| pitch::pitch_xcorr(&xs, &ys, out)));
        }
        for [m, len, more] in [[0, 0, 0], [12, 20, 0], [30, 8, 3]] {
            let (xcorr, ys) = (rng.list_of(m, mood), rng.list_of(m + len + more, mood));
            best_pitch(list, &xcorr, &ys, len);
        }
        for n in [0, 5, 30] {
            let (xs, num) = (rng.list_of(n, mood), rng.list_of(5, Mood::Small));
            list.leaf(9, &[&xs, &num], &[], Some(|xs: &mut [f32]| pitch::fir5_in_place(xs, &num)));
        }
        for n in [5, 31] {
            let (ac, x) = (rng.list_of(5, Mood::Any), rng.list_of(n, mood));
            list.leaf(10, &[&ac, &x], &[], Some(|ac: &mut [f32]| pitch::celt_autocorr(&x, ac)));
        }
    }
    for mood in &MOODS[..3] {
        let (x_lp, x) = (rng.list_of(864, Mood::Any), rng.list_of(1728, *mood));
        list.leaf(11, &[&x_lp, &x], &[], Some(|x_lp: &mut [f32]| pitch::pitch_downsample(&x, x_lp)));
    }
    // an ac of 0, and its exit
    list.leaf(6, &[&[1.0; 4], &[0.0; 5]], &[], Some(|out: &mut [f32]| pitch::lpc(out, &[0.0; 5])));
}

/// Lists that don't.
fn of_pitch_refused(list: &mut List, rng: &mut Rng) {
    let any = |rng: &mut Rng, n| rng.list_of(n, Mood::Any);
    for [sum, xs, ys, n] in [[1, 3, 4, 4], [1, 4, 3, 4], [0, 4, 4, 4], [2, 4, 4, 4], [1, 4, 4, u32::MAX as usize]] {
        list.refused(5, &[&any(rng, sum), &any(rng, xs), &any(rng, ys)], &[n as u32]);
    }
    for [leaf, out, x] in
        [[6, 4, 4], [6, 0, 0], [9, 9, 4], [9, 9, 6], [10, 4, 9], [10, 5, 4], [11, 864, 1727], [11, 863, 0]]
    {
        list.refused(leaf as u32, &[&any(rng, out), &any(rng, x)], &[]);
    }
    for [m, n, ys] in [[4, 4, 7], [6, 9, 13], [1, 1, 0]] {
        list.refused(7, &[&any(rng, m), &any(rng, n), &any(rng, ys)], &[]);
    }
    for [m, ys, len] in [[3, 9, 7], [3, 9, u32::MAX as usize], [0, 0, 1]] {
        best_pitch(list, &any(rng, m), &any(rng, ys), len);
    }
}

fn best_pitch(list: &mut List, xcorr: &[f32], ys: &[f32], len: usize) {
    let held = vec![7, 7];
    list.0.push(8);
    list.lists(&[held.clone(), bits(xcorr), bits(ys), vec![len as u32]]);
    if xcorr.len() + len <= ys.len() {
        let (first, second) = pitch::find_best_pitch(xcorr, ys, len);
        list.lists(&[vec![0], vec![first as u32, second as u32]]);
    } else {
        list.lists(&[vec![5], held]);
    }
}

fn main() {
    let mut list = List(vec![]);
    let rng = &mut Rng::new(1);
    of_bands(&mut list, rng);
    of_pitch(&mut list, rng);
    of_pitch_refused(&mut list, rng);
    let bytes: Vec<u8> = list.0.iter().flat_map(|word| word.to_le_bytes()).collect();
    std::io::stdout().write_all(&bytes).unwrap();
}
