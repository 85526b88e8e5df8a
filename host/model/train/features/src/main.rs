//! Features and ideal gains, from standard input to standard output, a sequence at a time until the input ends.
//!
//! `features`
//!     in: frames (u32), lag (u32: 0 the library's own, 1 the text's), clean and mixed samples (f32, 480 to a frame)
//!     out: for each frame 42 features of the mix, 22 ideal gains (-1: not to be learnt), 1 for heard or 0
//! `features MODEL`
//!     in: the same
//!     out: for each frame 22 remembered gains, voice, and 1 for heard or 0, as the product works them out in its four
//!     calls with this model: what train.py's own network is checked against

#[path = "../../../../dev/src/transform.rs"]
#[allow(dead_code)]
mod transform;

use nnnoiseless_text::probe::pitch::PitchFinder;
use std::io::{self, Read, Write};
use transform::{Transform, SPECTRUM, WINDOW};

const FRAME: usize = 480;
const BANDS: usize = 22;
const DELTAS: usize = 6;
const FEATURES: usize = 42;
const MEMORY: usize = 8;
const INPUT_MEM: usize = 1_728;
const EDGES: [usize; BANDS] = [0, 1, 2, 3, 4, 5, 6, 7, 8, 10, 12, 14, 16, 20, 24, 28, 34, 40, 48, 60, 78, 100];

/// The constants of the text's `common()`.
struct Tables {
    window: Vec<f32>,
    norm: f32,
    dct: Vec<[f32; BANDS]>,
    transform: Transform,
}

impl Tables {
    fn new() -> Tables {
        let pi = std::f64::consts::PI;
        let half = |i: usize| {
            let s = (0.5 * pi * (i as f64 + 0.5) / FRAME as f64).sin();
            (0.5 * pi * s * s).sin() as f32
        };
        let window: Vec<f32> = (0..WINDOW).map(|i| half(i.min(WINDOW - 1 - i))).collect();
        let norm = 1.0 / window.iter().map(|x| x * x).sum::<f32>();
        let cos = |i: usize, j: usize| {
            let c = ((i as f64 + 0.5) * j as f64 * pi / BANDS as f64).cos() as f32;
            if j == 0 {
                c * 0.5f32.sqrt()
            } else {
                c
            }
        };
        let dct = (0..BANDS).map(|i| std::array::from_fn(|j| cos(i, j))).collect();
        Tables { window, norm, dct, transform: Transform::default() }
    }

    fn dct(&self, x: &[f32; BANDS]) -> [f32; BANDS] {
        std::array::from_fn(|i| {
            let sum: f32 = (0..BANDS).map(|j| x[j] * self.dct[j][i]).sum();
            (sum as f64 * (2.0 / BANDS as f64).sqrt()) as f32
        })
    }

    /// The scaled spectrum of the window that ends `lag` samples before the end.
    fn spectrum(&self, input_mem: &[f32], lag: usize) -> [f32; SPECTRUM] {
        let (mut windowed, mut spectrum) = ([0.0; WINDOW], [0.0; SPECTRUM]);
        let from = INPUT_MEM - WINDOW - lag;
        for ((y, x), w) in windowed.iter_mut().zip(&input_mem[from..]).zip(&self.window) {
            *y = x * w;
        }
        self.transform.forward(&windowed, &mut spectrum);
        spectrum.map(|x| x * self.norm)
    }
}

/// The text's `compute_band_corr`.
fn bands(x: &[f32; SPECTRUM], p: &[f32; SPECTRUM]) -> [f32; BANDS] {
    let mut out = [0.0; BANDS];
    for i in 0..BANDS - 1 {
        let size = 4 * (EDGES[i + 1] - EDGES[i]);
        for j in 0..size {
            let k = 4 * EDGES[i] + j;
            let corr = if k == 0 { x[0] * p[0] } else { x[2 * k - 1] * p[2 * k - 1] + x[2 * k] * p[2 * k] };
            let frac = j as f32 / size as f32;
            out[i] += (1.0 - frac) * corr;
            out[i + 1] += frac * corr;
        }
    }
    out[0] *= 2.0;
    out[BANDS - 1] *= 2.0;
    out
}

/// The filtered input of one signal.
struct Input {
    mem: Vec<f32>,
    hp: [f32; 2],
}

impl Input {
    fn new() -> Input {
        Input { mem: vec![0.0; INPUT_MEM], hp: [0.0; 2] }
    }

    fn take(&mut self, samples: &[f32]) {
        self.mem.drain(..FRAME);
        for &x in samples {
            let x = x as f64;
            let y = x + self.hp[0] as f64;
            self.hp[0] = (self.hp[1] as f64 + (-2.0 * x + 1.99599f32 as f64 * y)) as f32;
            self.hp[1] = (x - 0.99600f32 as f64 * y) as f32;
            self.mem.push(y as f32);
        }
    }
}

/// The text's `DenoiseFeatures`, without what makes sound of it.
struct Features {
    input: Input,
    cepstra: [[f32; BANDS]; MEMORY],
    at: usize,
    finder: Option<PitchFinder>,
}

impl Features {
    /// The features of the next frame, or none in silence, and the band energies.
    fn next(&mut self, t: &Tables, samples: &[f32]) -> (Option<[f32; FEATURES]>, [f32; BANDS]) {
        self.input.take(samples);
        let mem = &self.input.mem;
        let lag = match &mut self.finder {
            Some(finder) => finder.process(mem).0,
            None => {
                let mut lag = [0];
                assert_eq!(tuppence::lag(&mut lag, mem), 0);
                lag[0] as usize
            }
        };
        let (x, p) = (t.spectrum(mem, 0), t.spectrum(mem, lag));
        let (ex, ep, mut exp) = (bands(&x, &x), bands(&p, &p), bands(&x, &p));
        if ex.iter().sum::<f32>() < 0.04 {
            return (None, ex);
        }
        for i in 0..BANDS {
            exp[i] /= (0.001 + ex[i] * ep[i]).sqrt();
        }
        let mut f = [0.0; FEATURES];
        f[34..40].copy_from_slice(&t.dct(&exp)[..DELTAS]);
        f[34] -= 1.3;
        f[35] -= 0.9;
        f[40] = 0.01 * (lag as f32 - 300.0);
        let (mut log_max, mut follow, mut ly) = (-2.0f32, -2.0f32, [0.0; BANDS]);
        for i in 0..BANDS {
            ly[i] = (1e-2 + ex[i]).log10().max(log_max - 7.0).max(follow - 1.5);
            log_max = log_max.max(ly[i]);
            follow = (follow - 1.5).max(ly[i]);
        }
        let mut c = t.dct(&ly);
        c[0] -= 12.0;
        c[1] -= 4.0;
        let back = |n| (self.at + MEMORY - n) % MEMORY;
        self.cepstra[self.at] = c;
        let (c1, c2) = (self.cepstra[back(1)], self.cepstra[back(2)]);
        f[..BANDS].copy_from_slice(&c);
        for i in 0..DELTAS {
            f[i] = c[i] + c1[i] + c2[i];
            f[22 + i] = c[i] - c2[i];
            f[28 + i] = c[i] - 2.0 * c1[i] + c2[i];
        }
        self.at = (self.at + 1) % MEMORY;
        let distance =
            |a: &[f32; BANDS], b: &[f32; BANDS]| a.iter().zip(b).map(|(a, b)| (a - b) * (a - b)).sum::<f32>();
        let nearest = |i: usize| {
            let others = (0..MEMORY).filter(|j| *j != i);
            others.map(|j| distance(&self.cepstra[i], &self.cepstra[j])).fold(1e15, f32::min)
        };
        f[41] = (0..MEMORY).map(nearest).sum::<f32>() / MEMORY as f32 - 2.1;
        (Some(f), ex)
    }
}

/// The square root of clean over mixed energy, as RNNoise has it; -1 where there is neither.
fn gain(clean: f32, mixed: f32) -> f32 {
    if clean < 5e-2 && mixed < 5e-2 {
        return -1.0;
    }
    ((clean + 1e-3) / (mixed + 1e-3)).sqrt().min(1.0)
}

fn learn(t: &Tables, text: bool, clean: &[f32], mixed: &[f32]) -> Vec<f32> {
    let mut alone = Input::new();
    let finder = text.then(PitchFinder::new);
    let mut features = Features { input: Input::new(), cepstra: [[0.0; BANDS]; MEMORY], at: 0, finder };
    let mut out = Vec::new();
    for (clean, mixed) in clean.chunks(FRAME).zip(mixed.chunks(FRAME)) {
        alone.take(clean);
        let x = t.spectrum(&alone.mem, 0);
        let (found, em) = features.next(t, mixed);
        let ec = bands(&x, &x);
        out.extend(found.unwrap_or([0.0; FEATURES]));
        out.extend((0..BANDS).map(|i| gain(ec[i], em[i])));
        out.push(f32::from(u8::from(found.is_some())));
    }
    out
}

fn product(t: &Tables, text: bool, mixed: &[f32], model: &[u8]) -> Vec<f32> {
    let (mut store, mut record) = (vec![0.0; tuppence::STORE], [0; tuppence::RECORD]);
    assert_eq!(tuppence::open(&mut record, &mut store, 0, model), 0);
    let (mut window, mut spectrum, mut sums) = ([0.0; WINDOW], [0.0; SPECTRUM], [0.0; BANDS]);
    let (mut finder, mut out) = (PitchFinder::new(), Vec::new());
    for samples in mixed.chunks(FRAME) {
        assert_eq!(tuppence::call1(&mut record, &mut store, 0, samples, &mut window), 0);
        t.transform.forward(&window, &mut spectrum);
        let done = if text {
            let lag = finder.process(&store[..INPUT_MEM]).0 as u32;
            tuppence::call2(&mut record, &mut store, 0, &spectrum, lag, &mut window, &mut sums)
        } else {
            tuppence::call2_own(&mut record, &mut store, 0, &spectrum, &mut window, &mut sums)
        };
        assert_eq!(done, 0);
        t.transform.forward(&window, &mut spectrum);
        let (logs, mut sound, mut answer) = (sums.map(f32::log10), [0.0; SPECTRUM], [0.0; 3]);
        assert_eq!(tuppence::call3(&mut record, &mut store, 0, &spectrum, &logs, model, &mut sound, &mut answer), 0);
        t.transform.inverse(&sound, &mut window);
        assert_eq!(tuppence::call4(&mut record, &mut store, 0, &window, &mut [0.0; FRAME]), 0);
        out.extend(&store[3_194..3_216]);
        out.extend([answer[1], answer[0]]);
    }
    out
}

fn main() -> io::Result<()> {
    let model = std::env::args().nth(1).map(std::fs::read).transpose()?;
    let (t, mut input, mut output) = (Tables::new(), io::stdin().lock(), io::stdout().lock());
    let mut head = [0; 8];
    while input.read_exact(&mut head).is_ok() {
        let [frames, lag] = [0, 4].map(|at| u32::from_le_bytes(head[at..at + 4].try_into().unwrap()));
        let mut bytes = vec![0; 2 * 4 * FRAME * frames as usize];
        input.read_exact(&mut bytes)?;
        let numbers: Vec<f32> = bytes.chunks(4).map(|b| f32::from_le_bytes(b.try_into().unwrap())).collect();
        let (clean, mixed) = numbers.split_at(numbers.len() / 2);
        let out = match &model {
            Some(model) => product(&t, lag == 1, mixed, model),
            None => learn(&t, lag == 1, clean, mixed),
        };
        output.write_all(&out.iter().flat_map(|x| x.to_le_bytes()).collect::<Vec<u8>>())?;
        output.flush()?;
    }
    Ok(())
}
