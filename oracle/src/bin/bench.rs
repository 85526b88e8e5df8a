//! `bench`: the proved library's time beside the Rust text's, in one process and on the same inputs; one table.
//! `bench ROW ours|rust N`: runs one side of one row N times and measures nothing, for callgrind.
//!
//! Each row is measured in rounds, ours and the Rust's in turn; the table has the medians of all samples, in
//! nanoseconds for one call, and ours divided by the Rust's. A sample is as many calls as take 20 us; of six layers it
//! is one frame.

#![cfg_attr(not(feature = "frame"), allow(unused_imports))]

use nnnoiseless_text::probe::{bands, pitch, rnn, util};
use nnnoiseless_text::{DenoiseState, RnnModel};
#[cfg(feature = "frame")]
use oracle::desk::{Way, BENCHES, FRAMES, RECORD, STORE};
use oracle::plain_pcm::{self, Layout};
use oracle::rng::{Mood, Rng};
#[cfg(feature = "frame")]
use oracle::surface::OURS;
use oracle::{bins, models};
use std::hint::black_box;
use std::time::{Duration, Instant};

const ROUNDS: usize = 10;
const SAMPLES: usize = 100;
/// A sample takes at least so long.
const LEAST: Duration = Duration::from_micros(20);

/// Runs N times, and says how long that took.
type Side = Box<dyn FnMut(usize) -> Duration>;

struct Row {
    name: &'static str,
    ours: Side,
    rusts: Side,
    /// Whether a sample is one run, however short: request 11 asks for the median of 1,000 frames.
    single: bool,
}

fn timed<R>(mut call: impl FnMut() -> R + 'static) -> Side {
    Box::new(move |times| {
        let start = Instant::now();
        for _ in 0..times {
            black_box(call());
        }
        start.elapsed()
    })
}

fn row<A, B>(name: &'static str, ours: impl FnMut() -> A + 'static, rusts: impl FnMut() -> B + 'static) -> Row {
    Row { name, ours: timed(ours), rusts: timed(rusts), single: false }
}

/// How many runs make a sample.
fn batch(side: &mut Side) -> usize {
    let mut times = 1;
    while side(times) < LEAST {
        times *= 2;
    }
    times
}

impl Row {
    /// The medians, in nanoseconds.
    fn measure(&mut self) -> [f64; 2] {
        let mut samples = [vec![], vec![]];
        let times = if self.single { 1 } else { batch(&mut self.ours).max(batch(&mut self.rusts)) };
        for _ in 0..ROUNDS {
            for (side, samples) in [&mut self.ours, &mut self.rusts].into_iter().zip(&mut samples) {
                side(times);
                samples.extend((0..SAMPLES).map(|_| side(times).as_nanos() as f64 / times as f64));
            }
        }
        samples.map(|mut samples| {
            samples.sort_by(f64::total_cmp);
            samples[samples.len() / 2]
        })
    }
}

/// The Rust's, called as ours is.
#[cfg(feature = "numbers")]
#[inline(never)]
extern "C" fn rust_max(a: f32, b: f32) -> f32 {
    f32::max(a, b)
}

#[cfg(feature = "numbers")]
#[inline(never)]
extern "C" fn rust_narrow(x: f64) -> f32 {
    x as f32
}

/// What is shorter than its call, beside the Rust's in place and beside the Rust's called.
#[cfg(feature = "numbers")]
fn of_short_numbers(rng: &mut Rng) -> Vec<Row> {
    let pairs: Vec<[f32; 2]> = (0..1000).map(|_| std::array::from_fn(|_| rng.of(Mood::Small))).collect();
    let [p1, p2, p3, p4] = std::array::from_fn(|_| pairs.clone());
    let xs: Vec<f64> = (0..1000).map(|_| rng.of(Mood::Audio) as f64 * 1.000_000_1).collect();
    let [x1, x2, x3, x4] = std::array::from_fn(|_| xs.clone());
    vec![
        row(
            "max, 1,000 pairs",
            move || p1.iter().fold(0.0, |_, [a, b]| black_box(tuppence::max(black_box(*a), black_box(*b)))),
            move || p2.iter().fold(0.0, |_, [a, b]| black_box(f32::max(black_box(*a), black_box(*b)))),
        ),
        row(
            "max, both called",
            move || p3.iter().fold(0.0, |_, [a, b]| black_box(tuppence::max(black_box(*a), black_box(*b)))),
            move || p4.iter().fold(0.0, |_, [a, b]| black_box(rust_max(black_box(*a), black_box(*b)))),
        ),
        row(
            "narrow, 1,000 numbers",
            move || x1.iter().fold(0.0, |_, x| black_box(tuppence::narrow(black_box(*x)))),
            move || x2.iter().fold(0.0, |_, x| black_box(black_box(*x) as f32)),
        ),
        row(
            "narrow, both called",
            move || x3.iter().fold(0.0, |_, x| black_box(tuppence::narrow(black_box(*x)))),
            move || x4.iter().fold(0.0, |_, x| black_box(rust_narrow(black_box(*x)))),
        ),
    ]
}

#[cfg(feature = "numbers")]
fn of_numbers(rng: &mut Rng) -> Vec<Row> {
    let input = rng.list_of(480, Mood::Audio);
    let again = input.clone();
    let (mut out, mut memory) = (vec![0.0; 480], [0.0; 2]);
    let (mut outs, mut memories) = (vec![0.0; 480], [0.0; 2]);
    let curve = rng.list_of(1000, Mood::Small);
    let curves = curve.clone();
    vec![
        row(
            "tansig, 1,000 numbers",
            move || curve.iter().fold(0.0, |_, x| black_box(tuppence::tansig(black_box(*x)))),
            move || curves.iter().fold(0.0, |_, x| black_box(util::tansig_approx(black_box(*x)))),
        ),
        row(
            "filter, 480 samples",
            move || tuppence::filter(&mut out, &mut memory, &[-1.99599, 0.99600, -2.0, 1.0], black_box(&input)),
            move || util::BIQUAD_HP.filter(&mut outs, &mut memories, black_box(&again)),
        ),
    ]
}

#[cfg(feature = "bands")]
fn of_bands(rng: &mut Rng) -> Vec<Row> {
    let [x, p] = [rng.list_of(961, Mood::Audio), rng.list_of(961, Mood::Audio)];
    let [xs, ps] = [bins(&x), bins(&p)];
    let gains = rng.list_of(22, Mood::Unit);
    let [g1, g2, g3, g4] = std::array::from_fn(|_| gains.clone());
    let [mut a22, mut b22, mut c22, mut d22] = [[0.0; 22]; 4];
    let [mut a481, mut b481] = [[0.0; 481]; 2];
    vec![
        row(
            "band_corr",
            move || tuppence::band_corr(&mut a22, black_box(&x), black_box(&p)),
            move || bands::compute_band_corr(&mut b22, black_box(&xs), black_box(&ps)),
        ),
        row(
            "band_gain",
            move || tuppence::band_gain(&mut a481, black_box(&g1)),
            move || bands::interp_band_gain(&mut b481, black_box(&g2)),
        ),
        row("dct", move || tuppence::dct(&mut c22, black_box(&g3)), move || bands::dct(&mut d22, black_box(&g4))),
    ]
}

#[cfg(feature = "bands")]
fn of_windows(rng: &mut Rng) -> Vec<Row> {
    let window = rng.list_of(960, Mood::Audio);
    let [w1, w2, w3, w4] = std::array::from_fn(|_| window.clone());
    let [mut a960, mut b960, mut c960, mut d960] = [[0.0; 960]; 4];
    vec![
        row(
            "window",
            move || tuppence::window(&mut a960, black_box(&w1)),
            move || bands::apply_window(&mut b960, black_box(&w2)),
        ),
        row(
            "window_in_place",
            // the numbers are set anew, lest they sink below the normal ones
            move || {
                c960.copy_from_slice(&w3);
                tuppence::window_in_place(black_box(&mut c960));
            },
            move || {
                d960.copy_from_slice(&w4);
                bands::apply_window_in_place(black_box(&mut d960));
            },
        ),
    ]
}

#[cfg(feature = "pitch")]
fn of_pitch(rng: &mut Rng) -> Vec<Row> {
    let xs = rng.list_of(480, Mood::Audio);
    let ys = rng.list_of(864, Mood::Audio);
    let x = rng.list_of(1728, Mood::Audio);
    let [x1, x2, x3, x4] = std::array::from_fn(|_| xs.clone());
    let [y1, y2, y3, y4] = std::array::from_fn(|_| ys.clone());
    let [d1, d2] = std::array::from_fn(|_| x.clone());
    let [mut a294, mut b294] = [[0.0; 294]; 2];
    let [mut a864, mut b864] = [[0.0; 864]; 2];
    vec![
        row(
            "inner_prod, 480",
            move || tuppence::inner_prod(black_box(&mut [0.0]), &x1, &y1, black_box(480)),
            move || black_box(pitch::inner_prod(&x2, &y2, black_box(480))),
        ),
        row(
            "pitch_xcorr, 480 numbers, 294 lags",
            move || tuppence::pitch_xcorr(black_box(&mut a294), &x3, &y3),
            move || pitch::pitch_xcorr(&x4, &y4, black_box(&mut b294)),
        ),
        row(
            "downsample",
            move || tuppence::downsample(black_box(&mut a864), &d1),
            move || pitch::pitch_downsample(&d2, black_box(&mut b864)),
        ),
    ]
}

#[cfg(feature = "lag")]
fn of_lag(rng: &mut Rng) -> Vec<Row> {
    let x = rng.list_of(1728, Mood::Audio);
    let y = x.clone();
    let mut finder = pitch::PitchFinder::new();
    vec![row(
        "our lag, beside PitchFinder::process",
        move || tuppence::lag(black_box(&mut [0]), &x),
        move || finder.process(black_box(&y)),
    )]
}

/// A voice of 200 Hz over noise, frame after frame with what both sides remember.
#[cfg(feature = "finder")]
fn of_finder(rng: &mut Rng) -> Vec<Row> {
    let tone =
        |i: usize| (1..6).map(|k| (std::f32::consts::TAU * (k * i) as f32 / 240.0).sin() / k as f32).sum::<f32>();
    let x: Vec<f32> = (0..1728 + 480 * 99).map(|i| 8000.0 * (tone(i) + 0.1 * rng.of(Mood::Small))).collect();
    let y = x.clone();
    let (mut numbers, mut i) = ([0.0; 2], 0);
    let (mut finder, mut j) = (pitch::PitchFinder::new(), 0);
    vec![row(
        "find, beside PitchFinder::process",
        move || {
            tuppence::find(black_box(&mut numbers), &mut [0], &x[480 * (i % 100)..][..1728]);
            i += 1;
        },
        move || {
            black_box(finder.process(black_box(&y[480 * (j % 100)..][..1728])));
            j += 1;
        },
    )]
}

/// A transform and its inverse, beside the same in Rust over a table of cosines.
#[cfg(feature = "transforms")]
fn of_pair(
    rng: &mut Rng,
    names: [&'static str; 2],
    ours: [fn(&mut [f32], &[f32]) -> u32; 2],
    rusts: [fn(&[f32; 960], &mut [f32], &[f32]); 2],
) -> Vec<Row> {
    let one = |i: usize| {
        let (lengths, c) = ([[960, 961], [961, 960]][i], oracle::transforms::cosines());
        let x = rng.list_of(lengths[0], Mood::Audio);
        let (y, [mut a, mut b]) = (x.clone(), [(); 2].map(|_| vec![0.0; lengths[1]]));
        let (ours, rusts) = (ours[i], rusts[i]);
        row(names[i], move || ours(black_box(&mut a), &x), move || rusts(black_box(&c), black_box(&mut b), &y))
    };
    (0..2).map(one).collect()
}

#[cfg(feature = "transforms")]
fn of_transforms(rng: &mut Rng) -> Vec<Row> {
    use oracle::transforms::{plain_forward, plain_inverse};
    let names = ["forward, beside the plain sums", "inverse, beside the plain sums"];
    of_pair(rng, names, [tuppence::forward, tuppence::inverse], [plain_forward, plain_inverse])
}

#[cfg(feature = "fft")]
fn of_fft(rng: &mut Rng) -> Vec<Row> {
    use oracle::fft::{fast_forward, fast_inverse};
    let names = ["fft forward, beside the same in Rust", "fft inverse, beside the same in Rust"];
    of_pair(rng, names, [tuppence::fft_forward, tuppence::fft_inverse], [fast_forward, fast_inverse])
}

#[cfg(feature = "logs")]
fn of_logs(rng: &mut Rng) -> Vec<Row> {
    // energies of a band, and 0.01, as call 2 gives them
    let sums: Vec<f32> = (0..22).map(|_| 0.01 + rng.of(Mood::Audio).abs() * rng.unit()).collect();
    let again = sums.clone();
    let [mut a22, mut b22] = [[0.0; 22]; 2];
    vec![row(
        "22 logarithms",
        move || tuppence::logs(black_box(&mut a22), black_box(&sums)),
        move || black_box(&mut b22).iter_mut().zip(black_box(&again)).for_each(|(out, x)| *out = x.log10()),
    )]
}

#[cfg(feature = "network")]
fn of_network(rng: &mut Rng) -> Vec<Row> {
    vec![
        of_shape(rng, "six layers, 24 24 48 96", models::USUAL),
        of_shape(rng, "six layers, the largest, 84 1 84 127", models::LARGEST),
    ]
}

#[cfg(feature = "network")]
fn of_shape(rng: &mut Rng, name: &'static str, shape: models::Shape) -> Row {
    let model = models::of_shape(rng, shape);
    let text: &'static RnnModel = Box::leak(Box::new(RnnModel::from_bytes(&model).unwrap()));
    let frames: Vec<Vec<f32>> = (0..1000).map(|_| rng.list_of(42, Mood::Small)).collect();
    let again = frames.clone();
    let (mut gains, mut voice, mut states) = ([0.0; 22], [0.0], [[0.0; 128]; 3]);
    let (mut gain, mut vad, mut state) = ([0.0; 22], [0.0], rnn::state(text));
    let (mut i, mut j) = (0, 0);
    let both = row(
        name,
        move || {
            let [a, b, c] = &mut states;
            tuppence::network(&mut gains, &mut voice, a, b, c, black_box(&model), &frames[i % 1000]);
            i += 1;
        },
        move || {
            state.compute(&mut gain, &mut vad, black_box(&again[j % 1000]));
            j += 1;
        },
    );
    Row { single: true, ..both }
}

/// An hour of frames.
#[cfg(feature = "sheet")]
fn of_sheet(rng: &mut Rng) -> Vec<Row> {
    let entries: Vec<u64> = (0..360_000).map(|i| i + ((rng.below(2) as u64) << 32)).collect();
    let mut file = vec![0; 8 * entries.len() + 16];
    assert_eq!(oracle::plain_sheet::write(&mut file, 1, &entries), 0);
    let again = entries.clone();
    let [mut f1, mut f2] = std::array::from_fn(|_| file.clone());
    let [f3, f4] = std::array::from_fn(|_| file.clone());
    vec![
        row(
            "a sheet of 360,000 records, written",
            move || assert_eq!(tuppence::sheet_write(&mut f1, 1, black_box(&entries)), 0),
            move || assert_eq!(oracle::plain_sheet::write(&mut f2, 1, black_box(&again)), 0),
        ),
        row(
            "a sheet of 360,000 records, read",
            move || assert_eq!(tuppence::sheet_read(black_box(&mut [0; 3]), &f3), 0),
            move || black_box(oracle::plain_sheet::read(black_box(&f4))).unwrap(),
        ),
    ]
}

/// Beside a lookup for each byte in plain Rust.
#[cfg(feature = "wav")]
fn of_wav(rng: &mut Rng) -> Vec<Row> {
    let step = |c: u32, _| if c & 1 == 1 { 0xEDB8_8320 ^ (c >> 1) } else { c >> 1 };
    let table: [u32; 256] = std::array::from_fn(|byte| (0..8).fold(byte as u32, step));
    let audio = rng.bytes(65_536);
    let again = audio.clone();
    vec![row(
        "a checksum of 65,536 bytes",
        move || tuppence::checksum(0, black_box(&audio)),
        move || !black_box(&again).iter().fold(!0u32, |c, byte| table[usize::from(c as u8 ^ byte)] ^ (c >> 8)),
    )]
}

/// Ten seconds, handed over in parts of 65,536 bytes, beside the library's own checksum of the same parts.
#[cfg(feature = "recording")]
fn of_recording(rng: &mut Rng) -> Vec<Row> {
    use oracle::plain_recording::{Front, Recording};
    let front = Front { side: 1, began: 0, first: 0 };
    let file = Recording { front, audio: rng.bytes(960_000), heard: vec![true; 1_001] }.bytes();
    let again = file.clone();
    vec![row(
        "a recording of ten seconds, judged, beside its checksum alone",
        move || {
            let (mut numbers, mut held, mut out) = ([0; 11], [0; 76], [0; 5]);
            tuppence::judge_begin(&mut numbers, &mut held);
            for part in black_box(&file).chunks(65_536) {
                tuppence::judge_more(&mut numbers, &mut held, part);
            }
            assert_eq!(tuppence::judge_verdict(&mut out, &numbers, &held), 0);
        },
        move || black_box(&again).chunks(65_536).fold(0, tuppence::checksum),
    )]
}

/// What a frame is given.
#[cfg(feature = "frame")]
struct Frame {
    samples: Vec<f32>,
    spectra: [Vec<f32>; 2],
    lag: u32,
    logs: Vec<f32>,
    inverse: Vec<f32>,
}

/// The text's `process_frame`. What it asks for is put into the feed before the clock runs.
#[cfg(feature = "frame")]
fn fed_text(frames: &'static [Frame], model: &[u8]) -> Side {
    let mut text = DenoiseState::from_model(RnnModel::from_bytes(model).unwrap());
    let mut frames = frames.iter().cycle();
    Box::new(move |times| {
        let mut output = [0.0; 480];
        let mut total = Duration::ZERO;
        for frame in frames.by_ref().take(times) {
            feed::start_unwatched();
            frame.spectra.iter().for_each(|spectrum| feed::spectrum(spectrum));
            feed::lag(frame.lag as usize);
            feed::logs(&frame.logs);
            feed::inverse(&frame.inverse);
            let start = Instant::now();
            text.process_frame(black_box(&mut output), &frame.samples);
            total += start.elapsed();
        }
        total
    })
}

#[cfg(feature = "frame")]
fn of_frame(rng: &mut Rng) -> Vec<Row> {
    let frames: Vec<Frame> = (0..100)
        .map(|_| Frame {
            samples: rng.list_of(480, Mood::Audio).iter().map(|x| x.min(32_767.0)).collect(),
            spectra: std::array::from_fn(|_| rng.list_of(961, Mood::Audio)),
            lag: rng.below(769) as u32,
            logs: rng.list_of(22, Mood::Small),
            inverse: rng.list_of(960, Mood::Audio),
        })
        .collect();
    let frames: &'static [Frame] = Box::leak(frames.into_boxed_slice());
    let model = models::of_shape(rng, models::USUAL);
    let rusts = fed_text(frames, &model);
    let (mut record, mut store) = ([0; RECORD], vec![0.0; STORE]);
    assert_eq!(tuppence::open(&mut record, &mut store, 1, &model), 0);
    let mut window = [0.0; 960];
    let (mut sums, mut spectrum, mut answer, mut out) = ([0.0; 22], [0.0; 961], [0.0; 3], [0.0; 480]);
    let mut i = 0;
    let ours = timed(move || {
        let frame = &frames[i % frames.len()];
        let [x, p] = &frame.spectra;
        let (r, s) = (&mut record[..], &mut store[..]);
        let mut refused = tuppence::call1(r, s, 1, &frame.samples, &mut window);
        refused |= tuppence::call2(r, s, 1, x, frame.lag, &mut window, &mut sums);
        refused |= tuppence::call3(r, s, 1, p, &frame.logs, &model, &mut spectrum, &mut answer);
        refused |= tuppence::call4(r, s, 1, &frame.inverse, &mut out);
        assert!(refused == 0 && answer[0] == 1.0, "the frame is heard");
        i += 1;
    });
    vec![Row { name: "a heard frame, four calls", ours, rusts, single: false }]
}

/// An opened bench, whose frames are all heard.
#[cfg(feature = "frame")]
struct Bench {
    record: [u32; RECORD],
    store: Vec<f32>,
    model: Vec<u8>,
    out: [f32; 9 * 480],
    answers: [f32; 9 * 3],
}

#[cfg(feature = "frame")]
impl Bench {
    fn opened(way: Way, model: &[u8]) -> Bench {
        let (mut record, mut store) = ([0; RECORD], vec![0.0; STORE]);
        assert_eq!(OURS.opening(way)(&mut record, &mut store, 1, model), 0);
        Bench { record, store, model: model.to_vec(), out: [0.0; 9 * 480], answers: [0.0; 9 * 3] }
    }

    fn frame(&mut self, samples: &[f32]) {
        let Bench { record, store, model, out, answers } = self;
        let refused = tuppence::frame(record, store, 1, samples, model, &mut out[..480], &mut answers[..3]);
        assert!(refused == 0 && answers[0] == 1.0, "the frame is heard");
    }

    /// How many frames the piece completes.
    fn take(&mut self, piece: &[f32]) -> u32 {
        let Bench { record, store, model, out, answers } = self;
        let done = record[FRAMES];
        let refused = tuppence::take(record, store, 1, piece, model, out, answers);
        assert!(refused == 0 && answers[0] == 1.0, "the frames are heard");
        record[FRAMES] - done
    }
}

/// The text's `process_frame` with its own lag and the machine's logarithms; its transforms are ours of a way, of which
/// it has none here.
#[cfg(feature = "frame")]
fn text_with_our_transforms(way: Way, samples: &'static [f32], model: &[u8]) -> Side {
    let mut text = DenoiseState::from_model(RnnModel::from_bytes(model).unwrap());
    let mut frames = samples.chunks_exact(480).cycle();
    let [forward, inverse]: [fn(&mut [f32], &[f32]) -> u32; 2] = match way {
        Way::Own => [tuppence::forward, tuppence::inverse],
        Way::Nnnoiseless => [tuppence::fft_forward, tuppence::fft_inverse],
    };
    Box::new(move |times| {
        feed::install(feed::Functions {
            forward: Box::new(move |window, spectrum| _ = forward(spectrum, window)),
            inverse: Box::new(move |spectrum, window| _ = inverse(window, spectrum)),
            log10: f32::log10,
        });
        let mut output = [0.0; 480];
        let start = Instant::now();
        for _ in 0..times {
            text.process_frame(black_box(&mut output), frames.next().unwrap());
        }
        start.elapsed()
    })
}

/// A second of sound.
#[cfg(feature = "frame")]
fn second(rng: &mut Rng) -> &'static [f32] {
    let samples: Vec<f32> = rng.list_of(100 * 480, Mood::Audio).iter().map(|x| x.min(32_767.0)).collect();
    samples.leak()
}

/// Frames in one call, in either way.
#[cfg(feature = "frame")]
fn of_whole(rng: &mut Rng) -> Vec<Row> {
    let (samples, model) = (second(rng), models::of_shape(rng, models::USUAL));
    let names = [
        ["a frame in one call", "4,096 samples in one call, a frame"],
        ["a frame in one call, the crate's way", "the same of 4,096 samples"],
    ];
    let of_way = |(way, [frame, piece]): (Way, [&'static str; 2])| {
        let [mut one, mut other] = [(); 2].map(|_| Bench::opened(way, &model));
        let (mut frames, mut pieces) = (samples.chunks_exact(480).cycle(), samples.chunks_exact(4_096).cycle());
        let takes: Side = Box::new(move |times| {
            let each = |_| {
                let start = Instant::now();
                let frames = other.take(pieces.next().unwrap());
                start.elapsed() / frames
            };
            (0..times).map(each).sum()
        });
        let [rusts, again] = [(); 2].map(|_| text_with_our_transforms(way, samples, &model));
        [
            Row { name: frame, ours: timed(move || one.frame(frames.next().unwrap())), rusts, single: false },
            Row { name: piece, ours: takes, rusts: again, single: false },
        ]
    };
    Way::BOTH.into_iter().zip(names).flat_map(of_way).collect()
}

/// Of each way, the share of a second for which one core has nothing to do while it serves sixteen benches in real
/// time: each has a second of sound, a frame at a time in turn.
#[cfg(feature = "frame")]
fn idle(rng: &mut Rng) -> [f64; 2] {
    let (samples, model) = (second(rng), models::of_shape(rng, models::USUAL));
    Way::BOTH.map(|way| {
        let (mut store, mut records) = (vec![0.0; STORE], [[0; RECORD]; BENCHES]);
        let (mut out, mut answer) = ([0.0; 480], [0.0; 3]);
        for (side, record) in (0..).zip(&mut records) {
            assert_eq!(OURS.opening(way)(record, &mut store, side, &model), 0);
        }
        let mut shares = [(); ROUNDS].map(|_| {
            let start = Instant::now();
            for frame in samples.chunks_exact(480) {
                for (side, record) in (0..).zip(&mut records) {
                    assert_eq!(tuppence::frame(record, &mut store, side, frame, &model, &mut out, &mut answer), 0);
                }
            }
            1.0 - start.elapsed().as_secs_f64()
        });
        shares.sort_by(f64::total_cmp);
        shares[ROUNDS / 2]
    })
}

/// A block of a stereo recording in one call; in the Rust's column stands a take of the same samples.
#[cfg(feature = "blocks")]
fn of_blocks(rng: &mut Rng) -> Vec<Row> {
    let model = models::of_shape(rng, models::USUAL);
    let [mut one, mut other] = [(); 2].map(|_| Bench::opened(Way::Own, &model));
    let blocks: Vec<Vec<u8>> = (0..10).map(|_| rng.bytes(4 * 4_096)).collect();
    let layout = Layout { format: 16, channels: 2, channel: 1 };
    let pieces: Vec<Vec<f32>> = blocks.iter().map(|block| plain_pcm::unpack(block, layout).unwrap()).collect();
    let (blocks, pieces): (&'static [_], &'static [_]) = (blocks.leak(), pieces.leak());
    let (mut blocks, mut pieces) = (blocks.iter().cycle(), pieces.iter().cycle());
    let (mut cleaned, mut records) = ([0; 8_640], [0; 72]);
    let feed = move || {
        let Bench { record, store, model, answers, .. } = &mut one;
        let block = blocks.next().unwrap();
        let refused = tuppence::feed(record, store, 1, block, 16, 2, 1, model, &mut cleaned, &mut records, answers);
        assert!(refused == 0 && records[4] == 1, "the frames are heard");
    };
    vec![row("4,096 stereo samples fed; taken", feed, move || other.take(pieces.next().unwrap()))]
}

fn main() {
    let rng = &mut Rng::new(1);
    let mut rows = vec![];
    #[cfg(feature = "numbers")]
    rows.extend([of_short_numbers(rng), of_numbers(rng)].into_iter().flatten());
    #[cfg(feature = "bands")]
    rows.extend([of_bands(rng), of_windows(rng)].into_iter().flatten());
    #[cfg(feature = "pitch")]
    rows.extend(of_pitch(rng));
    #[cfg(feature = "lag")]
    rows.extend(of_lag(rng));
    #[cfg(feature = "finder")]
    rows.extend(of_finder(rng));
    #[cfg(feature = "transforms")]
    rows.extend(of_transforms(rng));
    #[cfg(feature = "fft")]
    rows.extend(of_fft(rng));
    #[cfg(feature = "logs")]
    rows.extend(of_logs(rng));
    #[cfg(feature = "network")]
    rows.extend(of_network(rng));
    #[cfg(feature = "sheet")]
    rows.extend(of_sheet(rng));
    #[cfg(feature = "wav")]
    rows.extend(of_wav(rng));
    #[cfg(feature = "recording")]
    rows.extend(of_recording(rng));
    #[cfg(feature = "frame")]
    rows.extend([of_frame(rng), of_whole(rng)].into_iter().flatten());
    #[cfg(feature = "blocks")]
    rows.extend(of_blocks(rng));
    let words: Vec<String> = std::env::args().skip(1).collect();
    if let [name, side, times] = &words[..] {
        let row = rows.iter_mut().find(|row| row.name.starts_with(&name[..])).expect("no such row");
        let times = times.parse().expect("a number of times");
        match &side[..] {
            "ours" => (row.ours)(times),
            _ => (row.rusts)(times),
        };
        return;
    }
    println!("{:36} {:>10} {:>10} {:>6}", "", "ours", "Rust", "ratio");
    for row in &mut rows {
        let [ours, rusts] = row.measure();
        println!("{:36} {ours:7.0} ns {rusts:7.0} ns {:6.2}", row.name, ours / rusts);
    }
    #[cfg(feature = "frame")]
    for (benches, idle) in ["sixteen benches in real time", "the same in the crate's way"].into_iter().zip(idle(rng)) {
        println!("{benches:36} {:7.0} % of one core idle", 100.0 * idle);
    }
}
