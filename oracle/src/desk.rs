//! The desk by the text: an opening and four calls over a lent store, answered by the text's own functions; a frame in
//! two halves.
//! (`dictation` has the pieces.)
//!
//! Nothing is kept between calls but the store and the records: each call sets the text's memories from its share, runs
//! the text's functions for that part of the frame, and writes the memories back. The module `shadow` runs the same
//! frames once more, whole, by `process_frame`.

use crate::fft::{fast_forward, fast_inverse};
use crate::finder::whole;
use crate::lag;
use crate::reader::{self, Refusal};
use crate::rng::Rng;
use crate::transforms::{cosines, plain_forward, plain_inverse};
use nnnoiseless_text::probe::pitch::PitchFinder;
use nnnoiseless_text::probe::{bands, features, rnn};
use nnnoiseless_text::{DenoiseFeatures, RnnModel};
use std::ops::Range;

pub use tuppence::place::{BENCH, COUNTS, DUE, FRAMES, HEARD, INDEX, PROGRESS, UNFINISHED, WAITING, WAY};
pub use tuppence::{BENCHES, RECORD, SHARE, STORE};

// A share, place by place.
pub const INPUT_MEM: Range<usize> = 0..1728;
pub const SYNTHESIS_MEM: Range<usize> = 1728..2208;
pub const X: Range<usize> = 2208..3169;
pub const EX: Range<usize> = 3169..3191;
pub const LAG: usize = 3191;
pub const MEM_HP_X: Range<usize> = 3192..3194;
pub const LASTG: Range<usize> = 3194..3216;
pub const CEPSTRAL_MEM: Range<usize> = 3216..3392;
pub const STATES: [usize; 3] = [3392, 3520, 3648];
pub const FINDER_MEM: Range<usize> = 3776..3778;
pub const WAIT: Range<usize> = 3778..4257;

/// A bench's way, which its opening settles: our own lag and the plain sums, or the text's finder and the fast
/// transforms.
#[derive(Clone, Copy, Default, PartialEq)]
pub enum Way {
    #[default]
    Own,
    Nnnoiseless,
}

impl Way {
    pub const BOTH: [Way; 2] = [Way::Own, Way::Nnnoiseless];

    pub fn any(rng: &mut Rng) -> Way {
        rng.pick(&Way::BOTH)
    }

    /// That of a record that is in range.
    fn noted(record: &[u32]) -> Way {
        Way::BOTH[record[WAY] as usize]
    }

    fn forward(self, window: &[f32; 960]) -> [f32; 961] {
        let mut spectrum = [0.0; 961];
        match self {
            Way::Own => plain_forward(&cosines(), &mut spectrum, window),
            Way::Nnnoiseless => fast_forward(&cosines(), &mut spectrum, window),
        }
        spectrum
    }

    fn inverse(self, spectrum: &[f32; 961]) -> [f32; 960] {
        let mut window = [0.0; 960];
        match self {
            Way::Own => plain_inverse(&cosines(), &mut window, spectrum),
            Way::Nnnoiseless => fast_inverse(&cosines(), &mut window, spectrum),
        }
        window
    }

    /// The lag of a share's `input_mem`. The text's finder goes on from the last period and the last gain that stand
    /// there, whoever wrote them, and leaves its own.
    fn lag(self, share: &mut [f32]) -> u32 {
        match self {
            Way::Own => lag::joined(&share[INPUT_MEM]),
            Way::Nnnoiseless => {
                let [last_period, last_gain] = [0, 1].map(|i| share[FINDER_MEM][i]);
                let (period, gain) = PitchFinder::after(whole(last_period), last_gain).process(&share[INPUT_MEM]);
                share[FINDER_MEM].copy_from_slice(&[period as f32, gain]);
                period as u32
            }
        }
    }
}

/// Whether it is a record that this side may hand in.
fn in_range(record: &[u32], side: u32) -> bool {
    let [due, index, vad, noise, denoise, _, _, waiting, piece, progress, way, bench] = *record else { return false };
    if due == 0 {
        return record.iter().all(|n| *n == 0);
    }
    if bench.checked_sub(1) != Some(side) {
        return false;
    }
    let counted = [vad, noise, denoise].iter().all(|n| (1..=127).contains(n));
    let frames = due <= 4 && index <= 7 && counted && way <= 1;
    let waits = waiting <= 479 && (waiting == 0 || due == 1);
    let unfinished = piece <= 4_096
        && match piece {
            0 => progress == 0,
            _ => due == 3 && waiting == 0 && (1..=piece).contains(&progress),
        };
    frames && waits && unfinished
}

/// Refusals 1 and 2, or 0.
fn entrance(record: &[u32], store: &[f32], side: u32) -> u32 {
    if side as usize >= BENCHES {
        1
    } else if store.len() != STORE || !in_range(record, side) {
        2
    } else {
        0
    }
}

/// What must be due.
#[derive(Clone, Copy)]
pub enum Due {
    /// One of calls 1 to 4, where no samples wait and no piece is unfinished.
    Call(u32),
    Piece,
    Resume,
}

impl Due {
    fn is_met_by(self, record: &[u32]) -> bool {
        match self {
            Due::Call(call) => record[DUE] == call && record[WAITING] == 0 && record[UNFINISHED] == 0,
            Due::Piece => record[DUE] == 1,
            Due::Resume => record[UNFINISHED] != 0,
        }
    }
}

/// Refusals 1 to 4, or 0.
pub fn gate(due: Due, record: &[u32], store: &[f32], side: u32) -> u32 {
    match entrance(record, store, side) {
        0 if record[DUE] == 0 => 3,
        0 if !due.is_met_by(record) => 4,
        number => number,
    }
}

/// Returns a refusal; with 0 the call goes on.
macro_rules! pass {
    ($number:expr) => {
        match $number {
            0 => (),
            refused => return refused,
        }
    };
}
pub(crate) use pass;

/// Refusals 1 to 5.
macro_rules! asked {
    ($due:expr, $record:ident, $store:ident, $side:ident, $($slice:ident $length:literal),*) => {
        $crate::desk::pass!($crate::desk::gate($due, $record, $store, $side));
        if $($slice.len() != $length)||* {
            return 5;
        }
    };
}
pub(crate) use asked;

/// Refusals 1 to 5, and else a side's share.
macro_rules! share {
    ($due:expr, $record:ident, $store:ident, $side:ident, $($slice:ident $length:literal),*) => {{
        asked!($due, $record, $store, $side, $($slice $length),*);
        share_of($store, $side)
    }};
}

pub fn share_of(store: &mut [f32], side: u32) -> &mut [f32] {
    &mut store[side as usize * SHARE..][..SHARE]
}

/// Refusal 7.
fn misread(Refusal { number, layer }: Refusal) -> u32 {
    7 + 256 * number + 65_536 * layer
}

/// The counts of the three GRUs.
fn counts(layers: &[reader::Layer; 6]) -> [u32; 3] {
    [1, 2, 3].map(|k| layers[k].neurons as u32)
}

/// Refusals 7 and 8, or 0.
pub fn unfit(model: &[u8], record: &[u32]) -> u32 {
    match reader::read(model, true) {
        Err(refusal) => misread(refusal),
        Ok(layers) if counts(&layers) != record[COUNTS] => 8,
        Ok(_) => 0,
    }
}

/// Refusal 9.
pub fn broken(samples: &[f32]) -> bool {
    samples.iter().any(|x| !(-32_768.0..=32_767.0).contains(x))
}

/// Sets the text's memories from a share.
pub fn load(text: &mut DenoiseFeatures, share: &[f32], index: u32) {
    let memory = features::memory(text);
    memory.input_mem.copy_from_slice(&share[INPUT_MEM]);
    memory.synthesis_mem.copy_from_slice(&share[SYNTHESIS_MEM]);
    memory.mem_hp_x.copy_from_slice(&share[MEM_HP_X]);
    memory.cepstral_mem.as_flattened_mut().copy_from_slice(&share[CEPSTRAL_MEM]);
    *memory.mem_id = index as usize;
}

fn loaded(share: &[f32], record: &[u32]) -> DenoiseFeatures {
    let mut text = DenoiseFeatures::new();
    load(&mut text, share, record[INDEX]);
    text
}

/// Writes the text's memories back.
fn save(text: &mut DenoiseFeatures, share: &mut [f32], record: &mut [u32]) {
    let memory = features::memory(text);
    share[INPUT_MEM].copy_from_slice(memory.input_mem);
    share[SYNTHESIS_MEM].copy_from_slice(memory.synthesis_mem);
    share[MEM_HP_X].copy_from_slice(memory.mem_hp_x);
    share[CEPSTRAL_MEM].copy_from_slice(memory.cepstral_mem.as_flattened());
    record[INDEX] = *memory.mem_id as u32;
}

pub fn open(record: &mut [u32], store: &mut [f32], side: u32, model: &[u8]) -> u32 {
    opened(record, store, side, Way::Own, model)
}

pub fn open_crate(record: &mut [u32], store: &mut [f32], side: u32, model: &[u8]) -> u32 {
    opened(record, store, side, Way::Nnnoiseless, model)
}

fn opened(record: &mut [u32], store: &mut [f32], side: u32, way: Way, model: &[u8]) -> u32 {
    pass!(entrance(record, store, side));
    let layers = match reader::read(model, true) {
        Ok(layers) => layers,
        Err(refusal) => return misread(refusal),
    };
    share_of(store, side).fill(0.0);
    record.fill(0);
    record[DUE] = 1;
    record[COUNTS].copy_from_slice(&counts(&layers));
    record[WAY] = way as u32;
    record[BENCH] = side + 1;
    0
}

pub fn call1(record: &mut [u32], store: &mut [f32], side: u32, samples: &[f32], window: &mut [f32]) -> u32 {
    let share = share!(Due::Call(1), record, store, side, samples 480, window 960);
    if broken(samples) {
        return 9;
    }
    let mut text = loaded(share, record);
    text.shift_and_filter_input(samples);
    feed::start();
    feed::spectrum(&[0.0; 961]);
    window.copy_from_slice(&features::window(&mut text, 0));
    feed::finish();
    save(&mut text, share, record);
    record[DUE] = 2;
    0
}

/// The text runs on to the end of `compute_frame_features`; of that, call 2 has what it hands to its second transform
/// and to its logarithms.
pub fn call2(
    record: &mut [u32],
    store: &mut [f32],
    side: u32,
    spectrum: &[f32],
    lag: u32,
    window: &mut [f32],
    sums: &mut [f32],
) -> u32 {
    let share = share!(Due::Call(2), record, store, side, spectrum 961, window 960, sums 22);
    if lag > 768 {
        return 6;
    }
    let mut text = loaded(share, record);
    feed::start();
    feed::spectrum(spectrum);
    feed::lag(lag as usize);
    feed::spectrum(&[0.0; 961]);
    feed::logs(&[0.0; 22]);
    text.compute_frame_features();
    let seen = feed::finish();
    window.copy_from_slice(&seen.windows[1]);
    sums.copy_from_slice(&seen.logs);
    text.x.write(&mut share[X]);
    share[EX].copy_from_slice(&text.ex);
    share[LAG] = lag as f32;
    record[DUE] = 3;
    0
}

/// Call 2 with the lag of the side's `input_mem`, by the text's leaves joined. A side or a store that has none is
/// refused by call 2.
pub fn call2_own(
    record: &mut [u32],
    store: &mut [f32],
    side: u32,
    spectrum: &[f32],
    window: &mut [f32],
    sums: &mut [f32],
) -> u32 {
    let share = store.get(side as usize * SHARE..).unwrap_or(&[]);
    let lag = share.get(INPUT_MEM).map_or(0, lag::joined);
    call2(record, store, side, spectrum, lag, window, sums)
}

pub fn call3(
    record: &mut [u32],
    store: &mut [f32],
    side: u32,
    spectrum: &[f32],
    logs: &[f32],
    model: &[u8],
    out: &mut [f32],
    answer: &mut [f32],
) -> u32 {
    let share = share!(Due::Call(3), record, store, side, spectrum 961, logs 22, out 961, answer 3);
    pass!(unfit(model, record));
    let mut text = loaded(share, record);
    feed::start();
    feed::spectrum(&[0.0; 961]);
    feed::kept(feed::Kept { x: share[X].to_vec(), ex: share[EX].to_vec(), lag: share[LAG] });
    feed::spectrum(spectrum);
    feed::logs(logs);
    let silent = text.compute_frame_features();
    feed::finish();
    answer.fill(0.0);
    if !silent {
        let model = RnnModel::from_bytes(model).expect("the text reads what the table accepts");
        answer.copy_from_slice(&[1.0, heard(&mut text, share, &model), text.ex.iter().fold(0.0, |e, x| e + x)]);
        save(&mut text, share, record);
        record[HEARD] = record[HEARD].wrapping_add(1);
    }
    text.x.write(out);
    record[DUE] = 4;
    0
}

/// What `process_frame` does with a heard frame, up to the inverse transform. The voice.
fn heard(text: &mut DenoiseFeatures, share: &mut [f32], model: &RnnModel) -> f32 {
    let (mut g, mut gf, mut voice) = ([0.0; 22], [1.0; 481], [0.0]);
    let mut state = rnn::state(model);
    for (to, at) in rnn::states(&mut state).into_iter().zip(STATES) {
        to.copy_from_slice(&share[at..][..to.len()]);
    }
    state.compute(&mut g, &mut voice, text.features());
    for (from, at) in rnn::states(&mut state).into_iter().zip(STATES) {
        share[at..][..from.len()].copy_from_slice(from);
    }
    text.pitch_filter(&g);
    for (g, last) in g.iter_mut().zip(&mut share[LASTG]) {
        *g = g.max(0.6 * *last);
        *last = *g;
    }
    bands::interp_band_gain(&mut gf, &g);
    features::apply_gain(text, &gf);
    voice[0]
}

/// Request 08: call 1, and call 2 with the forward transform of its window and the lag, both by the bench's way.
pub fn first_half(record: &mut [u32], store: &mut [f32], side: u32, samples: &[f32], sums: &mut [f32]) -> u32 {
    asked!(Due::Call(1), record, store, side, samples 480, sums 22);
    let (way, mut window) = (Way::noted(record), [0.0; 960]);
    pass!(call1(record, store, side, samples, &mut window));
    let (spectrum, lag) = (way.forward(&window), way.lag(share_of(store, side)));
    call2(record, store, side, &spectrum, lag, &mut window, sums)
}

/// Request 08: call 3 with the spectrum of the window for the lag that call 2 kept, and call 4 with the inverse of what
/// it wrote, both transforms by the bench's way.
pub fn second_half(
    record: &mut [u32],
    store: &mut [f32],
    side: u32,
    logs: &[f32],
    model: &[u8],
    out: &mut [f32],
    answer: &mut [f32],
) -> u32 {
    let share = share!(Due::Call(3), record, store, side, logs 22, out 480, answer 3);
    let (way, mut text) = (Way::noted(record), loaded(share, record));
    feed::start();
    feed::spectrum(&[0.0; 961]);
    let window = features::window(&mut text, whole(share[LAG]));
    feed::finish();
    let mut spectrum = [0.0; 961];
    pass!(call3(record, store, side, &way.forward(&window), logs, model, &mut spectrum, answer));
    call4(record, store, side, &way.inverse(&spectrum), out)
}

pub fn call4(record: &mut [u32], store: &mut [f32], side: u32, inverse: &[f32], out: &mut [f32]) -> u32 {
    let share = share!(Due::Call(4), record, store, side, inverse 960, out 480);
    let mut text = loaded(share, record);
    feed::start();
    feed::inverse(inverse);
    features::frame_synthesis(&mut text, out);
    feed::finish();
    save(&mut text, share, record);
    record[DUE] = 1;
    record[FRAMES] = record[FRAMES].wrapping_add(1);
    0
}
