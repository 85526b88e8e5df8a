//! What memory is made of: each bench's memory is rebuilt from its heard frames alone, and compared with what its share
//! and its record hold.

use nnnoiseless_text::probe::{bands, pitch::PitchFinder, rnn};
use nnnoiseless_text::RnnModel;
use oracle::ask::{Ask, Caller, FIRST_HALF, PIECE, RESUME, SECOND_HALF};
use oracle::bins;
use oracle::desk::{
    Way, BENCHES, CEPSTRAL_MEM, DUE, INDEX, INPUT_MEM, LASTG, RECORD, SHARE, STATES, STORE, UNFINISHED,
};
use oracle::rng::{Mood, Rng};
use oracle::surface::OURS;
use oracle::tally::exactly;

const FRAMES: usize = 20_000;

/// What a heard frame is for the memory.
struct Heard<'a> {
    logs: &'a [f32],
    correlations: [f32; 22],
    lag: f32,
    model: &'a [u8],
}

#[derive(Clone, Copy)]
struct Memory {
    gains: [f32; 22],
    cepstra: [[f32; 22]; 8],
    index: usize,
    states: [[f32; 128]; 3],
}

const BLANK: Memory = Memory { gains: [0.0; 22], cepstra: [[0.0; 22]; 8], index: 0, states: [[0.0; 128]; 3] };

impl Memory {
    fn hear(&mut self, frame: &Heard) {
        self.cepstra[self.index] = cepstrum(frame.logs);
        let features = self.features(frame);
        self.index = (self.index + 1) % 8;
        let model = RnnModel::from_bytes(frame.model).expect("a heard frame's model reads");
        let mut rnn = rnn::state(&model);
        for (to, from) in rnn::states(&mut rnn).into_iter().zip(&self.states) {
            to.copy_from_slice(&from[..to.len()]);
        }
        let mut gains = [0.0; 22];
        rnn.compute(&mut gains, &mut [0.0], &features);
        for (from, to) in rnn::states(&mut rnn).into_iter().zip(&mut self.states) {
            to[..from.len()].copy_from_slice(from);
        }
        for (last, gain) in self.gains.iter_mut().zip(gains) {
            *last = larger(gain, 0.6 * *last);
        }
    }

    /// The 42 features, with the frame's cepstrum already in its row.
    fn features(&self, frame: &Heard) -> [f32; 42] {
        let [new, before, earlier] = [8, 7, 6].map(|back| self.cepstra[(self.index + back) % 8]);
        let (mut features, mut pitch) = ([0.0; 42], [0.0; 22]);
        bands::dct(&mut pitch, &frame.correlations);
        features[..22].copy_from_slice(&new);
        for i in 0..6 {
            features[i] = new[i] + before[i] + earlier[i];
            features[22 + i] = new[i] - earlier[i];
            features[28 + i] = new[i] - 2.0 * before[i] + earlier[i];
            features[34 + i] = pitch[i];
        }
        features[34] -= 1.3;
        features[35] -= 0.9;
        features[40] = 0.01 * (frame.lag - 300.0);
        features[41] = (0..8).fold(0.0, |sum, i| sum + self.nearest(i)) / 8.0 - 2.1;
        features
    }

    /// How near the nearest other row comes to a row.
    fn nearest(&self, row: usize) -> f32 {
        let distance = |other: usize| {
            self.cepstra[row].iter().zip(&self.cepstra[other]).fold(0.0, |sum, (a, b)| sum + (a - b) * (a - b))
        };
        (0..8).filter(|other| *other != row).map(distance).fold(1e15, |least, d| if d < least { d } else { least })
    }
}

/// Of two zeros the positive one, of a NaN and a number the number.
fn larger(a: f32, b: f32) -> f32 {
    match a.is_nan() || a < b || (a == b && a.is_sign_negative()) {
        true => b,
        false => a,
    }
}

fn cepstrum(logs: &[f32]) -> [f32; 22] {
    let (mut ly, mut ceps) = ([0.0; 22], [0.0; 22]);
    let (mut log_max, mut follow) = (-2.0f32, -2.0f32);
    for (y, log) in ly.iter_mut().zip(logs) {
        *y = larger(larger(*log, log_max - 7.0), follow - 1.5);
        log_max = larger(log_max, *y);
        follow = larger(follow - 1.5, *y);
    }
    bands::dct(&mut ceps, &ly);
    ceps[0] -= 12.0;
    ceps[1] -= 4.0;
    ceps
}

/// A spectrum as the frame has it, and its band energies.
fn scaled(spectrum: &[f32]) -> (Vec<bands::Complex>, [f32; 22]) {
    let numbers: Vec<f32> = spectrum.iter().map(|x| x * bands::wnorm()).collect();
    let (x, mut energies) = (bins(&numbers), [0.0; 22]);
    bands::compute_band_corr(&mut energies, &x, &x);
    (x, energies)
}

fn correlations(first: &[f32], second: &[f32]) -> [f32; 22] {
    let ((x, ex), (p, ep), mut corr) = (scaled(first), scaled(second), [0.0; 22]);
    bands::compute_band_corr(&mut corr, &x, &p);
    for i in 0..22 {
        corr[i] /= (0.001 + ex[i] * ep[i]).sqrt();
    }
    corr
}

fn own_lag(samples: &[f32]) -> usize {
    let mut lag = [0];
    assert_eq!(tuppence::lag(&mut lag, samples), 0);
    lag[0] as usize
}

/// The transform of the window that lies so long ago.
fn transformed(way: Way, samples: &[f32], lag: usize) -> Vec<f32> {
    let (mut window, mut spectrum) = ([0.0; 960], vec![0.0; 961]);
    bands::apply_window(&mut window, &samples[768 - lag..][..960]);
    let forward = match way {
        Way::Own => tuppence::forward,
        Way::Nnnoiseless => tuppence::fft_forward,
    };
    assert_eq!(forward(&mut spectrum, &window), 0);
    spectrum
}

/// A bench as its own calls and their answers tell it.
struct Bench {
    caller: Caller,
    way: Way,
    /// What the joined calls of the crate's way find the lag by.
    finder: PitchFinder,
    memory: Memory,
    /// The first spectrum and the lag, from call 2 to call 3.
    noted: (Vec<f32>, usize),
    /// The gains some frames ago, multiplied by 0.6 for each heard frame since.
    faded: [f32; 22],
}

/// How many frames of each kind, and refusals.
#[derive(Default, Debug)]
struct Count {
    heard: usize,
    silent: usize,
    broken: usize,
    in_pieces: usize,
    in_crates_way: usize,
    refused: usize,
}

impl Bench {
    /// A call and its answer. Of `input_mem`, before the call and after it, the joined calls and call 2's sister read
    /// the last samples.
    fn follow(
        &mut self,
        ask: &Ask,
        number: u32,
        answer: &[Vec<f32>],
        input_mem: [&[f32]; 2],
        paused: bool,
        count: &mut Count,
    ) {
        let [before, after] = input_mem;
        match (ask.call, number) {
            (0, 0) => {
                (self.memory, self.faded) = (BLANK, BLANK.gains);
                (self.way, self.finder) = (ask.way, PitchFinder::new());
            }
            (2, 0) => self.noted = (ask.given[0].clone(), ask.lag.map_or_else(|| own_lag(after), |lag| lag as usize)),
            (3, 0) => self.frame(ask, &ask.given[0], &answer[1], count),
            (SECOND_HALF | RESUME, 0) => {
                let second = transformed(self.way, before, self.noted.1);
                self.frame(ask, &second, answer.last().unwrap(), count);
                count.in_crates_way += usize::from(self.way == Way::Nnnoiseless);
            }
            (_, 0) => {}
            _ => count.refused += 1,
        }
        // a frame is begun, with the transform and the lag of its way
        if number == 0 && (ask.call == FIRST_HALF || (paused && matches!(ask.call, PIECE | RESUME))) {
            let lag = match self.way {
                Way::Own => own_lag(after),
                Way::Nnnoiseless => self.finder.process(after).0,
            };
            self.noted = (transformed(self.way, after, 0), lag);
        }
        count.in_pieces += usize::from((ask.call, number) == (RESUME, 0));
    }

    /// A frame with its second spectrum, whose logarithms are given last, and what it was.
    fn frame(&mut self, ask: &Ask, second: &[f32], answer: &[f32], count: &mut Count) {
        if answer[0] == 0.0 {
            count.silent += 1;
            return;
        }
        let ((first, lag), logs) = (&self.noted, ask.given.last().unwrap());
        let correlations = correlations(first, second);
        self.memory.hear(&Heard { logs, correlations, lag: *lag as f32, model: &ask.model });
        self.faded.iter_mut().for_each(|gain| *gain *= 0.6);
        count.heard += 1;
        count.broken += correlations.iter().chain(logs).any(|x| x.is_nan()) as usize;
    }

    fn check(&self, share: &[f32], record: &[u32]) {
        let memory = &self.memory;
        let all = |name: &str, ours: &[f32], rebuilt: &[f32]| {
            assert!(ours.iter().zip(rebuilt).all(|(a, b)| exactly(*a, *b)), "{name}: {ours:?}, not {rebuilt:?}");
        };
        all("gains", &share[LASTG], &memory.gains);
        all("cepstra", &share[CEPSTRAL_MEM], memory.cepstra.as_flattened());
        for (at, state) in STATES.into_iter().zip(&memory.states) {
            all("a state", &share[at..][..128], state);
        }
        assert_eq!(record[INDEX] as usize, memory.index);
        for (gain, least) in share[LASTG].iter().zip(self.faded) {
            assert!(*gain >= least, "{gain} is below {least}");
        }
    }
}

#[test]
fn memory_is_made_of_heard_frames() {
    let rng = &mut Rng::new(13);
    let (mut store, mut records) = (rng.list_of(STORE, Mood::Any), vec![vec![0; RECORD]; BENCHES]);
    let mut benches: Vec<Bench> = (0..BENCHES as u32)
        .map(|side| Bench {
            caller: Caller::in_pieces(side, 2),
            way: Way::Own,
            finder: PitchFinder::new(),
            memory: BLANK,
            noted: (vec![], 0),
            faded: BLANK.gains,
        })
        .collect();
    let mut count = Count::default();
    while count.heard + count.silent < FRAMES {
        let side = rng.below(BENCHES);
        let bench = &mut benches[side];
        let ask = bench.caller.ask(rng, &records[side]);
        let before = store[side * SHARE..][INPUT_MEM].to_vec();
        let (number, answer) = ask.put(&OURS, &mut records[side], &mut store);
        bench.caller.answered(&ask, number, &answer);
        let input_mem = [&before, &store[side * SHARE..][INPUT_MEM]];
        bench.follow(&ask, number, &answer, input_mem, records[side][UNFINISHED] > 0, &mut count);
        // another moment to count from
        if rng.once_in(100) {
            bench.faded = bench.memory.gains;
        }
        for (side, record) in records.iter().enumerate().filter(|(_, record)| record[DUE] > 0) {
            benches[side].check(&store[side * SHARE..][..SHARE], record);
        }
    }
    println!("{count:?}");
    assert!(
        count.heard > FRAMES / 2
            && count.silent > FRAMES / 20
            && count.broken > FRAMES / 100
            && count.in_pieces > FRAMES / 20
            && count.in_crates_way > FRAMES / 20
            && count.refused > FRAMES / 20,
        "{count:?}"
    );
}
