//! Frames in four calls each, with this program's transforms and logarithms and the text's own finder: what is held
//! against the text's `process_frame` bit for bit.

use crate::transform::{Transform, SPECTRUM, WINDOW};
use nnnoiseless_text::probe::pitch::PitchFinder;
use std::hint::black_box;
use std::time::{Duration, Instant};
use tuppence::SHARE;
use tuppencehop::cleaning::recorder::{Frame, Heard, Side, Way, FRAMES, HEARD, RECORD, STORE};
use tuppencehop::telling::refusal::{done, Refusal};

/// The first numbers of a share are `input_mem`, in which the lag is searched.
const INPUT_MEM: usize = 1_728;

/// Where a frame's time goes.
#[derive(Clone, Copy, Default)]
pub struct Spent {
    pub calls: [Duration; 4],
    pub transforms: Duration,
    pub lag: Duration,
    pub logarithms: Duration,
}

/// The buffers of a frame, for whichever bench calls.
struct Buffers {
    window: [f32; WINDOW],
    spectrum: [f32; SPECTRUM],
    sums: [f32; 22],
    out: [f32; SPECTRUM],
}

/// One store, and for each bench its record and its finder.
pub struct Calls {
    store: Vec<f32>,
    records: [[u32; RECORD]; 2],
    finders: [PitchFinder; 2],
    transform: Transform,
    buffers: Buffers,
    pub spent: Spent,
}

impl Default for Calls {
    fn default() -> Calls {
        Calls {
            store: vec![0.0; STORE],
            records: [[0; RECORD]; 2],
            finders: [PitchFinder::new(), PitchFinder::new()],
            transform: Transform::default(),
            buffers: Buffers {
                window: [0.0; WINDOW],
                spectrum: [0.0; SPECTRUM],
                sums: [0.0; 22],
                out: [0.0; SPECTRUM],
            },
            spent: Spent::default(),
        }
    }
}

/// Runs f and adds the time that it takes.
fn timed<R>(spent: &mut Duration, f: impl FnOnce() -> R) -> R {
    let start = Instant::now();
    // what is worked out is worked out here, and not where it is used
    let result = black_box(f());
    *spent += start.elapsed();
    result
}

impl Calls {
    /// Opens a bench. The four calls ask nothing of its way.
    pub fn open(&mut self, side: Side, model: &[u8]) -> Result<(), Refusal> {
        Way::Own.open(&mut self.records[side as usize], &mut self.store, side as u32, model)?;
        self.finders[side as usize] = PitchFinder::new();
        Ok(())
    }

    /// A frame, and its 480 samples into `out`.
    pub fn frame(&mut self, side: Side, samples: &[f32], model: &[u8], out: &mut [f32]) -> Result<Frame, Refusal> {
        let number = self.records[side as usize][FRAMES];
        let heard = Heard::of(self.calls(side, samples, model, out)?);
        Ok(Frame::of(side, number, heard, self.records[side as usize][HEARD]))
    }

    fn calls(&mut self, side: Side, samples: &[f32], model: &[u8], out: &mut [f32]) -> Result<[f32; 3], Refusal> {
        let number = side as u32;
        let Calls { store, records, finders, transform, buffers: b, spent } = self;
        let record = &mut records[side as usize];

        done(timed(&mut spent.calls[0], || tuppence::call1(record, store, number, samples, &mut b.window)))?;
        timed(&mut spent.transforms, || transform.forward(&b.window, &mut b.spectrum));

        let input_mem = &store[side as usize * SHARE..][..INPUT_MEM];
        let (lag, _gain) = timed(&mut spent.lag, || finders[side as usize].process(input_mem));
        done(timed(&mut spent.calls[1], || {
            tuppence::call2(record, store, number, &b.spectrum, lag as u32, &mut b.window, &mut b.sums)
        }))?;
        timed(&mut spent.transforms, || transform.forward(&b.window, &mut b.spectrum));
        let logs = timed(&mut spent.logarithms, || b.sums.map(f32::log10));

        let mut answer = [0.0; 3];
        done(timed(&mut spent.calls[2], || {
            tuppence::call3(record, store, number, &b.spectrum, &logs, model, &mut b.out, &mut answer)
        }))?;
        timed(&mut spent.transforms, || transform.inverse(&b.out, &mut b.window));

        done(timed(&mut spent.calls[3], || tuppence::call4(record, store, number, &b.window, out)))?;
        Ok(answer)
    }
}
