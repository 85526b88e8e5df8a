//! Both benches over one store, as their recordings come. What is kept in memory is the same for any length, and what
//! ends one bench leaves the other as it is.

use crate::cleaning::cleaned::Cleaned;
use crate::cleaning::recorder::{Frame, Recorder, Side, Way};
use crate::error::Result;
use crate::reading::block::{Block, Layout};
use crate::reading::source::{Memory, Source};
use crate::telling::refusal::Refusal;
use crate::FRAME;

/// What becomes of both recordings, as they are cleaned.
pub trait Sink {
    /// What was recorded, to be drawn and measured.
    fn before(&mut self, side: Side, samples: &[f32]) -> Result<()>;
    /// The frames of each bench that came of one block each.
    fn frames(&mut self, frames: &[Vec<Frame>; 2]) -> Result<()>;
    /// The bytes of these frames as the library packs them, of each bench in turn.
    fn after(&mut self, side: Side, bytes: &[u8]) -> Result<()>;
}

impl Sink for [Cleaned; 2] {
    fn before(&mut self, side: Side, samples: &[f32]) -> Result<()> {
        self[side as usize].before.extend(samples);
        Ok(())
    }

    fn after(&mut self, side: Side, bytes: &[u8]) -> Result<()> {
        self[side as usize].after.extend(Layout::CLEANED.samples(bytes, 0));
        Ok(())
    }

    fn frames(&mut self, frames: &[Vec<Frame>; 2]) -> Result<()> {
        for (bench, frames) in self.iter_mut().zip(frames) {
            bench.frames.extend(frames);
        }
        Ok(())
    }
}

/// How many frames a recording takes: one more than it fills, since what comes out of a frame belongs to the one
/// before it.
pub fn frames_of(samples: u64) -> u64 {
    if samples == 0 {
        0
    } else {
        samples.div_ceil(FRAME as u64) + 1
    }
}

/// A bench that the library refused, and at which of its samples.
#[derive(Clone, Copy, Debug, PartialEq)]
pub struct Refused {
    pub refusal: Refusal,
    pub sample: u64,
}

/// How far a bench has come: samples that were taken, and that came out.
#[derive(Default)]
struct Bench {
    taken: u64,
    given: u64,
    ended: bool,
    refused: Option<Refused>,
}

impl Bench {
    /// What the recorder is to take: the block, and behind the last one as much silence as fills the frames.
    fn taken(&mut self, block: Block) -> Block {
        self.taken += block.len() as u64;
        if !block.is_empty() {
            return block;
        }
        self.ended = true;
        Block::silence((frames_of(self.taken) * FRAME as u64 - self.taken) as usize)
    }

    /// Of what came out, what belongs to the recording: the first frame's output is what came before it.
    fn given<'a>(&mut self, out: &'a [u8]) -> &'a [u8] {
        let (first, size) = (self.given, Layout::CLEANED.size());
        self.given += (out.len() / size) as u64;
        let within = |place: u64| size * (place.clamp(first, self.given) - first) as usize;
        &out[within(FRAME as u64)..within(FRAME as u64 + self.taken)]
    }

    /// A refusal is the end of this bench, in front of what was refused.
    fn refused(&mut self, refusal: Refusal, block: usize) {
        self.taken -= block as u64;
        self.ended = true;
        self.refused = Some(Refused { refusal, sample: self.taken });
    }
}

/// Runs both benches, a block of each in turn, each with a model of its own. `progress` is told how many samples of
/// the longer one were taken. What was refused comes back; a fault is that nothing can be written any more.
pub fn run(
    source: &mut impl Source,
    models: [&[u8]; 2],
    way: Way,
    to: &mut impl Sink,
    mut progress: impl FnMut(u64),
) -> Result<[Option<Refused>; 2]> {
    let mut recorder = Recorder::new(way);
    let mut benches = [Bench::default(), Bench::default()];
    for ((side, bench), model) in Side::BOTH.into_iter().zip(&mut benches).zip(models) {
        recorder.open(side, model).unwrap_or_else(|refusal| bench.refused(refusal, 0));
    }
    while !benches.iter().all(|bench| bench.ended) {
        let (blocks, mut frames, mut outs) = (source.next(), [vec![], vec![]], [vec![], vec![]]);
        let each = Side::BOTH.into_iter().zip(&mut benches).zip(blocks);
        for ((side, bench), block) in each.filter(|((_, bench), _)| !bench.ended) {
            to.before(side, &block.samples())?;
            let (length, mut out) = (block.len(), Vec::new());
            let fed = recorder.feed(side, &bench.taken(block), models[side as usize], |frame, bytes| {
                frames[side as usize].push(frame);
                out.extend(bytes);
            });
            fed.unwrap_or_else(|refusal| bench.refused(refusal, length));
            outs[side as usize] = bench.given(&out).to_vec();
        }
        to.frames(&frames)?;
        for (side, out) in Side::BOTH.into_iter().zip(&outs) {
            to.after(side, out)?;
        }
        progress(benches.iter().map(|bench| bench.taken).max().unwrap_or(0));
    }
    Ok(benches.map(|bench| bench.refused))
}

/// Both recordings in memory.
pub fn in_memory(before: [&[f32]; 2], model: &[u8], way: Way) -> Result<[Cleaned; 2]> {
    let mut benches = Side::BOTH.map(Cleaned::of);
    let refused = run(&mut Memory(before), [model; 2], way, &mut benches, |_| ())?;
    match refused.into_iter().flatten().next() {
        Some(Refused { refusal, .. }) => Err(refusal.into()),
        None => Ok(benches),
    }
}
