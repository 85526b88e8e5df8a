//! One bench with a store of its own.

use crate::{feed, open, open_crate, place, take, Refusal, ANSWERS, FRAME, FRAMES, NOTE, RECORD, STORE};

/// What the library says of a frame.
#[derive(Clone, Copy, Debug, PartialEq)]
pub struct Answer {
    /// Whether something was heard; a silent frame is all but silence.
    pub heard: bool,
    /// How likely it has a voice, 0 to 1.
    pub voice: f32,
    /// Its energy.
    pub energy: f32,
}

/// How a recorded sample is written, little end first.
#[derive(Clone, Copy, Debug, PartialEq, Eq)]
pub enum Format {
    /// 16-bit integers.
    Bits16,
    /// 24-bit integers.
    Bits24,
    /// 32-bit floats, of which 1.0 is full scale.
    Float,
    /// 32-bit integers.
    Bits32,
}

impl Format {
    /// The number by which the library knows it.
    fn number(self) -> u32 {
        match self {
            Format::Bits16 => 16,
            Format::Bits24 => 24,
            Format::Float => 32,
            Format::Bits32 => 33,
        }
    }
}

/// A block of recorded bytes, of which one channel is the bench's.
#[derive(Clone, Copy, Debug)]
pub struct Block<'a> {
    /// Whole samples of all channels in turn: 1 to 4,096 for each channel.
    pub bytes: &'a [u8],
    pub format: Format,
    /// How many channels there are, 1 to 64.
    pub channels: u32,
    /// Which of them is the bench's, counted from 0.
    pub channel: u32,
}

/// What a take gives: the frames that its samples completed.
#[derive(Clone, Copy, Debug)]
pub struct Taken<'a> {
    /// The cleaned samples, 480 for each frame.
    pub samples: &'a [f32],
    answers: &'a [f32],
}

/// What a feed gives: the frames that its block completed.
#[derive(Clone, Copy, Debug)]
pub struct Fed<'a> {
    /// The cleaned samples as 16-bit integers, 960 bytes for each frame.
    pub cleaned: &'a [u8],
    /// The frames' records of the side sheet, 8 bytes each: four bytes of the frame's number, little end first; 1 if it
    /// was heard, else 0; the bench's side, 0 left and 1 right; and two zeros.
    pub records: &'a [[u8; NOTE]],
    answers: &'a [f32],
}

/// The answers of frames in a row.
fn frames(answers: &[f32]) -> impl Iterator<Item = Answer> + '_ {
    answers.chunks_exact(ANSWERS).map(|of| Answer { heard: of[0] != 0.0, voice: of[1], energy: of[2] })
}

impl Taken<'_> {
    /// What the library says of each frame.
    pub fn answers(&self) -> impl Iterator<Item = Answer> + '_ {
        frames(self.answers)
    }
}

impl Fed<'_> {
    /// What the library says of each frame.
    pub fn answers(&self) -> impl Iterator<Item = Answer> + '_ {
        frames(self.answers)
    }
}

/// One bench: it cleans what one microphone records. It has a store of its own (384 KiB), so any number of benches can
/// be used side by side, in any threads.
#[derive(Clone)]
pub struct Bench {
    number: u32,
    record: [u32; RECORD],
    store: Vec<f32>,
    model: Vec<u8>,
    out: [f32; FRAMES * FRAME],
    cleaned: [u8; 2 * FRAMES * FRAME],
    records: [[u8; NOTE]; FRAMES],
    answers: [f32; ANSWERS * FRAMES],
}

/// An opening of the library: of a bench's record and store, with its number and a model.
type Opening = fn(&mut [u32], &mut [f32], u32, &[u8]) -> u32;

impl Bench {
    fn opened(number: u32, model: &[u8], opening: Opening) -> Result<Bench, Refusal> {
        let (mut record, mut store) = ([0; RECORD], vec![0.0; STORE]);
        Refusal::check(opening(&mut record, &mut store, number, model))?;
        Ok(Bench {
            number,
            record,
            store,
            model: model.into(),
            out: [0.0; FRAMES * FRAME],
            cleaned: [0; 2 * FRAMES * FRAME],
            records: [[0; NOTE]; FRAMES],
            answers: [0.0; ANSWERS * FRAMES],
        })
    }

    /// Opens bench `number`, 0 to 15, with the bytes of a model file. It finds pitch as nnnoiseless does, with fast
    /// transforms. Even numbers are left benches, odd ones right.
    pub fn open(number: u32, model: &[u8]) -> Result<Bench, Refusal> {
        Bench::opened(number, model, open_crate)
    }

    /// The same with our own, simpler pitch finder and plain transforms, which take several times as long.
    pub fn open_own(number: u32, model: &[u8]) -> Result<Bench, Refusal> {
        Bench::opened(number, model, open)
    }

    /// How many frames were completed before and after a call.
    fn completed(&self, before: u32) -> usize {
        self.record[place::FRAMES].wrapping_sub(before) as usize
    }

    /// Cleans 1 to 4,096 samples, from −32,768 to 32,767, and gives the frames that they complete. Samples that are
    /// left over wait for the next call.
    pub fn take(&mut self, samples: &[f32]) -> Result<Taken<'_>, Refusal> {
        let before = self.record[place::FRAMES];
        let (record, store) = (&mut self.record, &mut self.store);
        let number = take(record, store, self.number, samples, &self.model, &mut self.out, &mut self.answers);
        Refusal::check(number)?;
        let frames = self.completed(before);
        Ok(Taken { samples: &self.out[..FRAME * frames], answers: &self.answers[..ANSWERS * frames] })
    }

    /// Cleans the bench's channel of a block of recorded bytes, and gives the frames that it completes.
    pub fn feed(&mut self, block: Block) -> Result<Fed<'_>, Refusal> {
        let before = self.record[place::FRAMES];
        let Block { bytes, format, channels, channel } = block;
        Refusal::check(feed(
            &mut self.record,
            &mut self.store,
            self.number,
            bytes,
            format.number(),
            channels,
            channel,
            &self.model,
            &mut self.cleaned,
            self.records.as_flattened_mut(),
            &mut self.answers,
        ))?;
        let frames = self.completed(before);
        Ok(Fed {
            cleaned: &self.cleaned[..2 * FRAME * frames],
            records: &self.records[..frames],
            answers: &self.answers[..ANSWERS * frames],
        })
    }

    /// Frames since the opening.
    pub fn frames(&self) -> u32 {
        self.record[place::FRAMES]
    }

    /// Frames since the opening in which something was heard.
    pub fn heard(&self) -> u32 {
        self.record[place::HEARD]
    }

    /// Samples that wait for the next call, at most 479.
    pub fn waiting(&self) -> u32 {
        self.record[place::WAITING]
    }
}
