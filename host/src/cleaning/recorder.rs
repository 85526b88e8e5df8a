//! Both benches over one store: its first two of sixteen.

use crate::reading::block::Block;
use crate::telling::refusal::{done, Refusal};
use crate::FRAME;
use std::time::{Duration, Instant};

pub use tuppence::place::{FRAMES, HEARD};
pub use tuppence::{PIECE, RECORD, STORE};

/// The most frames that a block may complete.
const COMPLETED: usize = tuppence::FRAMES;
/// The bytes of a frame that was cleaned.
const CLEANED: usize = 2 * FRAME;
/// The bytes of a frame's record in the side sheet.
pub const NOTE: usize = tuppence::NOTE;

/// The two benches.
#[derive(Clone, Copy, Debug, PartialEq)]
pub enum Side {
    Left,
    Right,
}

impl Side {
    pub const BOTH: [Side; 2] = [Side::Left, Side::Right];

    pub fn name(self) -> &'static str {
        match self {
            Side::Left => "left",
            Side::Right => "right",
        }
    }

    pub fn other(self) -> Side {
        match self {
            Side::Left => Side::Right,
            Side::Right => Side::Left,
        }
    }
}

/// A bench's way, which its opening settles: the crate's own finder and the fast transforms; or what requests 04 and 08
/// ask, our own lag and the plain sums.
#[derive(Clone, Copy, Debug, Default, PartialEq)]
pub enum Way {
    #[default]
    Nnnoiseless,
    Own,
}

impl Way {
    /// Opens a bench in this way. A refused opening changes nothing.
    pub fn open(self, record: &mut [u32], store: &mut [f32], side: u32, model: &[u8]) -> Result<(), Refusal> {
        done(match self {
            Way::Nnnoiseless => tuppence::open_crate(record, store, side, model),
            Way::Own => tuppence::open(record, store, side, model),
        })
    }
}

/// What a frame gave besides its 480 samples.
#[derive(Clone, Copy, Debug, PartialEq)]
pub enum Heard {
    Silent,
    Voice { probability: f32, energy: f32 },
}

impl Heard {
    /// By the three numbers that the library answers.
    pub fn of([heard, probability, energy]: [f32; 3]) -> Heard {
        if heard == 0.0 {
            Heard::Silent
        } else {
            Heard::Voice { probability, energy }
        }
    }

    pub fn is_heard(self) -> bool {
        matches!(self, Heard::Voice { .. })
    }

    /// The voice's probability; the Rust has 0 for a silent frame.
    pub fn voice(self) -> f32 {
        match self {
            Heard::Silent => 0.0,
            Heard::Voice { probability, .. } => probability,
        }
    }
}

/// A frame by its record in the side sheet, as the library wrote it, and what it was.
#[derive(Clone, Copy, Debug, PartialEq)]
pub struct Frame {
    pub record: [u8; NOTE],
    pub heard: Heard,
    /// How many frames were heard since the opening, this one among them.
    pub heard_so_far: u32,
}

impl Frame {
    /// A frame of a side with this number. The library writes its record.
    pub fn of(side: Side, number: u32, heard: Heard, heard_so_far: u32) -> Frame {
        let (mut record, entry) = ([0; NOTE], u64::from(number) | u64::from(heard.is_heard()) << 32);
        let refused = tuppence::sheet_records(&mut [0; 2], &mut record, side as u32, &[entry]);
        assert_eq!(refused, 0, "a side, and one entry");
        Frame { record, heard, heard_so_far }
    }

    /// From 0 at the opening.
    pub fn number(&self) -> u32 {
        let [a, b, c, d, ..] = self.record;
        u32::from_le_bytes([a, b, c, d])
    }
}

/// What comes of a block, for whichever bench calls.
struct Buffers {
    cleaned: [[u8; CLEANED]; COMPLETED],
    notes: [[u8; NOTE]; COMPLETED],
    answers: [[f32; 3]; COMPLETED],
}

/// One store, and a record for each bench.
pub struct Recorder {
    way: Way,
    store: Vec<f32>,
    records: [[u32; RECORD]; 2],
    buffers: Box<Buffers>,
    /// The time that the library took.
    pub spent: Duration,
}

impl Default for Recorder {
    fn default() -> Recorder {
        Recorder::new(Way::default())
    }
}

impl Recorder {
    pub fn new(way: Way) -> Recorder {
        Recorder {
            way,
            store: vec![0.0; STORE],
            records: [[0; RECORD]; 2],
            buffers: Box::new(Buffers {
                cleaned: [[0; CLEANED]; COMPLETED],
                notes: [[0; NOTE]; COMPLETED],
                answers: [[0.0; 3]; COMPLETED],
            }),
            spent: Duration::ZERO,
        }
    }

    /// Opens a bench: what it held is wiped. A refused opening changes nothing.
    pub fn open(&mut self, side: Side, model: &[u8]) -> Result<(), Refusal> {
        self.way.open(&mut self.records[side as usize], &mut self.store, side as u32, model)
    }

    /// A bench's channel of a block, handed in as the bytes that it is. `each` is given the frames that it completes,
    /// and the bytes of each.
    pub fn feed(
        &mut self,
        side: Side,
        block: &Block,
        model: &[u8],
        mut each: impl FnMut(Frame, &[u8]),
    ) -> Result<(), Refusal> {
        let most = PIECE * block.layout.size();
        block.bytes().chunks(most).try_for_each(|bytes| self.block(side, bytes, block, model, &mut each))
    }

    /// These bytes of a block in one call.
    fn block(
        &mut self,
        side: Side,
        bytes: &[u8],
        of: &Block,
        model: &[u8],
        each: &mut dyn FnMut(Frame, &[u8]),
    ) -> Result<(), Refusal> {
        let Recorder { store, records, buffers: b, spent, .. } = self;
        let (record, number) = (&mut records[side as usize], side as u32);
        let (before, mut heard_so_far) = (record[FRAMES], record[HEARD]);
        let (format, channels, channel) = (of.layout.format, of.layout.channels, of.channel);
        let (out, notes, answers) =
            (b.cleaned.as_flattened_mut(), b.notes.as_flattened_mut(), b.answers.as_flattened_mut());
        let start = Instant::now();
        let refused =
            tuppence::feed(record, store, number, bytes, format, channels, channel, model, out, notes, answers);
        *spent += start.elapsed();
        done(refused)?;
        let frames = b.cleaned.iter().zip(b.notes).zip(b.answers).take(record[FRAMES].wrapping_sub(before) as usize);
        for ((bytes, note), answer) in frames {
            let heard = Heard::of(answer);
            heard_so_far = heard_so_far.wrapping_add(u32::from(heard.is_heard()));
            each(Frame { record: note, heard, heard_so_far }, bytes);
        }
        Ok(())
    }
}
