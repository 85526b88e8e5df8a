//! The proved library held against the Rust text, group by group.
//!
//! Each group makes seeded inputs, lends them to both sides and compares the number returned and every lent buffer
//! afterwards, refused calls included. What is to be refused is worked out here, from the tables of refusals and not
//! from either side. All NaNs are taken alike, and both zeros where a maximum leaves their signs open. A refused call
//! must leave the very bits, and every call its inputs.

pub mod models;
pub mod plain_pcm;
pub mod plain_recording;
pub mod plain_sheet;
pub mod plain_wav;
pub mod reader;
pub mod rng;
#[cfg(feature = "frame")]
pub mod surface;
pub mod tally;

#[cfg(feature = "frame")]
pub mod answers;
#[cfg(feature = "frame")]
pub mod apart;
#[cfg(feature = "frame")]
pub mod ask;
#[cfg(feature = "bands")]
pub mod bands;
#[cfg(feature = "frame")]
pub mod beside;
#[cfg(feature = "blocks")]
pub mod blocks;
#[cfg(feature = "frame")]
pub mod cutting;
#[cfg(feature = "frame")]
pub mod desk;
#[cfg(feature = "frame")]
pub mod dictation;
#[cfg(feature = "frame")]
pub mod faults;
#[cfg(feature = "fft")]
pub mod fft;
#[cfg(feature = "finder")]
pub mod finder;
#[cfg(feature = "frame")]
pub mod frame;
#[cfg(feature = "lag")]
pub mod lag;
#[cfg(feature = "frame")]
pub mod lent;
#[cfg(feature = "logs")]
pub mod logs;
#[cfg(feature = "sheet")]
pub mod mend;
#[cfg(feature = "model")]
pub mod model;
#[cfg(feature = "network")]
pub mod network;
#[cfg(feature = "numbers")]
pub mod numbers;
#[cfg(feature = "pcm")]
pub mod pcm;
#[cfg(feature = "frame")]
pub mod pieces;
#[cfg(feature = "pitch")]
pub mod pitch;
#[cfg(feature = "recording")]
pub mod recording;
#[cfg(feature = "frame")]
pub mod shadow;
#[cfg(feature = "sheet")]
pub mod sheet;
#[cfg(feature = "transforms")]
pub mod transforms;
#[cfg(feature = "wav")]
pub mod wav;
#[cfg(feature = "frame")]
pub mod whole;
#[cfg(feature = "model")]
pub mod writer;

use nnnoiseless_text::probe::bands::Complex;

/// The 481 bins of 961 numbers: bin 0 is real.
pub fn bins(numbers: &[f32]) -> Vec<Complex> {
    let mut bins = vec![Complex { re: numbers[0], im: 0.0 }];
    bins.extend(numbers[1..].chunks_exact(2).map(|c| Complex { re: c[0], im: c[1] }));
    bins
}

/// What the command line says.
#[derive(Default)]
pub struct Options {
    /// How many calls; if none is said, as many as the gate makes.
    pub calls: Option<u64>,
    /// What the inputs are made from.
    pub seed: u64,
    /// All numbers that there are, of the groups that can.
    pub all: bool,
    /// A tenth of the calls that the gate makes.
    pub tenth: bool,
}

impl Options {
    /// The number of calls asked for, or the gate's, or a tenth of it.
    pub fn calls(&self, gate: u64) -> u64 {
        self.calls.unwrap_or(if self.tenth { gate / 10 } else { gate })
    }
}

/// A group's name, and what compares it.
pub type Group = (&'static str, fn(&Options) -> tally::Tally);

/// The groups whose functions stand in the static library.
pub const GROUPS: &[Group] = &[
    #[cfg(feature = "numbers")]
    ("numbers", numbers::compare),
    #[cfg(feature = "bands")]
    ("bands", bands::compare),
    #[cfg(feature = "pitch")]
    ("pitch", pitch::compare),
    #[cfg(feature = "lag")]
    ("lag", lag::compare),
    #[cfg(feature = "finder")]
    ("finder", finder::compare),
    #[cfg(feature = "transforms")]
    ("transforms", transforms::compare),
    #[cfg(feature = "fft")]
    ("fft", fft::compare),
    #[cfg(feature = "logs")]
    ("logs", logs::compare),
    #[cfg(feature = "model")]
    ("model", model::compare),
    #[cfg(feature = "sheet")]
    ("sheet", sheet::compare),
    #[cfg(feature = "model")]
    ("writer", writer::compare),
    #[cfg(feature = "sheet")]
    ("mend", mend::compare),
    #[cfg(feature = "wav")]
    ("wav", wav::compare),
    #[cfg(feature = "recording")]
    ("recording", recording::compare),
    #[cfg(feature = "pcm")]
    ("pcm", pcm::compare),
    #[cfg(feature = "network")]
    ("network", network::compare),
    #[cfg(feature = "frame")]
    ("frame", frame::compare),
    #[cfg(feature = "frame")]
    ("apart", apart::compare),
    #[cfg(feature = "frame")]
    ("pieces", pieces::compare),
    #[cfg(feature = "frame")]
    ("whole", whole::compare),
    #[cfg(feature = "blocks")]
    ("feed", blocks::compare),
];

/// The groups that there have to be. A group can be lost with a feature or a line, and a comparison that lacks one
/// shows less than it seems to: so they are listed a second time, here.
pub const EXPECTED: [&str; 21] = [
    "numbers",
    "bands",
    "pitch",
    "lag",
    "finder",
    "transforms",
    "fft",
    "logs",
    "model",
    "sheet",
    "writer",
    "mend",
    "wav",
    "recording",
    "pcm",
    "network",
    "frame",
    "apart",
    "pieces",
    "whole",
    "feed",
];

/// What is wrong with the groups of this program, if it is not made of exactly the expected ones.
pub fn wrong_groups() -> Option<String> {
    let here: Vec<&str> = GROUPS.iter().map(|group| group.0).collect();
    let missing: Vec<&str> = EXPECTED.into_iter().filter(|name| !here.contains(name)).collect();
    let unlisted: Vec<&str> = here.into_iter().filter(|name| !EXPECTED.contains(name)).collect();
    if !missing.is_empty() {
        return Some(format!("{} would not be compared: see GROUPS and the features of oracle/", missing.join(", ")));
    }
    (!unlisted.is_empty()).then(|| format!("{} is not listed in EXPECTED of oracle/src/lib.rs", unlisted.join(", ")))
}
