//! The lengths that the library's functions ask for. tools/make_header.sh compares the first five with the crates.

/// Benches that one store serves: 0 to 15. Even ones are left, odd ones right.
pub const BENCHES: usize = 16;
/// Numbers of one bench's share of the store.
pub const SHARE: usize = 6_144;
/// Numbers of the store.
pub const STORE: usize = BENCHES * SHARE;
/// Numbers of a bench's record.
pub const RECORD: usize = 12;
/// Samples of a frame, 10 ms at 48 kHz.
pub const FRAME: usize = 480;
/// The most samples that a piece, a take or a feed is given.
pub const PIECE: usize = 4_096;
/// The most frames that a piece completes, together with the 479 samples that may wait.
pub const FRAMES: usize = 9;
/// Answers for each frame: heard (1) or silent (0), how likely it has a voice, and its energy.
pub const ANSWERS: usize = 3;
/// The bytes of a frame's record in the side sheet.
pub const NOTE: usize = 8;

/// Where a record has each of its numbers.
pub mod place {
    /// The call that is due: 0 for a closed bench, 1 to 4 for an open one.
    pub const DUE: usize = 0;
    /// The cepstral index, 0 to 7.
    pub const INDEX: usize = 1;
    /// The neurons of the three GRU layers: vad, noise and denoise.
    pub const COUNTS: std::ops::Range<usize> = 2..5;
    /// Frames since the opening.
    pub const FRAMES: usize = 5;
    /// Frames since the opening in which something was heard.
    pub const HEARD: usize = 6;
    /// Samples that wait for the next piece.
    pub const WAITING: usize = 7;
    /// The length of an unfinished piece, or 0.
    pub const UNFINISHED: usize = 8;
    /// How many samples of that piece are in frames.
    pub const PROGRESS: usize = 9;
    /// 0 for our own lag and transforms, 1 for nnnoiseless's.
    pub const WAY: usize = 10;
    /// The bench's number plus 1, or 0 in a closed record.
    pub const BENCH: usize = 11;
}
