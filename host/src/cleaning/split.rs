//! Where a bench's stream is cut into dictations. What is decided hangs on that bench's own answers alone, so no other
//! bench can move a cut.

use crate::cleaning::first_voice::{Quarter, QUARTER, SETTLING};

/// The frames of a second.
const SECOND: f64 = 100.0;
/// A dictation begins half a second before its first voice. What comes out of a frame belongs to the one before it, so
/// a dictation's first frame comes 49 frames before that of its first voice, and its sound 50.
const LEAD: u64 = 49;
/// The shortest pause between two dictations, in seconds, and the longest.
pub const PAUSES: [f64; 2] = [1.0, 3_600.0];

/// Decides, frame by frame, with which frames a dictation begins.
pub struct Cutter {
    /// The frames without a voice after which a dictation is over.
    pause: u64,
    quarter: Quarter,
    /// The newest frame of which it is certain that a voice was in the quarter second up to it.
    last_voice: Option<u64>,
}

impl Cutter {
    /// A dictation is over after this many seconds without a voice.
    pub fn new(seconds: f64) -> Cutter {
        let pause = (seconds.clamp(PAUSES[0], PAUSES[1]) * SECOND).ceil() as u64;
        Cutter { pause, quarter: Quarter::default(), last_voice: None }
    }

    /// The next frame, and whether a voice is likely in it. If it is now certain that a dictation begins, the number of
    /// its first frame, counted from the opening. What lies before that frame belongs to the dictation before it.
    pub fn frame(&mut self, likely: bool) -> Option<u64> {
        let newest = self.quarter.frames;
        let begins = self.quarter.frame(likely && newest >= SETTLING)?;
        let last = self.last_voice.replace(newest);
        last.filter(|last| begins >= last + self.pause).map(|_| first_frame(begins))
    }

    /// Frames before this one belong to the dictation that is under way, whatever comes: a later cut is not before it.
    pub fn settled(&self) -> u64 {
        let frames = self.quarter.frames;
        // before the first voice there is nothing to cut off
        let Some(last) = self.last_voice else { return frames };
        let next_voice = (last + self.pause).max(frames.saturating_sub(QUARTER - 1));
        (first_frame(next_voice) - 1).min(frames)
    }
}

/// The first frame of a dictation whose voice begins with this one. A recording whose first frame has the number 0 is
/// one that begins with an opening, so where the numbers, which have 32 bits, begin again, a dictation begins a frame
/// earlier.
fn first_frame(voice: u64) -> u64 {
    let first = voice - LEAD;
    first - u64::from(first as u32 == 0)
}

#[cfg(test)]
mod tests {
    use super::*;
    use crate::cleaning::demo::Rng;

    /// The cuts of a stream in which these frames and no others are likely. Each cut stands at or behind what was
    /// settled before it, and what is settled never waits for more than three quarters of a second.
    fn cuts(seconds: f64, frames: u64, likely: impl Fn(u64) -> bool) -> Vec<u64> {
        let (mut cutter, mut settled, mut found) = (Cutter::new(seconds), 0, vec![]);
        for frame in 0..frames {
            if let Some(cut) = cutter.frame(likely(frame)) {
                assert!(cut >= settled && cut <= frame, "{cut} is not from {settled} to {frame}");
                found.push(cut);
            }
            let now = cutter.settled();
            assert!(now >= settled && now <= frame + 1 && now + 75 > frame, "{now} is settled at {frame}");
            settled = now;
        }
        found
    }

    #[test]
    fn half_a_second_before_the_first_voice() {
        let voices = |frame: u64| (100..300).contains(&frame) || (900..1_000).contains(&frame);
        // its sound begins at the frame before, which is 850
        assert_eq!(cuts(5.0, 2_000, voices), [851]);
        // the voice lasts until frame 299, and until 311 most frames of a quarter second are likely
        assert_eq!(cuts(5.88, 2_000, voices), [851]);
        assert_eq!(cuts(5.90, 2_000, voices), []);
        // silence at the beginning belongs to the first dictation, and silence at the end to the last
        assert_eq!(cuts(1.0, 9_000, |frame| (6_000..6_100).contains(&frame)), []);
        assert_eq!(cuts(1.0, 9_000, |_| false), []);
        assert_eq!(cuts(1.0, 9_000, |_| true), []);
    }

    /// A knock is no voice: it neither begins a dictation nor keeps one going.
    #[test]
    fn a_knock_cuts_nothing() {
        let knocks = |frame: u64| (100..200).contains(&frame) || (frame > 300 && frame % 40 < 8);
        assert_eq!(cuts(1.0, 3_000, knocks), []);
        let then = |frame: u64| knocks(frame) && frame < 1_500 || frame >= 2_000;
        assert_eq!(cuts(5.0, 3_000, then), [1_951]);
    }

    /// What the network reports while it settles is no voice.
    #[test]
    fn while_the_network_settles() {
        assert_eq!(cuts(1.0, 900, |frame| !(30..500).contains(&frame)), []);
    }

    /// Each voice that comes after a pause begins a dictation, and no other does.
    #[test]
    fn any_number_of_dictations() {
        let mut rng = Rng(7);
        for _ in 0..200 {
            let (mut at, mut voices, mut wanted) = (100, vec![], vec![]);
            for number in 0..10 {
                let length = 20 + rng.draw() % 200;
                voices.push(at..at + length);
                // the voice is over 12 frames behind its last one: then no more than 12 of 25 are likely
                let pause = if rng.draw() & 1 == 0 { 30 + rng.draw() % 250 } else { 312 + rng.draw() % 500 };
                at += length + pause;
                if number < 9 && pause > 311 {
                    wanted.push(at - LEAD);
                }
            }
            assert_eq!(cuts(3.0, at, |frame| voices.iter().any(|voice| voice.contains(&frame))), wanted);
        }
    }

    /// No dictation begins with a frame whose number is 0.
    #[test]
    fn numbers_that_begin_again() {
        const AGAIN: u64 = 1 << 32;
        for (voice, wanted) in [(48, AGAIN - 1), (49, AGAIN - 1), (50, AGAIN + 1), (51, AGAIN + 2)] {
            let mut cutter = Cutter::new(1.0);
            cutter.quarter.frames = AGAIN - 500;
            let likely = |frame: u64| frame < AGAIN - 400 || frame >= AGAIN + voice;
            let mut settled = 0;
            let cuts: Vec<u64> = (AGAIN - 500..AGAIN + 500)
                .filter_map(|frame| {
                    let cut = cutter.frame(likely(frame));
                    assert!(cut.is_none_or(|cut| cut >= settled));
                    settled = cutter.settled();
                    cut
                })
                .collect();
            assert_eq!(cuts, [wanted]);
        }
    }
}
