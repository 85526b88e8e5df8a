//! What cleaning a recording gave.

use crate::cleaning::first_voice::FirstVoice;
use crate::cleaning::measured::{within_frames, Measured};
use crate::cleaning::pauses::Pauses;
use crate::cleaning::recorder::{Frame, Heard, Side};
use crate::page::about::About;
use crate::page::overview::Overview;
use crate::reading::block::Layout;
use crate::{FRAME, RATE};

/// One bench's recording before and after, and what each frame was.
pub struct Cleaned {
    pub side: Side,
    pub before: Vec<f32>,
    pub after: Vec<f32>,
    pub frames: Vec<Frame>,
}

impl Cleaned {
    pub fn of(side: Side) -> Cleaned {
        Cleaned { side, before: Vec::new(), after: Vec::new(), frames: Vec::new() }
    }
}

/// Whether frames are missing between two that come one behind the other, by their numbers.
pub fn is_gap(pair: [u32; 2]) -> bool {
    pair[1] != pair[0].wrapping_add(1)
}

/// A voice is likely above this.
pub const LIKELY: f32 = 0.5;
/// The ends of a sample: one that stands there was cut off, or nearly.
const FULL_SCALE: [f32; 2] = [-32_768.0, 32_767.0];

/// Whether a sample stands at full scale.
fn is_full(x: f32) -> bool {
    x <= FULL_SCALE[0] || x >= FULL_SCALE[1]
}

/// A cleaned recording in short, which takes no more room for ten hours than for a minute.
pub struct Summary {
    pub side: Side,
    pub about: About,
    /// Those that came out: of a stream that breaks off, fewer than were taken.
    pub samples: u64,
    pub frames: u64,
    pub heard: u64,
    /// The number of frames in which a voice is likely.
    pub voices: u64,
    pub first_voice: FirstVoice,
    pub gaps: u64,
    /// The loudest sample as it was recorded, and how many stood at full scale.
    pub peak: f32,
    pub clipped: u64,
    pub pauses: Pauses,
    pub overview: Overview,
    taken: u64,
    last: Option<u32>,
}

impl Summary {
    pub fn of(side: Side) -> Summary {
        Summary {
            side,
            about: About::default(),
            samples: 0,
            frames: 0,
            heard: 0,
            voices: 0,
            first_voice: FirstVoice::default(),
            gaps: 0,
            peak: 0.0,
            clipped: 0,
            pauses: Pauses::default(),
            overview: Overview::default(),
            taken: 0,
            last: None,
        }
    }

    /// Of a recording that was cut from a stream. The network has settled, and the first frame brings audio already.
    pub fn cut(side: Side) -> Summary {
        let mut summary = Summary { first_voice: FirstVoice::settled(), ..Summary::of(side) };
        summary.pauses.frame(false);
        summary
    }

    pub fn seconds(&self) -> f64 {
        self.samples as f64 / f64::from(RATE)
    }

    /// When the first voice begins, in seconds.
    pub fn voice_at(&self) -> Option<f64> {
        let at = self.first_voice.begins()? as f64 * FRAME as f64 / f64::from(RATE);
        Some(at).filter(|at| *at < self.seconds())
    }

    /// Samples as they were recorded.
    pub fn before(&mut self, samples: &[f32]) {
        for (place, part) in within_frames(self.taken, samples.len()) {
            let measured = Measured::of(&samples[part.clone()]);
            let [low, high] = measured.ends;
            self.peak = self.peak.max(-low).max(high);
            if low <= FULL_SCALE[0] || high >= FULL_SCALE[1] {
                self.clipped += samples[part.clone()].iter().filter(|x| is_full(**x)).count() as u64;
            }
            self.pauses.before(&samples[part]);
            self.overview.part(place, &measured, |column| &mut column.before);
        }
        self.taken += samples.len() as u64;
    }

    /// Samples as they came out: the bytes that the library packs.
    pub fn after(&mut self, bytes: &[u8]) {
        let size = Layout::CLEANED.size();
        for (place, part) in within_frames(self.samples, bytes.len() / size) {
            let measured = Measured::of_bytes(&bytes[size * part.start..size * part.end]);
            self.pauses.after(&measured);
            self.overview.part(place, &measured, |column| &mut column.after);
        }
        self.samples += (bytes.len() / size) as u64;
    }

    pub fn frame(&mut self, frame: &Frame) {
        let gap = self.last.is_some_and(|last| is_gap([last, frame.number()]));
        let voice = matches!(frame.heard, Heard::Voice { probability, .. } if probability > LIKELY);
        self.last = Some(frame.number());
        self.frames += 1;
        self.heard += u64::from(frame.heard.is_heard());
        self.voices += u64::from(voice);
        self.first_voice.frame(voice);
        self.gaps += u64::from(gap);
        self.pauses.frame(voice);
        self.overview.frame(frame, gap);
    }
}

#[cfg(test)]
mod tests {
    use super::*;
    use crate::reading::block::packed;

    #[test]
    fn where_frames_are_missing() {
        let gaps = [[0, 1], [7, 100], [101, 99], [5, 5], [u32::MAX, 0]].map(is_gap);
        assert_eq!(gaps, [false, true, true, true, false]);
    }

    #[test]
    fn a_summary_counts() {
        let mut summary = Summary::of(Side::Left);
        let noise = Heard::Voice { probability: 0.5, energy: 1.0 };
        let voice = Heard::Voice { probability: 0.6, energy: 1.0 };
        for (number, heard) in [(7, Heard::Silent), (8, noise), (20, voice), (21, Heard::Silent), (23, voice)] {
            summary.frame(&Frame::of(Side::Left, number, heard, 0));
        }
        summary.before(&[1.0; 25_000]);
        summary.before(&[-32_768.0, 32_767.0, 32_766.0]);
        summary.after(&packed(&[1.0; 24_000]));
        assert_eq!((summary.frames, summary.heard, summary.gaps, summary.seconds()), (5, 3, 2, 0.5));
        // two likely frames are no voice
        assert_eq!((summary.voices, summary.voice_at()), (2, None));
        (0..45).for_each(|number| summary.frame(&Frame::of(Side::Left, number, voice, 0)));
        assert_eq!((summary.voices, summary.voice_at()), (47, Some(0.0)));
        assert_eq!((summary.peak, summary.clipped), (32_768.0, 2));
    }
}
