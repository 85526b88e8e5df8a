//! Where the first voice of a recording begins.

/// The frames of a quarter second. A voice begins with a likely frame if most of the quarter second from it on are
/// likely. A single frame may be a knock on the bench.
pub const QUARTER: u64 = 25;
const MOST: u32 = QUARTER as u32 / 2 + 1;
/// The network needs 0.3 s to settle: in its first frames it reports a voice in any noise. These frames don't count.
pub const SETTLING: u64 = 30;

/// The last quarter second: which of its frames were likely.
#[derive(Clone, Copy, Default)]
pub struct Quarter {
    /// The frames that have come.
    pub frames: u64,
    /// The lowest bit is the newest frame.
    likely: u64,
}

impl Quarter {
    /// The next frame, and whether a voice is likely in it. While there is a voice, that is, while most frames of the
    /// last quarter second are likely, the first likely one of these comes back.
    pub fn frame(&mut self, likely: bool) -> Option<u64> {
        self.likely = (self.likely << 1 | u64::from(likely)) & ((1 << QUARTER) - 1);
        let newest = self.frames;
        self.frames += 1;
        (self.likely.count_ones() >= MOST).then(|| newest - u64::from(self.likely.ilog2()))
    }
}

/// Looks for the first voice, frame by frame.
pub struct FirstVoice {
    quarter: Quarter,
    /// How many of the first frames don't count.
    settling: u64,
    /// The frame with which the voice begins.
    begins: Option<u64>,
    /// The newest likely frame of a voice.
    ends: Option<u64>,
}

/// Of a recording that begins with an opening.
impl Default for FirstVoice {
    fn default() -> FirstVoice {
        FirstVoice { quarter: Quarter::default(), settling: SETTLING, begins: None, ends: None }
    }
}

impl FirstVoice {
    /// Of a recording that was cut from a stream: the network has settled long ago.
    pub fn settled() -> FirstVoice {
        FirstVoice { settling: 0, ..FirstVoice::default() }
    }

    /// The next frame, and whether a voice is likely in it.
    pub fn frame(&mut self, likely: bool) {
        let counts = likely && self.quarter.frames >= self.settling;
        let voice = self.quarter.frame(counts);
        // a voice that is there already when the network has settled may have begun at any time before
        let early = |oldest: u64| if oldest == self.settling { 0 } else { oldest };
        self.begins = self.begins.or(voice.map(early));
        if voice.is_some() && counts {
            self.ends = Some(self.quarter.frames - 1);
        }
    }

    /// The number of the frame with which it begins, counted from the start of the recording.
    pub fn begins(&self) -> Option<u64> {
        self.begins
    }

    /// The number of the last frame of the last voice.
    pub fn ends(&self) -> Option<u64> {
        self.ends
    }
}

#[cfg(test)]
mod tests {
    use super::*;

    /// Where a voice begins, if these frames and no others are likely.
    fn begins(likely: impl Fn(u64) -> bool) -> Option<u64> {
        let mut first = FirstVoice::default();
        (0..400).for_each(|frame| first.frame(likely(frame)));
        first.begins()
    }

    #[test]
    fn most_frames_of_a_quarter_second() {
        assert_eq!(begins(|frame| frame >= 100), Some(100));
        assert_eq!(begins(|frame| (100..113).contains(&frame)), Some(100));
        assert_eq!(begins(|frame| (100..112).contains(&frame)), None);
        // 13 frames within 25, and within 26
        assert_eq!(begins(|frame| frame == 100 || (113..125).contains(&frame)), Some(100));
        assert_eq!(begins(|frame| frame == 100 || (114..126).contains(&frame)), None);
        // a knock before the voice is no part of it
        assert_eq!(begins(|frame| (60..70).contains(&frame) || frame >= 200), Some(200));
        assert_eq!(begins(|frame| frame == 80 || frame >= 100), Some(100));
    }

    /// The first frames don't count. A voice that is there when they are over is early rather than late.
    #[test]
    fn while_the_network_settles() {
        assert_eq!(begins(|frame| frame < 30), None);
        assert_eq!(begins(|frame| !(30..50).contains(&frame)), Some(50));
        assert_eq!(begins(|frame| frame >= 10), Some(0));
        assert_eq!(begins(|frame| frame >= 31), Some(31));
    }

    /// In a recording that was cut from a stream every frame counts.
    #[test]
    fn after_a_cut() {
        for begins in [0, 1, 10, 29, 30, 50] {
            let mut first = FirstVoice::settled();
            let voices = |frame: u64| (begins..begins + 20).contains(&frame) || (150..170).contains(&frame);
            // a knock behind it is no voice
            (0..300).for_each(|frame| first.frame(voices(frame) || frame == 200));
            assert_eq!((first.begins(), first.ends()), (Some(begins), Some(169)));
        }
    }
}
