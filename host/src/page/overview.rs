//! A recording in a limited number of columns, however long it is: where all are taken, every two become one.

use crate::cleaning::measured::Measured;
use crate::cleaning::recorder::{Frame, Heard};
use crate::FRAME;

/// The most columns.
pub const MOST: usize = 1_000;

/// How loud some frames in a row are: the sums of their ends and of their samples' squares.
#[derive(Clone, Copy, Debug, Default, PartialEq)]
pub struct Loudness {
    ends: [f64; 2],
    frames: u64,
    squares: f64,
    samples: u64,
    /// The ends of the last frame, which may go on.
    last: [f32; 2],
}

impl Loudness {
    /// Samples of one frame: its first, or those behind them.
    fn add(&mut self, part: &Measured, begins: bool) {
        let before = if begins { [0.0; 2] } else { self.last };
        self.last = [before[0].min(part.ends[0]), before[1].max(part.ends[1])];
        for (sum, (now, then)) in self.ends.iter_mut().zip(self.last.iter().zip(before)) {
            *sum += f64::from(*now) - f64::from(then);
        }
        self.frames += u64::from(begins);
        self.squares += part.squares;
        self.samples += part.samples as u64;
    }

    fn joined(self, other: Loudness) -> Loudness {
        Loudness {
            ends: [self.ends[0] + other.ends[0], self.ends[1] + other.ends[1]],
            frames: self.frames + other.frames,
            squares: self.squares + other.squares,
            samples: self.samples + other.samples,
            last: other.last,
        }
    }

    /// The least and the largest sample of a frame, the mean over the frames; 0 lies between them.
    pub fn peak(&self) -> [f32; 2] {
        self.ends.map(|sum| (sum / self.frames.max(1) as f64) as f32)
    }

    /// The root of the mean square.
    pub fn rms(&self) -> f32 {
        (self.squares / self.samples.max(1) as f64).sqrt() as f32
    }
}

/// Some frames in a row.
#[derive(Clone, Copy, Debug, Default, PartialEq)]
pub struct Column {
    pub before: Loudness,
    pub after: Loudness,
    frames: u64,
    heard: u64,
    /// The sum of the frames' likelihoods of a voice.
    likely: f64,
    /// Whether frames are missing in front of one of its own.
    pub gap: bool,
}

impl Column {
    fn joined(self, other: Column) -> Column {
        Column {
            before: self.before.joined(other.before),
            after: self.after.joined(other.after),
            frames: self.frames + other.frames,
            heard: self.heard + other.heard,
            likely: self.likely + other.likely,
            gap: self.gap || other.gap,
        }
    }

    /// Whether at least half of its frames were heard.
    pub fn is_heard(&self) -> bool {
        self.heard > 0 && 2 * self.heard >= self.frames
    }

    /// How likely a voice is, from 0 to 1: the mean over its frames, of which a silent one has none.
    pub fn likelihood(&self) -> f64 {
        self.likely / self.frames.max(1) as f64
    }
}

/// The columns so far, and how many frames each has.
pub struct Overview {
    pub wide: u64,
    pub columns: Vec<Column>,
}

impl Default for Overview {
    fn default() -> Overview {
        Overview { wide: 1, columns: Vec::new() }
    }
}

impl Overview {
    /// The column that a frame belongs to.
    fn at(&mut self, frame: u64) -> &mut Column {
        while frame / self.wide >= MOST as u64 {
            let pair = |pair: &[Column]| pair.iter().fold(Column::default(), |a, b| a.joined(*b));
            self.columns = self.columns.chunks(2).map(pair).collect();
            self.wide *= 2;
        }
        let column = (frame / self.wide) as usize;
        if self.columns.len() <= column {
            self.columns.resize(column + 1, Column::default());
        }
        &mut self.columns[column]
    }

    /// Samples of one frame from a place on, into either strip.
    pub fn part(&mut self, place: u64, part: &Measured, strip: fn(&mut Column) -> &mut Loudness) {
        strip(self.at(place / FRAME as u64)).add(part, place.is_multiple_of(FRAME as u64));
    }

    pub fn frame(&mut self, frame: &Frame, gap: bool) {
        let column = self.at(frame.number().into());
        column.frames += 1;
        column.gap |= gap;
        if let Heard::Voice { probability, .. } = frame.heard {
            column.heard += 1;
            // a model may answer with any number, and what is none counts as 0
            let probability = if probability.is_nan() { 0.0 } else { probability };
            column.likely += f64::from(probability.clamp(0.0, 1.0));
        }
    }
}

#[cfg(test)]
mod tests {
    use super::*;
    use crate::cleaning::measured::within_frames;
    use crate::cleaning::recorder::Side;

    /// Samples from a place on, into either strip.
    fn add(overview: &mut Overview, place: u64, samples: &[f32], strip: fn(&mut Column) -> &mut Loudness) {
        within_frames(place, samples.len())
            .for_each(|(at, part)| overview.part(at, &Measured::of(&samples[part]), strip));
    }

    fn voice(number: u32) -> Frame {
        Frame::of(Side::Left, number, Heard::Voice { probability: 0.9, energy: 1.0 }, 0)
    }

    /// Ten hours take no more columns than ten seconds, and nothing that happened once is lost.
    #[test]
    fn ten_hours_in_a_thousand_columns() {
        let mut overview = Overview::default();
        for number in 0..3_600_000 {
            let heard = if number % 3_600 < 1_200 { voice(0).heard } else { Heard::Silent };
            overview.frame(&Frame::of(Side::Left, number, heard, 0), number == 77_777);
            assert!(overview.columns.len() <= MOST);
        }
        add(&mut overview, 1_000_000_320, &[-5.0, 9.0], |column| &mut column.after);
        assert!(overview.columns.len() > MOST / 2 && overview.wide == 4_096);
        assert_eq!(overview.columns.iter().map(|c| c.frames).sum::<u64>(), 3_600_000);
        assert_eq!(overview.columns.iter().map(|c| c.heard).sum::<u64>(), 1_200_000);
        let gaps: Vec<usize> = (0..overview.columns.len()).filter(|i| overview.columns[*i].gap).collect();
        assert_eq!(gaps, [77_777 / 4_096]);
        let after = overview.columns[1_000_000_320 / 480 / 4_096].after;
        assert_eq!((after.peak(), after.rms()), ([-5.0, 9.0], 53.0f32.sqrt()));
    }

    /// While there is room each frame has its own column.
    #[test]
    fn a_short_recording_is_exact() {
        let mut overview = Overview::default();
        overview.frame(&voice(0), false);
        overview.frame(&Frame::of(Side::Left, 1, Heard::Silent, 1), false);
        add(&mut overview, 0, &[0.0; 470], |column| &mut column.before);
        let more = [1.0, -1.0, 2.0, 3.0, 4.0, 5.0, 6.0, 7.0, 8.0, 9.0, -2.0];
        add(&mut overview, 470, &more, |column| &mut column.before);
        assert_eq!(overview.columns[0].likelihood(), f64::from(0.9f32));
        assert_eq!((overview.columns[1].likelihood(), overview.columns[1].is_heard()), (0.0, false));
        assert_eq!((overview.columns[0].before.peak(), overview.columns[1].before.peak()), ([-1.0, 9.0], [-2.0, 0.0]));
        assert_eq!(overview.columns[1].before.rms(), 2.0);
    }

    /// Where a column has many frames its peak is the mean of theirs, however the samples come.
    #[test]
    fn the_peak_of_many_frames() {
        let sound: Vec<f32> = (0..4_000 * 480).map(|i| if i / 480 % 2 == 0 { 30.0 } else { -10.0 }).collect();
        for block in [480, 1_000, 4_096, sound.len()] {
            let (mut overview, mut place) = (Overview::default(), 0);
            for samples in sound.chunks(block) {
                add(&mut overview, place, samples, |column| &mut column.before);
                place += samples.len() as u64;
            }
            assert_eq!((overview.wide, overview.columns.len()), (4, 1_000));
            assert!(overview.columns.iter().all(|column| column.before.peak() == [-5.0, 15.0]), "{block}");
            assert!(overview.columns.iter().all(|column| (column.before.rms() - 500.0f32.sqrt()).abs() < 1e-3));
        }
    }
}
