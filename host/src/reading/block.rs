//! Recorded bytes on their way to the library, which takes a bench's channel of them as it is. This program looks at
//! their samples to draw and to measure, and has the library unpack them for that.

use std::rc::Rc;

/// How samples stand in bytes: a format, by its bits as the library has it, and so many channels by turns.
#[derive(Clone, Copy, Debug, PartialEq)]
pub struct Layout {
    pub format: u32,
    pub channels: u32,
}

impl Layout {
    /// What the library packs: one channel of 16 bits.
    pub const CLEANED: Layout = Layout { format: 16, channels: 1 };
    /// One channel of floats.
    const FLOATS: Layout = Layout { format: 32, channels: 1 };

    /// The bytes of a sample of each channel.
    pub fn size(self) -> usize {
        (self.format / 8 * self.channels) as usize
    }

    /// The samples of a channel, in so many bytes as whole samples of each have.
    pub fn samples(self, bytes: &[u8], channel: u32) -> Vec<f32> {
        let mut samples = vec![0.0; bytes.len() / self.size()];
        assert_eq!(tuppence::unpack(&mut samples, bytes, self.format, self.channels, channel), 0, "whole samples");
        samples
    }
}

/// Whether a sample of a format lies beyond what the library takes, which clips it there. (None of 16 bits does.)
fn is_beyond(format: u32, sample: &[u8]) -> bool {
    match (format, sample) {
        (24, &[a, b, c]) => i32::from_le_bytes([0, a, b, c]) > 0x7FFF_0000,
        (33, &[a, b, c, d]) => i32::from_le_bytes([a, b, c, d]) > 0x7FFF_0000,
        (32, &[a, b, c, d]) => !(-1.0..=32_767.0 / 32_768.0).contains(&f32::from_le_bytes([a, b, c, d])),
        _ => false,
    }
}

/// Whether a sample of a format is NaN or infinite: only a float can be, and the library leaves it as it is.
fn is_broken(format: u32, sample: &[u8]) -> bool {
    matches!((format, sample), (32, &[a, b, c, d]) if !f32::from_le_bytes([a, b, c, d]).is_finite())
}

/// Samples as the library packs them.
pub fn packed(samples: &[f32]) -> Vec<u8> {
    let mut bytes = vec![0; Layout::CLEANED.size() * samples.len()];
    assert_eq!(tuppence::pack(&mut bytes, samples), 0, "two bytes for each");
    bytes
}

/// A block of a recording as it was read, and which of its channels is a bench's own: two benches in one recording have
/// the same bytes.
#[derive(Clone, Debug)]
pub struct Block {
    bytes: Rc<[u8]>,
    pub layout: Layout,
    pub channel: u32,
    length: usize,
}

impl Block {
    /// Of bytes that are whole samples of each channel.
    pub fn new(bytes: Rc<[u8]>, layout: Layout, channel: u32) -> Block {
        let length = bytes.len() / layout.size();
        Block { bytes, layout, channel, length }
    }

    /// So many samples of silence.
    pub fn silence(length: usize) -> Block {
        Block::new(vec![0; Layout::CLEANED.size() * length].into(), Layout::CLEANED, 0)
    }

    /// Samples that are in memory, as floats.
    pub fn of(samples: &[f32]) -> Block {
        let bytes: Vec<u8> = samples.iter().flat_map(|x| (x / 32_768.0).to_le_bytes()).collect();
        Block::new(bytes.into(), Layout::FLOATS, 0)
    }

    /// How many samples the bench has in it.
    pub fn len(&self) -> usize {
        self.length
    }

    pub fn is_empty(&self) -> bool {
        self.length == 0
    }

    /// Leaves out what stands behind so many samples.
    pub fn truncate(&mut self, length: u64) {
        self.length = usize::try_from(length).unwrap_or(usize::MAX).min(self.length);
    }

    /// Of all channels.
    pub fn bytes(&self) -> &[u8] {
        &self.bytes[..self.layout.size() * self.length]
    }

    /// The bench's own, to draw and to measure.
    pub fn samples(&self) -> Vec<f32> {
        self.layout.samples(self.bytes(), self.channel)
    }

    /// The bytes of each of the bench's own samples.
    fn own(&self) -> impl Iterator<Item = &[u8]> {
        let (size, width) = (self.layout.size(), self.layout.format as usize / 8);
        self.bytes().chunks_exact(size).map(move |all| &all[width * self.channel as usize..][..width])
    }

    /// The first of its samples that is NaN or infinite.
    pub fn broken(&self) -> Option<usize> {
        let format = self.layout.format;
        if format != Layout::FLOATS.format {
            return None;
        }
        self.own().position(|sample| is_broken(format, sample))
    }

    /// How many of its samples the library clips.
    pub fn clipped(&self) -> u64 {
        let format = self.layout.format;
        if format == Layout::CLEANED.format {
            return 0;
        }
        self.own().filter(|sample| is_beyond(format, sample)).count() as u64
    }
}

#[cfg(test)]
mod tests {
    use super::*;

    /// Each bench sees its own channel, up to where its block is cut.
    #[test]
    fn a_channel_each() {
        let floats = [0.5, 2.0, -1.0, f32::NAN, 0.25, -1.5, 1.0, -1.0];
        let bytes: Rc<[u8]> = floats.iter().flat_map(|x| x.to_le_bytes()).collect::<Vec<u8>>().into();
        let layout = Layout { format: 32, channels: 2 };
        let [left, mut right] = [0, 1].map(|channel| Block::new(bytes.clone(), layout, channel));
        assert_eq!(left.samples(), [16_384.0, -32_768.0, 8_192.0, 32_767.0]);
        assert_eq!((left.broken(), left.clipped(), right.broken()), (None, 1, Some(1)));
        right.truncate(1);
        assert_eq!((right.samples(), right.bytes().len(), right.clipped()), (vec![32_767.0], 8, 1));
        right.truncate(7);
        assert_eq!(right.len(), 1);
    }

    #[test]
    fn what_is_clipped_of_whole_numbers() {
        let layout = Layout { format: 24, channels: 1 };
        let whole = [0x7F_FF00, 0x7F_FF01, 0x7F_FFFF, -0x80_0000, 0];
        let bytes: Vec<u8> = whole.iter().flat_map(|x: &i32| x.to_le_bytes()[..3].to_vec()).collect();
        assert_eq!(Block::new(bytes.into(), layout, 0).clipped(), 2);
        let layout = Layout { format: 33, channels: 1 };
        let whole = [0x7FFF_0000, 0x7FFF_0001, i32::MAX, i32::MIN, 0, 0x7F80_0000];
        let bytes: Vec<u8> = whole.iter().flat_map(|x: &i32| x.to_le_bytes()).collect();
        let block = Block::new(bytes.into(), layout, 0);
        assert_eq!((block.clipped(), block.broken()), (2, None));
        assert_eq!(Block::new(packed(&[-40_000.0, 40_000.0]).into(), Layout::CLEANED, 0).clipped(), 0);
    }

    /// What is looked for in the bytes is what the library unpacks: of any bytes in every format, the first sample that
    /// is not a finite number.
    #[test]
    fn broken_is_what_the_library_gives() {
        let mut rng = crate::cleaning::demo::Rng(11);
        let mut bytes: Vec<u8> = (0..24_000).map(|_| (rng.draw() >> 32) as u8).collect();
        for (place, float) in [(5_000, f32::MAX), (9_000, f32::NEG_INFINITY), (15_000, f32::NAN), (21_000, 1e30)] {
            bytes[place..place + 4].copy_from_slice(&float.to_le_bytes());
        }
        for (format, channels) in [(16, 1), (16, 2), (24, 1), (24, 2), (32, 1), (32, 2), (32, 3), (33, 2)] {
            for (from, channel) in (0..24_000).step_by(1_200).flat_map(|from| (0..channels).map(move |c| (from, c))) {
                let whole = Layout { format, channels }.size();
                let part: Vec<u8> = bytes[from..from + (24_000 - from) / whole * whole].into();
                let block = Block::new(part.into(), Layout { format, channels }, channel);
                assert_eq!(block.broken(), block.samples().iter().position(|x| !x.is_finite()), "{format} from {from}");
            }
        }
    }

    /// What is in memory goes through bytes as it is.
    #[test]
    fn samples_in_memory() {
        let samples = [0.0, 1.0, -0.3, 1e-20, 32_766.9, 32_767.0, -32_768.0];
        assert_eq!(Block::of(&samples).samples(), samples);
        assert_eq!(Block::silence(3).samples(), [0.0; 3]);
    }
}
