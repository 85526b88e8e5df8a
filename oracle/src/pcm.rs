//! Recorded bytes as samples, and samples as bytes, held against plain Rust (`plain_pcm`).

use crate::plain_pcm::{self as plain, Layout};
use crate::rng::{Mood, Rng};
use crate::tally::{Given, Tally, Value};
use crate::{named, values, Options};
use std::ops::RangeInclusive;

/// The two functions, and what is counted of them.
struct Pcm {
    unpack: fn(&mut [f32], &[u8], u32, u32, u32) -> u32,
    pack: fn(&mut [u8], &[f32]) -> u32,
    tally: Tally,
}

impl Pcm {
    fn ours() -> Pcm {
        Pcm { unpack: tuppence::unpack, pack: tuppence::pack, tally: Tally::new("pcm") }
    }

    /// One channel unpacked: where the numbers and lengths fit, the plain samples and 0, else 5 and nothing changed.
    fn unpacking(&mut self, bytes: &[u8], layout: Layout, out: &[f32]) {
        let Layout { format, channels, channel } = layout;
        let wanted = plain::unpack(bytes, layout).filter(|samples| samples.len() == out.len());
        let numbers = [format, channels, channel];
        self.tally.leaf(
            "unpack",
            &[("bytes", bytes.into()), ("format, channels, channel", (&numbers).into())],
            wanted.is_some(),
            out,
            |out| (self.unpack)(out, bytes, format, channels, channel),
            |out| out.copy_from_slice(wanted.as_ref().expect("it fits")),
        );
    }

    /// Samples packed: where the length fits, the plain bytes and 0, else 5 and nothing changed.
    fn packing(&mut self, samples: &[f32], out: &[u8]) {
        let given = [("samples", samples.into()), ("out", Value::from(out))];
        let given = Given::new(&given);
        let mut ours = out.to_vec();
        let number = (self.pack)(&mut ours, samples);
        let fits = out.len() == 2 * samples.len();
        let (want, wanted) = if fits { (0u32, plain::pack(samples)) } else { (5, out.to_vec()) };
        self.tally.judge("pack", given, values![number, ours], values![want, wanted]);
    }
}

pub fn compare(options: &Options) -> Tally {
    let (mut pcm, rng) = (Pcm::ours(), &mut Rng::new(options.seed));
    every_whole_number(&mut pcm);
    if options.all {
        every_float(&mut pcm);
    }
    sample(&mut pcm, rng, options.calls(1_000_000));
    pcm.tally
}

/// Ties, so many floats, blocks, and faults.
fn sample(pcm: &mut Pcm, rng: &mut Rng, calls: u64) {
    every_tie(pcm);
    for _ in 0..calls / 1_000 {
        let patterns: Vec<u32> = (0..1_000).map(|_| any_float(rng).to_bits()).collect();
        floats(pcm, &patterns);
    }
    for channels in 1..=8 {
        for format in [16, 24, 32, 33] {
            blocks(pcm, rng, format, channels, 2 + calls / 10_000);
        }
    }
    every_two_faults(pcm, rng);
}

/// Samples that are looked at in one call where there are many.
const MANY: u32 = 65_536;

fn alone(format: u32) -> Layout {
    Layout { format, channels: 1, channel: 0 }
}

/// Every sample of 16 bits, and that packing gives its bytes back; and every one of 24 bits.
fn every_whole_number(pcm: &mut Pcm) {
    let bytes: Vec<u8> = (0..=u16::MAX).flat_map(u16::to_le_bytes).collect();
    let mut samples = vec![f32::NAN; MANY as usize];
    pcm.unpacking(&bytes, alone(16), &samples);
    let mut back = vec![0; bytes.len()];
    let numbers = [(pcm.unpack)(&mut samples, &bytes, 16, 1, 0), (pcm.pack)(&mut back, &samples)];
    pcm.tally.judge("there and back", Given::new(named![bytes]), values![numbers, back], values![[0u32; 2], bytes]);
    for high in 0..=255 {
        let bytes: Vec<u8> = (0..=u16::MAX).flat_map(|low| [low as u8, (low >> 8) as u8, high]).collect();
        pcm.unpacking(&bytes, alone(24), &samples);
        pcm.packing(&plain::unpack(&bytes, alone(24)).expect("they are whole samples"), &back);
    }
    pcm.tally.note("every sample of 16 bits, there and back; every one of 24 bits");
}

/// Every number in the middle of two of 16 bits, and the f32 on both sides of it.
fn every_tie(pcm: &mut Pcm) {
    for sign in [1.0, -1.0] {
        let ties = (0..33_000).map(|n| sign * (n as f32 + 0.5));
        let beside = |x: f32| [-1, 0, 1].map(|d| f32::from_bits(x.to_bits().wrapping_add_signed(d)));
        let samples: Vec<f32> = ties.flat_map(beside).collect();
        pcm.packing(&samples, &vec![0; 2 * samples.len()]);
    }
}

/// Floats by their bits: as recorded samples, and as samples that are packed.
fn floats(pcm: &mut Pcm, patterns: &[u32]) {
    let bytes: Vec<u8> = patterns.iter().flat_map(|bits| bits.to_le_bytes()).collect();
    let samples: Vec<f32> = patterns.iter().map(|bits| f32::from_bits(*bits)).collect();
    pcm.unpacking(&bytes, alone(32), &samples);
    pcm.packing(&samples, &bytes[..2 * samples.len()]);
}

/// Of every kind: mostly what a recorder gives, around full scale, and numbers beside ties.
fn any_float(rng: &mut Rng) -> f32 {
    match rng.below(4) {
        0 => rng.float(),
        1 => rng.of(Mood::Small) * rng.pick(&[1.0, 1.0001, 2.0, 32_768.0]),
        2 => (rng.below(66_000) as f32 - 33_000.0) / rng.pick(&[1.0, 2.0, 32_768.0]),
        _ => rng.of(Mood::Any),
    }
}

/// Every f32 there is, on two threads.
fn every_float(pcm: &mut Pcm) {
    let part = |parts: RangeInclusive<u32>| {
        let mut pcm = Pcm::ours();
        for part in parts {
            let patterns: Vec<u32> = (0..MANY).map(|low| part * MANY + low).collect();
            floats(&mut pcm, &patterns);
        }
        pcm.tally
    };
    let (low, high) = std::thread::scope(|scope| {
        let low = scope.spawn(|| part(0..=0x7fff));
        let high = part(0x8000..=0xffff);
        (low.join().unwrap(), high)
    });
    pcm.tally.note("every f32, unpacked and packed");
    pcm.tally.join(low);
    pcm.tally.join(high);
}

/// Numbers that name no format.
pub const NO_FORMATS: [u32; 9] = [0, 8, 15, 17, 25, 34, 48, 64, u32::MAX];

/// Any channel of blocks of 1 to 4,096 samples, the shortest and the longest among them; now and then a number or a
/// length is another.
fn blocks(pcm: &mut Pcm, rng: &mut Rng, format: u32, channels: u32, calls: u64) {
    let width = plain::width(format).expect("it is a format");
    for call in 0..calls {
        let samples = match call {
            0 => 1,
            1 => 4_096,
            _ => 1 + rng.below(4_096),
        };
        let size = rng.near(samples * channels as usize * width);
        let bytes = rng.bytes(size);
        let layout = Layout {
            format: if rng.once_in(40) { rng.pick(&NO_FORMATS) } else { format },
            channels: if rng.once_in(40) { rng.below(9) as u32 } else { channels },
            channel: rng.below(channels as usize) as u32 + u32::from(rng.once_in(20)),
        };
        pcm.unpacking(&bytes, layout, &rng.list(samples));
        let (list, size) = (rng.list(samples), rng.near(2 * samples));
        pcm.packing(&list, &rng.bytes(size));
    }
}

/// A block that is to be unpacked.
#[derive(Clone)]
struct Block {
    bytes: Vec<u8>,
    layout: Layout,
    out: Vec<f32>,
}

impl Block {
    /// The bytes of a sample of all channels.
    fn row(&self) -> usize {
        self.layout.channels as usize * plain::width(self.layout.format).unwrap_or(1)
    }

    fn with(&self, fault: fn(&mut Block)) -> Block {
        let mut block = self.clone();
        fault(&mut block);
        block
    }

    fn fits(&self) -> bool {
        plain::unpack(&self.bytes, self.layout).is_some_and(|samples| samples.len() == self.out.len())
    }
}

/// What a block is refused for, each by itself. Of two one may undo the other: a sample more in both lists is a block
/// again.
const FAULTS: [fn(&mut Block); 14] = [
    |b| b.layout.format = 0,
    |b| b.layout.format += 2,
    |b| b.layout.format = u32::MAX,
    |b| b.layout.channels = 0,
    |b| b.layout.channels = 65_536,
    |b| b.layout.channels = u32::MAX,
    |b| b.layout.channel = b.layout.channels,
    |b| b.layout.channel = u32::MAX,
    |b| _ = b.bytes.pop(),
    |b| b.bytes.push(7),
    |b| b.bytes.resize(b.bytes.len() + 12, 7),
    |b| b.bytes.clear(),
    |b| _ = b.out.pop(),
    |b| b.out.push(0.5),
];

/// Blocks without a fault, with each, and with every two at once; one channel too many; and lengths around those of
/// packed samples.
fn every_two_faults(pcm: &mut Pcm, rng: &mut Rng) {
    let shapes = [
        (16, 1, 5),
        (16, 2, 480),
        (24, 2, 7),
        (24, 4, 3),
        (32, 1, 1),
        (32, 3, 4_096),
        (16, 65_535, 2),
        (32, 65_535, 1),
    ];
    for (format, channels, samples) in shapes {
        let layout = Layout { format, channels, channel: channels - 1 };
        let mut block = Block { bytes: vec![], layout, out: rng.list(samples) };
        block.bytes = rng.bytes(samples * block.row());
        pcm.unpacking(&block.bytes, block.layout, &block.out);
        for (i, one) in FAULTS.iter().enumerate() {
            let one = block.with(*one);
            assert!(!one.fits(), "fault {i} is none");
            let both = FAULTS[..i].iter().map(|other| one.with(*other));
            for Block { bytes, layout, out } in both.chain([one.clone()]) {
                pcm.unpacking(&bytes, layout, &out);
            }
        }
    }
    pcm.unpacking(&[3; 2 * 65_536], Layout { format: 16, channels: 65_536, channel: 65_535 }, &[0.5]);
    for (samples, bytes) in [(0, 0), (0, 1), (0, 2), (1, 0), (1, 1), (1, 2), (1, 3), (2, 2), (2, 3), (2, 5), (2, 6)] {
        let list = rng.list(samples);
        pcm.packing(&list, &rng.bytes(bytes));
    }
}

#[cfg(test)]
mod tests {
    use super::*;

    fn noticed(wrong: Pcm) -> bool {
        let mut pcm = wrong;
        every_whole_number(&mut pcm);
        sample(&mut pcm, &mut Rng::new(2), 20_000);
        pcm.tally.differences > 0
    }

    /// The functions, wrong in one thing each.
    #[test]
    fn wrong_functions_are_noticed() {
        assert!(!noticed(Pcm::ours()));
        let unpacks: [(&str, fn(&mut [f32], &[u8], u32, u32, u32) -> u32); 4] = [
            ("the neighbour's channel", |out, bytes, format, channels, channel| {
                tuppence::unpack(out, bytes, format, channels, (channel ^ 1).min(channels.saturating_sub(1)))
            }),
            ("a fraction cut off", |out, bytes, format, channels, channel| {
                let number = tuppence::unpack(out, bytes, format, channels, channel);
                if (number, format) == (0, 24) {
                    out.iter_mut().for_each(|x| *x = x.trunc());
                }
                number
            }),
            ("an infinity that is taken for the end", |out, bytes, format, channels, channel| {
                let number = tuppence::unpack(out, bytes, format, channels, channel);
                if number == 0 {
                    out.iter_mut().for_each(|x| *x = x.clamp(-32_768.0, 32_767.0));
                }
                number
            }),
            ("a refusal that writes", |out, bytes, format, channels, channel| {
                let number = tuppence::unpack(out, bytes, format, channels, channel);
                if let (5, [first, ..]) = (number, out) {
                    *first = f32::from_bits(first.to_bits() ^ 1);
                }
                number
            }),
        ];
        for (what, unpack) in unpacks {
            assert!(noticed(Pcm { unpack, ..Pcm::ours() }), "{what} is not noticed");
        }
        let packs: [(&str, fn(&mut [u8], &[f32]) -> u32); 2] = [
            ("ties to even", |out, samples| {
                let even: Vec<f32> = samples.iter().map(|x| x.round_ties_even()).collect();
                tuppence::pack(out, &even)
            }),
            ("a byte too few", |out, samples| match out.len() + 1 == 2 * samples.len() {
                true => 0,
                false => tuppence::pack(out, samples),
            }),
        ];
        for (what, pack) in packs {
            assert!(noticed(Pcm { pack, ..Pcm::ours() }), "{what} is not noticed");
        }
    }
}
