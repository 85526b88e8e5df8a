//! WAV files: 16-bit or 24-bit PCM or f32 in, 16-bit PCM out, both block by block, as bytes: which samples these are is
//! the library's.

use crate::reading::block::{packed, Block, Layout};
use crate::reading::form::Form;
use crate::reading::head::{self, Head};
use crate::telling::refusal::Refusal;
use crate::RATE;
use std::fmt;
use std::io::{self, ErrorKind, Read, Seek, SeekFrom};
use std::rc::Rc;

/// What a header says of a length that is not known yet.
const UNKNOWN: u32 = u32::MAX;
/// Programs that write a stream don't know its length: they say 0, or 2 GiB or 4 GiB, or a little less.
const OPEN: [std::ops::RangeInclusive<u64>; 3] = [0..=0, 0x7FFF_F000..=0x8000_0000, 0xFFFF_F000..=0xFFFF_FFFF];
/// The bytes of the header of a plain file.
const HEAD: usize = 44;

/// Why a file is not taken.
#[derive(Clone, Debug, PartialEq)]
pub enum Fault {
    /// The library refused its head with this number, for this reason.
    NotWav(u32, &'static str),
    /// It is another kind of file.
    Form(Form),
    Format {
        tag: u16,
        bits: u16,
    },
    Channels(u16),
    /// Bytes that a sample of each channel has, and that it should have.
    Block {
        bytes: usize,
        wanted: usize,
    },
    /// A sample, counted from 0 in its channel, that is NaN or infinite.
    NotFinite {
        channel: usize,
        sample: u64,
    },
    /// It can't be read on.
    Unreadable(String),
}

impl Fault {
    /// The library's refusal, if this is one. (It reads up to 64 channels; it is the box that takes no more than two.)
    pub fn refusal(&self) -> Option<Refusal> {
        match self {
            Fault::NotWav(number, _) => Some(Refusal(*number)),
            Fault::Form(_) => Some(Refusal(41)),
            Fault::Format { .. } => Some(Refusal(45)),
            Fault::Channels(0 | 65..) => Some(Refusal(46)),
            Fault::Block { .. } => Some(Refusal(47)),
            Fault::Channels(_) | Fault::NotFinite { .. } | Fault::Unreadable(_) => None,
        }
    }
}

/// How samples are stored, in words, by the number of their format.
fn format_in_words(tag: u16, bits: u16) -> String {
    match tag {
        1 => format!("{bits}-bit integers"),
        3 => format!("{bits}-bit floats"),
        6 => "samples in A-law".into(),
        7 => "samples in µ-law".into(),
        2 | 0x11 => "samples in ADPCM".into(),
        0x50 | 0x55 => "samples in MP3".into(),
        _ => format!("samples in format {tag} with {bits} bits"),
    }
}

impl fmt::Display for Fault {
    fn fmt(&self, f: &mut fmt::Formatter) -> fmt::Result {
        match self {
            Fault::NotWav(_, what) => write!(f, "not a WAV file: {what}"),
            Fault::Form(form) => write!(f, "not a WAV file: it is {form}"),
            Fault::Format { tag, bits } => {
                write!(
                    f,
                    "it has {}; the box reads integers of 16, 24 and 32 bits and 32-bit floats",
                    format_in_words(*tag, *bits)
                )
            }
            Fault::Channels(n) => write!(f, "one or two channels are wanted; this has {n}"),
            Fault::Block { bytes, wanted } => {
                write!(f, "{wanted} bytes are wanted for a sample of each channel; this has {bytes}")
            }
            Fault::NotFinite { channel, sample } => {
                write!(f, "sample {sample} of channel {channel} (both counted from 0) is not a finite number")
            }
            Fault::Unreadable(why) => write!(f, "{why}"),
        }
    }
}

impl From<io::Error> for Fault {
    fn from(why: io::Error) -> Fault {
        Fault::Unreadable(why.to_string())
    }
}

/// How a sample stands in the bytes.
#[derive(Clone, Copy)]
enum Sample {
    Pcm16,
    Pcm24,
    Pcm32,
    Float,
}

impl Sample {
    /// By the library's number.
    fn of(format: u32) -> Sample {
        match format {
            16 => Sample::Pcm16,
            24 => Sample::Pcm24,
            33 => Sample::Pcm32,
            _ => Sample::Float,
        }
    }

    /// The library's number.
    fn format(self) -> u32 {
        match self {
            Sample::Pcm16 => 16,
            Sample::Pcm24 => 24,
            Sample::Pcm32 => 33,
            Sample::Float => 32,
        }
    }

    fn size(self) -> usize {
        match self {
            Sample::Pcm16 => 2,
            Sample::Pcm24 => 3,
            Sample::Pcm32 | Sample::Float => 4,
        }
    }
}

/// A recording that is read block by block.
pub struct Reader<R> {
    /// What was read with the head, and then what comes.
    from: io::Take<io::Chain<io::Cursor<Vec<u8>>, R>>,
    /// How many bytes of the former were not handed out yet.
    early: usize,
    pub rate: u32,
    pub channels: usize,
    sample: Sample,
    /// Where the audio starts, and how many bytes it says it has.
    place: [u64; 2],
    /// Whether it is RF64, which the box reads and never writes.
    is_long: bool,
    /// Bytes that are not yet a sample of each channel.
    carried: Vec<u8>,
    /// How many samples of a channel were read.
    pub given: u64,
    /// Whether the end has come.
    pub ended: bool,
}

/// The header of a chunk: its name and its size.
fn chunk(from: &mut impl Read) -> io::Result<([u8; 4], u32)> {
    let mut bytes = [0; 8];
    from.read_exact(&mut bytes)?;
    let [a, b, c, d, size @ ..] = bytes;
    Ok(([a, b, c, d], u32::from_le_bytes(size)))
}

impl<R: Read> Reader<R> {
    /// Reads on to the first sample. The format stands in front of the audio, as WAV has it.
    pub fn new(mut from: R) -> Result<Reader<R>, Fault> {
        let (head, read) = head::read_head(&mut from)?;
        match head.channels {
            1 | 2 => Ok(Reader::of(from, read, head)),
            many => Err(Fault::Channels(many as u16)),
        }
    }

    /// The same, where the length may not have been known when the header was written.
    pub fn stream(from: R) -> Result<Reader<R>, Fault> {
        let mut reader = Reader::new(from)?;
        if reader.promised().is_none() {
            reader.to_the_end();
        }
        Ok(reader)
    }

    /// Reads on to the end, whatever the header says.
    pub fn to_the_end(&mut self) {
        self.from.set_limit(u64::MAX);
    }

    /// How many samples of each channel the header says there are, where it knows.
    pub fn promised(&self) -> Option<u64> {
        let size = self.place[1];
        let is_open = OPEN.iter().any(|open| open.contains(&size));
        (!is_open).then(|| size / (self.sample.size() * self.channels) as u64)
    }

    /// Samples of 16 bits, little end first, without a header, up to the end.
    pub fn raw(from: R, rate: u32, channels: usize) -> Reader<R> {
        Reader::of(from, vec![], Head { place: 0, format: 16, channels, rate, size: UNKNOWN.into(), is_long: false })
    }

    fn of(from: R, read: Vec<u8>, Head { place, format, channels, rate, size, is_long }: Head) -> Self {
        // A stream that does not know its length says so, and a recorder that lost power leaves a size that is too
        // large: what is there counts.
        let most = if size == UNKNOWN.into() { u64::MAX } else { size };
        let (early, sample) = (read.len(), Sample::of(format));
        let from = io::Cursor::new(read).chain(from).take(most);
        let (carried, given, ended) = (Vec::new(), 0, false);
        Reader { from, early, rate, channels, sample, place: [place, size], is_long, carried, given, ended }
    }

    /// How its samples stand in its bytes.
    pub fn layout(&self) -> Layout {
        Layout { format: self.sample.format(), channels: self.channels as u32 }
    }

    /// How many samples each channel has, in a file of so many bytes of which none of these was read yet.
    pub fn length(&self, bytes: u64) -> u64 {
        self.from.limit().min(bytes.saturating_sub(self.place[0])) / (self.sample.size() * self.channels) as u64
    }

    /// Whether there is a header.
    pub fn has_head(&self) -> bool {
        self.place[0] > 0
    }

    /// Where the audio ends, as the header says: behind the samples, and the byte that an odd number of them is filled
    /// up with.
    pub fn end(&self) -> u64 {
        self.place[0] + self.place[1] + self.place[1] % 2
    }

    /// Reads on behind these bytes until they are so many at most. How many came; none at the end.
    fn more(&mut self, bytes: &mut Vec<u8>, most: usize) -> io::Result<usize> {
        let had = bytes.len();
        bytes.resize(most, 0);
        let more = loop {
            match self.from.read(&mut bytes[had..]) {
                Err(why) if why.kind() == ErrorKind::Interrupted => {}
                more => break more?,
            }
        };
        bytes.truncate(had + more);
        self.ended |= more == 0;
        Ok(more)
    }

    /// What comes next, whole samples of each channel and at most so many, as soon as there is any; none at the end.
    pub fn block(&mut self, most: usize) -> io::Result<Vec<u8>> {
        let one = self.layout().size();
        let mut bytes = std::mem::take(&mut self.carried);
        // a block is what one reading gives, with what had come before it
        let enough = one.max(std::mem::take(&mut self.early) + 1);
        while bytes.len() < enough && self.more(&mut bytes, most * one)? > 0 {}
        self.carried = bytes.split_off(bytes.len() - bytes.len() % one);
        self.given += (bytes.len() / one) as u64;
        Ok(bytes)
    }
}

/// What a file holds: its channels, each as long as the others.
#[derive(Debug, PartialEq)]
pub struct Wav {
    pub rate: u32,
    pub channels: Vec<Vec<f32>>,
    /// How many samples lay beyond the two ends.
    pub clipped: u64,
}

/// The names of chunks that may follow the audio, and may be cut.
const CHUNKS: [&[u8; 4]; 14] = [
    b"side", b"LIST", b"id3 ", b"ID3 ", b"bext", b"cue ", b"fact", b"PEAK", b"JUNK", b"junk", b"PAD ", b"smpl",
    b"iXML", b"_PMX",
];

/// Whether a chunk begins at this place of a file: one with a name that programs use, or with any name in letters if
/// the file is long enough for it.
pub fn is_chunk(mut from: impl Read + Seek, at: u64) -> io::Result<bool> {
    let end = from.seek(SeekFrom::End(0))?;
    from.seek(SeekFrom::Start(at))?;
    let Ok((name, size)) = chunk(&mut from) else { return Ok(false) };
    let is_name = name.iter().all(|byte| (b' '..=b'~').contains(byte));
    Ok(CHUNKS.contains(&&name) || is_name && at + 8 + u64::from(size) <= end)
}

/// Where the audio of a file is, as its header says.
#[derive(Clone, Copy, Debug, PartialEq)]
pub struct Audio {
    pub place: u64,
    pub size: u64,
    /// Whether it is what the box writes: one channel of 16 bits, at 48 kHz.
    pub is_ours: bool,
}

impl Audio {
    /// Behind the samples, and the byte that an odd number of them is filled up with.
    pub fn end(&self) -> u64 {
        self.place + self.size + self.size % 2
    }
}

pub fn audio(from: impl Read) -> Result<Audio, Fault> {
    let reader = Reader::new(from)?;
    let is_mono = reader.channels == 1 && matches!(reader.sample, Sample::Pcm16);
    let [place, size] = reader.place;
    let is_ours = is_mono && !reader.is_long && reader.rate == RATE && size % 2 == 0;
    Ok(Audio { place, size, is_ours })
}

/// A whole file, where no sample is broken.
pub fn read(bytes: &[u8]) -> Result<Wav, Fault> {
    let mut reader = Reader::new(bytes)?;
    let mut audio = Vec::new();
    while !reader.ended {
        audio.extend(reader.block(BLOCK)?);
    }
    let (audio, layout): (Rc<[u8]>, _) = (audio.into(), reader.layout());
    let channels: Vec<Block> = (0..layout.channels).map(|channel| Block::new(audio.clone(), layout, channel)).collect();
    match (0..).zip(&channels).find_map(|(channel, block)| Some((channel, block.broken()? as u64))) {
        Some((channel, sample)) => Err(Fault::NotFinite { channel, sample }),
        None => Ok(Wav {
            rate: reader.rate,
            channels: channels.iter().map(Block::samples).collect(),
            clipped: channels.iter().map(Block::clipped).sum(),
        }),
    }
}

/// Samples that are read at a time.
const BLOCK: usize = 4_096;

/// The header of one channel of 16-bit PCM, with so many bytes of audio and of chunks behind it.
fn header(rate: u32, size: u32, behind: u32) -> [u8; HEAD] {
    let mut bytes = [0; HEAD];
    assert_eq!(tuppence::wav_head(&mut bytes, rate, size, behind), 0, "a header has 44 bytes");
    bytes
}

/// How many bytes there are, of so many at most, and their checksum.
pub fn checksum(from: &mut impl Read, most: u64) -> io::Result<(u64, u32)> {
    let (mut count, mut sum, mut bytes) = (0, 0, vec![0; 65_536]);
    let mut from = from.take(most);
    loop {
        match from.read(&mut bytes) {
            Ok(0) => return Ok((count, sum)),
            Ok(more) => {
                sum = tuppence::checksum(sum, &bytes[..more]);
                count += more as u64;
            }
            Err(why) if why.kind() == ErrorKind::Interrupted => {}
            Err(why) => return Err(why),
        }
    }
}

/// A whole file of one channel.
pub fn write(rate: u32, samples: &[f32]) -> Vec<u8> {
    let audio = packed(samples);
    [&header(rate, audio.len() as u32, 0)[..], &audio].concat()
}

#[cfg(test)]
mod tests {
    use super::*;

    #[test]
    fn what_is_written_is_read() {
        let samples = [0.0, 1.4, -1.6, 40_000.0, -40_000.0];
        let wav = read(&write(48_000, &samples)).unwrap();
        assert_eq!(wav, Wav { rate: 48_000, channels: vec![vec![0.0, 1.0, -2.0, 32_767.0, -32_768.0]], clipped: 0 });
    }

    /// Until the end is known, what is there counts.
    #[test]
    fn a_file_that_was_never_closed() {
        let mut file = write(48_000, &[5.0, 6.0]);
        file[40..44].copy_from_slice(&UNKNOWN.to_le_bytes());
        assert_eq!(read(&file).unwrap().channels, [[5.0, 6.0]]);
    }

    /// A file of 32-bit floats.
    fn floats(channels: u8, samples: &[f32]) -> Vec<u8> {
        let mut bytes = write(48_000, &vec![0.0; 2 * samples.len()]);
        (bytes[20], bytes[22], bytes[32], bytes[34]) = (3, channels, 4 * channels, 32);
        for (to, x) in bytes[44..].chunks_exact_mut(4).zip(samples) {
            to.copy_from_slice(&x.to_le_bytes());
        }
        bytes
    }

    /// An EXTENSIBLE header has 24 bytes more, and the format's tag at the start of its identifier.
    #[test]
    fn three_bytes_a_sample() {
        let mut bytes = write(48_000, &[0.0; 6]);
        (bytes[34], bytes[32]) = (24, 3);
        for (to, x) in bytes[44..].chunks_exact_mut(3).zip([0x7F_FFFFi32, -0x80_0000, 0x01_80, -0x01_00]) {
            to.copy_from_slice(&x.to_le_bytes()[..3]);
        }
        let wav = read(&bytes).unwrap();
        assert_eq!((&wav.channels[0][..], wav.clipped), (&[32_767.0, -32_768.0, 1.5, -1.0][..], 1));
        let mut more = [0; 24];
        (more[0], more[8]) = (22, 1);
        let extensible =
            [&bytes[..16], &40u32.to_le_bytes(), &0xFFFEu16.to_le_bytes(), &bytes[22..36], &more, &bytes[36..]]
                .concat();
        assert_eq!(read(&extensible), Ok(wav));
    }

    #[test]
    fn full_scale_is_taken_for_the_ends() {
        let wav = read(&floats(1, &[1.0, -1.0, 0.5, -1.5, 2.0, 32_767.0 / 32_768.0])).unwrap();
        assert_eq!(wav.channels, [[32_767.0, -32_768.0, 16_384.0, -32_768.0, 32_767.0, 32_767.0]]);
        assert_eq!(wav.clipped, 3);
    }

    #[test]
    fn a_sample_that_is_not_finite_is_named() {
        assert_eq!(read(&floats(1, &[0.5, -1.0])).unwrap().channels, [[16_384.0, -32_768.0]]);
        assert_eq!(read(&floats(1, &[f32::MAX, f32::MIN])).unwrap().channels, [[32_767.0, -32_768.0]]);
        for broken in [f32::NAN, f32::INFINITY, f32::NEG_INFINITY] {
            let fault = Fault::NotFinite { channel: 1, sample: 2 };
            assert_eq!(read(&floats(2, &[0.0, 0.1, 0.2, 0.3, 0.4, broken, 0.6, broken])), Err(fault));
        }
    }

    #[test]
    fn other_bytes_are_refused() {
        let good = write(48_000, &[1.0; 8]);
        for n in 0..44 {
            assert!(read(&good[..n]).is_err(), "{n} bytes");
        }
        let mut bytes = good.clone();
        bytes[34] = 8;
        assert_eq!(read(&bytes), Err(Fault::Format { tag: 1, bits: 8 }));
        bytes = good;
        bytes[22] = 3;
        assert_eq!(read(&bytes), Err(Fault::Channels(3)));
    }

    /// Samples that have more room than they need would be read as others.
    #[test]
    fn gaps_between_samples_are_refused() {
        for (bits, channels, bytes) in [(24, 1, 4), (24, 2, 8), (16, 1, 4), (16, 2, 2), (16, 1, 0)] {
            let mut file = write(48_000, &[1.0; 12]);
            (file[34], file[22], file[32]) = (bits, channels, bytes);
            let fault = Fault::Block { bytes: bytes.into(), wanted: usize::from(bits / 8 * channels) };
            assert_eq!(read(&file), Err(fault));
        }
    }

    /// What a header lacks is named.
    #[test]
    fn broken_headers() {
        let good = write(48_000, &[1.0; 8]);
        let why = |file: &[u8]| match read(file) {
            Err(Fault::NotWav(number, why)) => (number, why),
            other => panic!("{other:?}"),
        };
        let mut file = good.clone();
        file[..4].copy_from_slice(b"RF64");
        assert_eq!(why(&file), (41, "it does not start as one"));
        assert_eq!(why(&good[1..]), (41, "it does not start as one"));
        assert_eq!(why(&good[..36]), (42, "it has no `data` chunk"));
        assert_eq!(why(&[&good[..12], &good[36..]].concat()), (43, "it has no `fmt ` chunk before its audio"));
        file = good;
        file[16] = 14;
        assert_eq!(why(&file), (44, "its `fmt ` chunk is too short"));
        for size in [60, u32::MAX] {
            file[16..20].copy_from_slice(&size.to_le_bytes());
            assert_eq!(why(&file), (42, "a chunk before its audio goes beyond its end"), "{size}");
        }
    }
}
