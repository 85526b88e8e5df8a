//! Which kind of file begins with some bytes. The box reads WAV alone, and `--raw` takes samples alone: any other file
//! that is recognised here is refused by its name, with what makes a WAV file of it.

use std::fmt;

/// This many bytes are enough to recognise a file.
pub const HEAD: usize = 4_096;

/// A kind of file.
#[derive(Clone, Copy, Debug, PartialEq)]
pub enum Form {
    /// WAV, with its numbers little end first, as the box reads it; RF64 is WAV for more than 4 GiB.
    Wav,
    /// WAV with its numbers big end first.
    Rifx,
    Flac,
    Ogg,
    Mp3,
    Aiff,
    Caf,
    /// Sony Wave64.
    W64,
    Au,
    /// M4A, MP4 and other files of QuickTime's kind.
    M4a,
    Text,
}

impl Form {
    /// The program of the two that people have which reads this.
    pub fn converter(self) -> Option<Converter> {
        match self {
            Form::Text => None,
            // sox reads these with further packages alone
            Form::Mp3 | Form::M4a | Form::Ogg | Form::Caf | Form::W64 => Some(Converter::Ffmpeg),
            _ => Some(Converter::Sox),
        }
    }
}

impl fmt::Display for Form {
    fn fmt(&self, f: &mut fmt::Formatter) -> fmt::Result {
        f.write_str(match self {
            Form::Wav => "a WAV file",
            Form::Rifx => "a WAV file with the big end first (RIFX)",
            Form::Flac => "a FLAC file",
            Form::Ogg => "an Ogg file",
            Form::Mp3 => "an MP3 file",
            Form::Aiff => "an AIFF file",
            Form::Caf => "a CAF file",
            Form::W64 => "a W64 file",
            Form::Au => "an AU file",
            Form::M4a => "an M4A or MP4 file",
            Form::Text => "text",
        })
    }
}

/// What makes a WAV file that the box reads of another file.
#[derive(Clone, Copy, Debug, PartialEq)]
pub enum Converter {
    Sox,
    Ffmpeg,
}

impl Converter {
    /// Its command, for a file's name as a shell takes it.
    pub fn command(self, file: &str) -> String {
        match self {
            Converter::Sox => format!("sox {file} -r 48000 -b 24 NEW.wav"),
            Converter::Ffmpeg => format!("ffmpeg -i {file} -ar 48000 -c:a pcm_s24le NEW.wav"),
        }
    }
}

/// The kilobits a second of a frame of MP3, by its number, for MPEG 1 and for 2 and 2.5.
const RATES: [[usize; 14]; 2] = [
    [32, 40, 48, 56, 64, 80, 96, 112, 128, 160, 192, 224, 256, 320],
    [8, 16, 24, 32, 40, 48, 56, 64, 80, 96, 112, 128, 144, 160],
];

/// The bytes of the frame of MP3 that starts here.
fn frame(bytes: &[u8]) -> Option<usize> {
    let [0xFF, b, c, _, ..] = *bytes else { return None };
    let (version, layer) = (b >> 3 & 3, b >> 1 & 3);
    let (bitrate, frequency) = (usize::from(c >> 4), usize::from(c >> 2 & 3));
    if b >> 5 != 7 || version == 1 || layer != 1 {
        return None;
    }
    let first = version == 3;
    let kilobits = *RATES[usize::from(!first)].get(bitrate.checked_sub(1)?)?;
    let hertz = *[44_100, 48_000, 32_000].get(frequency)? >> [2, 1, 1, 0][usize::from(version)];
    Some(if first { 144_000 } else { 72_000 } * kilobits / hertz + usize::from(c >> 1 & 1))
}

/// Samples may begin as a frame of MP3 does, but not so that another one follows where it ends.
fn is_mp3(head: &[u8]) -> bool {
    head.starts_with(b"ID3")
        || frame(head).is_some_and(|size| head.get(size..).is_some_and(|next| frame(next).is_some()))
}

/// Letters, as a text has them and samples don't: no control characters but those that end lines and words.
fn is_text(head: &[u8]) -> bool {
    let text = match std::str::from_utf8(head) {
        Ok(text) => text,
        // the last letter may be cut
        Err(why) if why.error_len().is_none() => std::str::from_utf8(&head[..why.valid_up_to()]).unwrap_or_default(),
        Err(_) => return false,
    };
    text.len() >= 4 && !text.contains(|c: char| c.is_control() && !matches!(c, '\n' | '\r' | '\t' | '\x0c'))
}

/// The first words of files that begin with one of their own, and then the second word, if there is one, and its place.
const WORDS: [(&[u8], usize, &[u8], Form); 13] = [
    (b"RIFF", 8, b"WAVE", Form::Wav),
    (b"RF64", 8, b"WAVE", Form::Wav),
    (b"BW64", 8, b"WAVE", Form::Wav),
    (b"RIFX", 8, b"WAVE", Form::Rifx),
    (b"fLaC", 0, b"", Form::Flac),
    (b"OggS", 0, b"", Form::Ogg),
    (b"FORM", 8, b"AIFF", Form::Aiff),
    (b"FORM", 8, b"AIFC", Form::Aiff),
    (b"caff", 4, b"\0\x01", Form::Caf),
    (b"riff\x2e\x91\xcf\x11", 0, b"", Form::W64),
    (b".snd", 0, b"", Form::Au),
    (b"", 4, b"ftyp", Form::M4a),
    (b"", 4, b"moov", Form::M4a),
];

/// The kind of file that begins with these bytes.
pub fn known(head: &[u8]) -> Option<Form> {
    let begins = |first: &[u8], place: usize, second: &[u8]| {
        head.starts_with(first) && head.get(place..place + second.len()) == Some(second)
    };
    let word = WORDS.into_iter().find(|(first, place, second, _)| begins(first, *place, second));
    word.map(|(.., form)| form)
        .or_else(|| is_mp3(head).then_some(Form::Mp3))
        .or_else(|| is_text(head).then_some(Form::Text))
}

#[cfg(test)]
mod tests {
    use super::*;

    /// 128 kilobits at 48 kHz are 384 bytes a frame.
    #[test]
    fn two_frames_in_a_row() {
        let mut mp3 = vec![0; 800];
        for at in [0, 384] {
            mp3[at..at + 4].copy_from_slice(&[0xFF, 0xFB, 0x94, 0]);
        }
        assert_eq!((frame(&mp3), known(&mp3)), (Some(384), Some(Form::Mp3)));
        mp3[384] = 0xFE;
        assert_eq!(known(&mp3), None);
        // 64 kilobits of MPEG 2 at 24 kHz, one byte longer; no layer, no bit rate, no frequency
        assert_eq!(frame(&[0xFF, 0xF3, 0x86, 0]), Some(193));
        assert_eq!([[0xFF, 0xF9, 0x94, 0], [0xFF, 0xFB, 0xF4, 0], [0xFF, 0xFB, 0x9C, 0]].map(|b| frame(&b)), [None; 3]);
    }

    #[test]
    fn other_files() {
        let begin: [(&[u8], Form); 16] = [
            (b"RIFF\0\0\0\0WAVEfmt ", Form::Wav),
            (b"RF64\xFF\xFF\xFF\xFFWAVE", Form::Wav),
            (b"RIFX\0\0\0\0WAVE", Form::Rifx),
            (b"fLaC\0", Form::Flac),
            (b"OggS\0", Form::Ogg),
            (b"ID3\x04", Form::Mp3),
            (b"FORM\0\0\0\x10AIFFCOMM", Form::Aiff),
            (b"FORM\0\0\0\x10AIFCFVER", Form::Aiff),
            (b"caff\0\x01\0\0desc", Form::Caf),
            (b"riff\x2e\x91\xcf\x11\xa5\xd6\x28\xdb", Form::W64),
            (b".snd\0\0\0\x18", Form::Au),
            (b"\0\0\0\x1cftypM4A ", Form::M4a),
            (b"no sound at all", Form::Text),
            (b"side,frame\r\nleft,0\n\t1", Form::Text),
            ("links, für den Fuß\n".as_bytes(), Form::Text),
            (&"Fuß".as_bytes()[..4], Form::Text),
        ];
        for (head, form) in begin {
            assert_eq!(known(head), Some(form), "{form}");
        }
        let others: [&[u8]; 7] =
            [b"", b"RIFF\0\0\0\0", b"RIFF\0\0\0\0AVI ", b"\0\0\0\0", b"ab", b"left\0", b"left\xff\xff right"];
        assert_eq!(others.map(known), [None; 7]);
    }
}
