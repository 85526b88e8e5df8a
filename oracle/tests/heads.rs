//! Heads of WAV files as sox and ffmpeg write them, up to their audio, read through the library and by plain Rust.

#![cfg(feature = "wav")]

use oracle::plain_wav;

/// A head, and what it says: where the audio starts, the format, channels, rate and size.
const HEADS: [(&[u8], [u64; 5]); 6] = [
    // ffmpeg, 24 bits: EXTENSIBLE, with LIST in front
    (
        b"RIFF\xa88\0\0WAVEfmt (\0\0\0\xfe\xff\x01\0\x80\xbb\0\0\x802\x02\0\x03\0\x18\0\x16\0\x18\0\x04\0\0\0\x01\0\0\
          \0\0\0\x10\0\x80\0\0\xaa\08\x9bqLIST$\0\0\0INFOINAM\x02\0\0\0x\0ISFT\x0e\0\0\0Lavf59.27.100\0data@8\0\0",
        [112, 24, 1, 48000, 14400],
    ),
    // sox, floats: a `fmt ` chunk of 18 bytes, and fact
    (
        b"RIFF2\x96\0\0WAVEfmt \x12\0\0\0\x03\0\x02\0\x80\xbb\0\0\0\xdc\x05\0\x08\0 \
          \0\0\0fact\x04\0\0\0\xc0\x12\0\0data\0\x96\0\0",
        [58, 32, 2, 48000, 38400],
    ),
    // ffmpeg, six channels of floats
    (
        b"RIFFj\xc2\x01\0WAVEfmt (\0\0\0\xfe\xff\x06\0\x80\xbb\0\0\0\x94\x11\0\x18\0 \0\x16\0 \
          \0?\0\0\0\x03\0\0\0\0\0\x10\0\x80\0\0\xaa\08\x9bqfact\x04\0\0\0\xc0\x12\0\0LIST\x1a\0\0\0INFOISFT\x0e\0\0\0L\
          avf59.27.100\0data\0\xc2\x01\0",
        [114, 32, 6, 48000, 115200],
    ),
    // ffmpeg into a pipe
    (
        b"RIFF\xff\xff\xff\xffWAVEfmt \x10\0\0\0\x01\0\x01\0\x80\xbb\0\0\0w\x01\0\x02\0\x10\0LIST\x1a\0\0\0INFOISFT\
          \x0e\0\0\0Lavf59.27.100\0data\xff\xff\xff\xff",
        [78, 16, 1, 48000, 4294967295],
    ),
    // sox, 24 bits
    (
        b"RIFF\xc8p\0\0WAVEfmt (\0\0\0\xfe\xff\x02\0\x80\xbb\0\0\0e\x04\0\x06\0\x18\0\x16\0\x18\0\x03\0\0\0\x01\0\0\0\
          \0\0\x10\0\x80\0\0\xaa\08\x9bqfact\x04\0\0\0\xc0\x12\0\0data\x80p\0\0",
        [80, 24, 2, 48000, 28800],
    ),
    // sox into a pipe
    (
        b"RIFF$\xf0\xff\x7fWAVEfmt \x10\0\0\0\x01\0\x01\0\x80\xbb\0\0\0w\x01\0\x02\0\x10\0data\0\xf0\xff\x7f",
        [44, 16, 1, 48000, 2147479552],
    ),
];

/// What the library says of a file, lent 34 bytes at a time.
fn read(file: &[u8]) -> (u32, [u64; 5]) {
    let mut numbers = [0; 5];
    loop {
        let rest = file.get(numbers[0] as usize..).unwrap_or(&[]);
        match tuppence::wav_read(&mut numbers, &rest[..rest.len().min(34)]) {
            40 => (),
            number => return (number, numbers),
        }
    }
}

#[test]
fn they_are_read() {
    for (head, said) in HEADS {
        let [start, bits, channels, rate, size] = said;
        assert_eq!(read(head), (0, said));
        assert_eq!(plain_wav::read(head), Ok((start, [bits, channels, rate], size as u32)));
    }
}

/// Cut anywhere, they are refused as no WAV file or as one that ends in front of its audio.
#[test]
fn cut_they_are_refused() {
    for (head, _) in HEADS {
        for length in 0..head.len() {
            assert_eq!(read(&head[..length]).0, if length < 12 { 41 } else { 42 }, "{length} bytes");
        }
    }
}
