//! What the box writes of a recording of each format, held against fixed checksums, of either way. Those of `--lag own`
//! were taken when the box still made samples of bytes, and bytes of samples, by itself. Where the library's own
//! numbers move, they are to be taken anew; tests/bytes.rs goes along by itself.

mod common;

use common::*;
use std::fs;
use std::path::Path;
use tuppencehop::cleaning::demo::Rng;

/// Seeded noise, a buzz over it and silence in turn, in 24 bits. (Of whole numbers alone every machine makes the same.)
fn sound(seed: u64, length: usize) -> Vec<i32> {
    let (mut rng, period) = (Rng(seed), 150 + seed as usize % 300);
    let each = |i: usize| {
        let noise = (rng.draw() >> 44) as i32 - (1 << 19);
        let buzz = (6_000_000 / period * (i % period)) as i32 - 3_000_000;
        [noise, noise + buzz, noise / 8 + buzz, 0][i / 5_000 % 4]
    };
    (0..length).map(each).collect()
}

/// The left bench's sound, and the right one's.
fn both(lengths: [usize; 2]) -> [Vec<i32>; 2] {
    [sound(0x5EED_0001, lengths[0]), sound(0x5EED_0777, lengths[1])]
}

/// Four times as loud: much of it lies beyond full scale.
fn loud(lengths: [usize; 2]) -> [Vec<i32>; 2] {
    both(lengths).map(|samples| samples.into_iter().map(|x| 4 * x).collect())
}

#[derive(Clone, Copy)]
enum Format {
    Pcm16,
    Pcm24,
    Float,
}

use Format::*;

impl Format {
    fn bits(self) -> u16 {
        match self {
            Pcm16 => 16,
            Pcm24 => 24,
            Float => 32,
        }
    }

    fn bytes(self, x: i32) -> Vec<u8> {
        let whole = x.clamp(-0x80_0000, 0x7F_FFFF).to_le_bytes();
        match self {
            Pcm16 => whole[1..3].to_vec(),
            Pcm24 => whole[..3].to_vec(),
            // not a power of 2, so that none of its bits is left out
            Float => (x as f32 / 8_000_000.0).to_le_bytes().to_vec(),
        }
    }

    fn mono(self, samples: &[i32]) -> Vec<u8> {
        samples.iter().flat_map(|x| self.bytes(*x)).collect()
    }

    /// Left and right in turn.
    fn stereo(self, [left, right]: &[Vec<i32>; 2]) -> Vec<u8> {
        left.iter().zip(right).flat_map(|(l, r)| [self.bytes(*l), self.bytes(*r)].concat()).collect()
    }
}

/// A recording; an extensible one has its tag in an identifier, and a chunk in front of its format.
fn wav(format: Format, channels: u16, extensible: bool, audio: &[u8]) -> Vec<u8> {
    let (tag, bits) = (if matches!(format, Float) { 3 } else { 1 }, format.bits());
    let block = bits / 8 * channels;
    let words = |words: &[u16]| words.iter().flat_map(|word| word.to_le_bytes()).collect::<Vec<u8>>();
    let said = [words(&[channels]), [48_000, 48_000 * u32::from(block)].map(u32::to_le_bytes).concat()].concat();
    let (name, head) = if extensible {
        let identifier = words(&[22, bits, 0, 0, tag, 0, 0, 0x10, 0x80, 0xAA00, 0x3800, 0x719B]);
        (&b"RIFF....WAVEJUNK\x03\0\0\0abc\0fmt "[..], [words(&[0xFFFE]), said, words(&[block, bits]), identifier])
    } else {
        (&b"RIFF....WAVEfmt "[..], [words(&[tag]), said, words(&[block, bits]), vec![]])
    };
    let head = head.concat();
    let sizes = [head.len() as u32, audio.len() as u32].map(u32::to_le_bytes);
    [name, &sizes[0], &head, b"data", &sizes[1], audio].concat()
}

/// FNV-1a, of 64 bits.
fn checksum(bytes: &[u8]) -> u64 {
    bytes.iter().fold(0xCBF2_9CE4_8422_2325, |sum, byte| (sum ^ u64::from(*byte)).wrapping_mul(0x100_0000_01B3))
}

/// The checksum of a recording's audio, and of the entries of its sheet behind it.
fn recorded(path: &Path) -> u64 {
    let file = fs::read(path).unwrap();
    let size = u32::from_le_bytes(file[72..HEAD].try_into().unwrap()) as usize;
    let (mut bytes, mut numbers, mut entry) = (file[HEAD..HEAD + size].to_vec(), [0; 3], [0]);
    assert_eq!(tuppence::sheet_read(&mut numbers, &file), 0);
    for index in 0..numbers[1] {
        assert_eq!(tuppence::sheet_entry(&mut entry, &file, index), 0);
        bytes.extend(entry[0].to_le_bytes());
    }
    checksum(&bytes)
}

/// What a run left: both recordings and the table.
fn written(path: &Path) -> [u64; 3] {
    let table = checksum(&fs::read(path.join("frames.csv")).unwrap());
    [recorded(&path.join("left.wav")), recorded(&path.join("right.wav")), table]
}

/// The checksums, where the run ended so.
fn after(path: &Path, ended: Ended, status: i32, why: &str) -> [u64; 3] {
    assert_eq!((ended.status, &ended.why[..]), (Some(status), why), "{}", path.display());
    let sums = written(&path.join("out"));
    fs::remove_dir_all(path.join("out")).unwrap();
    sums
}

/// Both ways, in words: as the box is, and with our own lag.
type Lag = &'static [&'static str];
const LAGS: [Lag; 2] = [&[], &["--lag", "own"]];

/// Two files.
fn two(path: &Path, lag: Lag, format: Format, extensible: bool, sounds: &[Vec<i32>; 2], why: &str) -> [u64; 3] {
    for (name, samples) in ["l.wav", "r.wav"].into_iter().zip(sounds) {
        fs::write(path.join(name), wav(format, 1, extensible, &format.mono(samples))).unwrap();
    }
    let words = [&["--left", "l.wav", "--right", "r.wav", "--out", "out"], lag].concat();
    after(path, run(clean(path, &words)), 0, why)
}

/// One file of both.
fn one(path: &Path, lag: Lag, format: Format, extensible: bool, sounds: &[Vec<i32>; 2], why: &str) -> [u64; 3] {
    fs::write(path.join("both.wav"), wav(format, 2, extensible, &format.stereo(sounds))).unwrap();
    after(path, run(clean(path, &[&["--both", "both.wav", "--out", "out"], lag].concat())), 0, why)
}

fn streamed(path: &Path, lag: Lag, format: Format, extensible: bool, sounds: &[Vec<i32>; 2]) -> [u64; 3] {
    let file = wav(format, 2, extensible, &format.stereo(sounds));
    after(path, fed(clean(path, &[&["-", "--out", "out"], lag].concat()), &file), 0, "")
}

const LENGTHS: [usize; 2] = [40_011, 33_007];
const EVEN: [usize; 2] = [40_011; 2];

/// Two files of `LENGTHS`, and a stereo file or stream of `EVEN`: 16 bits, 24 bits and floats, of either way.
const TWO: [[[u64; 3]; 3]; 2] = [
    [
        [0xA692_0C34_E6B0_D686, 0xF8C1_4668_BD18_AADF, 0xA2A1_31B8_41E8_8109],
        [0x6D77_EC82_5BEF_868D, 0x73E7_DB66_234A_9E5E, 0xCB3B_F2A3_AE3B_9A8D],
        [0x1E44_761C_E847_AB28, 0x78F4_02D6_19E6_F96C, 0xED13_8890_AB86_2C86],
    ],
    [
        [0x845D_8EF7_E1AB_99A3, 0x14A9_43EC_22A0_89C4, 0x36ED_F8B9_8ECD_48F5],
        [0x236E_F564_ED70_3389, 0xBB4B_963D_2E45_0D53, 0x8840_F664_DAFC_C845],
        [0x44DF_644E_579C_7CAD, 0xFF93_0883_A688_EEE3, 0x3F2F_2DE6_9A60_638E],
    ],
];
const ONE: [[[u64; 3]; 3]; 2] = [
    [
        [0xA692_0C34_E6B0_D686, 0xF605_455D_E381_680A, 0xB1CD_5266_C784_02DE],
        [0x6D77_EC82_5BEF_868D, 0xC265_BADF_46B4_4C37, 0xE9BC_37AA_D08D_A064],
        [0x1E44_761C_E847_AB28, 0xF73D_6622_A876_C719, 0x7C13_06F4_0A75_9C3F],
    ],
    [
        [0x845D_8EF7_E1AB_99A3, 0x0106_7D38_C7ED_BC4F, 0x57E3_5AAE_169C_EF48],
        [0x236E_F564_ED70_3389, 0x281F_F8CF_3804_63F6, 0x902A_0AC4_3D08_6C53],
        [0x44DF_644E_579C_7CAD, 0x2FF7_1E80_9EE9_B02D, 0x6821_6EBE_9A4C_0640],
    ],
];

/// What a run gives in each way is what is kept of it.
fn same<const N: usize>(name: &str, run: impl Fn(Lag) -> [[u64; 3]; N], kept: [[[u64; 3]; N]; 2]) {
    let given = LAGS.map(run);
    assert!(given == kept, "{name}: {given:#018X?}");
}

#[test]
fn two_files() {
    let (path, sounds) = (folder("formats-two"), both(LENGTHS));
    same("two files", |lag| [Pcm16, Pcm24, Float].map(|format| two(&path, lag, format, false, &sounds, "")), TWO);
}

#[test]
fn a_stereo_file() {
    let (path, sounds) = (folder("formats-stereo"), both(EVEN));
    same("a stereo file", |lag| [Pcm16, Pcm24, Float].map(|format| one(&path, lag, format, false, &sounds, "")), ONE);
}

/// Its blocks are cut where the pipe cuts them.
#[test]
fn a_stream() {
    let (path, sounds) = (folder("formats-stream"), both(EVEN));
    same("a stream", |lag| [Pcm16, Pcm24, Float].map(|format| streamed(&path, lag, format, false, &sounds)), ONE);
    for (lag, [kept, ..]) in LAGS.into_iter().zip(ONE) {
        let words = [&["-", "--raw", "-q", "--out", "out"], lag].concat();
        let raw = fed(clean(&path, &words), &Pcm16.stereo(&sounds));
        assert_eq!(after(&path, raw, 0, ""), kept);
    }
}

#[test]
fn extensible_ones() {
    let path = folder("formats-extensible");
    let given = |lag| {
        [
            two(&path, lag, Pcm16, true, &both(LENGTHS), ""),
            one(&path, lag, Pcm24, true, &both(EVEN), ""),
            streamed(&path, lag, Float, true, &both(EVEN)),
        ]
    };
    same("extensible ones", given, [0, 1].map(|way| [TWO[way][0], ONE[way][1], ONE[way][2]]));
}

/// A frame, a block, one sample less and one more.
#[test]
fn lengths() {
    let path = folder("formats-lengths");
    let lengths = [[1, 479], [480, 481], [960, 4_095], [4_096, 4_097], [8_192, 12_289]];
    same(
        "lengths",
        |lag| lengths.map(|lengths| two(&path, lag, Pcm24, false, &both(lengths), "")),
        [
            [
                [0xBB87_EBD2_6E01_6555, 0x625B_9A22_6DCA_8A9E, 0xFF03_8AC9_FB32_A698],
                [0xBE16_76EF_DF50_72EA, 0x2EDB_37D0_47CF_7E56, 0x4031_20EB_8A41_CEB7],
                [0xC5F1_A33C_C415_3466, 0x4D58_F216_A56F_5B4D, 0x7E98_6DC3_03F3_C1AC],
                [0xC953_122E_6179_69E9, 0x5463_DA39_95CC_1880, 0xF7DD_A481_C6A4_240B],
                [0x6D55_BE74_70EE_7AF5, 0x36E6_19D6_0C56_D916, 0x3EC8_D76E_89A8_41C1],
            ],
            [
                [0xBB87_EBD2_6E01_6555, 0x625B_9A22_6DCA_8A9E, 0xEFB2_4D71_F6DC_1ACD],
                [0x8FE5_ABBF_A641_0F5C, 0x2EDB_37D0_47CF_7E56, 0xAFF6_D080_25FB_B0EB],
                [0xA939_81FA_06A1_389E, 0xBFA5_9875_8931_DB97, 0x8E47_AACC_2929_4625],
                [0x7C45_6610_C5F4_FEE1, 0x07B1_E971_A428_6EDE, 0x9E48_DFF4_50CF_0B41],
                [0xD690_1F59_E0FE_9E86, 0x4695_5F98_10AC_6DB2, 0xD098_5B27_7484_38A5],
            ],
        ],
    );
}

/// Of 24 bits and of floats some lie beyond what a sample can be: they are clipped, and told.
#[test]
fn beyond_full_scale() {
    let path = folder("formats-loud");
    let told = |name: &str, n: usize| format!("{name}: {n} samples were beyond full scale, and are clipped\n");
    let given = |lag| {
        [
            one(&path, lag, Pcm16, false, &loud(EVEN), ""),
            one(&path, lag, Pcm24, false, &loud(EVEN), &told("both.wav", 5_943)),
            one(&path, lag, Float, false, &loud(EVEN), &told("both.wav", 13_378)),
            two(&path, lag, Float, false, &loud(LENGTHS), &(told("l.wav", 6_679) + &told("r.wav", 6_034))),
        ]
    };
    same(
        "beyond full scale",
        given,
        [
            [
                [0x618B_34CB_2DE4_8002, 0xEED6_F804_F7A7_C4FE, 0xD17B_A896_3F97_57FB],
                [0x2375_59C2_980F_597D, 0xA807_831B_826F_7020, 0x3C0D_DAC7_5A34_B36E],
                [0x1558_7D7D_0050_ED3D, 0x5142_70D5_5ED1_C88E, 0xEC32_CF18_2BF1_0837],
                [0x1558_7D7D_0050_ED3D, 0x4700_074D_24FA_3ACB, 0x4228_3DD7_DA6C_4013],
            ],
            [
                [0xDD67_9A3D_F0ED_B08B, 0x40AB_E3A4_370E_E7E0, 0x21BA_B3E4_FF93_5C28],
                [0xC51A_7F27_CE9C_D0E0, 0x66F9_FEE9_F584_9027, 0x5959_764A_2558_8EE6],
                [0x0E84_E27C_5830_8C56, 0x49AD_6670_6CAA_E881, 0x6605_393E_F2C4_011C],
                [0x0E84_E27C_5830_8C56, 0x79DF_9BCF_A46C_2950, 0x140C_4CF8_39D8_D3B9],
            ],
        ],
    );
}

/// The right channel ends where it is broken.
#[test]
fn a_broken_sample() {
    let path = folder("formats-broken");
    let mut audio = Float.stereo(&both(EVEN));
    audio[8 * 20_001 + 4..][..4].copy_from_slice(&f32::NAN.to_le_bytes());
    fs::write(path.join("both.wav"), wav(Float, 2, false, &audio)).unwrap();
    let why = "box: both.wav: right, at 0.42 s: not a finite number\n";
    same(
        "a broken sample",
        |lag| {
            let ended = run(clean(&path, &[&["--both", "both.wav", "--out", "out"], lag].concat()));
            [after(&path, ended, 2, why)]
        },
        [
            [[0x1E44_761C_E847_AB28, 0x5502_21AE_DB8E_6C6D, 0xC06C_9A2E_EA04_DBBD]],
            [[0x44DF_644E_579C_7CAD, 0x13C5_6B4E_EFB9_AABD, 0x7CBF_A30B_E7F9_9985]],
        ],
    );
}

/// Whatever bytes the right channel has, numbers or not, the left recording is the same.
#[test]
fn another_right_channel() {
    let (path, sounds, mut rng) = (folder("formats-right"), both(EVEN), Rng(0x5EED_0035));
    let mut audio = Float.stereo(&sounds);
    let mut left = || {
        let ended = fed(clean(&path, &["-", "--out", "out", "--force"]), &wav(Float, 2, false, &audio));
        audio.chunks_exact_mut(8).for_each(|both| both[4..].copy_from_slice(&(rng.draw() as u32).to_le_bytes()));
        (ended.status, recorded(&path.join("out/left.wav")))
    };
    let (status, kept) = left();
    assert_eq!(status, Some(0));
    for _ in 0..4 {
        assert_eq!(left(), (Some(2), kept));
    }
}
