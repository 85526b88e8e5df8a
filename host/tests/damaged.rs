//! Randomly damaged recordings, sheets and models through the readers: each is read or refused, and none ends in a
//! panic.

use std::io::Cursor;
use tuppencehop::cleaning::demo::{Rng, HOUSE};
use tuppencehop::cleaning::recorder::{Recorder, Side};
use tuppencehop::reading::wav;
use tuppencehop::recording::judge::judged;
use tuppencehop::recording::mend;
use tuppencehop::telling::found::Found;

/// The same in an EXTENSIBLE header, where the samples' form stands in front of fourteen fixed bytes.
fn extended(file: &[u8]) -> Vec<u8> {
    let mut file = file.to_vec();
    let form = [file[20], file[21]];
    (file[4], file[16], file[20], file[21]) = (file[4] + 24, 40, 0xFE, 0xFF);
    let more = [&[22, 0, file[34], 0, 3, 0, 0, 0], &form[..], b"\0\0\0\0\x10\0\x80\0\0\xAA\x008\x9Bq"];
    file.splice(36..36, more.concat());
    file
}

/// A short recording with a sheet behind it, as `box clean` writes it, in each of the forms that are read.
fn recordings() -> Vec<Vec<u8>> {
    // two of these, read as one f32, lie between 0 and 1
    let samples: Vec<f32> = (0..24).map(|i| 16_000.0 + 10.0 * i as f32).collect();
    let mut forms = vec![];
    for (tag, bits, channels) in [(1, 16, 1), (1, 24, 2), (3, 32, 1)] {
        let mut file = wav::write(48_000, &samples);
        (file[20], file[22], file[32], file[34]) = (tag, channels, bits / 8 * channels, bits);
        let audio = file.len();
        file.resize(audio + 8 * 3 + 16, 0);
        assert_eq!(tuppence::sheet_write(&mut file[audio..], 1, &[0, 1, 1 << 32 | 2]), 0);
        forms.push(file);
    }
    forms.push(extended(&forms[1]));
    for form in &forms {
        assert_eq!(wav::read(form).err(), None);
    }
    forms
}

/// A byte changed, a few bytes of a number set to an end, the file cut or lengthened; mostly one of these, sometimes
/// several.
fn damage(rng: &mut Rng, file: &mut Vec<u8>) {
    for _ in 0..1 + rng.draw() % 3 {
        let at = rng.draw() as usize % (file.len() + 1);
        match rng.draw() % 6 {
            0 => file.truncate(at),
            1 => file.extend(vec![rng.draw() as u8; at % 64]),
            2 => file[at.min(40)..].iter_mut().take(4).for_each(|byte| *byte = 0xFF),
            3 => file[at.min(40)..].iter_mut().take(2).for_each(|byte| *byte = 0),
            _ => {
                if let Some(byte) = file.get_mut(at) {
                    *byte = rng.draw() as u8;
                }
            }
        }
        if file.len() < 64 {
            break;
        }
    }
}

/// What the library's reader says of a file that it is lent whole: the start of the records, their number and the side.
fn read_at_once(file: &[u8]) -> Result<[u64; 3], u32> {
    let mut numbers = [0; 3];
    match tuppence::sheet_read(&mut numbers, file) {
        0 => Ok(numbers),
        refused => Err(refused),
    }
}

/// Whether the frames of a good sheet number up from the first one.
fn numbers_up(file: &[u8], frames: u64) -> bool {
    let number = |index: u64| {
        let mut entry = [0];
        assert_eq!(tuppence::sheet_entry(&mut entry, file, index), 0);
        entry[0] as u32
    };
    (1..frames).all(|index| number(index) == number(index - 1).wrapping_add(1))
}

/// The sheet as the box finds it, in parts: one with frames that number up.
fn read_in_parts(file: &[u8]) -> Option<[u64; 3]> {
    let found = Found::of(&mut Cursor::new(file)).unwrap().sheet;
    found.map(|sheet| [sheet.start, sheet.frames, sheet.side as u64])
}

/// Mends a file. What it becomes is accepted.
fn is_mended(file: &[u8]) -> bool {
    let Ok(plan) = mend::plan_of(&mut Cursor::new(file), Some(Side::Right)) else { return false };
    let mut out = vec![];
    plan.write(&mut Cursor::new(file), &mut out).unwrap();
    assert_eq!(judged(&mut &out[..]).unwrap().map(|told| told.front), Ok(plan.front));
    assert_eq!(plan.whole, out == file);
    true
}

#[test]
fn recordings_and_sheets() {
    let (rng, good) = (&mut Rng(7), recordings());
    let mut read = [0; 4];
    for i in 0..100_000 {
        let mut file = good[i % good.len()].clone();
        damage(rng, &mut file);
        let results =
            [wav::read(&file).is_ok(), wav::audio(&file[..]).is_ok(), read_in_parts(&file).is_some(), is_mended(&file)];
        for (count, ok) in read.iter_mut().zip(results) {
            *count += u32::from(ok);
        }
        let at_once = read_at_once(&file).ok().filter(|[_, frames, _]| *frames > 0 && numbers_up(&file, *frames));
        assert_eq!(read_in_parts(&file), at_once, "{file:?}");
    }
    // some of each are read still, and some of each are not
    assert!(read.iter().all(|n| (1_000..99_000).contains(n)), "{read:?}");
}

#[test]
fn models() {
    let (rng, mut recorder) = (&mut Rng(8), Recorder::default());
    let mut read = 0;
    for _ in 0..20_000 {
        let mut model = HOUSE.to_vec();
        damage(rng, &mut model);
        read += u32::from(recorder.open(Side::Left, &model).is_ok());
    }
    assert!((1_000..19_000).contains(&read), "{read}");
}
