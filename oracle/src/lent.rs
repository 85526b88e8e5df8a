//! A frame and a piece in one call as they are by definition: the halves, and a piece resumed to its end, with the
//! desk's logarithms lent.
//! What is to be refused is worked out from the ruling, before any call is made.

use crate::desk::{asked, broken, gate, pass, unfit, Due, UNFINISHED, WAITING};
use crate::dictation::{behind_waiting, completed, LONGEST};
use crate::surface::Surface;

/// Refusals 7, 8 and 9, or 0.
fn unfit_or_broken(model: &[u8], record: &[u32], samples: &[f32]) -> u32 {
    match unfit(model, record) {
        0 if broken(samples) => 9,
        number => number,
    }
}

pub fn frame(
    desk: &Surface,
    record: &mut [u32],
    store: &mut [f32],
    side: u32,
    samples: &[f32],
    model: &[u8],
    out: &mut [f32],
    answer: &mut [f32],
) -> u32 {
    asked!(Due::Call(1), record, store, side, samples 480, out 480, answer 3);
    pass!(unfit_or_broken(model, record, samples));
    let mut sums = [0.0; 22];
    done((desk.first_half)(record, store, side, samples, &mut sums));
    let logs = logs(desk, &sums);
    done((desk.second_half)(record, store, side, &logs, model, out, answer));
    0
}

pub fn take(
    desk: &Surface,
    record: &mut [u32],
    store: &mut [f32],
    side: u32,
    piece: &[f32],
    model: &[u8],
    out: &mut [f32],
    answers: &mut [f32],
) -> u32 {
    pass!(gate(Due::Piece, record, store, side));
    let frames = completed(record[WAITING] as usize, piece.len());
    if !(1..=LONGEST).contains(&piece.len()) || out.len() < 480 * frames || answers.len() < 3 * frames {
        return 5;
    }
    pass!(unfit_or_broken(model, record, &behind_waiting(record, store, side, piece)));
    let mut sums = [0.0; 22];
    done((desk.piece)(record, store, side, piece, out, &mut sums));
    for answer in answers.chunks_exact_mut(3) {
        if record[UNFINISHED] == 0 {
            break;
        }
        let logs = logs(desk, &sums);
        done((desk.resume)(record, store, side, piece, &logs, model, out, &mut sums, answer));
    }
    0
}

fn logs(desk: &Surface, sums: &[f32; 22]) -> [f32; 22] {
    let mut logs = [0.0; 22];
    done((desk.logs)(&mut logs, sums));
    logs
}

/// What the ruling lets pass, no part of it refuses.
fn done(number: u32) {
    assert_eq!(number, 0, "a part of a whole call is due and fits");
}
