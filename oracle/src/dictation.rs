//! Request 12 by the text: a piece and a resume, over the desk's two halves.

use crate::desk::{
    asked, broken, first_half, pass, second_half, share_of, unfit, Due, PROGRESS, UNFINISHED, WAIT, WAITING,
};

/// The most samples of a piece.
pub const LONGEST: usize = 4_096;

/// So many frames are completed by a piece, where so many samples wait.
pub fn completed(waiting: usize, piece: usize) -> usize {
    (waiting + piece) / 480
}

/// Of an unfinished piece, the number of the frame under way, from 1, and how many samples waited when the piece came.
pub fn under_way(progress: usize) -> (usize, usize) {
    let frame = progress.div_ceil(480);
    (frame, 480 * frame - progress)
}

/// The samples that wait, and a piece behind them.
pub fn behind_waiting(record: &[u32], store: &mut [f32], side: u32, piece: &[f32]) -> Vec<f32> {
    [&share_of(store, side)[WAIT][..record[WAITING] as usize], piece].concat()
}

pub fn piece(
    record: &mut [u32],
    store: &mut [f32],
    side: u32,
    piece: &[f32],
    out: &mut [f32],
    sums: &mut [f32],
) -> u32 {
    asked!(Due::Piece, record, store, side, sums 22);
    let waiting = record[WAITING] as usize;
    if !(1..=LONGEST).contains(&piece.len()) || out.len() < 480 * completed(waiting, piece.len()) {
        return 5;
    }
    let samples = behind_waiting(record, store, side, piece);
    if broken(&samples) {
        return 9;
    }
    record[WAITING] = 0;
    share_of(store, side)[WAIT].fill(0.0);
    go_on(record, store, side, piece.len(), &samples, sums);
    0
}

pub fn resume(
    record: &mut [u32],
    store: &mut [f32],
    side: u32,
    piece: &[f32],
    logs: &[f32],
    model: &[u8],
    out: &mut [f32],
    sums: &mut [f32],
    answer: &mut [f32],
) -> u32 {
    asked!(Due::Resume, record, store, side, logs 22, sums 22, answer 3);
    let [noted, progress] = [UNFINISHED, PROGRESS].map(|at| record[at] as usize);
    let (frame, waited) = under_way(progress);
    if piece.len() != noted || out.len() < 480 * completed(waited, noted) {
        return 5;
    }
    pass!(unfit(model, record));
    // nothing waits where a piece is unfinished
    if broken(piece) {
        return 9;
    }
    record[UNFINISHED] = 0;
    record[PROGRESS] = 0;
    let place = &mut out[480 * (frame - 1)..480 * frame];
    assert_eq!(second_half(record, store, side, logs, model, place, answer), 0, "the second half is due and fits");
    go_on(record, store, side, noted, &piece[progress..], sums);
    0
}

/// The samples that are in no frame yet: 480 of them begin one, and the piece pauses; fewer wait, and it is at its end.
fn go_on(record: &mut [u32], store: &mut [f32], side: u32, piece: usize, rest: &[f32], sums: &mut [f32]) {
    if rest.len() < 480 {
        let places = &mut share_of(store, side)[WAIT];
        places.fill(0.0);
        places[..rest.len()].copy_from_slice(rest);
        record[WAITING] = rest.len() as u32;
    } else {
        let (frame, left) = rest.split_at(480);
        assert_eq!(first_half(record, store, side, frame, sums), 0, "the first half is due and fits");
        record[UNFINISHED] = piece as u32;
        record[PROGRESS] = (piece - left.len()) as u32;
    }
}
