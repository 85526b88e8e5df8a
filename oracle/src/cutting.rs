//! Request 12: the same samples with the same logarithms and models, cut in two ways, give the same output, answers,
//! sums, record and store.

use crate::ask::{piece_length, Ask, PIECE, RESUME};
use crate::desk::{Way, BENCHES, RECORD, STORE, UNFINISHED, WAITING};
use crate::dictation::{completed, LONGEST};
use crate::models::{self, Shape};
use crate::rng::{Mood, Rng};
use crate::surface::Surface;
use crate::tally::{kept, Given, Tally, Value};

/// What a frame is lent besides its samples: no logarithms for those of its sums.
struct Lent {
    logs: Option<Vec<f32>>,
    model: Vec<u8>,
}

/// The frames of a dictation, the same for the same seed: the models have the opening's three counts.
fn frames(seed: u64, [_, vad, noise, denoise]: Shape) -> impl Iterator<Item = Lent> {
    let mut rng = Rng::new(seed);
    std::iter::repeat_with(move || {
        let dense = 1 + rng.below(7);
        let logs = rng.once_in(4).then(|| rng.list_of(22, Mood::Small));
        Lent { logs, model: models::of_shape(&mut rng, [dense, vad, noise, denoise]) }
    })
}

/// All that a dictation gave.
#[derive(Default)]
struct Dictated {
    output: Vec<f32>,
    answers: Vec<f32>,
    sums: Vec<f32>,
}

/// A bench of a desk.
#[derive(Clone)]
struct Bench<'a> {
    desk: &'a Surface,
    side: u32,
    shape: Shape,
    record: Vec<u32>,
    store: Vec<f32>,
}

impl Bench<'_> {
    fn opened<'a>(rng: &mut Rng, desk: &'a Surface) -> Bench<'a> {
        let shape = std::array::from_fn(|_| 1 + rng.below(6));
        let mut bench =
            Bench { desk, side: rng.below(BENCHES) as u32, shape, record: vec![0; RECORD], store: rng.list(STORE) };
        bench.put(Ask { model: models::of_shape(rng, shape), way: Way::any(rng), ..Ask::default() });
        bench
    }

    /// A call that is accepted, and leaves what it is given to read.
    fn put(&mut self, mut ask: Ask) -> Vec<Vec<f32>> {
        ask.side = self.side;
        let words = ask.words();
        let given = ask.named(&words);
        let given = Given::new(&given);
        let (number, lent) = ask.put(self.desk, &mut self.record, &mut self.store);
        assert_eq!(number, 0, "call {} of a dictation is refused with {number}", ask.call);
        assert!(!given.changed(), "call {} of a dictation changed what it was given", ask.call);
        lent
    }

    /// One piece, resumed to its end.
    fn piece(&mut self, piece: &[f32], frames: &mut impl Iterator<Item = Lent>, given: &mut Dictated) {
        let places = 480 * completed(self.record[WAITING] as usize, piece.len());
        let held = vec![vec![9.0; places], vec![9.0; 22]];
        let mut lent = self.put(Ask { call: PIECE, given: vec![piece.to_vec()], held, ..Ask::default() });
        while self.record[UNFINISHED] > 0 {
            let Lent { logs, model } = frames.next().expect("there is no end of frames");
            given.sums.extend(&lent[1]);
            let logs = logs.unwrap_or_else(|| lent[1].iter().map(|x| x.log10()).collect());
            let held = vec![lent.swap_remove(0), vec![9.0; 22], vec![9.0; 3]];
            lent = self.put(Ask { call: RESUME, given: vec![piece.to_vec(), logs], model, held, ..Ask::default() });
            given.answers.extend(&lent[2]);
        }
        given.output.extend(&lent[0]);
    }

    /// Pieces of these lengths.
    fn dictate(&mut self, mut samples: &[f32], cuts: &[usize], seed: u64) -> Dictated {
        let (mut frames, mut given) = (frames(seed, self.shape), Dictated::default());
        for cut in cuts {
            let (piece, rest) = samples.split_at(*cut);
            self.piece(piece, &mut frames, &mut given);
            samples = rest;
        }
        given
    }
}

/// Lengths of pieces that are so many samples together; some cuttings are all alike.
fn cuts(rng: &mut Rng, mut samples: usize, mut waiting: usize) -> Vec<usize> {
    let alike = rng.once_in(3).then(|| rng.pick(&[1, 7, 160, 480, 512, 1_024, LONGEST]));
    let mut cuts = vec![];
    while samples > 0 {
        let cut = alike.unwrap_or_else(|| piece_length(rng, waiting)).min(samples);
        samples -= cut;
        waiting = (waiting + cut) % 480;
        cuts.push(cut);
    }
    cuts
}

/// A bench in the middle of its work, and what it dictates on in two ways, compared bit for bit.
pub fn in_two_ways(tally: &mut Tally, seed: u64, desk: &Surface) {
    let rng = &mut Rng::new(seed);
    let loud = rng.pick(&[0.001, 1.0, 300.0, 32_767.0]);
    let recorded =
        |rng: &mut Rng, most| -> Vec<f32> { (0..1 + rng.below(most)).map(|_| loud * rng.of(Mood::Small)).collect() };
    let mut begun = Bench::opened(rng, desk);
    let before = recorded(rng, LONGEST);
    begun.dictate(&before, &[before.len()], seed);
    let samples = recorded(rng, 2 * LONGEST);
    let ways = [(); 2].map(|_| cuts(rng, samples.len(), begun.record[WAITING] as usize));
    let [way, another] = ways.each_ref().map(|cuts| cuts.iter().map(|cut| *cut as u32).collect::<Vec<u32>>());
    let given = [("one way", Value::from(&way)), ("another", (&another).into()), ("samples", (&samples).into())];
    let given = Given::new(&given);
    let [(one, a), (two, b)] = ways.map(|cuts| {
        let mut bench = begun.clone();
        let dictated = bench.dictate(&samples, &cuts, seed + 1);
        (bench, dictated)
    });
    let floats = [(&a.output, &b.output), (&a.answers, &b.answers), (&a.sums, &b.sums), (&one.store, &two.store)];
    let mut left: Vec<Value> = floats.iter().map(|(a, _)| Value::from(*a)).collect();
    let mut right: Vec<Value> = floats.iter().map(|(_, b)| kept(b)).collect();
    left.push((&one.record).into());
    right.push((&two.record).into());
    tally.judge("the same samples cut in two ways", given, &left, &right);
}

#[cfg(test)]
mod tests {
    use super::*;
    use crate::beside::TEXT;

    #[test]
    fn the_text_cut_in_two_ways() {
        let mut tally = Tally::new("pieces");
        (0..10).for_each(|seed| in_two_ways(&mut tally, seed, &TEXT));
        assert_eq!((tally.compared, tally.differences), (10, 0), "{}", tally.report());
    }
}
