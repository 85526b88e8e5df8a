//! rnn.rs: the dense layer, the GRU layer, and the six layers for one frame.

use crate::models;
use crate::reader::{self, Refusal};
use crate::rng::Rng;
use crate::tally::{floats, kept, signed, By, Given, Tally, Value};
use crate::{named, Options};
use nnnoiseless_text::probe::rnn::{self, Activation};
use nnnoiseless_text::RnnModel;

pub fn compare(options: &Options) -> Tally {
    let mut tally = Tally::new("network");
    let rng = &mut Rng::new(options.seed);
    for _ in 0..options.calls(20_000) {
        dense(&mut tally, rng);
        gru(&mut tally, rng);
        network(&mut tally, rng);
    }
    tally
}

fn activation(number: u32) -> Option<Activation> {
    match number {
        0 => Some(Activation::Tanh),
        1 => Some(Activation::Sigmoid),
        2 => Some(Activation::Relu),
        _ => None,
    }
}

fn any_activation(rng: &mut Rng) -> u32 {
    match rng.below(20) {
        0 => rng.pick(&[3, 255, 256, 65_536, u32::MAX]),
        _ => rng.below(3) as u32,
    }
}

/// How a layer's numbers are compared: the signs of zeros are open behind `relu`, a maximum.
fn by(activation: u32) -> By {
    if activation == 2 {
        floats
    } else {
        signed
    }
}

/// A layer's count: mostly small and good.
fn count(rng: &mut Rng) -> usize {
    match rng.below(60) {
        0 => rng.pick(&[0, 126, 127, 128, 129]),
        1 => 1 + rng.below(127),
        _ => 1 + rng.below(12),
    }
}

fn good(count: usize) -> bool {
    (1..=127).contains(&count)
}

fn dense(tally: &mut Tally, rng: &mut Rng) {
    let (inputs, neurons) = (count(rng), count(rng));
    let activation_number = any_activation(rng);
    let (lens, weights) = ([rng.near(neurons), rng.near(neurons)], rng.near(inputs * neurons));
    let (output, bias, weights) = (rng.list(lens[0]), rng.bytes(lens[1]), rng.bytes(weights));
    let input = rng.list(inputs);
    let kind = activation(activation_number);
    tally.leaf_by(
        by(activation_number),
        "dense",
        named![output, weights, bias, activation_number, input],
        kind.is_some()
            && good(input.len())
            && good(output.len())
            && bias.len() == output.len()
            && weights.len() == input.len() * output.len(),
        &output,
        |output| tuppence::dense(output, &weights, &bias, activation_number, &input),
        |output| rnn::dense(&rnn::dense_layer(&weights, &bias, kind.unwrap()), output, &input),
    );
}

fn gru(tally: &mut Tally, rng: &mut Rng) {
    let (inputs, neurons) = (count(rng), count(rng));
    let activation_number = any_activation(rng);
    let lens = reader::arrays(1, inputs, neurons).map(|n| rng.near(n));
    let [weights, recurrent, bias] = lens.map(|n| rng.bytes(n));
    let len = rng.near(neurons);
    let (state, input) = (rng.list(len), rng.list(inputs));
    let kind = activation(activation_number);
    let (i, n) = (input.len(), state.len());
    tally.leaf_by(
        by(activation_number),
        "gru",
        named![state, weights, recurrent, bias, activation_number, input],
        kind.is_some() && good(i) && good(n) && [weights.len(), recurrent.len(), bias.len()] == reader::arrays(1, i, n),
        &state,
        |state| tuppence::gru(state, &weights, &recurrent, &bias, activation_number, &input),
        |state| rnn::gru(&rnn::gru_layer(&weights, &recurrent, &bias, kind.unwrap()), state, &input),
    );
}

/// Two frames, so that the states are carried on. A model that reads, or one that may not; lengths that may be wrong.
fn network(tally: &mut Tally, rng: &mut Rng) {
    let model = if rng.once_in(16) { models::any(rng) } else { models::good(rng) };
    let text = RnnModel::from_bytes(&model);
    let lens = [22, 1, 128, 128, 128].map(|n| if rng.once_in(8) { rng.near(n) } else { n });
    let mut held = lens.map(|n| rng.list(n));
    if rng.once_in(2) {
        held[2..].iter_mut().for_each(|state| state.fill(0.0));
    }
    for _ in 0..2 {
        let len = rng.near(42);
        let features = rng.list(len);
        let names = ["gains", "voice", "vad", "noise", "denoise"];
        let before = held.clone();
        let mut given: Vec<(&str, Value)> = names.into_iter().zip(before.iter().map(Value::from)).collect();
        given.extend(named![model, features]);
        let given = Given::new(&given);
        let mut ours = held.clone();
        let [gains, voice, vad, noise, denoise] = &mut ours;
        let number = tuppence::network(gains, voice, vad, noise, denoise, &model, &features);
        let mut rusts = held.clone();
        let want = by_text(&mut rusts, &model, text.as_ref(), &features);
        let mut left = vec![Value::from(&number)];
        left.extend(ours.iter().map(Value::from));
        let mut wanted = vec![Value::from(&want)];
        let by = if want == 0 { floats } else { kept };
        wanted.extend(rusts.iter().map(|list| by(list)));
        tally.judge("network", given, &left, &wanted);
        held = rusts;
    }
}

/// What is to be returned and left: lengths first, then the model, then the text's `RnnState::compute`.
fn by_text(held: &mut [Vec<f32>; 5], model: &[u8], text: Option<&RnnModel>, features: &[f32]) -> u32 {
    let lens = held.each_ref().map(Vec::len);
    if lens != [22, 1, 128, 128, 128] || features.len() != 42 {
        return 5;
    }
    if let Err(Refusal { number, layer }) = reader::read(model, true) {
        return 7 + 256 * number + 65_536 * layer;
    }
    let text = text.expect("the text reads what the table accepts");
    let mut state = rnn::state(text);
    let [gains, voice, states @ ..] = held;
    for (to, from) in rnn::states(&mut state).into_iter().zip(&*states) {
        to.copy_from_slice(&from[..to.len()]);
    }
    state.compute(gains, voice, features);
    for (from, to) in rnn::states(&mut state).into_iter().zip(states) {
        to[..from.len()].copy_from_slice(from);
    }
    0
}
