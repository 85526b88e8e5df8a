//! The same frames, whole: what the desk by the text answered in four calls is held against the text's `process_frame`.

use crate::ask::Ask;
use crate::desk::{self, CEPSTRAL_MEM, INPUT_MEM, LAG, LASTG, MEM_HP_X, STATES, SYNTHESIS_MEM};
use crate::tally::exactly;
use nnnoiseless_text::probe::{denoise, features, rnn};
use nnnoiseless_text::{DenoiseState, RnnModel};

/// One accepted call: what was asked, and what the answer buffers held afterwards.
type Done = (Ask, Vec<Vec<f32>>);

/// One side's frames.
#[derive(Default)]
pub struct Shadow {
    /// The text's own state since the opening; none where the store or the record was changed from outside.
    state: Option<Box<DenoiseState<'static>>>,
    /// The share and the cepstral index before the frame.
    before: (Vec<f32>, u32),
    /// The frame's calls so far.
    frame: Vec<Done>,
    pub frames: u64,
}

impl Shadow {
    /// The share or the record was changed by other means than a call.
    pub fn touched(&mut self) {
        self.state = None;
        self.frame.clear();
    }

    /// An accepted call, with the share and the index before it and after it. What differs, if anything does.
    pub fn follow(
        &mut self,
        ask: &Ask,
        lent: &[Vec<f32>],
        before: (&[f32], u32),
        after: (&[f32], u32),
    ) -> Option<&str> {
        if ask.call == 0 {
            self.frame.clear();
            self.state = RnnModel::from_bytes(&ask.model).map(DenoiseState::from_model);
            return None;
        }
        if ask.call == 1 {
            self.before = (before.0.to_vec(), before.1);
        }
        let mut done = (ask.clone(), lent.to_vec());
        if ask.call == 2 {
            // the lag that it was given or found
            done.0.lag.get_or_insert(after.0[LAG] as u32);
        }
        self.frame.push(done);
        if ask.call < 4 {
            return None;
        }
        let frame = std::mem::take(&mut self.frame);
        match &frame[..] {
            [first, second, third, fourth] => {
                self.frames += 1;
                self.whole([first, second, third, fourth], after)
            }
            _ => None,
        }
    }

    fn whole(&mut self, [first, second, third, fourth]: [&Done; 4], after: (&[f32], u32)) -> Option<&str> {
        let model = RnnModel::from_bytes(&third.0.model).expect("call 3 accepted this model");
        let (share, index) = &self.before;
        let state = self.state.get_or_insert_with(|| set(DenoiseState::from_model(model.clone()), share, *index));
        rnn::exchange(denoise::parts(state).rnn, model);

        feed::start();
        feed::spectrum(&second.0.given[0]);
        feed::lag(second.0.lag.expect("call 2 has a lag") as usize);
        feed::spectrum(&third.0.given[0]);
        feed::logs(&third.0.given[1]);
        feed::inverse(&fourth.0.given[0]);
        let mut output = [0.0; 480];
        let voice = state.process_frame(&mut output, &first.0.given[0]);
        let seen = feed::finish();

        let checks: [(&'static str, &[f32], &[f32]); 6] = [
            ("call 1's window", &first.1[0], &seen.windows[0]),
            ("call 2's window", &second.1[0], &seen.windows[1]),
            ("call 2's sums", &second.1[1], &seen.logs),
            ("call 3's spectrum", &third.1[0], &seen.spectra[0]),
            ("call 3's voice", &third.1[1][1..2], &[voice]),
            ("call 4's samples", &fourth.1[0], &output),
        ];
        let differing = checks.iter().find(|(_, a, b)| !equal(a, b)).map(|(what, ..)| *what);
        differing.or_else(|| kept(state, after))
    }
}

fn equal(a: &[f32], b: &[f32]) -> bool {
    a.len() == b.len() && a.iter().zip(b).all(|(a, b)| exactly(*a, *b))
}

/// The text's state with what a share remembers.
fn set(mut state: Box<DenoiseState<'static>>, share: &[f32], index: u32) -> Box<DenoiseState<'static>> {
    let parts = denoise::parts(&mut state);
    parts.lastg.copy_from_slice(&share[LASTG]);
    for (to, at) in rnn::states(parts.rnn).into_iter().zip(STATES) {
        to.copy_from_slice(&share[at..][..to.len()]);
    }
    desk::load(parts.feat, share, index);
    state
}

/// Whether the text's state is what the share and the record remember.
fn kept(state: &mut DenoiseState<'static>, (share, index): (&[f32], u32)) -> Option<&'static str> {
    let parts = denoise::parts(state);
    let states = rnn::states(parts.rnn).into_iter().zip(STATES);
    let wrong = states.filter(|(state, at)| !equal(state, &share[*at..][..state.len()])).count();
    let memory = features::memory(parts.feat);
    let checks: [(&'static str, bool); 7] = [
        ("the GRU states", wrong == 0),
        ("lastg", equal(parts.lastg, &share[LASTG])),
        ("input_mem", equal(memory.input_mem, &share[INPUT_MEM])),
        ("synthesis_mem", equal(memory.synthesis_mem, &share[SYNTHESIS_MEM])),
        ("mem_hp_x", equal(memory.mem_hp_x, &share[MEM_HP_X])),
        ("cepstral_mem", equal(memory.cepstral_mem.as_flattened(), &share[CEPSTRAL_MEM])),
        ("mem_id", *memory.mem_id as u32 == index),
    ];
    checks.iter().find(|(_, held)| !held).map(|(what, _)| *what)
}
