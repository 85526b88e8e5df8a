
// ---- our probe

pub mod probe {
    use super::DenoiseState;

    /// The three parts of a `DenoiseState`.
    pub struct Parts<'a, 'model> {
        pub lastg: &'a mut [f32],
        pub rnn: &'a mut crate::rnn::RnnState<'model>,
        pub feat: &'a mut crate::features::DenoiseFeatures,
    }

    pub fn parts<'a, 'model>(state: &'a mut DenoiseState<'model>) -> Parts<'a, 'model> {
        Parts {
            lastg: &mut state.lastg,
            rnn: &mut state.rnn,
            feat: &mut state.feat,
        }
    }
}
