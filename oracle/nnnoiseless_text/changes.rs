// Every change that is made to the text before it is compiled. The text itself, ../text, stands as it was published.
//
// `from` must occur exactly once in its file, else the build fails. A file's probe is put after its last line:
// functions of ours that call the text's private ones, and change nothing.

pub struct Change {
    pub file: &'static str,
    pub why: &'static str,
    pub from: &'static str,
    pub to: &'static str,
}

pub const CHANGES: &[Change] = &[
    Change {
        file: "lib.rs",
        why: "the text is included by our lib.rs, where a file's inner attribute and inner comment can't stand",
        from: r#"#![deny(missing_docs)]

//! `nnnoiseless` is a crate for removing noise from audio. The main entry point is
//! [`DenoiseState`].
//!
//! [`DenoiseState`]: struct.DenoiseState.html
"#,
        to: "",
    },
    Change {
        file: "rnn.rs",
        why: "weights.rnn is not part of the text: RnnModel::default panics",
        from: r#"include_bytes!("weights.rnn")"#,
        to: "&[]",
    },
    Change {
        file: "features.rs",
        why: "the lag is fed; with it may come what the frame remembers of its first half",
        from: "    fn find_pitch(&mut self) -> usize {\n",
        to: "    fn find_pitch(&mut self) -> usize {
        let (x, ex) = (&mut self.x, &mut self.ex);
        if let Some(lag) = feed::asked_lag(|fed_x, fed_ex| {
            x.read(fed_x);
            ex.copy_from_slice(fed_ex);
        }) {
            return lag;
        }
",
    },
    Change {
        file: "features.rs",
        why: "a remembered lag is an f32, whole or not",
        from: "pitch_idx as f32",
        to: "feed::lag_number(pitch_idx)",
    },
    Change { file: "features.rs", why: "the logarithm is fed", from: ".log10()", to: ".fed_log10()" },
    Change {
        file: "util.rs",
        why: "request 09: tansig_approx of a NaN is 0, where the text has 1",
        from: "    // Tests are reversed to catch NaNs\n",
        to: "    if x.is_nan() {\n        return 0.0;\n    }\n",
    },
];

/// The text's files, each with its probe.
pub const PROBES: &[(&str, &str)] = &[
    ("lib.rs", include_str!("probes/lib.rs")),
    ("util.rs", include_str!("probes/util.rs")),
    ("pitch.rs", include_str!("probes/pitch.rs")),
    ("rnn.rs", include_str!("probes/rnn.rs")),
    ("features.rs", include_str!("probes/features.rs")),
    ("denoise.rs", include_str!("probes/denoise.rs")),
];
