//! The text of nnnoiseless 0.5.2, unchanged but for the list in changes.rs.
//!
//! The text's two transforms, its logarithm and its lag come from the crate [`feed`], in one of two modes: **fed**,
//! every number put in beforehand ([`feed::start`], [`feed::spectrum`], [`feed::lag`], [`feed::logs`],
//! [`feed::inverse`]), or **computed**, by functions that the user installs ([`feed::install`]). Computed,
//! [`DenoiseState::process_frame`] runs whole, with the lag of the text's own finder:
//!
//! ```
//! use nnnoiseless_text::{feed, probe::pitch::PitchFinder, DenoiseState, RnnModel};
//!
//! feed::install(feed::Functions {
//!     forward: Box::new(|_window, spectrum| spectrum.fill(0.0)), // a transform of 960 numbers to 961
//!     inverse: Box::new(|_spectrum, window| window.fill(0.0)),   // and back, not normalised
//!     log10: f32::log10,
//! });
//! // hidden counts of 1, all weights 0
//! let headers = [(42, 1, 0, 43), (1, 1, 0, 9), (44, 1, 0, 138), (44, 1, 0, 138), (1, 22, 1, 44), (1, 1, 1, 2)];
//! let file: Vec<u8> = headers.iter().flat_map(|h| [vec![h.0, h.1, h.2], vec![0; h.3]].concat()).collect();
//! let mut state = DenoiseState::from_model(RnnModel::from_bytes(&file).unwrap());
//! assert_eq!(state.process_frame(&mut [0.0; 480], &[0.0; 480]), 0.0);
//!
//! // The finder by itself needs no feed.
//! let (lag, _gain) = PitchFinder::new().process(&[0.0; 1728]);
//! assert!((60..=768).contains(&lag));
//! ```
//!
//! [`probe`] has what the text keeps to itself.
#![allow(dead_code, unexpected_cfgs)]
#![allow(clippy::all)]

pub use feed;

include!(concat!(env!("OUT_DIR"), "/lib.rs"));
