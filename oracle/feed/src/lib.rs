//! Where the text gets what it does not work out here: both transforms, the logarithm, and the lag.
//!
//! A feed belongs to its thread and is in one of two modes.
//!
//! **Fed.** [`start`] empties the feed; then every number that the text will ask for is put in, in the text's order:
//! [`spectrum`] twice, [`lag`], [`logs`], and [`inverse`]. [`finish`] gives back what the text handed over at those
//! places ([`Seen`]), and fails where something was not asked for. The text panics where it asks for more than there
//! is.
//!
//! ```
//! feed::start();
//! feed::logs(&[-2.0]);
//! assert_eq!(feed::log10(0.01), -2.0);
//! assert_eq!(feed::finish().logs, [0.01]);
//! ```
//!
//! **Computed.** [`install`] names functions that work the numbers out. The lag then is that of the text's own
//! `PitchFinder`, and no number has to be put in.
//!
//! ```
//! feed::install(feed::Functions {
//!     forward: Box::new(|_window, spectrum| spectrum.fill(0.0)),
//!     inverse: Box::new(|_spectrum, window| window.fill(0.0)),
//!     log10: f32::log10,
//! });
//! assert_eq!(feed::log10(100.0), 2.0);
//! ```
//!
//! A spectrum is 961 numbers: bin 0, which is real, then the real and imaginary parts of bins 1 to 480, not normalised.

use std::cell::RefCell;
use std::collections::VecDeque;

/// Numbers of a spectrum.
pub const SPECTRUM: usize = 961;
/// Numbers of a window, the transforms' length.
pub const WINDOW: usize = 960;

/// From the numbers in the first slice to those in the second.
pub type Transform = Box<dyn FnMut(&[f32], &mut [f32])>;

/// What works the numbers out in computed mode.
pub struct Functions {
    /// From a window of 960 to a spectrum of 961.
    pub forward: Transform,
    /// From a spectrum of 961 to 960 numbers.
    pub inverse: Transform,
    /// The logarithm to base 10.
    pub log10: fn(f32) -> f32,
}

/// What a frame remembers of its first half: it takes the place of the text's own at the moment when the lag is asked
/// for.
pub struct Kept {
    /// The scaled first spectrum.
    pub x: Vec<f32>,
    /// Its 22 band energies.
    pub ex: Vec<f32>,
    /// The lag, which need not be a whole number here.
    pub lag: f32,
}

/// What the text handed over.
#[derive(Default)]
pub struct Seen {
    /// The windows to be transformed.
    pub windows: Vec<Vec<f32>>,
    /// The numbers whose logarithm was asked for.
    pub logs: Vec<f32>,
    /// The spectra to be transformed back.
    pub spectra: Vec<Vec<f32>>,
}

#[derive(Default)]
struct Feed {
    functions: Option<Functions>,
    watched: bool,
    spectra: VecDeque<Vec<f32>>,
    lags: VecDeque<usize>,
    kept: Option<Kept>,
    lag_number: Option<f32>,
    logs: VecDeque<f32>,
    inverses: VecDeque<Vec<f32>>,
    seen: Seen,
}

thread_local! {
    static FEED: RefCell<Feed> = RefCell::default();
}

fn with<R>(f: impl FnOnce(&mut Feed) -> R) -> R {
    FEED.with(|feed| f(&mut feed.borrow_mut()))
}

/// Turns to computed mode.
pub fn install(functions: Functions) {
    with(|feed| *feed = Feed { functions: Some(functions), ..Feed::default() })
}

/// Turns to fed mode, with nothing in the feed.
pub fn start() {
    with(|feed| *feed = Feed { watched: true, ..Feed::default() })
}

/// As [`start`], but what the text hands over is not written down: for measuring time.
pub fn start_unwatched() {
    with(|feed| *feed = Feed::default())
}

/// What was seen since [`start`]. Panics where the text left something in the feed.
pub fn finish() -> Seen {
    with(|feed| {
        assert!(
            feed.spectra.is_empty()
                && feed.lags.is_empty()
                && feed.kept.is_none()
                && feed.logs.is_empty()
                && feed.inverses.is_empty(),
            "the text did not ask for everything that was fed"
        );
        std::mem::take(&mut feed.seen)
    })
}

/// Puts in what the next forward transform gives.
pub fn spectrum(numbers: &[f32]) {
    assert_eq!(numbers.len(), SPECTRUM);
    with(|feed| feed.spectra.push_back(numbers.to_vec()))
}

/// Puts in the next lag.
pub fn lag(lag: usize) {
    with(|feed| feed.lags.push_back(lag))
}

/// Puts in what a frame remembers, in place of the next lag.
pub fn kept(kept: Kept) {
    with(|feed| feed.kept = Some(kept))
}

/// Puts in the next logarithms.
pub fn logs(numbers: &[f32]) {
    with(|feed| feed.logs.extend(numbers))
}

/// Puts in what the next inverse transform gives.
pub fn inverse(numbers: &[f32]) {
    assert_eq!(numbers.len(), WINDOW);
    with(|feed| feed.inverses.push_back(numbers.to_vec()))
}

/// The text asks for a forward transform; `take` gets the 961 numbers.
pub fn forward(window: &[f32], take: impl FnOnce(&[f32])) {
    with(|feed| {
        if let Some(functions) = &mut feed.functions {
            let mut spectrum = [0.0; SPECTRUM];
            (functions.forward)(window, &mut spectrum);
            return take(&spectrum);
        }
        if feed.watched {
            feed.seen.windows.push(window.to_vec());
        }
        take(&feed.spectra.pop_front().expect("no spectrum was fed"))
    })
}

/// The text asks for an inverse transform of 961 numbers.
pub fn backward(spectrum: &[f32], window: &mut [f32]) {
    with(|feed| {
        if let Some(functions) = &mut feed.functions {
            return (functions.inverse)(spectrum, window);
        }
        if feed.watched {
            feed.seen.spectra.push(spectrum.to_vec());
        }
        window.copy_from_slice(&feed.inverses.pop_front().expect("no inverse was fed"))
    })
}

/// The text asks for the lag: none in computed mode, where it finds its own. `restore` gets what a frame remembers.
pub fn asked_lag(restore: impl FnOnce(&[f32], &[f32])) -> Option<usize> {
    with(|feed| {
        if feed.functions.is_some() {
            return None;
        }
        if let Some(kept) = feed.kept.take() {
            restore(&kept.x, &kept.ex);
            feed.lag_number = Some(kept.lag);
            return Some(0);
        }
        Some(feed.lags.pop_front().expect("no lag was fed"))
    })
}

/// The text asks for the lag as a number of its own format.
pub fn lag_number(lag: usize) -> f32 {
    with(|feed| feed.lag_number.take()).unwrap_or(lag as f32)
}

/// The text asks for a logarithm.
pub fn log10(x: f32) -> f32 {
    with(|feed| {
        if let Some(functions) = &feed.functions {
            return (functions.log10)(x);
        }
        if feed.watched {
            feed.seen.logs.push(x);
        }
        feed.logs.pop_front().expect("no logarithm was fed")
    })
}

/// `log10` as a method, so that it stands where the text has its own.
pub trait Log10 {
    /// See [`log10`].
    fn fed_log10(self) -> f32;
}

impl Log10 for f32 {
    fn fed_log10(self) -> f32 {
        log10(self)
    }
}
