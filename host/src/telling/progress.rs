//! How far a recording has come: one line that moves, on a terminal alone.

use crate::cleaning::cleaned::LIKELY;
use crate::cleaning::recorder::{Frame, Heard, Side};
use crate::cleaning::run::Sink;
use crate::error::Result;
use crate::page::picture::clock;
use crate::sys::terminal;
use crate::telling::answer::{moving, still};
use crate::RATE;
use std::time::{Duration, Instant};

/// So often the line moves.
const PAUSE: Duration = Duration::from_millis(200);

/// What a bench does now.
#[derive(Clone, Copy, Default)]
struct Now {
    taken: u64,
    /// The mean square of the last samples.
    power: f64,
    voice: bool,
}

impl Now {
    fn level(&self) -> String {
        match 10.0 * (self.power / 32_768f64.powi(2)).log10() {
            db if db.is_finite() => format!("{db:4.0} dB"),
            _ => "no sound".into(),
        }
    }
}

struct Line {
    /// How many samples there are, where that is known.
    length: Option<u64>,
    start: Instant,
    last: Instant,
    benches: [Now; 2],
}

impl Line {
    /// Of a file, how much there is and how long it will take yet; of a stream, what each bench does.
    fn told(&self) -> String {
        let taken = self.benches.iter().map(|bench| bench.taken).max().unwrap_or(0);
        let seconds = |samples: u64| clock(samples / u64::from(RATE));
        match self.length {
            Some(length) if taken > 0 => {
                let yet = length.saturating_sub(taken);
                let remaining = self.start.elapsed().as_secs_f64() * yet as f64 / taken as f64;
                let percent = 100 * taken.min(length) / length.max(1);
                let (taken, length) = (seconds(taken), seconds(length));
                format!("{percent:3} %  {taken} of {length}, {} remaining", clock(remaining.ceil() as u64))
            }
            _ => {
                let bench = |(side, bench): (Side, &Now)| {
                    let voice = if bench.voice { "voice" } else { "" };
                    format!("{} {} {voice:5}", side.name(), bench.level())
                };
                let benches: Vec<String> = Side::BOTH.into_iter().zip(&self.benches).map(bench).collect();
                format!("{}  {}", seconds(taken), benches.join("  ")).trim_end().into()
            }
        }
    }

    fn look(&mut self) {
        if self.last.elapsed() >= PAUSE {
            self.last = Instant::now();
            moving(&self.told().chars().take(terminal::width().saturating_sub(1)).collect::<String>());
        }
    }
}

/// What becomes of both recordings, and a line that tells of it.
pub struct Watched<'a, S> {
    to: &'a mut S,
    line: Option<Line>,
}

impl<S> Watched<'_, S> {
    pub fn new(to: &mut S, length: Option<u64>, quiet: bool) -> Watched<'_, S> {
        let now = Instant::now();
        let line = Line { length, start: now, last: now, benches: Default::default() };
        Watched { to, line: (!quiet && terminal::is_there()).then_some(line) }
    }
}

impl<S> Drop for Watched<'_, S> {
    fn drop(&mut self) {
        if self.line.is_some() {
            still();
        }
    }
}

impl<S: Sink> Sink for Watched<'_, S> {
    fn before(&mut self, side: Side, samples: &[f32]) -> Result<()> {
        if let Some(line) = &mut self.line {
            let bench = &mut line.benches[side as usize];
            let power: f64 = samples.iter().map(|x| f64::from(*x).powi(2)).sum();
            bench.taken += samples.len() as u64;
            bench.power = power / samples.len().max(1) as f64;
        }
        self.to.before(side, samples)
    }

    fn frames(&mut self, frames: &[Vec<Frame>; 2]) -> Result<()> {
        if let Some(line) = &mut self.line {
            for (bench, frames) in line.benches.iter_mut().zip(frames) {
                let likely =
                    |frame: &Frame| matches!(frame.heard, Heard::Voice { probability, .. } if probability > LIKELY);
                bench.voice = frames.iter().any(likely);
            }
            line.look();
        }
        self.to.frames(frames)
    }

    fn after(&mut self, side: Side, bytes: &[u8]) -> Result<()> {
        self.to.after(side, bytes)
    }
}

/// How many recordings are finished, where several are cleaned at a time: one line that moves.
pub struct Counted {
    finished: usize,
    of: usize,
    is_shown: bool,
}

impl Counted {
    pub fn new(of: usize, quiet: bool) -> Counted {
        let line = Counted { finished: 0, of, is_shown: !quiet && terminal::is_there() };
        line.show();
        line
    }

    /// One more is finished.
    pub fn one_more(&mut self) {
        self.finished += 1;
        self.show();
    }

    fn told(&self) -> String {
        format!("{} of {} recordings are finished", self.finished, self.of)
    }

    fn show(&self) {
        if self.is_shown {
            moving(&self.told());
        }
    }
}

impl Drop for Counted {
    fn drop(&mut self) {
        if self.is_shown {
            still();
        }
    }
}

#[cfg(test)]
mod tests {
    use super::*;

    #[test]
    fn in_words() {
        let (start, last) = (Instant::now() - Duration::from_secs(10), Instant::now());
        let bench = |seconds: u64, power: f64, voice| Now { taken: 48_000 * seconds, power, voice };
        let benches = [bench(75, 32_768f64.powi(2) / 100.0, true), bench(75, 0.0, false)];
        let line = |length| Line { length, start, last, benches }.told();
        assert_eq!(line(None), "1:15  left  -20 dB voice  right no sound");
        assert_eq!(line(Some(48_000 * 150)), " 50 %  1:15 of 2:30, 0:11 remaining");
        let counted = Counted { finished: 3, of: 12, is_shown: false };
        assert_eq!(counted.told(), "3 of 12 recordings are finished");
    }
}
