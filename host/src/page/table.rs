//! The table of frames, as CSV, written as they come.

use crate::cleaning::recorder::{Frame, Heard, Side};
use std::io::{self, Write};

pub fn head(to: &mut impl Write) -> io::Result<()> {
    writeln!(to, "side,frame,heard so far,state,voice,energy")
}

/// A row for each frame of each bench, in turn: its number since the opening, and how many were heard so far.
pub fn rows(to: &mut impl Write, frames: &[Vec<Frame>; 2]) -> io::Result<()> {
    let most = frames.iter().map(Vec::len).max().unwrap_or(0);
    for at in 0..most {
        for (side, frames) in Side::BOTH.into_iter().zip(frames) {
            let Some(frame) = frames.get(at) else { continue };
            write!(to, "{},{},{},", side.name(), frame.number(), frame.heard_so_far)?;
            match frame.heard {
                Heard::Silent => writeln!(to, "silent,,")?,
                Heard::Voice { probability, energy } => writeln!(to, "heard,{probability},{energy}")?,
            }
        }
    }
    Ok(())
}
