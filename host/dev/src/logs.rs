//! `box dev logs`: how far the sound moves where the library's own logarithms are lent, and not those of `f32::log10`.

use tuppencehop::cleaning::demo::{dictation, minutes, HOUSE};
use tuppencehop::cleaning::recorder::{Side, Way, RECORD, STORE};
use tuppencehop::FRAME;

/// The 22 logarithms of a frame.
type Logs = [f32; 22];

fn machines(sums: &Logs) -> Logs {
    sums.map(f32::log10)
}

fn ours(sums: &Logs) -> Logs {
    let mut logs = [0.0; 22];
    assert_eq!(tuppence::logs(&mut logs, sums), 0);
    logs
}

/// A bench as the box opens it, to which the logarithms are lent.
struct Bench {
    lend: fn(&Logs) -> Logs,
    record: [u32; RECORD],
    store: Vec<f32>,
}

impl Bench {
    fn opened(lend: fn(&Logs) -> Logs) -> Bench {
        let mut bench = Bench { lend, record: [0; RECORD], store: vec![0.0; STORE] };
        Way::Nnnoiseless.open(&mut bench.record, &mut bench.store, 0, HOUSE).expect("the house model");
        bench
    }

    /// The logarithms that it was lent, and the 480 samples.
    fn frame(&mut self, samples: &[f32]) -> (Logs, [f32; FRAME]) {
        let (mut sums, mut out, mut answer) = ([0.0; 22], [0.0; FRAME], [0.0; 3]);
        let Bench { lend, record, store } = self;
        let mut refused = tuppence::first_half(record, store, 0, samples, &mut sums);
        let logs = lend(&sums);
        refused |= tuppence::second_half(record, store, 0, &logs, HOUSE, &mut out, &mut answer);
        assert_eq!(refused, 0, "the halves are due and fit");
        (logs, out)
    }
}

/// How two cleanings of one recording differ.
#[derive(Debug, Default, PartialEq)]
struct Moved {
    frames: usize,
    /// The logarithms that differ.
    logs: usize,
    /// The largest difference of an output sample, whose unit is that of 16 bits.
    most: f32,
    /// The samples that differ where they are rounded to 16 bits.
    rounded: usize,
}

fn moved(recording: &[f32], lends: [fn(&Logs) -> Logs; 2]) -> Moved {
    let mut moved = Moved::default();
    let [mut one, mut other] = lends.map(Bench::opened);
    for samples in recording.chunks_exact(FRAME) {
        let ((logs, out), (other_logs, other_out)) = (one.frame(samples), other.frame(samples));
        moved.frames += 1;
        moved.logs += logs.iter().zip(&other_logs).filter(|(a, b)| a.to_bits() != b.to_bits()).count();
        for (a, b) in out.iter().zip(&other_out) {
            moved.most = moved.most.max((a - b).abs());
            moved.rounded += usize::from(a.round() != b.round());
        }
    }
    moved
}

pub fn logs() {
    tuppencehop::say!(
        "| recording | frames | logarithms that differ | largest difference of a sample | samples that \
         differ in 16 bits |"
    );
    tuppencehop::say!("|---|---|---|---|---|");
    for (bench, side) in Side::BOTH.into_iter().enumerate() {
        for (what, recording) in [("the demo", dictation(bench).noisy), ("ten minutes", minutes(10, bench))] {
            let Moved { frames, logs, most, rounded } = moved(&recording, [machines, ours]);
            let (all, samples) = (22 * frames, FRAME * frames);
            tuppencehop::say!(
                "| {what}, {} | {frames} | {logs} of {all} | {most:.5} | {rounded} of {samples} |",
                side.name()
            );
        }
    }
}

#[cfg(test)]
mod tests {
    use super::*;

    /// The same logarithms move nothing; those that are all an f32 off move little, and each is counted.
    #[test]
    fn what_moves() {
        let second = &dictation(0).noisy[48_000..96_000];
        assert_eq!(moved(second, [ours, ours]), Moved { frames: 100, ..Moved::default() });
        let Moved { logs, most, .. } = moved(second, [ours, |sums| ours(sums).map(f32::next_up)]);
        assert_eq!(logs, 2_200);
        assert!(most > 0.0 && most < 0.5, "{most}");
    }

    #[test]
    fn the_demo_moves_by_less_than_half_a_unit() {
        let moved = moved(&dictation(1).noisy, [machines, ours]);
        assert!(moved.logs > 0 && moved.most < 0.5, "{moved:?}");
    }
}
