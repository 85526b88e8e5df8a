//! The picture of a recording: its peak and its RMS before and after, where a voice is likely, what was heard, and
//! where frames are missing.
//! `svg` is one picture of both benches; the page has the strips of each bench by themselves.

use crate::cleaning::cleaned::Summary;
use crate::page::colours::{plain, DARK, LIGHT};
use crate::page::overview::{Column, Loudness};
use crate::{FRAME, RATE};
use std::fmt::Write;

/// The shapes' classes and their colours.
pub const RULES: &str = include_str!("picture.css");
/// A strip's own measure, in whole numbers: the width of a recording, the height of a strip, and of the lane of voices
/// below it.
pub const WIDE: f64 = 2_000.0;
pub const HIGH: f64 = 200.0;
pub const LANE: f64 = 40.0;
/// The letters of a point: two numbers of up to four digits, and what stands between them.
const POINT: usize = 10;
/// The lane's foot, where it is told what was heard.
const FOOT: f64 = 10.0;

/// Either strip of a recording.
#[derive(Clone, Copy, PartialEq)]
pub enum Strip {
    Before,
    After,
}

impl Strip {
    pub const BOTH: [Strip; 2] = [Strip::Before, Strip::After];

    pub fn name(self) -> &'static str {
        match self {
            Strip::Before => "before",
            Strip::After => "after",
        }
    }

    fn of(self, column: &Column) -> &Loudness {
        match self {
            Strip::Before => &column.before,
            Strip::After => &column.after,
        }
    }
}

/// Seconds as `m:ss`, or `h:mm:ss`.
pub fn clock(seconds: u64) -> String {
    let (minutes, seconds) = (seconds / 60, seconds % 60);
    match minutes / 60 {
        0 => format!("{minutes}:{seconds:02}"),
        hours => format!("{hours}:{:02}:{seconds:02}", minutes % 60),
    }
}

/// The seconds that get a label, so that there are fewer than so many: every one, every fifth, every minute, and so on.
pub fn labelled(seconds: f64, fewer_than: u64) -> impl Iterator<Item = u64> {
    let hours = (0..).flat_map(|zeros| [1, 2, 5].map(|step| 3_600 * step * 10u64.pow(zeros)));
    let steps = [1, 2, 5, 10, 15, 30, 60, 120, 300, 600, 900, 1_800].into_iter().chain(hours);
    let end = seconds as u64;
    let step = steps.into_iter().find(|step| end / step < fewer_than).unwrap_or(u64::MAX);
    (0..=end).step_by(step as usize)
}

/// When a frame begins.
fn second(frame: u64) -> f64 {
    frame as f64 * FRAME as f64 / f64::from(RATE)
}

/// The columns of a recording, each with the seconds between which it stands. (The last frame stands behind its end.)
fn columns(bench: &Summary) -> impl Iterator<Item = ([f64; 2], &Column)> {
    let (wide, end) = (bench.overview.wide, bench.seconds());
    let places = (0..).map(move |column| [second(column * wide), second((column + 1) * wide).min(end)]);
    places.zip(&bench.overview.columns).take_while(move |(place, _)| place[0] < end)
}

/// Where a second lies, of so many that are shown.
fn across(at: f64, seconds: f64) -> f64 {
    (WIDE * at / seconds).round()
}

/// A shape between two heights at each column, from the first one's begin to the last one's end.
fn shape(bench: &Summary, seconds: f64, heights: impl Fn(&Column) -> [f64; 2]) -> String {
    let all: Vec<([f64; 2], [f64; 2])> = columns(bench).map(|(place, column)| (place, heights(column))).collect();
    let (Some(first), Some(last)) = (all.first(), all.last()) else { return String::new() };
    let middles = all.iter().map(|([from, to], heights)| ((from + to) / 2.0, *heights));
    let points: Vec<(f64, [f64; 2])> =
        [(first.0[0], first.1)].into_iter().chain(middles).chain([(last.0[1], last.1)]).collect();
    let there = points.iter().map(|(at, heights)| (*at, heights[0]));
    let back = points.iter().rev().map(|(at, heights)| (*at, heights[1]));
    let mut text = String::with_capacity(2 * POINT * points.len());
    for (at, height) in there.chain(back) {
        // they are whole numbers, which are written faster as such
        write!(text, "{} {},", across(at, seconds) as i64, height.round() as i64).unwrap();
    }
    text.pop();
    text
}

/// The stretches of columns in a row for which `test` holds, in seconds.
fn stretches(bench: &Summary, test: fn(&Column) -> bool) -> Vec<[f64; 2]> {
    let mut found: Vec<[f64; 2]> = Vec::new();
    for ([from, to], _) in columns(bench).filter(|(_, column)| test(column)) {
        match found.last_mut() {
            Some(last) if last[1] == from => last[1] = to,
            _ => found.push([from, to]),
        }
    }
    found
}

/// One strip: the peak, and the RMS over it. The loudest column of the recording as it was fills it, before and after.
pub fn strip(text: &mut String, bench: &Summary, strip: Strip, seconds: f64) {
    let peaks = bench.overview.columns.iter().flat_map(|column| column.before.peak());
    let full = peaks.fold(1.0f32, |full, x| full.max(x.abs()));
    let height = |sample: f32| HIGH / 2.0 - f64::from((sample / full).clamp(-1.0, 1.0)) * HIGH * 0.48;
    let peak = shape(bench, seconds, |column| strip.of(column).peak().map(height));
    let rms = shape(bench, seconds, |column| {
        let rms = strip.of(column).rms().max(0.0);
        [-rms, rms].map(height)
    });
    let name = strip.name();
    writeln!(text, "<g class=\"{name}\"><polygon class=\"peak\" points=\"{peak}\"/>").unwrap();
    writeln!(text, "<polygon class=\"rms\" points=\"{rms}\"/></g>").unwrap();
    if strip == Strip::After {
        gaps(text, bench, seconds);
    }
}

/// A stroke where frames are missing, with the ground's colour on either side.
fn gaps(text: &mut String, bench: &Summary, seconds: f64) {
    for ([at, _], _) in columns(bench).filter(|(_, column)| column.gap) {
        let x = across(at, seconds);
        let stroke = format!("d=\"M{x} 0V{HIGH}\"");
        writeln!(text, "<path class=\"halo\" {stroke}/><path class=\"gap\" {stroke}/>").unwrap();
    }
}

/// How likely a voice is, and below it a bar where something was heard.
pub fn lane(text: &mut String, bench: &Summary, seconds: f64) {
    let foot = LANE - FOOT - 4.0;
    let voice = shape(bench, seconds, |column| [foot - foot * column.likelihood(), foot]);
    writeln!(text, "<polygon class=\"voice\" points=\"{voice}\"/>").unwrap();
    for stretch in stretches(bench, Column::is_heard) {
        let [from, to] = stretch.map(|at| across(at, seconds));
        let (y, wide) = (LANE - FOOT, (to - from).max(1.0));
        writeln!(text, "<rect class=\"heard\" x=\"{from}\" y=\"{y}\" width=\"{wide}\" height=\"{FOOT}\"/>").unwrap();
    }
}

/// What a strip shows, in words.
pub fn described(bench: &Summary, strip: Strip) -> String {
    let name = bench.side.name();
    match strip {
        Strip::Before => {
            format!("Peak and RMS of the {name} recording as it came, over {:.1} seconds.", bench.seconds())
        }
        Strip::After => {
            let gaps = match bench.gaps {
                0 => "No frame is missing.".into(),
                gaps => format!("Frames are missing in {gaps} places."),
            };
            let voice = bench.voice_at().map_or("No voice is likely.".into(), |at| {
                format!("A voice is likely from {at:.1} seconds on, in {} of {} frames.", bench.voices, bench.frames)
            });
            format!("Peak and RMS of the {name} recording when it was cleaned. {voice} {gaps}")
        }
    }
}

// ---- one picture of both benches

/// Where its strips begin, how high and wide they are, and what is between them.
const LEFT: f64 = 120.0;
const TOP: f64 = 70.0;
const STRIP: f64 = 90.0;
const BETWEEN: f64 = 12.0;
const VOICES: f64 = 20.0;
const ACROSS: f64 = 1_000.0;

const LEGEND: [&str; 2] = [
    "Both benches, before and after: the peak, and darker or brighter over it the RMS. Below each: how likely a voice \
     is,",
    "and a bar where something was heard. A red stroke is a place where frames are missing. Time is in \
     minutes:seconds.",
];

/// A strip for each recording, before and after, on one axis.
pub fn svg(benches: &[Summary; 2]) -> String {
    let seconds = benches.iter().map(Summary::seconds).fold(1.0 / f64::from(RATE), f64::max);
    let bench_high = 2.0 * (STRIP + BETWEEN) + VOICES + BETWEEN;
    let (wide, high) = (LEFT + ACROSS + 40.0, TOP + 2.0 * bench_high + 30.0);
    let mut text = format!(
        "<svg xmlns=\"http://www.w3.org/2000/svg\" viewBox=\"0 0 {wide} {high}\" font-family=\"sans-serif\" \
         font-size=\"16\" role=\"img\" \
         aria-labelledby=\"title desc\">\n<title id=\"title\">Both benches, before and after</title>\n<desc \
         id=\"desc\">{}</desc>\n\
         <style>\n{}@media (prefers-color-scheme: dark) {{\n{}}}\n</style>\n<rect class=\"ground\" width=\"100%\" \
         height=\"100%\"/>\n",
        benches.each_ref().map(|bench| described(bench, Strip::After)).join(" "),
        plain(RULES, &LIGHT),
        plain(RULES, &DARK),
    );
    for (line, y) in LEGEND.iter().zip([26, 48]) {
        writeln!(text, "<text class=\"soft\" x=\"12\" y=\"{y}\">{line}</text>").unwrap();
    }
    for (bench, at) in benches.iter().zip(0..) {
        both_strips(&mut text, bench, seconds, TOP + f64::from(at) * bench_high);
    }
    for second in labelled(seconds, if seconds < 3_600.0 { 15 } else { 11 }) {
        let x = LEFT + ACROSS * second as f64 / seconds;
        let y = TOP + 2.0 * bench_high + 14.0;
        writeln!(text, "<text class=\"soft\" x=\"{x:.0}\" y=\"{y}\" text-anchor=\"middle\">{}</text>", clock(second))
            .unwrap();
    }
    text + "</svg>\n"
}

/// The strips of one bench, one below the other, and its lane.
fn both_strips(text: &mut String, bench: &Summary, seconds: f64, mut top: f64) {
    let scale = ACROSS / WIDE;
    for which in Strip::BOTH {
        let (name, y) = (format!("{} {}", bench.side.name(), which.name()), top + STRIP / 2.0 + 5.0);
        writeln!(text, "<text class=\"ink\" x=\"12\" y=\"{y}\">{name}</text>").unwrap();
        if bench.samples == 0 {
            writeln!(text, "<text class=\"ink\" x=\"{LEFT}\" y=\"{y}\">empty</text>").unwrap();
        }
        writeln!(text, "<g transform=\"translate({LEFT} {top}) scale({scale} {})\">", STRIP / HIGH).unwrap();
        strip(text, bench, which, seconds);
        *text += "</g>\n";
        top += STRIP + BETWEEN;
    }
    writeln!(text, "<g transform=\"translate({LEFT} {}) scale({scale} {})\">", top - BETWEEN / 2.0, VOICES / LANE)
        .unwrap();
    lane(text, bench, seconds);
    *text += "</g>\n";
}

#[cfg(test)]
mod tests {
    use super::*;
    use crate::cleaning::recorder::{Frame, Heard, Side};
    use crate::reading::block::packed;

    /// Half a second of either side; frames 20 to 29 of the left one are missing.
    fn benches() -> [Summary; 2] {
        Side::BOTH.map(|side| {
            let mut summary = Summary::of(side);
            summary.before(&[100.0; 24_000]);
            summary.after(&packed(&[50.0; 24_000]));
            for number in (0..51).filter(|number| side == Side::Right || !(20..30).contains(number)) {
                let heard = Heard::Voice { probability: 0.25, energy: 1.0 };
                summary.frame(&Frame::of(side, number, heard, number + 1));
            }
            summary
        })
    }

    #[test]
    fn a_gap_is_drawn() {
        let [left, _] = benches();
        let (mut before, mut after) = (String::new(), String::new());
        strip(&mut before, &left, Strip::Before, 0.5);
        strip(&mut after, &left, Strip::After, 0.5);
        assert!(!before.contains("gap"));
        // frame 30 of 50, over a halo
        let stroke = "d=\"M1200 0V200\"";
        assert_eq!(
            after.lines().last().unwrap(),
            format!("<path class=\"halo\" {stroke}/><path class=\"gap\" {stroke}/>")
        );
        // the bars stop where frames are missing, and end with the recording
        assert_eq!(stretches(&left, Column::is_heard), [[0.0, 0.2], [0.3, 0.5]]);
        assert_eq!(svg(&benches()).matches("class=\"gap\"").count(), 1);
    }

    /// A steady sound of half the peak: its RMS is half as high as its peak, and fills the recording from end to end.
    #[test]
    fn rms_over_peak() {
        let mut summary = Summary::of(Side::Left);
        let sound: Vec<f32> = (0..48_000).map(|i| if i % 480 == 0 { 100.0 } else { [-50.0, 50.0][i % 2] }).collect();
        summary.before(&sound);
        summary.after(&packed(&sound));
        let mut text = String::new();
        strip(&mut text, &summary, Strip::Before, 1.0);
        let shapes: Vec<&str> = text.split("points=\"").skip(1).map(|part| part.split('"').next().unwrap()).collect();
        assert!(shapes[0].starts_with("0 148,") && shapes[0].ends_with(",0 4"), "{}", &shapes[0][..40]);
        assert!(shapes[1].starts_with("0 148,") && shapes[1].ends_with(",0 52"), "{}", &shapes[1][..40]);
        assert!(shapes.iter().all(|shape| shape.contains(",2000 ")));
    }

    #[test]
    fn labels_have_room() {
        assert!(labelled(14.9, 15).eq(0..=14));
        assert!(labelled(1_200.0, 6).eq([0, 300, 600, 900, 1_200]));
        assert!(labelled(36_000.0, 6).eq([0, 7_200, 14_400, 21_600, 28_800, 36_000]));
        for seconds in [0, 1, 15, 59, 61, 3_599, 36_000, 4_294_967] {
            for most in [6, 15] {
                let labels = labelled(seconds as f64, most).count() as u64;
                assert!((seconds.min(2) + 1..=most).contains(&labels), "{labels} labels for {seconds} seconds");
            }
        }
    }

    #[test]
    fn times() {
        assert_eq!(
            [0, 59, 60, 3_599, 3_600, 44_700].map(clock),
            ["0:00", "0:59", "1:00", "59:59", "1:00:00", "12:25:00"]
        );
    }
}
