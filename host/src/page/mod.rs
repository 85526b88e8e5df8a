//! One page of both benches for a browser: a card for each, with its side in large letters, what a clerk wants to know
//! of it, players for before and after, and its picture, in which a press plays from there. It is one file beside the
//! recordings, and needs no network.

pub mod about;
pub mod colours;
pub mod day;
pub mod overview;
pub mod picture;
pub mod table;

use crate::cleaning::cleaned::Summary;
use crate::page::about::minute;
use crate::page::colours::{variables, DARK, LIGHT};
use crate::page::picture::{clock, labelled, Strip};
use crate::{FRAME, RATE};
use std::fmt::Write;

/// A text as it stands on a page: what means something to a browser is escaped, and control characters are shown.
pub fn html_text(text: &str) -> String {
    let one = |letter: char| match letter {
        '&' => "&amp;".into(),
        '<' => "&lt;".into(),
        '>' => "&gt;".into(),
        '"' => "&quot;".into(),
        c if c.is_control() => c.escape_default().to_string(),
        c => c.to_string(),
    };
    text.chars().map(one).collect()
}

/// A file's name as a link has it: but for letters, digits and `-._`, each byte by its number.
pub fn in_a_link(name: &str) -> String {
    let one = |byte: u8| match byte {
        b'a'..=b'z' | b'A'..=b'Z' | b'0'..=b'9' | b'-' | b'.' | b'_' => char::from(byte).to_string(),
        byte => format!("%{byte:02X}"),
    };
    name.bytes().map(one).collect()
}

/// A number with a comma between each three digits.
pub fn grouped(number: u64) -> String {
    let digits = number.to_string();
    let threes: Vec<&str> =
        digits.as_bytes().rchunks(3).rev().map(|three| std::str::from_utf8(three).unwrap_or_default()).collect();
    threes.join(",")
}

/// Seconds as `m:ss`, and where that says little with a tenth.
pub fn length(seconds: f64) -> String {
    if seconds < 1.0 {
        tenths(seconds)
    } else {
        clock(seconds as u64)
    }
}

pub fn tenths(seconds: f64) -> String {
    let tenths = (10.0 * seconds) as u64;
    format!("{}.{}", clock(tenths / 10), tenths % 10)
}

/// Decibels below full scale.
fn below_full_scale(peak: f32) -> String {
    match 20.0 * (f64::from(peak) / 32_768.0).log10() {
        db if db.is_finite() => format!("{} dB of full scale", signed(db)),
        _ => "no sound: every sample is 0".into(),
    }
}

/// With a minus that is one.
fn signed(db: f64) -> String {
    format!("{db:.1}").replace('-', "−").replace("−0.0", "0.0")
}

/// How many of all frames.
fn share(frames: u64, all: u64) -> String {
    if frames == all {
        return format!("all {} frames", grouped(all));
    }
    // some are not none, and not all
    let percent = (100 * frames / all.max(1)).max(u64::from(frames > 0));
    let what = if frames == 1 { "frame" } else { "frames" };
    format!("{} {what}, {percent} %", grouped(frames))
}

/// Whether a recording is sealed, and as what.
fn seal(bench: &Summary) -> String {
    let (side, frames, heard) = (bench.side.name(), grouped(bench.frames), grouped(bench.heard));
    let text = match (bench.samples, bench.gaps) {
        (0, _) => "There is no recording of this bench.".into(),
        (_, 0) => format!(
            "<strong>Sealed</strong> as the {side} side, with this audio: {frames} frames, {heard} heard, no gap. \
             Whether it still is, the command <code>side</code> tells."
        ),
        (_, 1) => "<strong>Not to be relied on:</strong> frames are missing, in 1 gap.".into(),
        (_, gaps) => format!("<strong>Not to be relied on:</strong> frames are missing, in {} gaps.", grouped(gaps)),
    };
    format!("<p class=\"seal\">{text}</p>")
}

/// What is not as it should be.
fn trouble(bench: &Summary) -> Option<String> {
    let (empty, silent) = (bench.samples == 0, bench.peak == 0.0);
    let text = match (&bench.about.fault, empty) {
        (None, false) if silent => "<strong>Silent.</strong> Every sample of this recording is 0.".into(),
        (None, false) => return None,
        (None, true) => "<strong>Empty.</strong> No sound came from this bench.".into(),
        (Some(why), true) => format!("<strong>Broken, and empty.</strong> {}", html_text(why)),
        (Some(why), false) => format!(
            "<strong>Broken off after {}.</strong> {}. What came before is cleaned and kept.",
            length(bench.seconds()),
            html_text(why)
        ),
    };
    Some(format!("<p class=\"trouble\">{text}</p>"))
}

/// A player's name in the page.
fn player_id(bench: &Summary, strip: Strip) -> String {
    format!("{}-{}", bench.side.name(), strip.name())
}

fn player(bench: &Summary, strip: Strip, file: &str) -> String {
    let (id, side, when) = (player_id(bench, strip), bench.side.name(), strip.name());
    format!(
        "<figure><figcaption>{when} cleaning</figcaption><audio id=\"{id}\" controls preload=\"metadata\" \
         aria-label=\"{side} bench, {when} cleaning\" \
         src=\"{}\"></audio></figure>",
        in_a_link(file)
    )
}

/// A strip, which plays what is lent as its player.
fn strip_with_player(text: &mut String, bench: &Summary, strip: Strip, plays: Strip) {
    let (id, side, when, seconds) = (player_id(bench, strip), bench.side.name(), strip.name(), bench.seconds());
    let (wide, high) = (picture::WIDE, picture::HIGH);
    writeln!(
        text,
        "<div class=\"strip\"><svg viewBox=\"0 0 {wide} {high}\" preserveAspectRatio=\"none\" role=\"img\" \
         aria-labelledby=\"{id}-title {id}-desc\">\n\
         <title id=\"{id}-title\">The {side} recording {when} cleaning</title>\n<desc id=\"{id}-desc\">{}</desc>",
        picture::described(bench, strip)
    )
    .unwrap();
    picture::strip(text, bench, strip, seconds);
    writeln!(
        text,
        "</svg><span class=\"what\">{when}</span>\n<input type=\"range\" min=\"0\" max=\"{seconds:.2}\" step=\"0.01\" \
         value=\"0\" \
         aria-label=\"{side} bench: listen {} cleaning from\" data-player=\"{}\" hidden></div>",
        plays.name(),
        player_id(bench, plays)
    )
    .unwrap();
}

/// The labels below a picture: fewer of them on a narrow screen.
fn axis(text: &mut String, seconds: f64) {
    // where there are hours the labels are long
    let room = if seconds < 3_600.0 { [13, 6] } else { [9, 4] };
    let [wide, narrow] = room.map(|labels| labelled(seconds, labels).collect::<Vec<u64>>());
    let mut all = [&wide[..], &narrow].concat();
    all.sort_unstable();
    all.dedup();
    *text += "<div class=\"axis\" aria-hidden=\"true\">";
    for second in all {
        let at = 100.0 * second as f64 / seconds;
        let classes = [
            (!narrow.contains(&second)).then_some("wide"),
            (!wide.contains(&second)).then_some("narrow"),
            (at > 96.0).then_some("end"),
        ];
        let classes = classes.into_iter().flatten().collect::<Vec<_>>().join(" ");
        write!(text, "<span class=\"{classes}\" style=\"left: {at:.2}%\">{}</span>", clock(second)).unwrap();
    }
    *text += "</div>\n";
}

/// Players and picture of a recording that has sound.
fn sound(text: &mut String, bench: &Summary, before: Option<&str>, prefix: &str) {
    let side = bench.side.name();
    *text += "<div class=\"listen\">";
    for (strip, file) in [(Strip::Before, before), (Strip::After, Some(&*format!("{prefix}{side}.wav")))] {
        *text += &file.map_or(String::new(), |file| player(bench, strip, file));
    }
    *text += "</div>\n<figure class=\"picture\">\n";
    for which in Strip::BOTH {
        let plays = if before.is_some() { which } else { Strip::After };
        strip_with_player(text, bench, which, plays);
    }
    let (wide, high) = (picture::WIDE, picture::LANE);
    writeln!(
        text,
        "<div class=\"lane\"><svg viewBox=\"0 0 {wide} {high}\" preserveAspectRatio=\"none\" role=\"img\" \
         aria-labelledby=\"{side}-voice-title {side}-voice-desc\">\n<title id=\"{side}-voice-title\">Where a voice is \
         likely on the {side} \
         recording</title>\n<desc id=\"{side}-voice-desc\">How likely a voice is, and below it a bar where something \
         was heard.</desc>"
    )
    .unwrap();
    picture::lane(text, bench, bench.seconds());
    *text += "</svg></div>\n";
    axis(text, bench.seconds());
    *text += "</figure>\n";
}

fn noise_taken(bench: &Summary) -> String {
    match bench.pauses.taken() {
        Some(db) if db.is_finite() => format!("{} dB", signed(db)),
        Some(_) => "all of it".into(),
        None => "there was none".into(),
    }
}

/// What a clerk wants to know, row by row; a number that should be 0 stands out where it is not.
fn facts(text: &mut String, bench: &Summary) {
    let about = &bench.about;
    let unless_0 = |number: u64| match number {
        0 => "0".into(),
        number => format!("<span class=\"bad\">{}</span>", grouped(number)),
    };
    let when = about.when.map(minute).map_or("not known".into(), |when| {
        format!("<time datetime=\"{when}\">{} UTC</time>", when.trim_end_matches('Z').replace('T', " "))
    });
    let id = player_id(bench, Strip::After);
    let voice = bench.voice_at().map_or("no voice was found".into(), |at| {
        let (told, side) = (tenths(at), bench.side.name());
        let name = format!("{told}: listen to the {side} bench from there");
        format!(
            "<button type=\"button\" aria-label=\"{name}\" data-player=\"{id}\" data-at=\"{at:.2}\">{told}</button>"
        )
    });
    let of_sound = [
        ("length", length(bench.seconds())),
        ("first voice at", voice),
        ("voice", share(bench.voices, bench.frames)),
        ("heard", share(bench.heard, bench.frames)),
        ("noise taken away", noise_taken(bench)),
        ("peak", below_full_scale(bench.peak)),
        ("clipped samples", unless_0(bench.clipped)),
        ("gaps", unless_0(bench.gaps)),
    ];
    let of_sound = of_sound.into_iter().filter(|_| bench.samples > 0);
    let name = [("recording", html_text(&about.name)), ("date", when)].into_iter();
    let link = |name: &String| format!("<a href=\"{}\">{}</a>", in_a_link(name), html_text(name));
    let more = about.more.iter().map(link).collect::<Vec<_>>().join(", ");
    let more = [("goes on in", more)].into_iter().filter(|(_, more)| !more.is_empty());
    let rows = name.chain(more).chain(of_sound).chain([("model", html_text(&about.model))]);
    writeln!(text, "<table class=\"facts\">\n<caption>The {} recording</caption>", bench.side.name()).unwrap();
    for (what, value) in rows {
        writeln!(text, "<tr><th scope=\"row\">{what}</th><td>{value}</td></tr>").unwrap();
    }
    *text += "</table>\n";
}

fn card(text: &mut String, bench: &Summary, before: Option<&str>, prefix: &str) {
    let side = bench.side.name();
    writeln!(
        text,
        "<section class=\"bench {side}\" aria-labelledby=\"{side}\">\n<div class=\"head\"><h2 \
         id=\"{side}\">{}</h2>\n{}{}</div>",
        side.to_uppercase(),
        seal(bench),
        trouble(bench).unwrap_or_default(),
    )
    .unwrap();
    if bench.samples > 0 {
        sound(text, bench, before, prefix);
    }
    facts(text, bench);
    *text += "</section>\n";
}

/// What the shapes of the picture are.
fn key(text: &mut String) {
    let shapes = [
        ("<g class=\"after\"><rect class=\"peak\" width=\"20\" height=\"14\"/></g>", "peak"),
        ("<g class=\"after\"><rect class=\"rms\" width=\"20\" height=\"14\"/></g>", "RMS"),
        ("<rect class=\"voice\" width=\"20\" height=\"14\"/>", "how likely a voice is"),
        ("<rect class=\"heard\" y=\"5\" width=\"20\" height=\"5\"/>", "heard"),
        ("<path class=\"gap\" d=\"M10 0V14\"/>", "frames are missing"),
    ];
    *text += "<ul class=\"key\">";
    for (shape, what) in shapes {
        write!(text, "<li><svg viewBox=\"0 0 20 14\" aria-hidden=\"true\">{shape}</svg>{what}</li>").unwrap();
    }
    *text += "</ul>\n";
}

/// `before` are the names of the recordings as they were, if these are in the folder too; `prefix` is the beginning of
/// the names of all other files; `has_table` says whether frames.csv is one of them.
pub fn html(benches: &[Summary; 2], before: Option<[&str; 2]>, prefix: &str, has_table: bool) -> String {
    let file = |name: &str| in_a_link(&format!("{prefix}{name}"));
    let asked = || benches.iter().filter(|bench| !bench.about.absent);
    let title = match &asked().collect::<Vec<_>>()[..] {
        [bench] => format!("The {} bench", bench.side.name()),
        _ => "Both benches".into(),
    };
    let mut text = format!(
        "<!DOCTYPE html>\n<html lang=\"en\">\n<head>\n<meta charset=\"utf-8\">\n<meta name=\"viewport\" \
         content=\"width=device-width\">\n\
         <meta name=\"color-scheme\" content=\"light dark\">\n<title>{title}</title>\n<style>\n\
         :root {{ color-scheme: light dark; {} }}\n@media (prefers-color-scheme: dark) {{ :root {{ {} }} \
         }}\n{}{}</style>\n</head>\n<body>\n\
         <h1>{title}</h1>\n<main>\n",
        variables(&LIGHT),
        variables(&DARK),
        include_str!("page.css"),
        picture::RULES,
    );
    for bench in asked() {
        card(&mut text, bench, before.map(|names| names[bench.side as usize]), prefix);
    }
    text += "</main>\n<footer>\n";
    let table = match has_table {
        true => format!("What each frame was is in <a href=\"{}\">frames.csv</a>. ", file("frames.csv")),
        false => String::new(),
    };
    key(&mut text);
    writeln!(
        text,
        "<p>A press in a picture plays from there; by keyboard the arrows move, and Enter plays. A frame is {} ms. It \
         was heard where it is not \
         silent, steady noise too; voice are the frames in which a voice is likely. The noise taken away \
         is that of the others, the middle one of them. {}The picture of both is in <a \
         href=\"{}\">benches.svg</a>.</p>\n</footer>\n\
         <script>\n{}</script>\n</body>\n</html>",
        1000 * FRAME / RATE as usize,
        table,
        file("benches.svg"),
        include_str!("page.js"),
    )
    .unwrap();
    text
}

#[cfg(test)]
mod tests {
    use super::*;

    #[test]
    fn in_words() {
        assert_eq!(html_text("a <b> & \"c\"\n\u{1b}[31m"), "a &lt;b&gt; &amp; &quot;c&quot;\\n\\u{1b}[31m");
        assert_eq!(in_a_link("the \"1st\"-left.wav"), "the%20%221st%22-left.wav");
        assert_eq!([0, 999, 1_000, 1_234_567].map(grouped), ["0", "999", "1,000", "1,234,567"]);
        assert_eq!([0.0, 0.96, 1.0, 59.99, 3_725.0].map(length), ["0:00.0", "0:00.9", "0:01", "0:59", "1:02:05"]);
        assert_eq!(tenths(61.57), "1:01.5");
        assert_eq!([32_768.0, 16_384.0, 0.0].map(below_full_scale)[1], "−6.0 dB of full scale");
        assert_eq!(below_full_scale(32_768.0), "0.0 dB of full scale");
        assert_eq!(below_full_scale(0.0), "no sound: every sample is 0");
        assert_eq!(share(0, 7), "0 frames, 0 %");
        assert_eq!(share(1, 120_001), "1 frame, 1 %");
        assert_eq!(share(120_000, 120_001), "120,000 frames, 99 %");
        assert_eq!(share(120_001, 120_001), "all 120,001 frames");
    }
}
