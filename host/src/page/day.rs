//! One page of a folder's dictations for a browser: by time, left and right in columns of their own, with one player.
//! It is one file beside the folders of the days, and needs no network.

use crate::cleaning::recorder::Side;
use crate::page::colours::{variables, DARK, LIGHT};
use crate::page::{grouped, html_text, in_a_link, length, tenths};
use crate::recording::listed::{Listed, Voice, BEFORE};
use crate::recording::times::{day_of, hour_of};
use std::fmt::Write;
use std::path::Path;

/// With this a page of dictations begins: a page without it is not written over.
pub const BEGINS: &str = "<!DOCTYPE html>\n<!-- The dictations of this folder, by the box. -->\n";

/// A place as a link has it: each of its names.
fn link(name: &Path) -> String {
    let names: Vec<String> = name.iter().map(|part| in_a_link(&part.to_string_lossy())).collect();
    names.join("/")
}

/// Where the recording lies as it was before cleaning.
fn original_link(name: &Path) -> String {
    let file = name.file_name().unwrap_or_default();
    link(&name.with_file_name(BEFORE).join(file))
}

/// The frames of a dictation, as `frames 41,210 to 52,301`.
pub fn frames(first: u32, frames: u64) -> String {
    let last = first.wrapping_add(frames.saturating_sub(1) as u32);
    format!("frames {} to {}", grouped(first.into()), grouped(last.into()))
}

/// A button that plays a dictation from a second on. `what` is shown, and `said` is what a screen reader says.
fn button(text: &mut String, one: &Listed, at: f64, class: &str, what: &str, said: &str) {
    let (side, hour) = (one.front.side.name(), hour_of(one.front.began));
    let before = if one.has_before { format!(" data-before=\"{}\"", original_link(&one.name)) } else { String::new() };
    write!(
        text,
        "<button type=\"button\" class=\"{class}\" data-src=\"{}\"{before} data-at=\"{at:.2}\" data-side=\"{side}\" \
         data-hour=\"{hour}\" aria-label=\"{} {hour}: {said}\">{what}</button>",
        link(&one.name),
        side.to_uppercase(),
    )
    .unwrap();
}

/// What stands in a dictation's cell.
fn cell(text: &mut String, one: &Listed) {
    let (side, whole) = (one.front.side.name(), length(one.seconds()));
    write!(text, "<td class=\"{side}\"><span class=\"which\">{}</span> ", side.to_uppercase()).unwrap();
    let (word, spoken) = match one.voice {
        Voice::From { first, last } => {
            (Some(first), format!("voice from {} to {}", tenths(first), tenths(last.min(one.seconds()))))
        }
        Voice::None => (None, "no voice was found".into()),
        Voice::Unknown => (None, "where the voice begins is not known".into()),
    };
    if let Some(first) = word {
        let said = format!("listen to the first word, at {}", tenths(first));
        button(text, one, first, "word", &format!("<span aria-hidden=\"true\">▶</span> word {}", tenths(first)), &said);
    }
    let said = format!("listen from the start, {whole} long");
    button(text, one, 0.0, "all", &format!("<span aria-hidden=\"true\">▶</span> all {whole}"), &said);
    let file = one.name.file_name().unwrap_or_default().to_string_lossy();
    let (seal, name) = (frames(one.front.first, one.frames()), html_text(&file));
    write!(text, "<span class=\"more\">{spoken}</span><span class=\"more\"><strong>sealed</strong>, {seal}</span>")
        .unwrap();
    writeln!(text, "<a class=\"more\" href=\"{}\">{name}</a></td>", link(&one.name)).unwrap();
}

/// A row for a dictation: its time, and its cell in the column of its side.
fn row(text: &mut String, one: &Listed) {
    let hour = hour_of(one.front.began);
    write!(text, "<tr><th scope=\"row\"><time>{hour}</time></th>").unwrap();
    match one.front.side {
        Side::Left => {
            cell(text, one);
            *text += "<td class=\"empty\"></td>";
        }
        Side::Right => {
            *text += "<td class=\"empty\"></td>";
            cell(text, one);
        }
    }
    *text += "</tr>\n";
}

/// How many dictations each side has.
fn counts(day: &[&Listed]) -> String {
    let count = |side: Side| day.iter().filter(|one| one.front.side == side).count() as u64;
    let [left, right] = Side::BOTH.map(count).map(grouped);
    format!("{left} left, {right} right")
}

fn table(text: &mut String, day: &str, all: &[&Listed]) {
    writeln!(
        text,
        "<section aria-labelledby=\"day-{day}\">\n<h2 id=\"day-{day}\">{day}</h2>\n<table>\n\
         <caption>Dictations of {day} by time: {}</caption>\n<thead><tr><th scope=\"col\">time</th>\
         <th scope=\"col\" class=\"left\">LEFT</th><th scope=\"col\" class=\"right\">RIGHT</th></tr></thead>\n<tbody>",
        counts(all)
    )
    .unwrap();
    all.iter().for_each(|one| row(text, one));
    *text += "</tbody>\n</table>\n</section>\n";
}

const PLAYER: &str = "<section class=\"player\" aria-label=\"Player\">\n\
    <p id=\"now\" aria-live=\"polite\">No dictation is chosen.</p>\n\
    <audio id=\"player\" controls preload=\"none\"></audio>\n\
    <div class=\"keys\">\
    <button type=\"button\" id=\"previous\" aria-keyshortcuts=\"p\">previous <kbd>P</kbd></button> \
    <button type=\"button\" id=\"next\" aria-keyshortcuts=\"n\">next <kbd>N</kbd></button> \
    <button type=\"button\" id=\"word\" aria-keyshortcuts=\"w\">first word <kbd>W</kbd></button> \
    <button type=\"button\" id=\"switch\" aria-keyshortcuts=\"b\" aria-pressed=\"false\" hidden>before cleaning \
    <kbd>B</kbd></button></div>\n</section>\n";

const ABOUT: &str = "<footer><p>LEFT is the left bench's column and RIGHT the right one's. <em>word</em> plays from a \
    little before the first voice, <em>all</em> from the start. Silence between two dictations is at the end of the \
    earlier one. Keys: N next, P previous, W first word, B before or after cleaning if the original is kept. A \
    dictation was sealed when it was closed; whether it still is, the command <code>side</code> tells.</p></footer>\n";

/// The page of these dictations, which are in order.
pub fn day_html(all: &[Listed]) -> String {
    let mut days: Vec<(String, Vec<&Listed>)> = vec![];
    for one in all {
        let day = day_of(one.front.began);
        match days.iter_mut().find(|(of, _)| *of == day) {
            Some((_, of_day)) => of_day.push(one),
            None => days.push((day, vec![one])),
        }
    }
    let title = match &days[..] {
        [(day, _)] => format!("Dictations of {day}"),
        _ => "Dictations".into(),
    };
    let mut text = format!(
        "{BEGINS}<html lang=\"en\">\n<head>\n<meta charset=\"utf-8\">\n<meta name=\"viewport\" \
         content=\"width=device-width\">\n<meta name=\"color-scheme\" content=\"light dark\">\n<title>{title}</title>\n\
         <style>\n:root {{ color-scheme: light dark; {} }}\n@media (prefers-color-scheme: dark) {{ :root {{ {} }} }}\n\
         {}</style>\n</head>\n<body>\n<h1>{title}</h1>\n{PLAYER}<main>\n",
        variables(&LIGHT),
        variables(&DARK),
        include_str!("day.css"),
    );
    if days.is_empty() {
        text += "<p>No dictation is closed yet.</p>\n";
    }
    days.iter().for_each(|(day, all)| table(&mut text, day, all));
    writeln!(text, "</main>\n{ABOUT}<script>\n{}</script>\n</body>\n</html>", include_str!("day.js")).unwrap();
    text
}

#[cfg(test)]
mod tests {
    use super::*;
    use crate::recording::front::Front;
    use crate::recording::times::read_moment;

    fn one(side: Side, began: &str, first: u32, size: u32, voice: Voice, has_before: bool) -> Listed {
        let began = read_moment(began).unwrap();
        let name = format!("{}/{}-{}.wav", day_of(began), hour_of(began).replace(':', ""), side.name());
        Listed { name: name.into(), front: Front { side, began, first }, size, voice, has_before }
    }

    /// Each dictation is in the column of its own side, by time, and says its side in words too.
    #[test]
    fn a_column_for_each_side() {
        let spoken = Voice::From { first: 0.5, last: 42.0 };
        let all = [
            one(Side::Left, "2026-11-16T09:30:12", 0, 96_000 * 43, spoken, true),
            one(Side::Right, "2026-11-16T09:31:00", 0, 9_600, Voice::None, false),
            one(Side::Left, "2026-11-16T09:40:00", 41_210, 960 * 11_092, Voice::Unknown, false),
        ];
        let page = day_html(&all);
        assert!(page.starts_with(BEGINS) && page.contains("<h1>Dictations of 2026-11-16</h1>"));
        let rows: Vec<&str> = page.split("<tr><th scope=\"row\">").skip(1).collect();
        assert_eq!(rows.len(), 3);
        let columns = |row: &str| {
            let cells = row.split("<td class=\"").skip(1);
            cells.map(|cell| cell.split('"').next().unwrap().to_string()).collect::<Vec<_>>()
        };
        assert_eq!(
            rows.iter().map(|row| columns(row)).collect::<Vec<_>>(),
            [["left", "empty"], ["empty", "right"], ["left", "empty"]]
        );
        for (row, side) in rows.iter().zip(["LEFT", "RIGHT", "LEFT"]) {
            assert!(row.contains(&format!("<span class=\"which\">{side}</span>")));
            assert!(row.contains(&format!("aria-label=\"{side} 09:")));
            assert!(row.contains(&format!("-{}.wav\"", side.to_lowercase())));
        }
        assert!(rows[0].contains("data-before=\"2026-11-16/before/093012-left.wav\" data-at=\"0.50\""));
        assert!(rows[0].contains("frames 0 to 4,300"), "{}", rows[0]);
        assert!(!rows[1].contains("data-before") && rows[1].contains("no voice was found"));
        assert!(rows[2].contains("frames 41,210 to 52,301") && rows[2].contains("is not known"));
        assert!(page.contains("Dictations of 2026-11-16 by time: 2 left, 1 right"));
        assert!(!page.contains("http") && !page.contains("src=\"/"));
    }

    #[test]
    fn several_days_and_none() {
        let of = |began: &str| one(Side::Left, began, 0, 960, Voice::None, false);
        let page = day_html(&[of("2026-11-16T23:59:59"), of("2026-11-17T00:00:01")]);
        assert_eq!(page.matches("<h2 ").count(), 2);
        assert!(day_html(&[]).contains("No dictation is closed yet."));
    }
}
