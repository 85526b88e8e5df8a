//! The page's structure, read without a browser: names, roles, references, the contrasts of its colours, and what it
//! says of recordings that are not whole. (How it looks is seen by tools/see_page.sh.)

use std::collections::HashMap;
use std::fs;
use std::io::Write;
use std::path::{Path, PathBuf};
use std::process::{Command, Stdio};
use tuppencehop::cleaning::cleaned::Summary;
use tuppencehop::cleaning::demo::{dictation, HOUSE};
use tuppencehop::cleaning::recorder::{Frame, Heard, Side};
use tuppencehop::page;
use tuppencehop::page::about::About;
use tuppencehop::page::colours::{DARK, LIGHT};
use tuppencehop::reading::block::packed;
use tuppencehop::reading::wav;

/// A tag, and what stands between it and the next one.
#[derive(Debug)]
struct Tag {
    name: String,
    closes: bool,
    attributes: HashMap<String, String>,
    text: String,
}

impl Tag {
    fn get(&self, name: &str) -> &str {
        self.attributes.get(name).map_or("", String::as_str)
    }

    fn has(&self, name: &str) -> bool {
        self.attributes.contains_key(name)
    }
}

/// The tags of a page; what is in a style sheet or a script is not looked at.
fn tags(page: &str) -> Vec<Tag> {
    let (mut found, mut rest) = (vec![], page);
    while let Some((_, behind)) = rest.split_once('<') {
        let (inside, after) = behind.split_once('>').expect("a tag ends");
        let word = inside.trim_end_matches('/').split_whitespace().next().unwrap();
        let name = word.trim_start_matches('/').to_string();
        let attributes = attributes(inside[word.len()..].trim_end_matches('/'));
        rest = if ["style", "script"].contains(&word) { &after[after.find("</").unwrap()..] } else { after };
        let text = after.split('<').next().unwrap().trim().to_string();
        found.push(Tag { closes: word.starts_with('/'), name, attributes, text });
        // what closes itself
        if inside.ends_with('/') {
            let last = found.last().unwrap().name.clone();
            found.push(Tag { name: last, closes: true, attributes: HashMap::new(), text: String::new() });
        }
    }
    found
}

/// `a="b" c` as pairs.
fn attributes(mut text: &str) -> HashMap<String, String> {
    let mut found = HashMap::new();
    loop {
        text = text.trim_start();
        let end = text.find(|c: char| c == '=' || c.is_whitespace()).unwrap_or(text.len());
        if end == 0 {
            return found;
        }
        let (name, rest) = text.split_at(end);
        let (value, rest) = match rest.strip_prefix("=\"") {
            Some(rest) => rest.split_once('"').expect("a value ends"),
            None => ("", rest),
        };
        assert!(found.insert(name.into(), value.into()).is_none(), "{name} stands twice");
        text = rest;
    }
}

/// Two seconds of either side: noise, then a voice; frames of the right one are missing, and samples of it stood at
/// full scale.
fn benches() -> [Summary; 2] {
    Side::BOTH.map(|side| {
        let mut summary = Summary::of(side);
        let noise = |i: usize| [-40.0, 60.0, 10.0, -30.0][i % 4];
        let mut before: Vec<f32> = (0..96_000).map(|i| noise(i) + if i > 48_000 { 3_000.0 } else { 0.0 }).collect();
        if side == Side::Right {
            before[50_000..50_003].fill(32_767.0);
        }
        summary.before(&before);
        summary.after(&packed(&before.iter().map(|x| x / 10.0).collect::<Vec<_>>()));
        for number in (0..201).filter(|number| side == Side::Left || *number != 150) {
            let probability = if number >= 100 { 0.9 } else { 0.1 };
            let heard = Heard::Voice { probability, energy: 1.0 };
            summary.frame(&Frame::of(side, number, heard, number));
        }
        summary.about = About::stream(&format!("{} <1> & \"2\".wav", side.name()), "models/house.rnn".as_ref());
        summary
    })
}

fn the_page() -> String {
    page::html(&benches(), Some(["left-before.wav", "right-before.wav"]), "", true)
}

fn all<'a>(tags: &'a [Tag], name: &str) -> Vec<&'a Tag> {
    tags.iter().filter(|tag| tag.name == name && !tag.closes).collect()
}

const VOID: [&str; 3] = ["!DOCTYPE", "meta", "input"];

#[test]
fn it_is_well_formed() {
    let (page, mut open) = (the_page(), vec![]);
    let tags = tags(&page);
    for tag in tags.iter().filter(|tag| !VOID.contains(&&*tag.name)) {
        match tag.closes {
            false => open.push(&tag.name),
            true => assert_eq!(open.pop(), Some(&tag.name), "closed in another order"),
        }
    }
    assert!(open.is_empty(), "{open:?} stay open");
    assert_eq!(all(&tags, "html")[0].get("lang"), "en");
    let meta = |name: &str| all(&tags, "meta").iter().any(|tag| tag.get("name") == name || tag.has(name));
    assert!(meta("charset") && meta("viewport") && meta("color-scheme"));
    assert_eq!((all(&tags, "h1").len(), all(&tags, "main").len(), all(&tags, "title").len()), (1, 1, 1 + 6));
}

#[test]
fn what_refers_to_something_finds_it() {
    let page = the_page();
    let tags = tags(&page);
    let mut ids: Vec<&str> = tags.iter().map(|tag| tag.get("id")).filter(|id| !id.is_empty()).collect();
    let count = ids.len();
    ids.sort_unstable();
    ids.dedup();
    assert_eq!(ids.len(), count, "an id stands twice");
    for tag in &tags {
        for name in ["for", "aria-labelledby", "data-player"] {
            for id in tag.get(name).split_whitespace() {
                assert!(ids.contains(&id), "{tag:?}: no {id}");
            }
        }
    }
    // one file, and what stands beside it; no network
    let places = tags.iter().flat_map(|tag| [tag.get("src"), tag.get("href")]).filter(|place| !place.is_empty());
    let mut places: Vec<&str> = places.collect();
    places.sort_unstable();
    let beside = ["benches.svg", "frames.csv", "left-before.wav", "left.wav", "right-before.wav", "right.wav"];
    assert_eq!(places, beside);
    for word in ["://", "url(", "@import", "<link", "<iframe", "fetch(", "<img"] {
        assert!(!page.contains(word), "{word}");
    }
}

#[test]
fn everything_has_a_name() {
    let tags = tags(&the_page());
    let mut names = vec![];
    for tag in all(&tags, "audio").into_iter().chain(all(&tags, "input")) {
        assert!(tag.name == "input" || tag.has("controls"), "{tag:?}");
        assert!(["left", "right"].iter().any(|side| tag.get("aria-label").starts_with(side)), "{tag:?}");
        names.push(tag.get("aria-label"));
    }
    let count = names.len();
    names.sort_unstable();
    names.dedup();
    assert_eq!((names.len(), count), (8, 8));
    for (at, tag) in tags.iter().enumerate().filter(|(_, tag)| tag.name == "svg" && !tag.closes) {
        if tag.get("aria-hidden") == "true" {
            continue;
        }
        // the title and the desc come first, and name it
        assert_eq!((tag.get("role"), &*tags[at + 1].name, &*tags[at + 3].name), ("img", "title", "desc"));
        let named: Vec<&str> = tag.get("aria-labelledby").split(' ').collect();
        assert_eq!(named, [tags[at + 1].get("id"), tags[at + 3].get("id")]);
        assert!(!tags[at + 1].text.is_empty() && !tags[at + 3].text.is_empty());
    }
    for tag in all(&tags, "section") {
        assert!(tag.has("aria-labelledby"));
    }
    for tag in all(&tags, "button") {
        // what is read out begins with what is seen
        assert!(tag.get("type") == "button" && tag.text == "0:01.0", "{tag:?}");
        assert!(tag.get("aria-label").starts_with(&tag.text) && tag.get("aria-label").contains("bench"), "{tag:?}");
    }
}

#[test]
fn tables_have_captions_and_scopes() {
    let tags = tags(&the_page());
    let tables: Vec<usize> = (0..tags.len()).filter(|at| tags[*at].name == "table" && !tags[*at].closes).collect();
    assert_eq!(tables.len(), 2);
    for at in tables {
        assert!(tags[at + 1].name == "caption" && !tags[at + 1].text.is_empty());
    }
    let heads = all(&tags, "th");
    assert!(heads.len() == 22 && heads.iter().all(|tag| tag.get("scope") == "row"));
}

/// The text of a page, without its tags.
fn words(page: &str) -> String {
    tags(page).iter().map(|tag| &*tag.text).filter(|text| !text.is_empty()).collect::<Vec<_>>().join(" ")
}

/// The value of a row, of the bench whose card is asked for.
fn row<'a>(page: &'a str, side: &str, what: &str) -> &'a str {
    let card = page.split(&format!("<h2 id=\"{side}\">")).nth(1).unwrap();
    let row = card.split(&format!("<th scope=\"row\">{what}</th><td>")).nth(1).unwrap();
    row.split("</td>").next().unwrap()
}

#[test]
fn what_a_clerk_wants_is_on_top() {
    let page = the_page();
    let words = words(&page);
    for side in ["left", "right"] {
        assert!(words.contains(&side.to_uppercase()));
        assert_eq!(row(&page, side, "recording"), format!("{side} &lt;1&gt; &amp; &quot;2&quot;.wav"));
        assert!(row(&page, side, "date").starts_with("<time datetime=\"20"));
        assert_eq!(row(&page, side, "length"), "0:02");
        assert!(row(&page, side, "first voice at").ends_with("data-at=\"1.00\">0:01.0</button>"));
        assert_eq!(row(&page, side, "noise taken away"), "20.0 dB");
        assert_eq!(row(&page, side, "model"), "house.rnn");
    }
    let sealed = "Sealed as the left side, with this audio: 201 frames, 201 heard, no gap.";
    assert!(words.contains(sealed), "{words}");
    assert!(words.contains("Not to be relied on: frames are missing, in 1 gap."), "{words}");
    assert_eq!((row(&page, "left", "voice"), row(&page, "left", "heard")), ("101 frames, 50 %", "all 201 frames"));
    assert_eq!((row(&page, "left", "gaps"), row(&page, "left", "clipped samples")), ("0", "0"));
    let bad = |number: &str| format!("<span class=\"bad\">{number}</span>");
    assert_eq!((row(&page, "right", "gaps"), row(&page, "right", "clipped samples")), (&*bad("1"), &*bad("3")));
    assert_eq!(row(&page, "right", "peak"), "0.0 dB of full scale");
    // without the recordings as they were, the cleaned ones are played
    let alone = page::html(&benches(), None, "", true);
    assert!(!alone.contains("left-before.wav") && alone.matches("<audio").count() == 2);
    assert_eq!(alone.matches("data-player=\"left-after\"").count(), 3);
}

/// The relative luminance of `#rrggbb`, as WCAG has it.
fn luminance(colour: &str) -> f64 {
    let part = |at: usize| f64::from(u8::from_str_radix(&colour[at..at + 2], 16).unwrap()) / 255.0;
    let linear = |c: f64| if c <= 0.04045 { c / 12.92 } else { ((c + 0.055) / 1.055).powf(2.4) };
    0.2126 * linear(part(1)) + 0.7152 * linear(part(3)) + 0.0722 * linear(part(5))
}

fn contrast(one: &str, other: &str) -> f64 {
    let (a, b) = (luminance(one), luminance(other));
    (a.max(b) + 0.05) / (a.min(b) + 0.05)
}

const TEXT: [&str; 4] = ["ink", "soft", "link", "bad"];
const GROUND: [&str; 2] = ["card", "paper"];
/// Each bench's own colour, with its name in the card's colour on it.
const SIDES: [&str; 2] = ["left", "right"];
const SEEN: [&str; 8] = ["edge", "peak-before", "rms-before", "peak-after", "rms-after", "voice", "heard", "gap"];

/// Text has 4.5 to 1 on every ground, what must be seen 3 to 1 on its card, and the RMS as much on the peak. A gap's
/// stroke has the card's colour on either side.
#[test]
fn contrasts() {
    assert_eq!(format!("{:.2} {:.2}", contrast("#000000", "#ffffff"), contrast("#1f6f8b", "#d00000")), "21.00 1.01");
    let page = the_page();
    for colours in [LIGHT, DARK] {
        let of = |name: &str| colours.iter().find(|(other, _)| *other == name).unwrap().1;
        let at_least = |one: &str, other: &str, least: f64| {
            let ratio = contrast(of(one), of(other));
            assert!(ratio >= least, "{one} on {other}: {ratio:.2}");
        };
        TEXT.iter().for_each(|text| GROUND.iter().for_each(|ground| at_least(text, ground, 4.5)));
        SEEN.iter().for_each(|seen| at_least(seen, "card", 3.0));
        SIDES.iter().for_each(|side| at_least(side, "card", 4.5));
        at_least("rms-before", "peak-before", 3.0);
        at_least("rms-after", "peak-after", 3.0);
        // these are the colours of the page
        assert!(colours.iter().all(|(name, colour)| page.contains(&format!("--{name}: {colour};"))));
        assert!(colours.iter().all(|(name, _)| [&TEXT[..], &GROUND, &SEEN, &SIDES].concat().contains(name)));
    }
    assert_eq!(page.matches("prefers-color-scheme: dark").count(), 1);
    assert!(page.contains("color-scheme: light dark"));
}

/// The style sheet names no colour but by those variables, text only in the text's and grounds only in the grounds';
/// and no text is under 12 px.
#[test]
fn the_style_sheet() {
    let page = the_page();
    let style = page.split("<style>").nth(1).unwrap().split("</style>").next().unwrap();
    let rules: Vec<(&str, &str)> = style
        .split(['{', '}', ';'])
        .filter_map(|rule| rule.split_once(':'))
        .map(|(a, b)| (a.trim(), b.trim()))
        .collect();
    let named = |value: &str| {
        value.split("var(--").skip(1).map(|rest| rest.split(')').next().unwrap().to_string()).collect::<Vec<_>>()
    };
    for (property, value) in &rules {
        let names = named(value);
        match *property {
            // a bench's name has the card's colour, on its own
            "color" => assert!(TEXT.contains(&&*names[0]) || names[0] == "card", "{value}"),
            "background" if *value != "none" => {
                // the line where the player stands is text's colour
                let grounds = [&GROUND[..], &SIDES, &["ink"]].concat();
                assert!(grounds.contains(&&*names[0]), "{value}");
            }
            "fill" | "stroke" if *value != "none" => assert_eq!(names.len(), 1, "{value}"),
            "font-size" => {
                let rem: f64 = value.strip_suffix("rem").expect("a size by the reader's own").parse().unwrap();
                assert!(16.0 * rem >= 12.0, "{value}");
            }
            "border" | "border-left" | "border-right" | "outline" if *value != "0" => {
                assert_eq!(names.len(), 1, "{value}")
            }
            _ => {}
        }
        assert!(property.starts_with("--") || !value.contains('#'), "{property}: {value}");
    }
    assert!(rules.iter().filter(|(property, _)| *property == "font-size").count() > 3);
    // no text is drawn in the pictures, which are stretched
    assert!(!page.contains("<text"));
}

/// The rules of the style sheet for these.
fn rules<'a>(page: &'a str, of: &str) -> Vec<&'a str> {
    let style = page.split("<style>").nth(1).unwrap().split("</style>").next().unwrap();
    style
        .split('}')
        .filter_map(|rule| rule.split_once('{'))
        .filter(|(whose, _)| whose.trim() == of)
        .map(|(_, r)| r)
        .collect()
}

/// The two cards differ in position, colour and shape, and not only in a word.
#[test]
fn the_cards_differ() {
    let page = the_page();
    for (side, other) in [("left", "right"), ("right", "left")] {
        assert_eq!(page.matches(&format!("<section class=\"bench {side}\"")).count(), 1);
        let (card, name) =
            (rules(&page, &format!(".{side}")).join(" "), rules(&page, &format!(".{side} h2")).join(" "));
        assert!(card.contains(&format!("margin-{other}:")) && !card.contains(&format!("margin-{side}:")), "{card}");
        assert!(card.contains(&format!("border-{side}: 0.75rem solid var(--{side})")), "{card}");
        assert!(name.contains(&format!("background: var(--{side})")) && name.contains("clip-path: polygon("), "{name}");
    }
    for of in ["", " h2"] {
        assert_ne!(rules(&page, &format!(".left{of}")), rules(&page, &format!(".right{of}")));
    }
}

/// Whatever starts a player stops the others.
#[test]
fn one_player_at_a_time() {
    let page = the_page();
    let script = page.split("<script>").nth(1).unwrap().split_whitespace().collect::<Vec<_>>().join(" ");
    assert!(script.contains("const players = [...document.querySelectorAll('audio')];"), "{script}");
    assert!(
        script.contains(
            "for (const audio of players) audio.addEventListener('play', () => \
             { for (const other of players) if (other !== audio) other.pause(); });"
        ),
        "{script}"
    );
}

/// However long a recording is, its page is of one size.
#[test]
fn a_long_recording_has_as_large_a_page() {
    let sizes = [12, 1_300].map(|seconds| {
        let benches = Side::BOTH.map(|side| {
            let mut summary = Summary::of(side);
            for second in 0..seconds {
                let sound: Vec<f32> = (0..48_000).map(|i| ((i * 7 + second * 131) % 2_001) as f32 - 1_000.0).collect();
                summary.before(&sound);
                summary.after(&packed(&sound));
                for number in 100 * second as u32..100 * second as u32 + 100 {
                    let probability = (number % 7) as f32 / 7.0;
                    summary.frame(&Frame::of(side, number, Heard::Voice { probability, energy: 1.0 }, 0));
                }
            }
            summary
        });
        let page = page::html(&benches, None, "", true);
        assert_eq!(page.contains(">10:00</span>"), seconds == 1_300);
        page.len()
    });
    assert!(sizes[1] < 250_000 && sizes[1] < 2 * sizes[0], "{sizes:?}");
}

/// A folder of its own for each test, with the house model in it.
fn folder(name: &str) -> PathBuf {
    let path = Path::new(env!("CARGO_TARGET_TMPDIR")).join(format!("page-{name}"));
    let _ = fs::remove_dir_all(&path);
    fs::create_dir_all(&path).unwrap();
    fs::write(path.join("house.rnn"), HOUSE).unwrap();
    path
}

#[test]
fn an_empty_recording_says_so() {
    let path = folder("empty");
    fs::write(path.join("none.wav"), wav::write(48_000, &[])).unwrap();
    fs::write(path.join("some.wav"), wav::write(48_000, &dictation(1).noisy)).unwrap();
    let words = ["clean", "--left", "none.wav", "--right", "some.wav", "--model", "house.rnn", "--out", "out"];
    let status = Command::new(env!("CARGO_BIN_EXE_tuppencehop")).args(words).current_dir(&path).status().unwrap();
    assert_eq!(status.code(), Some(2));
    let page = fs::read_to_string(path.join("out/index.html")).unwrap();
    let empty = "Broken, and empty.</strong> none.wav: no audio follows its header";
    assert_eq!(page.matches(empty).count(), 1);
    // no player and no picture of it; its name, its date and its model are there
    let left = page.split("<section").nth(1).unwrap();
    assert!(left.contains(empty) && !left.contains("<audio") && !left.contains("<svg"));
    assert_eq!(row(&page, "left", "recording"), "none.wav");
    assert_eq!(left.matches("<th").count(), 3);
    assert!(fs::read_to_string(path.join("out/benches.svg")).unwrap().contains(">empty</text>"));
}

/// A bench that breaks off: the page says where, and why; the other goes on.
#[test]
fn a_broken_recording_says_so() {
    let path = folder("broken");
    let mut file = wav::write(48_000, &[0.0; 4 * 60_000]);
    (file[20], file[22], file[32], file[34]) = (3, 2, 8, 32);
    file[44 + 8 * 55_000..][..4].copy_from_slice(&f32::NAN.to_le_bytes());
    let mut host = Command::new(env!("CARGO_BIN_EXE_tuppencehop"));
    host.args(["clean", "-", "--model", "house.rnn", "--out", "out"]).current_dir(&path);
    let mut host = host.stdin(Stdio::piped()).stderr(Stdio::null()).spawn().unwrap();
    let _ = host.stdin.take().unwrap().write_all(&file);
    assert_eq!(host.wait().unwrap().code(), Some(2));
    let page = fs::read_to_string(path.join("out/index.html")).unwrap();
    // the other bench goes on to its end
    assert_eq!(page.matches("Broken off after 0:01.").count(), 1);
    assert!(words(&page).contains("standard input: left, at 1.15 s: not a finite number"), "{}", words(&page));
}
