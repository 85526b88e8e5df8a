//! The colours of the page and of the picture, by their names, on a light ground and on a dark one. host/tests/page.rs
//! reads their contrasts.

pub type Colours = [(&'static str, &'static str); 16];

pub const LIGHT: Colours = [
    ("paper", "#f3f3ef"),
    ("card", "#ffffff"),
    ("ink", "#1b1b1b"),
    ("soft", "#555555"),
    ("edge", "#868686"),
    ("link", "#0b5a78"),
    ("bad", "#a30000"),
    ("peak-before", "#8b8b8b"),
    ("rms-before", "#3a3a3a"),
    ("peak-after", "#4496b5"),
    ("rms-after", "#0a3a4f"),
    ("voice", "#b3471d"),
    ("heard", "#8a6d1f"),
    ("gap", "#c00000"),
    ("left", "#1b4fa0"),
    ("right", "#9a3d00"),
];

pub const DARK: Colours = [
    ("paper", "#121212"),
    ("card", "#1d1d1f"),
    ("ink", "#f0f0f0"),
    ("soft", "#b8b8b8"),
    ("edge", "#7d7d7d"),
    ("link", "#86cdec"),
    ("bad", "#ff9d9d"),
    ("peak-before", "#707070"),
    ("rms-before", "#d0d0d0"),
    ("peak-after", "#2a7794"),
    ("rms-after", "#b7e3f4"),
    ("voice", "#ff9a6b"),
    ("heard", "#d9b24c"),
    ("gap", "#ff6b6b"),
    ("left", "#9cc4ff"),
    ("right", "#ffb37a"),
];

/// As the variables of a style sheet.
pub fn variables(colours: &Colours) -> String {
    colours.iter().map(|(name, colour)| format!("--{name}: {colour};")).collect::<Vec<_>>().join(" ")
}

/// Rules with the colours in the places of these variables, for viewers of pictures that have none.
pub fn plain(rules: &str, colours: &Colours) -> String {
    colours.iter().fold(rules.into(), |rules, (name, colour)| rules.replace(&format!("var(--{name})"), colour))
}
