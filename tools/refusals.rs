// Compares docs/REFUSALS.md with the definitions, with the functions for C and with the box's words. tools/refusals.sh
// compiles this program and says what it checks.

use std::collections::{BTreeMap, BTreeSet};
use std::fs;
use std::path::{Path, PathBuf};

const PAGE: &str = "docs/REFUSALS.md";

/// A row of the page's table.
struct Refusal {
    number: u32,
    constant: String,
    /// What the box says; empty if it has no words of its own for this number.
    words: String,
}

fn read(path: &Path) -> String {
    fs::read_to_string(path).unwrap_or_else(|why| panic!("{}: {why}", path.display()))
}

fn files(folder: &Path, ending: &str) -> Vec<PathBuf> {
    let mut found = Vec::new();
    for entry in fs::read_dir(folder).into_iter().flatten().flatten() {
        let path = entry.path();
        if path.is_dir() {
            found.extend(files(&path, ending));
        } else if path.extension().is_some_and(|of| of == ending) {
            found.push(path);
        }
    }
    found.sort();
    found
}

/// The cells of the rows that begin with a number.
fn rows(page: &str) -> Vec<Refusal> {
    let cells = page
        .lines()
        .filter(|line| line.starts_with("| "))
        .map(|line| line.split('|').map(str::trim).collect::<Vec<_>>());
    let rows = cells.filter_map(|cells| Some((cells.get(1)?.parse().ok()?, cells)));
    rows.map(|(number, cells)| {
        assert!(cells.len() == 6, "{PAGE}: the row of {number} does not have four cells");
        Refusal { number, constant: cells[2].trim_matches('`').into(), words: cells[4].into() }
    })
    .collect()
}

/// What is wrong with the table by itself.
fn in_order(rows: &[Refusal]) -> Vec<String> {
    let mut found = Vec::new();
    for pair in rows.windows(2).filter(|pair| pair[0].number >= pair[1].number) {
        found.push(format!("{PAGE}: {} comes after {}", pair[1].number, pair[0].number));
    }
    let names: BTreeSet<&str> = rows.iter().map(|row| &row.constant[..]).collect();
    if names.len() < rows.len() {
        found.push(format!("{PAGE}: two numbers have the same constant"));
    }
    let right = |name: &str| name.starts_with("TUPPENCE_") && name.chars().all(|c| c.is_ascii_uppercase() || c == '_');
    found.extend(names.iter().filter(|name| !right(name)).map(|name| format!("{PAGE}: {name} is no constant's name")));
    found
}

/// The numbers that a definition refuses with, as `31 when …` or `40 leaving …`, and where.
fn refused_with() -> BTreeMap<u32, String> {
    let mut found = BTreeMap::new();
    // what rt keeps in out/ has copies
    let is_of_specs = |path: &&PathBuf| path.iter().nth(2).is_some_and(|part| part == "specs");
    for path in files(Path::new("crates"), "antt").iter().filter(is_of_specs) {
        for line in read(path).lines().map(|line| line.split("--").next().unwrap()) {
            let words: Vec<&str> =
                line.split(|c: char| c.is_whitespace() || "()".contains(c)).filter(|word| !word.is_empty()).collect();
            for pair in words.windows(2).filter(|pair| pair[1] == "when" || pair[1] == "leaving") {
                if let Ok(number @ 1..) = pair[0].parse() {
                    found.entry(number).or_insert(path.display().to_string());
                }
            }
        }
    }
    found
}

/// `NoSuchSide` as `TUPPENCE_NO_SUCH_SIDE`.
fn constant(variant: &str) -> String {
    let mut name = String::from("TUPPENCE");
    for letter in variant.chars() {
        if letter.is_ascii_uppercase() {
            name.push('_');
        }
        name.push(letter.to_ascii_uppercase());
    }
    name
}

/// Numbers of the page that are no variant of `Refusal`: 7 has two more numbers beside it, 40 is no refusal, and those
/// from 101 on come from `libtuppence.so`.
fn is_no_variant(number: u32) -> bool {
    number == 7 || number == 40 || number > 100
}

/// Where the enum `Refusal` and the page's table differ in names or numbers.
fn unlike_the_enum(rows: &[Refusal]) -> Vec<String> {
    const ENUM: &str = "crates/rules/src/refusal.rt";
    let text = read(Path::new(ENUM));
    let body = text.split_once("pub enum Refusal {").and_then(|(_, after)| after.split("\n}").next());
    let lines = body.expect("the enum Refusal").lines().map(|line| line.trim().trim_end_matches(','));
    // a variant without a number of its own counts as 0, which is no refusal's
    let variants = lines.filter(|line| !line.is_empty() && !line.starts_with("//"));
    let variants = variants.map(|variant| variant.split_once(" = ").unwrap_or((variant, "0")));
    let in_code: BTreeSet<(String, u32)> =
        variants.map(|(name, number)| (constant(name), number.parse().expect("a variant's number"))).collect();
    let in_page = rows.iter().filter(|row| !is_no_variant(row.number));
    let in_page: BTreeSet<(String, u32)> = in_page.map(|row| (row.constant.clone(), row.number)).collect();
    let differing = in_code.symmetric_difference(&in_page);
    differing.map(|(name, number)| format!("{ENUM} and {PAGE} differ in {name}, {number}")).collect()
}

/// Functions for C that the page names and the code does not have.
fn unknown(page: &str) -> Vec<String> {
    let source: String = files(Path::new("crates/export/src"), "rt").iter().map(|path| read(path)).collect();
    let named: BTreeSet<&str> =
        page.split('`').skip(1).step_by(2).filter(|name| name.starts_with("tuppence_")).collect();
    let missing = named.into_iter().filter(|name| !source.contains(&format!("pub extern \"C\" fn {name}(")));
    missing.map(|name| format!("{PAGE}: crates/export has no function {name}")).collect()
}

/// The arms of a `match` that say something: the pattern, and the words between quotes.
fn arms(text: &str) -> Vec<(String, String)> {
    let arms = text.lines().filter_map(|line| line.split_once(" => "));
    let said = arms.filter_map(|(pattern, value)| Some((pattern, value.split_once('"')?.1.rsplit_once('"')?.0)));
    said.map(|(pattern, words)| (pattern.trim().to_string(), words.to_string())).collect()
}

/// What the box says of a number, if it is not what the page says.
fn misquoted(rows: &[Refusal]) -> Vec<String> {
    let sources = files(Path::new("host/src"), "rs");
    let all: Vec<(String, String)> = sources.iter().flat_map(|path| arms(&read(path))).collect();
    let own: Vec<(String, String)> =
        sources.iter().filter(|path| path.ends_with("refusal.rs")).flat_map(|path| arms(&read(path))).collect();
    assert!(!own.is_empty(), "host/src has no refusal.rs with the words of the refusals");
    let mut found = Vec::new();
    for row in rows.iter().filter(|row| !row.words.is_empty()) {
        let said = |(pattern, words): &(String, String)| {
            let here = pattern.split(' ').next().unwrap();
            words.contains(&row.words) && (here == row.number.to_string() || here == "_")
        };
        // the words of 7 are on the line after its number
        let alone = row.number == 7
            && sources.iter().any(|path| path.ends_with("refusal.rs") && read(path).contains(&row.words));
        // or the number and the words are given to a function side by side
        let beside = format!("({}, \"{}\")", row.number, row.words);
        let beside = sources.iter().any(|path| read(path).contains(&beside));
        if !alone && !beside && !all.iter().any(said) {
            found.push(format!(
                "{PAGE}: the box does not say “{}” of {}; see refusal.rs in host/src",
                row.words, row.number
            ));
        }
    }
    for (pattern, words) in &own {
        let Ok(number) = pattern.parse::<u32>() else { continue };
        let right = |row: &Refusal| row.number == number && !row.words.is_empty() && words.contains(&row.words);
        if number > 0 && !rows.iter().any(right) {
            found.push(format!("{PAGE}: the box says “{words}” of {number}, and the page does not"));
        }
    }
    found
}

fn main() {
    let page = read(Path::new(PAGE));
    let rows = rows(&page);
    let mut found = in_order(&rows);
    let numbers: BTreeSet<u32> = rows.iter().map(|row| row.number).collect();
    let unlisted = refused_with().into_iter().filter(|(number, _)| !numbers.contains(number));
    found.extend(unlike_the_enum(&rows));
    found.extend(unlisted.map(|(number, path)| format!("{path}: refuses with {number}, which is not in {PAGE}")));
    found.extend(unknown(&page));
    found.extend(misquoted(&rows));
    found.iter().for_each(|line| println!("{line}"));
    println!("{} differences between {PAGE} and the code; of {} refusals", found.len(), rows.len());
    std::process::exit(!found.is_empty() as i32)
}
