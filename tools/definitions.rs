// What stands in specs/, by its text. `definitions uncited` lists every definition of a reader's file that no chain of
// citations reaches, from a contract of a `pub fn` or from a claim; `definitions unstated` lists the laws that a page
// of docs/ names and that are no claims; `definitions twice` lists the names that are defined in two files.
// tools/definitions.sh compiles it.
//
// A reader's file is any of specs/ but Private.antt, which is for the code's private functions, and Lib.antt. A claim
// is a public law in proofs/ that docs/PROMISES.md names in backticks and whose type is a statement of specs/ itself:
// no premise comes before it, and it is in no module with parameters. Names are followed through the `use` lines; a
// variable of the same name counts as a citation, so the list may be too short by such a name, and is never too long.
// Which names may stand twice, and why, is said in tools/definitions.txt.

use std::collections::{BTreeMap, BTreeSet};
use std::fs;
use std::path::{Path, PathBuf};

/// A crate, a file of its specs/, and a name in it.
type Name = (String, String, String);

/// A definition or a law: its name, the names of its constructors, its words, and its type.
struct Block {
    name: String,
    public: bool,
    /// Whether it is in a module with parameters: these are arguments of it, and may be premises.
    under_parameters: bool,
    cases: Vec<String>,
    words: BTreeSet<String>,
    of_type: String,
}

/// A file without its comments, what its words stand for if they come from specs/, and which of these it hands on.
struct Source {
    text: String,
    uses: BTreeMap<String, Name>,
    handed: BTreeMap<String, Name>,
}

fn files(folder: &Path, ending: &str) -> Vec<PathBuf> {
    let mut found = Vec::new();
    for entry in fs::read_dir(folder).into_iter().flatten().flatten() {
        let path = entry.path();
        if path.is_dir() {
            found.extend(files(&path, ending));
        } else if path.extension().is_some_and(|e| e == ending) {
            found.push(path);
        }
    }
    found.sort();
    found
}

/// The words of a text. `.field` is none, and of `value.field` and `Enum.Case` the first part is one.
fn words(text: &str) -> impl Iterator<Item = &str> {
    let between = |c: char| c.is_whitespace() || "(){}[],;".contains(c);
    text.split(between).filter(|w| !w.starts_with('.')).filter_map(|w| w.split('.').next()).filter(|w| !w.is_empty())
}

/// Whether a name, which may be an operator with places for its operands, is among the words.
fn cites(words: &BTreeSet<String>, name: &str) -> bool {
    words.contains(name) || (name.contains('◌') && name.split('◌').filter(|p| !p.is_empty()).all(|p| words.contains(p)))
}

fn read(path: &Path, comment: &str) -> Source {
    let text = fs::read_to_string(path).unwrap_or_else(|why| panic!("{}: {why}", path.display()));
    let plain: Vec<&str> = text.lines().map(|line| line.split(comment).next().unwrap()).collect();
    let (mut text, mut uses, mut handed) = (String::new(), BTreeMap::new(), BTreeMap::new());
    let mut lines = plain.into_iter();
    while let Some(line) = lines.next() {
        let Some((mark, path)) = line.split_once("use ").filter(|(mark, _)| ["", "pub ", "ghost "].contains(mark))
        else {
            text.push_str(line);
            text.push('\n');
            continue;
        };
        let mut path = path.to_string();
        while path.contains('{') && !path.contains('}') {
            path.push_str(lines.next().expect("a use that ends"));
        }
        assert!(!path.contains(" as ℕ"), "ℕ is the natural numbers: bring {path} under another name");
        note(&path, &mut uses);
        if mark == "pub " {
            note(&path, &mut handed);
        }
    }
    Source { text, uses, handed }
}

/// Notes what `Rattle.CRATE.specs.FILE.{a, b as c}` brings, of a crate of this repository and not of the library.
fn note(path: &str, uses: &mut BTreeMap<String, Name>) {
    let Some((module, names)) = path.split_once(".{") else { return };
    let Some((krate, file)) = module.strip_prefix("Rattle.").and_then(|m| m.split_once(".specs.")) else { return };
    if !Path::new("crates").join(krate).exists() {
        return;
    }
    for name in names.split('}').next().unwrap().split(',') {
        let (name, local) = name.split_once(" as ").unwrap_or((name, name));
        uses.insert(local.trim().into(), (krate.into(), file.into(), name.trim().into()));
    }
}

/// The name that a line begins to define, as in `abbrev pub NAME : …` or `pub record NAME … where`.
fn defined(line: &str) -> Option<&str> {
    let mut rest = line;
    for mark in ["abbrev ", "unfoldable ", "pub ", "record ", "data "] {
        rest = rest.strip_prefix(mark).unwrap_or(rest);
    }
    let (name, behind) = rest.split_once(' ')?;
    let made = line.starts_with("pub record ") || line.starts_with("pub data ");
    (made || behind.starts_with(": ")).then_some(name)
}

fn blocks(text: &str) -> Vec<Block> {
    let mut blocks: Vec<Block> = Vec::new();
    // what stands in a module, and in a module in it, is indented, as are the fields of a record and the cases of a
    // data type
    let (mut modules, mut in_type, mut in_data) = (Vec::new(), true, false);
    for line in text.lines().filter(|line| !line.is_empty()) {
        let indent = line.len() - line.trim_start().len();
        modules.truncate(indent / 2);
        let line = &line[2 * modules.len()..];
        let under_parameters = modules.contains(&true);
        if line.starts_with("module ") {
            modules.push(line.contains(['(', '{']));
        }
        if ["unfolding ", "infix", "module ", "pub mod "].iter().any(|word| line.starts_with(word)) {
            continue;
        }
        let begun = (!line.starts_with(' ')).then(|| defined(line)).flatten();
        if let Some(name) = begun {
            let name = name.to_string();
            assert!(name != "ℕ", "ℕ is the natural numbers: give {line:?} another name");
            let public = line.split(' ').any(|word| word == "pub");
            let (cases, words, of_type) = (Vec::new(), BTreeSet::new(), String::new());
            blocks.push(Block { name, public, under_parameters, cases, words, of_type });
            (in_type, in_data) = (true, line.starts_with("pub data "));
        }
        let Some(block) = blocks.last_mut() else { continue };
        if begun.is_none() && words(line).next() == Some(&block.name) {
            in_type = false;
        }
        if let (None, true, Some((cases, _))) = (begun, in_data, line.split_once(" : ")) {
            block.cases.extend(words(cases).map(String::from));
        }
        block.words.extend(words(line).filter(|word| *word != block.name).map(String::from));
        if in_type {
            let typed = line.split_once(" : ").filter(|_| begun.is_some());
            block.of_type.push_str(typed.map_or(line, |(_, of_type)| of_type));
            block.of_type.push('\n');
        }
    }
    blocks
}

/// Whether a line begins an `impl` of a trait for a public type of this text.
fn is_for_a_public_type(line: &str, text: &str) -> bool {
    let Some((_, of)) = line.split_once(" for ").filter(|_| line.starts_with("impl")) else { return false };
    let name = of.split(|c: char| !c.is_alphanumeric()).next().unwrap();
    text.lines().any(|line| {
        let behind = line.strip_prefix("pub struct ").or(line.strip_prefix("pub enum "));
        behind.is_some_and(|behind| behind.split(|c: char| !c.is_alphanumeric()).next() == Some(name))
    })
}

/// What an `impl` of a trait says of itself, as `ghost try_from_gives = { .. };`. A ghost field of a struct, as
/// `ghost all: { .. },`, is none.
fn is_ghost_member(line: &str) -> bool {
    line.starts_with("ghost ") && line.contains(" = {")
}

/// The contracts of the public functions of a source file, and what it says of its public types' impls of traits.
fn contracts(text: &str) -> String {
    let mut found = String::new();
    let (mut head, mut of_public) = (false, false);
    for line in text.lines() {
        let start = line.trim_start();
        of_public = line != "}" && (of_public || is_for_a_public_type(line, text));
        if start.starts_with("pub fn ") || start.starts_with("pub extern ") {
            head = true;
            // the function's own name is no citation of a definition that has the same name
            let (before, behind) = line.split_once('(').unwrap_or(("", line));
            found.push_str(before.split("fn ").next().unwrap_or(""));
            found.push_str(behind);
            found.push('\n');
        } else if head || of_public && is_ghost_member(start) {
            found.push_str(line);
            found.push('\n');
        }
        if start.ends_with('{') {
            head = false;
        }
    }
    found
}

/// Every definition, with the names it cites.
struct Specs {
    /// By crate and file, in the order of the text.
    all: Vec<(Name, PathBuf)>,
    cited: BTreeMap<Name, BTreeSet<Name>>,
    /// A constructor's data type, and what a file hands on.
    owner: BTreeMap<Name, Name>,
}

impl Specs {
    /// What these words of a file stand for.
    fn meant(&self, words: &BTreeSet<String>, source: &Source) -> BTreeSet<Name> {
        let used = source.uses.iter().filter(|(local, _)| cites(words, local)).map(|(_, name)| name.clone());
        used.map(|name| self.owner.get(&name).cloned().unwrap_or(name)).collect()
    }
}

fn name_of(path: &Path, folder: &str) -> (String, String) {
    let parts: Vec<_> = path.iter().map(|p| p.to_str().unwrap()).collect();
    let at = parts.iter().position(|p| *p == folder).unwrap();
    let file = parts[at + 1..].join(".");
    (parts[at - 1].into(), file.trim_end_matches(".antt").into())
}

fn specs(crates: &[PathBuf]) -> Specs {
    let mut specs = Specs { all: Vec::new(), cited: BTreeMap::new(), owner: BTreeMap::new() };
    let mut parsed = Vec::new();
    for path in crates.iter().flat_map(|c| files(&c.join("specs"), "antt")) {
        let (krate, file) = name_of(&path, "specs");
        if file == "Lib" {
            continue;
        }
        let mut source = read(&path, "--");
        let blocks = blocks(&source.text);
        for (word, name) in &source.handed {
            specs.owner.insert((krate.clone(), file.clone(), word.clone()), name.clone());
        }
        for block in &blocks {
            let name = (krate.clone(), file.clone(), block.name.clone());
            for word in block.cases.iter().chain([&block.name]) {
                let case = (krate.clone(), file.clone(), word.clone());
                source.uses.insert(word.clone(), case.clone());
                if *word != block.name {
                    specs.owner.insert(case, name.clone());
                }
            }
            specs.all.push((name, path.clone()));
        }
        parsed.push((krate, file, source, blocks));
    }
    for (krate, file, source, blocks) in parsed {
        for block in blocks {
            let name = (krate.clone(), file.clone(), block.name.clone());
            let mut cited = specs.meant(&block.words, &source);
            cited.remove(&name);
            specs.cited.entry(name).or_default().extend(cited);
        }
    }
    specs
}

/// What a type says after `(n m : ℕ) →` and `{A : Type 0} →`. Numbers and types exist, so these are no premises.
/// Any other argument may be one, even one that nothing meets, and stays.
fn after_numbers_and_types(of_type: &str) -> &str {
    let mut rest = of_type.trim();
    while rest.starts_with(['(', '{']) {
        let Some((argument, more)) = rest[1..].split_once([')', '}']) else { break };
        let Some((_, of)) = argument.split_once(" : ") else { break };
        let Some(more) = more.trim_start().strip_prefix('→') else { break };
        if !["ℕ", "Type 0"].contains(&of.trim()) {
            break;
        }
        rest = more.trim_start();
    }
    rest
}

/// Whether the type of a law is a statement of specs/ itself: the name of a definition and what it is of. Nothing may
/// be assumed before it, neither by an argument of the law nor by a parameter of its module.
fn is_claim(law: &Block, source: &Source) -> bool {
    let says = after_numbers_and_types(&law.of_type);
    let named = words(says).next().filter(|word| says.starts_with(word) && word.starts_with(char::is_uppercase));
    let stated = named.is_some_and(|word| source.uses.contains_key(word));
    stated && !law.under_parameters && !says.contains(['→', '≡', '×', ':'])
}

fn in_backticks(text: &str) -> BTreeSet<&str> {
    text.split('`').skip(1).step_by(2).collect()
}

fn page(name: &str) -> String {
    fs::read_to_string(format!("docs/{name}.md")).unwrap_or_else(|why| panic!("docs/{name}.md: {why}"))
}

/// The public laws that a page names and that are no claims: docs/PROMISES.md in the section of their crate, the other
/// pages anywhere. There a name of one word is a crate, a function or a field.
fn unstated(crates: &[PathBuf]) -> Vec<String> {
    let promises = page("PROMISES");
    let sections = promises.split("\n## ").filter_map(|section| section.split_once('\n'));
    let promised: BTreeMap<&str, BTreeSet<&str>> = sections.map(|(title, text)| (title, in_backticks(text))).collect();
    let others = ["TRUST", "ARCHITECTURE", "DECISIONS"].map(page);
    let quoted = others.iter().flat_map(|text| in_backticks(text));
    let elsewhere: BTreeSet<&str> = quoted.filter(|name| name.contains('_')).collect();
    let mut found = Vec::new();
    for path in crates.iter().flat_map(|c| files(&c.join("proofs"), "antt")) {
        let (krate, _) = name_of(&path, "proofs");
        let source = read(&path, "--");
        for law in blocks(&source.text).iter().filter(|law| law.public && !is_claim(law, &source)) {
            let name = &law.name[..];
            if elsewhere.contains(name) || promised.get(&krate[..]).is_some_and(|names| names.contains(name)) {
                found.push(format!("{}: {name}", path.display()));
            }
        }
    }
    found
}

/// The cells of a table's row. A bar within a cell is written `\|`.
fn cells(row: &str) -> Vec<String> {
    row.replace("\\|", "\u{1}").split('|').map(|cell| cell.trim().replace('\u{1}', "|")).collect()
}

/// What the tables of a text have in the columns Statement and Proof, row by row.
fn pairs(text: &str) -> Vec<(String, String)> {
    let (mut found, mut columns) = (Vec::new(), None);
    for line in text.lines() {
        let row = cells(line);
        let column = |name: &str| row.iter().position(|cell| cell == name);
        columns = match (line.starts_with('|'), column("Statement"), column("Proof")) {
            (false, ..) => None,
            (_, Some(statement), Some(proof)) => Some((statement, proof)),
            _ => columns,
        };
        if let Some((statement, proof)) = columns.filter(|(_, proof)| *proof < row.len()) {
            found.push((row[statement].clone(), row[proof].clone()));
        }
    }
    found
}

/// The proofs that docs/PROMISES.md pairs with a statement, and whose type is none of the statements named there.
fn unpaired(crates: &[PathBuf]) -> Vec<String> {
    let mut laws: BTreeMap<String, Vec<(String, String)>> = BTreeMap::new();
    for path in crates.iter().flat_map(|c| files(&c.join("proofs"), "antt")) {
        let (krate, _) = name_of(&path, "proofs");
        for law in blocks(&read(&path, "--").text).into_iter().filter(|law| law.public) {
            let says = words(after_numbers_and_types(&law.of_type)).next().unwrap_or("").to_string();
            laws.entry(law.name).or_default().push((krate.clone(), says));
        }
    }
    let promises = page("PROMISES");
    let mut found = Vec::new();
    for (title, text) in promises.split("\n## ").filter_map(|section| section.split_once('\n')) {
        for (statement, proof) in pairs(text) {
            let stated = in_backticks(&statement);
            let stated: BTreeSet<&str> = stated.iter().filter_map(|says| words(says).next()).collect();
            for name in in_backticks(&proof) {
                let here = laws.get(name).into_iter().flatten();
                let mut here = here.filter(|(krate, _)| krate == title || !Path::new("crates").join(title).exists());
                if !here.any(|(_, says)| stated.contains(&says[..])) {
                    found.push(format!("docs/PROMISES.md, {title}: {name} is not a proof of what is stated there"));
                }
            }
        }
    }
    found
}

/// What contracts and claims cite.
fn signed(crates: &[PathBuf], specs: &Specs) -> BTreeSet<Name> {
    let promises = page("PROMISES");
    let named = in_backticks(&promises);
    let mut signed = BTreeSet::new();
    for path in crates.iter().flat_map(|c| files(&c.join("src"), "rt")) {
        let source = read(&path, "//");
        let cited = words(&contracts(&source.text)).map(String::from).collect();
        signed.extend(specs.meant(&cited, &source));
    }
    for path in crates.iter().flat_map(|c| files(&c.join("proofs"), "antt")) {
        let source = read(&path, "--");
        let claim = |law: &Block| law.public && named.contains(&law.name[..]) && is_claim(law, &source);
        for law in blocks(&source.text).iter().filter(|law| claim(law)) {
            signed.extend(specs.meant(&words(&law.of_type).map(String::from).collect(), &source));
        }
    }
    signed
}

fn uncited(crates: &[PathBuf], specs: &Specs) -> Vec<String> {
    let mut reached = BTreeSet::new();
    let mut next: Vec<Name> = signed(crates, specs).into_iter().collect();
    while let Some(name) = next.pop() {
        // what the code's private functions have in Private.antt is no reader's
        if !name.1.ends_with("Private") && reached.insert(name.clone()) {
            next.extend(specs.cited.get(&name).into_iter().flatten().cloned());
        }
    }
    let of_readers = specs.all.iter().filter(|(name, _)| !name.1.ends_with("Private") && !reached.contains(name));
    of_readers.map(|(name, path)| format!("{}: {}", path.display(), name.2)).collect()
}

/// The names that two readers' files define, or two files of one crate. What other crates have in Private.antt no
/// reader meets.
fn twice(specs: &Specs, may: &BTreeSet<String>) -> Vec<String> {
    let mut places: BTreeMap<&str, BTreeSet<(&str, bool, String)>> = BTreeMap::new();
    for ((krate, file, name), path) in &specs.all {
        places.entry(name).or_default().insert((krate, file.ends_with("Private"), path.display().to_string()));
    }
    let several = |files: &BTreeSet<(&str, bool, String)>| {
        let crates: BTreeSet<&str> = files.iter().map(|(krate, _, _)| *krate).collect();
        crates.len() < files.len() || files.iter().filter(|(_, parts, _)| !parts).count() > 1
    };
    let found = places.into_iter().filter(|(name, files)| several(files) && !may.contains(*name));
    let paths = |files: BTreeSet<(&str, bool, String)>| files.into_iter().map(|f| f.2).collect::<Vec<_>>().join(" ");
    found.map(|(name, files)| format!("{name}: {}", paths(files))).collect()
}

/// The names that tools/definitions.txt lets stand twice, in lines `NAME NAME: why`.
fn may_stand_twice() -> BTreeSet<String> {
    let list = fs::read_to_string("tools/definitions.txt").expect("tools/definitions.txt");
    let lines = list.lines().filter(|line| !line.is_empty() && !line.starts_with('#'));
    let parts = lines.map(|line| line.split_once(": ").unwrap_or_else(|| panic!("no reason: {line}")));
    let names = parts.flat_map(|(names, _)| names.split(' '));
    names.map(String::from).collect()
}

fn main() {
    let mut crates: Vec<_> = fs::read_dir("crates").expect("crates/").flatten().map(|e| e.path()).collect();
    crates.sort();
    let specs = specs(&crates);
    let (list, what) = match std::env::args().nth(1).as_deref() {
        Some("uncited") => (uncited(&crates, &specs), "definitions that no public contract and no claim leads to"),
        Some("unstated") => {
            let what = "laws that a page names as claims, and whose type is not the statement itself, from specs/";
            ([unstated(&crates), unpaired(&crates)].concat(), what)
        }
        Some("twice") => (twice(&specs, &may_stand_twice()), "names that stand twice in specs/"),
        _ => panic!("definitions uncited | unstated | twice"),
    };
    for line in &list {
        println!("{line}");
    }
    println!("{} {what}; of {} definitions", list.len(), specs.all.len());
    std::process::exit(!list.is_empty() as i32)
}
