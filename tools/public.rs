// The public functions of crates/*/src, by their text: their contracts, which of them are calls of the surface, and
// whether docs/PROMISES.md lists them. tools/public.sh compiles this program and says what it checks.

use std::collections::BTreeSet;
use std::fs;
use std::path::{Path, PathBuf};

/// A public function as its source declares it.
struct Function {
    file: PathBuf,
    krate: String,
    /// The type that it is a method of, or else its module: the crate's name if it is in lib.rt.
    within: String,
    name: String,
    /// Each parameter: its name and its type.
    parameters: Vec<(String, String)>,
    /// Whether it returns something.
    returns: bool,
    /// Everything from its name to its body: the parameters and the clauses.
    head: String,
}

impl Function {
    /// As docs/PROMISES.md lists it: `name(a, b)`.
    fn shown(&self) -> String {
        let names: Vec<&str> = self.parameters.iter().map(|(name, _)| &name[..]).collect();
        format!("{}({})", self.name, names.join(", "))
    }

    fn is_for_c(&self) -> bool {
        self.name.starts_with("tuppence_")
    }

    fn place(&self) -> String {
        format!("{}: {}::{}", self.file.display(), self.krate, self.name)
    }
}

fn read(path: &str) -> String {
    fs::read_to_string(path).unwrap_or_else(|why| panic!("{path}: {why}"))
}

fn files(folder: &Path) -> Vec<PathBuf> {
    let mut found = Vec::new();
    for entry in fs::read_dir(folder).into_iter().flatten().flatten() {
        let path = entry.path();
        if path.is_dir() {
            found.extend(files(&path));
        } else if path.extension().is_some_and(|ending| ending == "rt") {
            found.push(path);
        }
    }
    found.sort();
    found
}

/// The functions of all crates.
fn functions() -> Vec<Function> {
    let mut crates: Vec<_> = fs::read_dir("crates").expect("crates/").flatten().map(|entry| entry.path()).collect();
    crates.sort();
    crates.iter().flat_map(|krate| files(&krate.join("src"))).flat_map(|file| functions_of(&file)).collect()
}

fn functions_of(file: &Path) -> Vec<Function> {
    let text = read(file.to_str().unwrap());
    let lines: Vec<&str> = text.lines().map(|line| line.split("//").next().unwrap()).collect();
    let krate = file.iter().nth(1).unwrap().to_str().unwrap().to_string();
    let module = file.file_stem().unwrap().to_str().unwrap();
    let module = if module == "lib" { krate.clone() } else { module.to_string() };
    let mut of_type = None;
    let mut found = Vec::new();
    for (at, line) in lines.iter().enumerate() {
        if line.starts_with("impl") {
            let words = line.split(|c: char| !c.is_alphanumeric() && c != '_').filter(|word| word.len() > 1);
            of_type = words.skip(1).next().map(String::from);
        } else if *line == "}" {
            of_type = None;
        }
        let start = line.trim_start();
        let Some(rest) = start.strip_prefix("pub fn ").or(start.strip_prefix("pub extern \"C\" fn ")) else { continue };
        let mut head = String::from(rest);
        for next in lines[at + 1..].iter().take_while(|_| !line.ends_with('{')) {
            head.push(' ');
            head.push_str(next.trim());
            if next.trim_end().ends_with('{') {
                break;
            }
        }
        let within = of_type.clone().unwrap_or(module.clone());
        found.push(function(file, &krate, within, &head));
    }
    found
}

/// The parameters of a list: it is parted at the commas that stand within no brackets.
fn parted(list: &str) -> Vec<&str> {
    let (mut depth, mut square, mut before) = (0, 0, ' ');
    let is_between = |letter: char| {
        square += i32::from(letter == '[') - i32::from(letter == ']');
        // the > of an arrow, as in `impl Fn(f32) -> f32`, closes nothing; in a length, as `[f32; 8 >> 1]`, < and > are
        // no brackets
        let counts = "()".contains(letter) || ("<>".contains(letter) && square == 0 && (before, letter) != ('-', '>'));
        if counts {
            depth += if "(<".contains(letter) { 1 } else { -1 };
        }
        before = letter;
        letter == ',' && depth == 0 && square == 0
    };
    list.split(is_between).collect()
}

/// A function from its name on.
fn function(file: &Path, krate: &str, within: String, head: &str) -> Function {
    let (name, rest) = head.split_once('(').expect("a function's parameters");
    let mut open = 1;
    let end = rest.find(|c| {
        open += i32::from(c == '(') - i32::from(c == ')');
        open == 0
    });
    let (inside, after) = rest.split_at(end.expect("the end of a function's parameters"));
    let parameters = parted(inside).into_iter().map(str::trim).filter(|one| !one.is_empty());
    let parameters = parameters.map(|one| one.split_once(':').unwrap_or((one, "")));
    Function {
        file: file.into(),
        krate: krate.into(),
        within,
        name: name.split('<').next().unwrap().trim().into(),
        parameters: parameters.map(|(name, of)| (name.trim().into(), of.trim().into())).collect(),
        returns: after[1..].trim_start().starts_with("->"),
        head: head.into(),
    }
}

/// What stands in backticks, in order.
fn in_backticks(text: &str) -> Vec<&str> {
    text.split('`').skip(1).step_by(2).collect()
}

// ---- contracts

/// What is wrong with a function's clauses.
fn faults(function: &Function, excepted: &BTreeSet<String>) -> Vec<String> {
    let mut found = Vec::new();
    let words: Vec<&str> = function.head.split_whitespace().collect();
    if words.contains(&"requires") {
        found.push("it has a `requires`; a public function takes whatever it is given: refuse it with a number".into());
    }
    if excepted.contains(&format!("{}::{}", function.krate, function.name)) {
        return found;
    }
    let Some((_, promise)) = function.head.split_once("ensures") else {
        found.push("it has no `ensures`; state what it returns and leaves, by a definition of specs/".into());
        return found;
    };
    let words: BTreeSet<&str> = promise.split(|c: char| c.is_whitespace() || "(){},".contains(c)).collect();
    let says_what_is_returned = words.iter().any(|word| *word == "result" || word.starts_with("result."));
    if function.returns && !says_what_is_returned {
        found.push("its `ensures` does not speak of what it returns".into());
    }
    for (name, of) in function.parameters.iter().filter(|(_, of)| of.starts_with("&mut ")) {
        let left = [format!("{name}.new"), format!("«{name}».new")];
        if !words.iter().any(|word| left.iter().any(|new| word == new || word.starts_with(&format!("{new}.")))) {
            found.push(format!("its `ensures` does not say what `{name}: {of}` holds at exit"));
        }
    }
    found
}

/// The functions that docs/PROMISES.md excepts.
fn excepted(promises: &str) -> BTreeSet<String> {
    let paragraph = promises.split_once("**Exceptions.**").and_then(|(_, after)| after.split("\n\n").next());
    in_backticks(paragraph.expect("docs/PROMISES.md: the paragraph **Exceptions.**"))
        .into_iter()
        .map(String::from)
        .collect()
}

/// The impls of traits in a source file that do not say what their functions give. Such a function has no `pub` and
/// takes its contract from the trait, so that an impl says it in a ghost member, as `ghost from_gives = { .. };`.
fn unsaid(file: &Path) -> Vec<String> {
    let text = read(file.to_str().unwrap());
    let mut found = Vec::new();
    let mut lines = text.lines();
    while let Some(line) = lines.next() {
        if !(line.starts_with("impl") && line.contains(" for ")) {
            continue;
        }
        let members: Vec<&str> = lines.by_ref().take_while(|member| *member != "}").map(str::trim_start).collect();
        let gives = |member: &&str| member.starts_with("ghost ") && member.contains("_gives = {");
        if members.iter().any(|member| member.starts_with("fn ")) && !members.iter().any(gives) {
            let head = line.trim_end_matches(" {");
            found.push(format!("{}: `{head}` does not say what its functions give", file.display()));
        }
    }
    found
}

fn contracts(functions: &[Function]) -> Vec<String> {
    let excepted = excepted(&read("docs/PROMISES.md"));
    let each = functions.iter().flat_map(|function| {
        faults(function, &excepted).into_iter().map(|fault| format!("{}: {fault}", function.place()))
    });
    let sources = fs::read_dir("crates").expect("crates/").flatten().map(|entry| entry.path().join("src"));
    let sources: BTreeSet<PathBuf> = sources.flat_map(|folder| files(&folder)).collect();
    each.chain(sources.iter().flat_map(|file| unsaid(file))).collect()
}

// ---- calls of the surface

/// What the definition `surface` makes of the cases of `Call`: the names on the right of its equations.
fn served() -> BTreeSet<String> {
    const FILE: &str = "crates/surface/specs/Surface.antt";
    let text = read(FILE);
    let (_, cases) = text.split_once("pub data Call : Type 0 where\n").expect("the data type Call of surface");
    let cases: Vec<&str> = cases
        .lines()
        .take_while(|line| line.starts_with("  "))
        .filter_map(|line| line.trim().split(' ').next())
        .collect();
    let equations = text.lines().filter_map(|line| line.strip_prefix("surface n side ns store (")?.split_once(" = "));
    let equations: Vec<(&str, &str)> = equations.collect();
    for case in &cases {
        assert!(
            equations.iter().any(|(left, _)| left.split(' ').next() == Some(case)),
            "{FILE}: no equation of surface for {case}"
        );
    }
    let of_benches = equations.iter().filter_map(|(_, right)| right.split_once(" n side ns store "));
    of_benches.map(|(name, _)| name.to_string()).collect()
}

/// A C function that takes a store or a record must promise, of its whole record and store, what `surface` makes of a
/// case.
fn calls(functions: &[Function]) -> Vec<String> {
    let served = served();
    let touches = |function: &&Function| {
        let named = function.parameters.iter().any(|(name, _)| name == "store" || name == "record");
        function.is_for_c()
            && (named || function.head.split(|c: char| !c.is_alphanumeric()).any(|word| word == "BENCHES"))
    };
    let promised = |function: &Function| {
        let (_, promise) = function.head.split_once("ensures { Worked")?;
        let promise = promise.strip_prefix("Both").unwrap_or(promise).split_whitespace().collect::<Vec<_>>().join(" ");
        let (name, given) = promise.strip_prefix("(handed side «record».old (")?.split_once(' ')?;
        let whole = given.starts_with("BENCHES side «record».old store.old ");
        let left = promise.contains(" (result, «record».new) store.new ");
        (whole && left && served.contains(name)).then_some(())
    };
    let without = functions.iter().filter(touches).filter(|function| promised(function).is_none());
    let names: Vec<&str> = served.iter().map(|name| &name[..]).collect();
    without
        .map(|function| {
            format!(
                "{}: it takes a store or a record and is not a case of `Call` (crates/surface/specs/Surface.antt); its \
                 contract must be that of one of {}, with BENCHES, its side, record and store",
                function.place(),
                names.join(", ")
            )
        })
        .collect()
}

// ---- docs/PROMISES.md

/// Whether an entry of the page, as `piece::name(a, b)`, is this function's. If the crate has two of the same name, the
/// entry names the module or the type.
fn is_of(entry: &str, function: &Function, alone: bool) -> bool {
    let (path, parameters) = entry.split_once('(').map_or((entry, None), |(path, _)| (path, Some(entry)));
    let (within, name) = path.rsplit_once("::").map_or((None, path), |(within, name)| (Some(within), name));
    let within = within.map(|within| within.rsplit("::").next().unwrap());
    if name != function.name {
        return false;
    }
    let placed = within.map_or(alone, |within| within == function.within || (alone && within == function.krate));
    let shown = function.shown();
    match parameters {
        // what C functions take is in bindings/c/tuppence.h, which is made from the code
        None => function.is_for_c(),
        Some(entry) => placed && entry.ends_with(&shown),
    }
}

fn listed(functions: &[Function]) -> Vec<String> {
    let page = read("docs/PROMISES.md");
    let sections: Vec<(&str, &str)> = page.split("\n## ").filter_map(|section| section.split_once('\n')).collect();
    let everywhere = in_backticks(&page);
    let mut found = Vec::new();
    let alone = |function: &Function| {
        functions.iter().filter(|other| (&other.krate, &other.name) == (&function.krate, &function.name)).count() == 1
    };
    for function in functions {
        let section = sections.iter().find(|(title, _)| *title == function.krate).map(|(_, text)| in_backticks(text));
        let entries = if function.is_for_c() { Some(everywhere.clone()) } else { section };
        let entries = entries.unwrap_or_else(|| everywhere.clone());
        if !entries.iter().any(|entry| is_of(entry, function, alone(function))) {
            let within = if alone(function) { String::new() } else { format!("{}::", function.within) };
            let shown = if function.is_for_c() { function.name.clone() } else { within + &function.shown() };
            found.push(format!("{}: docs/PROMISES.md does not list `{shown}`", function.file.display()));
        }
    }
    for (title, text) in sections.iter().filter(|(title, _)| Path::new("crates").join(title).exists()) {
        // the first cell of each row of a table
        let heads = text.lines().filter_map(|line| line.strip_prefix("| ")?.split(" | ").next());
        for entry in heads.flat_map(|head| in_backticks(head).into_iter().map(String::from).collect::<Vec<_>>()) {
            let for_c = entry.starts_with("tuppence_") || entry.starts_with('_');
            let function = for_c || (entry.contains('(') && !entry.contains(") ")) || entry.contains("::");
            let known = functions
                .iter()
                .any(|f| (f.krate == *title || f.is_for_c() || entry.contains("::")) && is_of(&entry, f, alone(f)));
            if function && !known {
                found.push(format!("docs/PROMISES.md, {title}: no public function is `{entry}`"));
            }
        }
    }
    found
}

fn main() {
    let functions = functions();
    let (list, what) = match std::env::args().nth(1).as_deref() {
        Some("contracts") => (contracts(&functions), "faults in the contracts of public functions"),
        Some("calls") => (calls(&functions), "C functions with a store that are not cases of Call"),
        Some("listed") => (listed(&functions), "differences between docs/PROMISES.md and the public functions"),
        _ => panic!("public contracts | calls | listed"),
    };
    list.iter().for_each(|line| println!("{line}"));
    println!("{} {what}; of {} public functions", list.len(), functions.len());
    std::process::exit(!list.is_empty() as i32)
}
