// The header for C of what crates/export exports, on standard output. tools/make_header.sh runs it.
use std::fmt::Write;
use std::fs::read_to_string;
use std::process::exit;

/// What crosses: a number, or a slice, which is a pointer and a length.
#[derive(Clone, Debug, PartialEq)]
enum Kind {
    Number(String),
    Slice { of: String, written: bool },
}

/// A function as its source declares it.
#[derive(Clone)]
struct Function {
    name: String,
    parameters: Vec<(String, Kind)>,
    result: String,
    comment: Vec<String>,
}

struct Module {
    file: String,
    comment: Vec<String>,
    functions: Vec<Function>,
}

/// All that is wrong, told at once at the end.
#[derive(Default)]
struct Wrong(Vec<String>);

impl Wrong {
    fn note(&mut self, file: &str, what: String) {
        self.0.push(format!("{file}: {what}"));
    }
}

/// The lengths that a Rust program uses.
const SIZES: &str = "bindings/rust/src/sizes.rs";

fn main() {
    let mut wrong = Wrong::default();
    let modules: Vec<Module> = modules().iter().map(|name| module(name, &mut wrong)).collect();
    modules.iter().for_each(|module| explained(module, &mut wrong));
    let functions: Vec<Function> = modules.iter().flat_map(|module| module.functions.clone()).collect();
    declared(&functions, &mut wrong);
    let benches = constant("crates/desk/src/lib.rt", "BENCHES", &mut wrong);
    let share = constant("crates/frame/src/lib.rt", "SHARE", &mut wrong);
    let record = constant("crates/export/src/of_desk.rt", "RECORD", &mut wrong);
    for (name, wanted) in [("BENCHES", benches), ("SHARE", share), ("RECORD", record)] {
        if constant(SIZES, name, &mut wrong) != wanted {
            wrong.note(SIZES, format!("{name} is not {wanted}, as in the crates"));
        }
    }
    let text = header(&modules, benches * share, record, &mut wrong);
    if !wrong.0.is_empty() {
        wrong.0.iter().for_each(|what| eprintln!("{what}"));
        exit(1);
    }
    print!("{text}");
}

// ---- the source

fn read(file: &str) -> String {
    read_to_string(file).unwrap_or_else(|why| {
        eprintln!("{file}: {why}");
        exit(1)
    })
}

/// The modules of crates/export, in their order.
fn modules() -> Vec<String> {
    let lib = read("crates/export/src/lib.rt");
    lib.lines().filter_map(|line| Some(line.strip_prefix("pub mod ")?.trim_end_matches(';').to_string())).collect()
}

/// The words of comment lines in a row.
fn words<'a>(lines: impl Iterator<Item = &'a str>) -> Vec<String> {
    lines.map_while(|line| Some(line.strip_prefix("//")?.trim().to_string())).collect()
}

fn module(name: &str, wrong: &mut Wrong) -> Module {
    let file = format!("crates/export/src/{name}.rt");
    let text = read(&file);
    let lines: Vec<&str> = text.lines().collect();
    let exported = (0..lines.len()).filter(|at| lines[*at] == "#[unsafe(no_mangle)]");
    let functions = exported.filter_map(|at| {
        let mut comment = words(lines[..at].iter().rev().copied());
        comment.reverse();
        let declaration = lines[at + 1..].join(" ");
        let found = declaration.strip_prefix("pub extern \"C\" fn ").and_then(|text| function(text, comment));
        if found.is_none() {
            wrong.note(&file, format!("line {}: no declaration that can be read follows", at + 1));
        }
        found
    });
    Module { functions: functions.collect(), comment: words(lines.iter().copied()), file: file.clone() }
}

/// A function from its name on: `name(a: &[f32], b: u32) -> u32`.
fn function(text: &str, comment: Vec<String>) -> Option<Function> {
    let (name, rest) = text.split_once('(')?;
    let (inside, behind) = rest.split_once(')')?;
    let result = behind.trim_start().strip_prefix("->")?.split_whitespace().next()?.trim_end_matches(';').to_string();
    let parameters = inside.split(',').map(str::trim).filter(|text| !text.is_empty());
    let parameters = parameters.map(|text| {
        let (name, kind) = text.split_once(':')?;
        Some((name.trim().to_string(), kind_of(kind.trim())))
    });
    Some(Function { name: name.trim().to_string(), parameters: parameters.collect::<Option<_>>()?, result, comment })
}

fn kind_of(text: &str) -> Kind {
    let slice = |prefix: &str| Some(text.strip_prefix(prefix)?.strip_suffix(']')?.trim().to_string());
    match (slice("&mut ["), slice("&[")) {
        (Some(of), _) => Kind::Slice { of, written: true },
        (_, Some(of)) => Kind::Slice { of, written: false },
        _ => Kind::Number(text.to_string()),
    }
}

/// A constant's number.
fn constant(file: &str, name: &str, wrong: &mut Wrong) -> usize {
    let text = read(file);
    let declared = format!("const {name}: usize = ");
    let number = |line: &str| line.split_once(&declared)?.1.trim_end_matches(';').replace('_', "").parse().ok();
    let value = text.lines().find_map(number);
    value.unwrap_or_else(|| {
        wrong.note(file, format!("no number `const {name}: usize = …;`, which the header tells"));
        0
    })
}

// ---- what must be there

/// Every module says what it is, every function too, and one of the two what each slice must be, by its name in
/// backticks.
fn explained(module: &Module, wrong: &mut Wrong) {
    if module.comment.is_empty() {
        wrong.note(&module.file, "its first line is no comment, which is to say what the module is".into());
    }
    for function in &module.functions {
        let name = &function.name;
        if function.comment.is_empty() {
            wrong.note(&module.file, format!("{name}: no comment in front of #[unsafe(no_mangle)] says what it does"));
            continue;
        }
        if function.comment.iter().chain(&module.comment).any(|line| line.contains("*/")) {
            wrong.note(&module.file, format!("{name}: `*/` in its comment, or its module's, would end it in C"));
        }
        let said = [&function.comment[..], &module.comment].concat().join(" ");
        for (parameter, kind) in &function.parameters {
            if matches!(kind, Kind::Slice { .. }) && !said.contains(&format!("`{parameter}`")) {
                wrong.note(&module.file, format!("{name}: its comment does not say what `{parameter}` must be"));
            }
        }
    }
}

/// The declarations of bindings/rust are those of the source: the same functions, parameters and results.
fn declared(functions: &[Function], wrong: &mut Wrong) {
    const FILE: &str = "bindings/rust/src/functions.rs";
    let text: String =
        read(FILE).lines().filter(|line| !line.trim_start().starts_with("//")).flat_map(|line| [line, "\n"]).collect();
    let surfaces = text.split("surface! {").skip(1).filter_map(|part| part.split_once("\n}")).map(|(inside, _)| inside);
    let spaced = |one: &str| one.split_whitespace().collect::<Vec<_>>().join(" ");
    let lines = surfaces.flat_map(|inside| inside.split(';')).map(spaced);
    let declared: Vec<Function> = lines
        .filter(|line| !line.is_empty())
        .filter_map(|line| {
            let (symbol, rest) = line.split_once(" as ")?;
            let (_, rest) = rest.split_once('(')?;
            function(&format!("{symbol}({rest}"), vec![])
        })
        .collect();
    for function in functions {
        let name = &function.name;
        match declared.iter().find(|other| other.name == *name) {
            None => wrong.note(FILE, format!("{name} of crates/export is not declared")),
            Some(other) if (&other.parameters, &other.result) != (&function.parameters, &function.result) => {
                let [here, there] = [other, function].map(|one| format!("{:?} -> {}", one.parameters, one.result));
                wrong.note(FILE, format!("{name} is declared as {here}; in crates/export it is {there}"));
            }
            Some(_) => {}
        }
    }
    for other in declared.iter().filter(|other| functions.iter().all(|function| function.name != other.name)) {
        wrong.note(FILE, format!("{} is declared, and crates/export has no such function", other.name));
    }
}

// ---- the header

/// What a number is called in C.
fn in_c(kind: &str) -> Option<&'static str> {
    Some(match kind {
        "u8" => "uint8_t",
        "u32" => "uint32_t",
        "u64" => "uint64_t",
        "usize" => "size_t",
        "f32" => "float",
        "f64" => "double",
        _ => return None,
    })
}

/// The widest line.
const WIDE: usize = 100;

/// Words in lines of a comment, each behind a margin.
fn filled(words: &[String], margin: &str) -> String {
    let mut lines = vec![String::new()];
    for word in words.join(" ").split_whitespace() {
        let last = lines.last().unwrap();
        if !last.is_empty() && margin.len() + last.len() + 1 + word.len() > WIDE {
            lines.push(String::new());
        }
        let last = lines.last_mut().unwrap();
        *last += if last.is_empty() { "" } else { " " };
        *last += word;
    }
    lines.join(&format!("\n{margin}"))
}

/// The parameters of a function, a slice as two.
fn parameters(function: &Function) -> Option<Vec<String>> {
    let one = |(name, kind): &(String, Kind)| {
        Some(match kind {
            Kind::Number(number) => vec![format!("{} {name}", in_c(number)?)],
            Kind::Slice { of, written } => {
                let constant = if *written { "" } else { "const " };
                vec![format!("{constant}{} *{name}", in_c(of)?), format!("size_t {name}_len")]
            }
        })
    };
    let pairs: Option<Vec<Vec<String>>> = function.parameters.iter().map(one).collect();
    // a slice's pointer and length stay side by side
    Some(pairs?.iter().map(|pair| pair.join(", ")).collect())
}

fn prototype(function: &Function) -> Option<String> {
    let mut text = format!("{} {}(", in_c(&function.result)?, function.name);
    let mut wide = text.len();
    for (at, parameter) in parameters(function)?.iter().enumerate() {
        if at > 0 && wide + parameter.len() + 3 > WIDE {
            text += ",\n    ";
            wide = 4;
        } else if at > 0 {
            text += ", ";
            wide += 2;
        }
        text += parameter;
        wide += parameter.len();
    }
    Some(text + ");")
}

const HEAD: &str = "\
/* tuppence.h: a proved denoiser for speech at 48 kHz, for C and C++. Link libtuppence.so or libtuppence.a.

   Made by tools/make_header.sh from crates/export, whose comments these are. Do not change it here.

   Start here. Open a bench once, then hand it what its microphone records, 1 to 4,096 samples at a time.
   Out come the cleaned samples of every frame of 480 that is complete, and three answers for each frame:

       static float store[TUPPENCE_STORE];          serves 16 benches; even ones are left, odd ones right
       uint32_t record[TUPPENCE_RECORD] = {0};      one for each bench; pass it with its own bench alone
       float cleaned[9 * 480], answers[9 * 3];
       uint32_t refusal = tuppence_open_crate(record, TUPPENCE_RECORD, store, TUPPENCE_STORE, 0, model, model_len);
       ...
       uint32_t before = record[5];
       refusal = tuppence_take(record, TUPPENCE_RECORD, store, TUPPENCE_STORE, 0, samples, n,
           model, model_len, cleaned, 9 * 480, answers, 9 * 3);
       if (refusal == 0) use(cleaned, 480 * (record[5] - before));

   record[5] is the number of frames since the opening, and record[6] how many of them were heard. `model`
   is the content of a model file. docs/EMBEDDING.md has a complete program, and tuppence_feed takes bytes.

   Answers. A function that returns a float returns its answer, tuppence_side_of a side, and tuppence_checksum
   a checksum. Every other function returns 0 when it is done, or the number of its refusal; then everything
   that was lent is unchanged. Whatever the lengths and the numbers are, a call ends in one of these.

   Slices. A slice is a pointer and how many numbers are there, NAME and NAME_len. What a const pointer leads
   to is not written. No pointer is kept. libtuppence.so checks each pointer and refuses with 101 to 104; NULL
   with length 0 is an empty slice there. libtuppence.a does not check: pointers must be aligned and not NULL,
   and a slice that is written must not overlap another one. Nobody else may touch what is lent meanwhile.

   Floating point. The proofs are about IEEE 754's default environment: round to nearest, nothing trapped,
   subnormal numbers kept. libtuppence.so sets it for each call and restores the caller's. With libtuppence.a
   the caller must have it.

   Stack. A call needs less than 128 KiB. */
#ifndef TUPPENCE_H
#define TUPPENCE_H

#include <stddef.h>
#include <stdint.h>

#ifdef __cplusplus
extern \"C\" {
#endif
";

const FOOT: &str = "
#ifdef __cplusplus
}
#endif

#endif
";

/// The constants of docs/REFUSALS.md: the rows of its table that begin with a number, and in the third cell when it is
/// due.
fn refusals(wrong: &mut Wrong) -> String {
    const PAGE: &str = "docs/REFUSALS.md";
    let page = read(PAGE);
    let lines = page.lines().filter(|line| line.starts_with("| "));
    let rows = lines.map(|line| line.split('|').map(str::trim).collect::<Vec<_>>());
    let rows: Vec<_> = rows.filter(|cells| cells.len() == 6 && cells[1].parse::<u32>().is_ok()).collect();
    if rows.is_empty() {
        wrong.note(PAGE, "no row of its table can be read".into());
    }
    let lines = rows.iter().map(|cells| format!("    {} = {},\n", cells[2].trim_matches('`'), cells[1]));
    let what = "The refusals that a call may return, and 40, which is none. docs/REFUSALS.md says exactly when.";
    format!("\n/* {what} */\nenum tuppence_refusal {{\n{}}};\n", lines.collect::<String>())
}

/// The version of the Rust crate, which is that of the library.
fn version(wrong: &mut Wrong) -> String {
    const FILE: &str = "bindings/rust/Cargo.toml";
    let text = read(FILE);
    let found = text.lines().find_map(|line| line.strip_prefix("version = \"")?.strip_suffix('"'));
    found.map(String::from).unwrap_or_else(|| {
        wrong.note(FILE, "it has no version".into());
        String::new()
    })
}

fn header(modules: &[Module], store: usize, record: usize, wrong: &mut Wrong) -> String {
    let mut text = String::from(HEAD);
    write!(
        text,
        "\n/* The numbers of the store, which serves all benches, and of a bench's record: zeros before its first \
         opening. */\n\
         #define TUPPENCE_STORE {store}\n#define TUPPENCE_RECORD {record}\n\n\
         /* The version of this header and of the library. */\n#define TUPPENCE_VERSION \"{}\"\n",
        version(wrong)
    )
    .unwrap();
    text += &refusals(wrong);
    for module in modules.iter().filter(|module| !module.functions.is_empty()) {
        write!(text, "\n\n/* ---- {} */\n", filled(&module.comment, "   ")).unwrap();
        for function in &module.functions {
            let Some(prototype) = prototype(function) else {
                wrong.note(&module.file, format!("{}: a type that has no name for C", function.name));
                continue;
            };
            write!(text, "\n/* {} */\n{prototype}\n", filled(&function.comment, "   ")).unwrap();
        }
    }
    text + FOOT
}
