// The static library's source, crates/export_c/src, from that of crates/export: for each function for C one that calls
// it and has its contract. tools/make_export_c.sh runs this program, with the folder that it is to fill.

use std::collections::BTreeSet;
use std::fs::{create_dir_all, read_to_string, write};
use std::process::exit;

const FROM: &str = "crates/export/src";

/// A function for C: its name, its parameters' names, and its text from its name's line up to its body.
struct Function {
    name: String,
    parameters: Vec<String>,
    head: String,
}

fn read(file: &str) -> String {
    read_to_string(file).unwrap_or_else(|why| stop(&format!("{file}: {why}")))
}

fn stop(why: &str) -> ! {
    eprintln!("{why}");
    exit(1)
}

/// The functions of a module, in their order.
fn functions(file: &str, text: &str) -> Vec<Function> {
    let lines: Vec<&str> = text.lines().collect();
    let exported = (0..lines.len()).filter(|at| lines[*at] == "#[unsafe(no_mangle)]");
    let functions = exported.map(|at| {
        let head: Vec<&str> = lines[at + 1..].iter().take_while(|line| **line != "{").copied().collect();
        let declared = head.join(" ");
        let named = declared.strip_prefix("pub extern \"C\" fn ").and_then(|rest| rest.split_once('('));
        let none = || stop(&format!("{file}: line {}: no function for C follows", at + 1));
        let (name, rest) = named.unwrap_or_else(none);
        let (inside, _) = rest.split_once(')').unwrap_or_else(|| stop(&format!("{file}: {name}: no parameters")));
        let parameters = inside.split(',').filter_map(|one| Some(one.split_once(':')?.0.trim().to_string()));
        Function { name: name.into(), parameters: parameters.collect(), head: head.join("\n") }
    });
    functions.collect()
}

/// The words of the functions' contracts.
fn words(functions: &[Function]) -> BTreeSet<&str> {
    let between = |c: char| c.is_whitespace() || "(){},;".contains(c);
    let clauses = functions.iter().filter_map(|one| Some(one.head.split_once("ensures")?.1));
    clauses.flat_map(|text| text.split(between)).collect()
}

/// Whether a name of a `ghost use`, which may be an operator with places for its operands, is among the words.
fn cites(words: &BTreeSet<&str>, name: &str) -> bool {
    let is = |word: &str, part: &str| word == part || word.split_once('.').is_some_and(|(front, _)| front == part);
    let named = |part: &str| words.iter().any(|word| is(word, part));
    name.split('◌').filter(|part| !part.is_empty()).all(named)
}

/// A `ghost use` line with the names that the contracts cite, if there are any.
fn imported(line: &str, words: &BTreeSet<&str>) -> Option<String> {
    let (path, names) = line.strip_prefix("ghost use ")?.split_once(".{")?;
    let names = names.split_once('}')?.0.split(',').map(str::trim);
    let cited: Vec<&str> = names.filter(|name| cites(words, name)).collect();
    (!cited.is_empty()).then(|| format!("ghost use {path}.{{{}}};\n", cited.join(", ")))
}

fn module(name: &str) -> String {
    let file = format!("{FROM}/{name}.rt");
    let text = read(&file);
    let functions = functions(&file, &text);
    let words = words(&functions);
    let mut made = format!(
        "// The functions of {file} for C: the same names and contracts.\n// tools/make_export_c.sh makes this file.\n"
    );
    made.extend(text.lines().filter_map(|line| imported(line, &words)));
    for Function { name: function, parameters, head } in &functions {
        let given = parameters.join(", ");
        made += &format!("\n#[unsafe(no_mangle)]\n{head}\n{{\n    export::{name}::{function}({given})\n}}\n");
    }
    made
}

fn main() {
    let to = std::env::args().nth(1).unwrap_or_else(|| stop("make_export_c FOLDER"));
    create_dir_all(&to).unwrap_or_else(|why| stop(&format!("{to}: {why}")));
    let lib = read(&format!("{FROM}/lib.rt"));
    let modules: Vec<&str> =
        lib.lines().filter_map(|line| line.strip_prefix("pub mod ")?.strip_suffix(';')).collect();
    let mut head = String::from(
        "// The static library for Rust and C: the functions of `export`, with the same names and contracts.\n\
         // tools/make_export_c.sh makes this crate's source.\n#![tactic(auto)]\n\n",
    );
    head.extend(modules.iter().map(|name| format!("pub mod {name};\n")));
    let mut files = vec![("lib", head)];
    files.extend(modules.iter().map(|name| (*name, module(name))));
    for (name, text) in files {
        let file = format!("{to}/{name}.rt");
        write(&file, text).unwrap_or_else(|why| stop(&format!("{file}: {why}")));
    }
}
