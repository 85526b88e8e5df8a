//! The order of the program's text: a name for one thing, and calls of the system in one room.

use std::collections::BTreeMap;
use std::fs;
use std::path::{Path, PathBuf};

/// The files of the program, and of the developers' one.
fn files() -> Vec<PathBuf> {
    let root = Path::new(env!("CARGO_MANIFEST_DIR"));
    let (mut folders, mut files) = (vec![root.join("src"), root.join("dev/src")], vec![]);
    while let Some(folder) = folders.pop() {
        for entry in fs::read_dir(folder).unwrap() {
            let path = entry.unwrap().path();
            match path.is_dir() {
                true => folders.push(path),
                false if path.extension().is_some_and(|ending| ending == "rs") => files.push(path),
                false => {}
            }
        }
    }
    files
}

/// The name of the function that a line begins, if that is no method and of no test: it stands at the line's start.
fn function(line: &str) -> Option<&str> {
    let words = ["pub ", "const ", "extern \"C\" "];
    let line = words.iter().fold(line, |line, word| line.strip_prefix(word).unwrap_or(line));
    let name = line.strip_prefix("fn ")?;
    Some(&name[..name.find(|c: char| !c.is_alphanumeric() && c != '_')?])
}

/// A function that is no method has a name that no other has. (Both programs have a `main`.)
#[test]
fn no_name_for_two_functions() {
    let mut names: BTreeMap<String, Vec<PathBuf>> = BTreeMap::new();
    for file in files() {
        for name in fs::read_to_string(&file).unwrap().lines().filter_map(function).filter(|name| *name != "main") {
            let places = names.entry(name.into()).or_default();
            // one function may have a text for each system
            if places.last() != Some(&file) {
                places.push(file.clone());
            }
        }
    }
    assert!(names.len() > 200, "{} functions", names.len());
    let twice: Vec<_> = names.iter().filter(|(_, places)| places.len() > 1).collect();
    assert!(twice.is_empty(), "{twice:#?}");
}

/// What is asked of the system directly is asked in the room `sys`.
#[test]
fn calls_of_the_system_are_in_one_room() {
    let words = ["unsafe {", "extern \"C\"", ".sync_data()", ".sync_all()", ".try_lock()", ".is_terminal()"];
    let mut found = 0;
    for file in files() {
        let text = fs::read_to_string(&file).unwrap();
        let code = text.split("#[cfg(test)]").next().unwrap();
        let is_sys = file.components().any(|part| part.as_os_str() == "sys");
        for word in words.iter().filter(|word| code.contains(**word)) {
            assert!(is_sys, "{}: {word}", file.display());
            found += 1;
        }
    }
    assert!(found >= words.len(), "{found}");
}
