//! Writes the text, with the changes of changes.rs, to where src/lib.rs includes it.

mod changes;

use std::{env, fs, path::Path};

fn main() {
    let out = env::var("OUT_DIR").unwrap();
    println!("cargo:rerun-if-changed=../text");
    println!("cargo:rerun-if-changed=changes.rs");
    println!("cargo:rerun-if-changed=probes");
    for (file, probe) in changes::PROBES {
        let mut text = fs::read_to_string(Path::new("../text").join(file)).unwrap();
        for change in changes::CHANGES.iter().filter(|c| c.file == *file) {
            let found = text.matches(change.from).count();
            assert_eq!(found, 1, "{} ({}) applies {} times", file, change.why, found);
            text = text.replacen(change.from, change.to, 1);
        }
        text.push_str(probe);
        fs::write(Path::new(&out).join(file), text).unwrap();
    }
    for change in changes::CHANGES {
        let known = changes::PROBES.iter().any(|(file, _)| *file == change.file);
        assert!(known, "no file {}", change.file);
    }
}
