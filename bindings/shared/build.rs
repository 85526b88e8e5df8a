//! Links the proved static library under other names: each `tuppence_x` of it becomes `proved_tuppence_x`, because the
//! shared library itself has a `tuppence_x` that checks its pointers and then calls it.

use std::fs::read_dir;
use std::path::{Path, PathBuf};
use std::process::Command;

/// What a command prints. The build ends if it fails.
fn output(command: &mut Command) -> String {
    let output = command.output().unwrap_or_else(|why| panic!("{command:?}: {why}"));
    assert!(output.status.success(), "{command:?}: {}", String::from_utf8_lossy(&output.stderr));
    String::from_utf8(output.stdout).unwrap()
}

/// Copies an archive, with its own functions renamed.
fn renamed(archive: &Path, copy: &Path) {
    let symbols =
        output(Command::new("nm").args(["--defined-only", "--extern-only", "--format=just-symbols"]).arg(archive));
    let mut command = Command::new("objcopy");
    for name in symbols.lines().filter(|name| name.starts_with("tuppence_")) {
        command.arg(format!("--redefine-sym={name}=proved_{name}"));
    }
    output(command.arg(archive).arg(copy));
}

fn main() {
    let root = PathBuf::from(std::env::var("CARGO_MANIFEST_DIR").unwrap());
    let root = root.ancestors().nth(2).unwrap();
    let (archive, tool) = (root.join("target/staticlib/libexport.a"), root.join("tools/library.sh"));
    output(&mut Command::new(&tool));
    let out = PathBuf::from(std::env::var("OUT_DIR").unwrap());
    renamed(&archive, &out.join("libproved.a"));
    let of_crates = read_dir(root.join("crates")).unwrap().flatten().map(|krate| krate.path());
    // not out/, where rt keeps what it proved
    let parts = of_crates.flat_map(|krate| ["src", "specs", "proofs"].map(|part| krate.join(part)));
    for path in parts.filter(|part| part.exists()).chain([root.join("crates.txt"), archive, tool]) {
        println!("cargo:rerun-if-changed={}", path.display());
    }
    println!("cargo:rustc-link-search=native={}", out.display());
    println!("cargo:rustc-link-lib=static=proved");
    println!("cargo:rustc-cdylib-link-arg=-Wl,-soname,libtuppence.so.1");
}
