//! Names the static library, and has it written where it is not of what the crates hold (tools/library.sh): that proves
//! them all, and takes some minutes.

use std::fs::read_dir;
use std::path::PathBuf;
use std::process::Command;

fn main() {
    let root = PathBuf::from(std::env::var("CARGO_MANIFEST_DIR").unwrap());
    let root = root.ancestors().nth(2).unwrap();
    let (archive, tool) = (root.join("target/staticlib/libexport.a"), root.join("tools/library.sh"));
    let made = Command::new(&tool).status();
    assert!(made.is_ok_and(|status| status.success()), "tools/library.sh did not make the static library");
    let kit = Command::new(&tool).arg("--kit").output().map_or(vec![], |output| output.stdout);
    println!("cargo:kit={}", String::from_utf8_lossy(&kit).trim());
    let of_crates = read_dir(root.join("crates")).unwrap().flatten().map(|krate| krate.path());
    // not out/, where rt keeps what it proved
    let parts = of_crates.flat_map(|krate| ["src", "specs", "proofs"].map(|part| krate.join(part)));
    for path in parts.filter(|part| part.exists()).chain([root.join("crates.txt"), archive.clone(), tool]) {
        println!("cargo:rerun-if-changed={}", path.display());
    }
    println!("cargo:rustc-link-search=native={}", archive.parent().unwrap().display());
    println!("cargo:rustc-link-lib=static=export");
}
