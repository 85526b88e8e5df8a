//! What `box --version` tells: the commit, the compiler, and the kit that proved the library.

use std::process::Command;

/// The first line that a command says.
fn first_line(program: &str, words: &[&str]) -> Option<String> {
    let output = Command::new(program).args(words).output().ok().filter(|output| output.status.success())?;
    String::from_utf8(output.stdout).ok()?.lines().next().map(String::from)
}

fn main() {
    let git = |words: &[&str]| first_line("git", words);
    let rustc = first_line(&std::env::var("RUSTC").unwrap_or("rustc".into()), &["--version"]);
    // bindings/rust/build.rs tells it of the library
    let kit = std::env::var("DEP_EXPORT_KIT").ok();
    for (name, value) in [("COMMIT", git(&["rev-parse", "--short=12", "HEAD"])), ("RUSTC", rustc), ("KIT", kit)] {
        println!("cargo:rustc-env=BOX_{name}={}", value.unwrap_or("unknown".into()));
    }
    println!("cargo:rerun-if-changed=build.rs");
    for place in ["HEAD", "logs/HEAD"] {
        if let Some(path) = git(&["rev-parse", "--git-path", place]) {
            println!("cargo:rerun-if-changed={path}");
        }
    }
}
