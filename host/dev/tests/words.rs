//! The developers' program as it is called, and that it alone has the Rust text in it.

use std::process::{Command, Output};

fn run(words: &[&str]) -> Output {
    Command::new(env!("CARGO_BIN_EXE_tuppencehop-dev")).args(words).output().unwrap()
}

fn said(words: &[&str]) -> String {
    let output = run(words);
    assert!(output.status.success() && output.stderr.is_empty(), "{words:?}");
    String::from_utf8(output.stdout).unwrap()
}

#[test]
fn help_for_the_whole_and_for_each() {
    let whole = said(&["--help"]);
    assert_eq!((&said(&["help"]), &said(&["-h"])), (&whole, &whole));
    for command in ["bench", "lags", "logs", "text"] {
        assert!(whole.contains(&format!("\n  dev {command} ")), "{whole}");
        let help = said(&[command, "--help"]);
        assert!(help.starts_with(&format!("box dev {command}: ")), "{help}");
        assert_eq!(said(&["help", command]), help);
    }
}

#[test]
fn errors_name_what_is_wrong() {
    for (words, why) in [
        (&["bensh"][..], "box: dev: unknown command bensh; did you mean bench?\nbox: see box dev --help\n"),
        (&[], "box: dev: which of them?\nbox: see box dev --help\n"),
        (&["lags", "--json"], "box: dev lags: unknown option --json\nbox: see box dev lags --help\n"),
    ] {
        let output = run(words);
        assert_eq!((output.status.code(), &*String::from_utf8_lossy(&output.stderr)), (Some(2), why));
    }
}

#[test]
fn speed_as_json() {
    let told = said(&["bench", "--json"]);
    let fields: Vec<&str> = told.split('"').skip(1).step_by(2).collect();
    let wanted = ["pieces", "own", "calls", "rust", "calls_to_rust", "idle", "status"];
    assert_eq!((&fields[..], told.lines().count()), (&wanted[..], 1), "{told}");
}

/// host/tests/box.rs looks for these names in the box, and must find none there.
#[test]
fn the_text_is_in_this_program() {
    let symbols = Command::new("nm").arg(env!("CARGO_BIN_EXE_tuppencehop-dev")).output().unwrap();
    assert!(String::from_utf8_lossy(&symbols.stdout).contains("nnnoiseless_text"));
}
