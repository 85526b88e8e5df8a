use std::ffi::OsString;
use std::process::ExitCode;
use tuppencehop::cli::commands::BOX;

fn main() -> ExitCode {
    let words: Vec<OsString> = std::env::args_os().skip(1).collect();
    ExitCode::from(tuppencehop::cli::run_program(&BOX, &words))
}
