use std::ffi::OsString;
use std::process::ExitCode;
use tuppencehop_dev::commands::DEV;

fn main() -> ExitCode {
    let words: Vec<OsString> = std::env::args_os().skip(1).collect();
    ExitCode::from(tuppencehop::cli::run_program(&DEV, &words))
}
