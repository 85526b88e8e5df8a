//! `box man` and `box completion`: what is installed beside the program.

use crate::cli::words::Given;
use crate::cli::{completion, man};
use crate::error::Result;

pub fn run_man(_: &Given) -> Result<()> {
    crate::say!("{}", man::page().trim_end());
    Ok(())
}

pub fn run_completion(_: &Given) -> Result<()> {
    crate::say!("{}", completion::script().trim_end());
    Ok(())
}
