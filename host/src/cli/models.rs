//! `box import`, `export`, `pack` and `unpack`, from the words.

use crate::cli::words::Given;
use crate::error::Result;
use crate::telling::shown::shown;

pub fn run_import(given: &Given) -> Result<()> {
    let out = given.wanted("--out")?;
    let told = crate::models::import::import(&given.files[0], &out, given.has("--force"))?;
    crate::say!("{}: {told}", shown(&out));
    Ok(())
}

pub fn run_export(given: &Given) -> Result<()> {
    given.wanted("--as")?;
    let out = given.wanted("--out")?;
    let bytes = crate::models::export::export(&given.files[0], &out, given.has("--force"))?;
    crate::say!("{}: {bytes} bytes", shown(&out));
    Ok(())
}

pub fn run_pack(given: &Given) -> Result<()> {
    let (layers, out) = (given.wanted("--layers")?, given.wanted("--out")?);
    let bytes = crate::models::pack::pack(&layers, &out, given.has("--force"))?;
    crate::say!("{}: {bytes} bytes", shown(&out));
    Ok(())
}

pub fn run_unpack(given: &Given) -> Result<()> {
    let out = given.wanted("--out")?;
    crate::models::pack::unpack(&given.files[0], &out, given.has("--force"))?;
    crate::say!("{}: sixteen files", shown(&out));
    Ok(())
}
