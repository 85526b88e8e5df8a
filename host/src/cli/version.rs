//! Which program this is.

pub fn told() -> String {
    let (version, commit) = (env!("CARGO_PKG_VERSION"), env!("BOX_COMMIT"));
    format!(
        "box {version} (tuppencehop), commit {commit}\nthe library proved with {}, the program built with {}",
        env!("BOX_KIT"),
        env!("BOX_RUSTC")
    )
}
