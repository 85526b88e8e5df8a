//! `./box` from nothing: it proves what has changed and nothing else, shows nothing of cargo, names what is missing,
//! and installs a program that runs without any of it.

mod common;

use common::{ended, folder, names, Ended};
use std::fs::{self, File};
use std::os::unix::fs::{symlink, PermissionsExt};
use std::path::{Path, PathBuf};
use std::process::Command;
use std::time::{Duration, SystemTime};

fn root() -> &'static Path {
    Path::new(env!("CARGO_MANIFEST_DIR")).parent().unwrap()
}

fn write_script(path: &Path, text: &str) {
    fs::write(path, format!("#!/usr/bin/env bash\n{text}")).unwrap();
    fs::set_permissions(path, fs::Permissions::from_mode(0o755)).unwrap();
}

/// A repository with two crates in it, and in `bin` all that the scripts call: an `rt` and a cargo that note that they
/// were called, and make an archive of what the crate holds, and a program that echoes its words.
fn repository(name: &str) -> PathBuf {
    let path = folder(&format!("box-{name}"));
    let crates = ["crates/export/src", "crates/export/must-fail", "crates/export_c/src"];
    for folder in ["bin", "tools", "kit/bin", "home"].iter().chain(&crates) {
        fs::create_dir_all(path.join(folder)).unwrap();
    }
    fs::copy(root().join("box"), path.join("box")).unwrap();
    fs::copy(root().join("tools/library.sh"), path.join("tools/library.sh")).unwrap();
    fs::write(path.join("crates.txt"), "export:\nexport_c staticlib: export\n").unwrap();
    fs::write(path.join("crates/export/src/lib.rt"), "one").unwrap();
    fs::write(path.join("kit/KIT-ID"), "kit 9\n").unwrap();
    for tool in [
        "bash",
        "env",
        "find",
        "sort",
        "xargs",
        "sha256sum",
        "cut",
        "sed",
        "head",
        "dirname",
        "readlink",
        "tee",
        "wc",
        "cat",
        "mkdir",
        "chmod",
        "cp",
    ] {
        let places = std::env::var_os("PATH").unwrap();
        let place = std::env::split_paths(&places).map(|place| place.join(tool)).find(|place| place.exists());
        symlink(place.unwrap_or_else(|| panic!("{tool}")), path.join("bin").join(tool)).unwrap();
    }
    // it runs in the folder of a crate
    let rt = "echo \"$*\" >>../../rt-was-called\n\
              echo \"logic=proved functions=1\"\n\
              if [ \"$1\" = lib ]; then mkdir -p out; cp ../export/src/lib.rt out/libexport_c.a; fi\n";
    write_script(&path.join("kit/bin/rt"), rt);
    symlink("../kit/bin/rt", path.join("bin/rt")).unwrap();
    let cargo = "echo \"$*\" >cargo-was-called; echo \"  Compiling much\"; echo \"  Finished\" >&2; [ ! -e broken ] \
                 || exit 101\n\
                 mkdir -p target/host/release; cd target/host/release\n\
                 for name in tuppencehop tuppencehop-dev; do\n\
                 printf '#!/usr/bin/env bash\\necho \"$PWD: $*\"\\n' >$name; chmod +x $name\n\
                 done\n";
    write_script(&path.join("bin/cargo"), cargo);
    path
}

fn run(path: &Path, words: &[&str]) -> Ended {
    let mut command = Command::new(path.join("box"));
    command.args(words).current_dir(path).env_clear().env("PATH", path.join("bin")).env("HOME", path.join("home"));
    ended(command.output().unwrap())
}

/// `./box` may be called through links: one to it, and one to that.
#[test]
fn through_a_symlink() {
    let path = repository("symlink");
    assert_eq!(run(&path, &["side"]).status, Some(0));
    let elsewhere = path.join("home/bin");
    fs::create_dir_all(&elsewhere).unwrap();
    symlink("../../box", elsewhere.join("one")).unwrap();
    symlink("one", elsewhere.join("box")).unwrap();
    let mut command = Command::new(elsewhere.join("box"));
    command
        .arg("side")
        .current_dir(&elsewhere)
        .env_clear()
        .env("PATH", path.join("bin"))
        .env("HOME", path.join("home"));
    let ended = ended(command.output().unwrap());
    assert_eq!(ended.status, Some(0), "{}", ended.why);
    assert_eq!(ended.said, format!("{}: side\n", elsewhere.canonicalize().unwrap().display()));
}

/// How often `rt` was called since the last time.
fn calls(path: &Path) -> usize {
    let calls = fs::read_to_string(path.join("rt-was-called")).unwrap_or_default().lines().count();
    let _ = fs::remove_file(path.join("rt-was-called"));
    calls
}

#[test]
fn what_is_proved_is_asked_by_what_the_crates_hold() {
    let path = repository("proved");
    let first = run(&path, &["side", "a b"]);
    assert_eq!((first.status, calls(&path)), (Some(0), 2), "{}", first.why);
    // what the program says stands alone; of cargo nothing is shown
    assert_eq!(first.said, format!("{}: side a b\n", path.canonicalize().unwrap().display()));
    let told = first.why.contains("  2 of 2: export") && first.why.contains(": export is proved");
    assert!(told && !first.why.contains("Compiling"), "{}", first.why);
    let quiet = |why: &str| {
        let again = run(&path, &["side"]);
        assert_eq!((again.status, calls(&path), &*again.why), (Some(0), 0, ""), "{why}");
    };
    quiet("nothing has changed");
    let lib = path.join("crates/export/src/lib.rt");
    let later = SystemTime::now() + Duration::from_secs(1_000);
    File::options().write(true).open(&lib).unwrap().set_modified(later).unwrap();
    quiet("a file was touched");
    fs::write(path.join("crates/export/must-fail/one.edit"), "no part of it").unwrap();
    quiet("an edit that must fail");
    fs::write(path.join("crates/export/out.txt"), "one").unwrap();
    assert_eq!((run(&path, &["side"]).status, calls(&path)), (Some(0), 2));
    fs::create_dir_all(path.join("crates/export/out")).unwrap();
    fs::write(path.join("crates/export/out/kept"), "no part of it").unwrap();
    quiet("what rt keeps");
    // what has changed is proved, and with an older time too
    fs::write(&lib, "two").unwrap();
    File::options().write(true).open(&lib).unwrap().set_modified(SystemTime::UNIX_EPOCH).unwrap();
    assert_eq!((run(&path, &["side"]).status, calls(&path)), (Some(0), 2));
    quiet("it is proved");
    // an archive that is not the noted one
    fs::write(path.join("target/staticlib/libexport.a"), "another").unwrap();
    assert_eq!((run(&path, &["side"]).status, calls(&path)), (Some(0), 2));
    // and one that has no note
    fs::remove_file(path.join("target/staticlib/made-of")).unwrap();
    assert_eq!((run(&path, &["side"]).status, calls(&path)), (Some(0), 2));
    assert!(fs::read_to_string(path.join("target/staticlib/made-of")).unwrap().contains("kit 9\n"));
}

#[test]
fn what_is_missing_is_named() {
    let path = repository("missing");
    fs::rename(path.join("bin/rt"), path.join("rt-aside")).unwrap();
    let without = run(&path, &["side"]);
    assert_eq!((without.status, &*without.said), (Some(1), ""));
    assert!(without.why.starts_with("rt is missing") && without.why.contains("rattle-kit-13f"), "{}", without.why);
    fs::rename(path.join("rt-aside"), path.join("bin/rt")).unwrap();
    assert_eq!(run(&path, &["side"]).status, Some(0));
    // once the library is proved, rt is not needed
    fs::remove_file(path.join("bin/rt")).unwrap();
    assert_eq!(run(&path, &["side"]).status, Some(0));
    fs::write(path.join("broken"), "").unwrap();
    let broken = run(&path, &["side"]);
    assert!(broken.status == Some(1) && broken.why.contains("Compiling much"), "{}", broken.why);
    fs::remove_file(path.join("bin/cargo")).unwrap();
    let without = run(&path, &["side"]);
    assert!(without.status == Some(1) && without.why.starts_with("box: cargo is missing"), "{}", without.why);
}

/// The real one, run where there is neither `rt` nor cargo nor anything else to call.
fn installed(prefix: &Path, words: &[&str]) -> Ended {
    let mut command = Command::new(prefix.join("bin/box"));
    ended(command.args(words).current_dir(prefix).env_clear().env("PATH", "").output().unwrap())
}

/// What bash offers behind these words.
fn offered(prefix: &Path, words: &[&str]) -> String {
    let script = prefix.join("share/bash-completion/completions/box");
    let text = "source \"$0\"; COMP_WORDS=(\"$@\"); COMP_CWORD=$(($# - 1)); _box; echo \"${COMPREPLY[*]}\"";
    ended(Command::new("bash").args(["-c", text]).arg(script).args(words).current_dir(prefix).output().unwrap())
        .said
        .trim()
        .into()
}

#[test]
fn an_installed_program_runs_alone() {
    let prefix = folder("box-installed").join("empty");
    let output = ended(Command::new(root().join("box")).arg("install").arg(&prefix).output().unwrap());
    assert_eq!(output.status, Some(0), "{}", output.why);
    assert!(!output.why.contains("Compiling") && output.said.starts_with("Installed into "), "{}", output.why);
    assert_eq!(names(&prefix.join("bin")), ["box", "tuppencehop"]);
    let told = installed(&prefix, &["--version"]);
    assert!(told.said.starts_with("box "), "{}", told.why);
    assert_eq!(installed(&prefix, &["demo", "out"]).status, Some(0));
    let told = installed(&prefix, &["clean", "--left", "out/left-before.wav", "--out", "again"]);
    assert_eq!(told.status, Some(0), "{}", told.why);
    assert!(fs::read(prefix.join("out/left.wav")).unwrap() == fs::read(prefix.join("again/left.wav")).unwrap());
    assert_eq!(installed(&prefix, &["side", "again/left.wav"]).status, Some(0));
    // the man page has every command, and reads without a warning where there is a reader
    let page = prefix.join("share/man/man1/box.1");
    let text = fs::read_to_string(&page).unwrap();
    assert!(["clean", "side", "mend", "completion"].iter().all(|name| text.contains(&format!("\n.SS box {name}\n"))));
    if let Ok(groff) = Command::new("groff").args(["-man", "-Tutf8", "-ww", "-z"]).arg(&page).output() {
        assert_eq!(ended(groff).why, "");
    }
    assert!(fs::read_to_string(prefix.join("share/doc/tuppencehop/NOTICE")).unwrap().contains("Redistribution"));
    for (words, offer) in [
        (&["box", "cl"][..], "clean"),
        (&["box", "clean", "--l"], "--left --lag"),
        (&["box", "clean", "--lag", ""], "crate own"),
        (&["box", "export", "--as", ""], "rnnn"),
        (&["box", "side", "-"], "--json --help"),
        (&["box", "side", "again/l"], "again/left.wav"),
        (&["box", "clean", "--name", ""], ""),
        (&["box", "help", "de"], "demo"),
    ] {
        assert_eq!(offered(&prefix, words), offer, "{words:?}");
    }
}

#[test]
fn a_package_has_all_that_goes_with_it() {
    let output = ended(Command::new(root().join("box")).arg("package").output().unwrap());
    assert_eq!(output.status, Some(0), "{}", output.why);
    let package = Path::new(output.said.trim());
    let path = folder("box-package");
    assert!(Command::new("tar").arg("-xzf").arg(package).arg("-C").arg(&path).status().unwrap().success());
    let name = package.file_name().unwrap().to_str().unwrap().strip_suffix(".tar.gz").unwrap();
    assert!(name.starts_with(concat!("tuppencehop-", env!("CARGO_PKG_VERSION"), "-")), "{name}");
    let within = path.join(name);
    assert_eq!(names(&within), ["NOTICE", "bin", "include", "lib", "share"]);
    let same = |one: &str, other: &str| fs::read(within.join(one)).unwrap() == fs::read(root().join(other)).unwrap();
    assert!(same("lib/libtuppence.a", "target/staticlib/libexport.a"));
    assert!(same("include/tuppence.h", "bindings/c/tuppence.h") && same("NOTICE", "NOTICE"));
    assert!(same("share/tuppencehop/house.rnn", "host/model/house.rnn"));
    assert!(within.join("lib/ladspa/tuppence_ladspa.so").is_file());
    assert!(installed(&within, &["--version"]).said.starts_with("box "));
    example_of(&within);
}

/// A C user builds the example from the package alone, and runs it with the shared library.
fn example_of(package: &Path) {
    let example = package.join("example");
    let built = Command::new("cc")
        .current_dir(package)
        .args(["share/doc/tuppencehop/examples/clean_a_second.c", "-Iinclude", "-Llib", "-ltuppence", "-o", "example"])
        .status();
    assert!(built.is_ok_and(|status| status.success()));
    let run = Command::new(example)
        .env_clear()
        .env("LD_LIBRARY_PATH", package.join("lib"))
        .arg(package.join("share/tuppencehop/house.rnn"))
        .output()
        .unwrap();
    assert!(run.status.success(), "{}", String::from_utf8_lossy(&run.stderr));
    // 100 frames of 480 floats
    assert_eq!(run.stdout.len(), 100 * 480 * 4);
}

#[test]
fn a_debian_package_has_the_same() {
    let output = ended(Command::new(root().join("box")).args(["package", "--deb"]).output().unwrap());
    assert_eq!(output.status, Some(0), "{}", output.why);
    let path = folder("box-deb");
    let unpacked = Command::new("dpkg-deb").arg("-x").arg(output.said.trim()).arg(&path).status();
    assert!(unpacked.is_ok_and(|status| status.success()));
    assert!(installed(&path.join("usr"), &["--version"]).said.starts_with("box "));
    example_of(&path.join("usr"));
}

/// The clerk's program has nothing of the Rust text in it. (host/dev/tests/words.rs sees that its names would be
/// found.)
#[test]
fn the_box_has_no_symbol_of_the_text() {
    let symbols = ended(Command::new("nm").arg(env!("CARGO_BIN_EXE_tuppencehop")).output().unwrap());
    assert_eq!(symbols.status, Some(0), "{}", symbols.why);
    assert!(symbols.said.contains("tuppencehop") && symbols.said.contains("tuppence_feed"), "the names are stripped");
    let of_text: Vec<&str> = symbols.said.lines().filter(|line| line.contains("nnnoiseless")).collect();
    assert!(of_text.is_empty(), "{of_text:?}");
}

/// `./box dev` runs the developers' program.
#[test]
fn the_developers_program_is_another() {
    let path = repository("dev");
    let told = run(&path, &["dev", "bench", "--json"]);
    assert_eq!(
        (told.status, &*told.said),
        (Some(0), &*format!("{}: bench --json\n", path.canonicalize().unwrap().display()))
    );
    let built = fs::read_to_string(path.join("cargo-was-called")).unwrap();
    assert!(built.contains("--package tuppencehop-dev "), "{built}");
    run(&path, &["side"]);
    let built = fs::read_to_string(path.join("cargo-was-called")).unwrap();
    assert!(built.contains("--package tuppencehop "), "{built}");
}
