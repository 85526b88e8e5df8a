//! bindings/c/tuppence.h as a C compiler takes it: a program in C, and every function that it declares, linked with the
//! library.

use std::fs;
use std::path::{Path, PathBuf};
use std::process::{Command, Output};

fn root() -> &'static Path {
    Path::new(env!("CARGO_MANIFEST_DIR")).parent().unwrap()
}

/// Compiles with warnings as errors, and links the library.
fn compiled(source: &Path, name: &str) -> PathBuf {
    let program = Path::new(env!("CARGO_TARGET_TMPDIR")).join(name);
    let strict = ["-std=c99", "-Wall", "-Wextra", "-Werror", "-pedantic"];
    let mut cc = Command::new("cc");
    cc.args(strict).arg("-I").arg(root().join("bindings/c")).arg("-o").arg(&program).arg(source);
    said(cc.arg(root().join("target/staticlib/libexport.a")));
    program
}

/// What a program says; it must end well.
fn said(command: &mut Command) -> Output {
    let output = command.output().unwrap();
    assert!(output.status.success(), "{command:?}: {}", String::from_utf8_lossy(&output.stderr));
    output
}

/// The program's sound: noise, and from the half second on a tone.
fn sound() -> Vec<f32> {
    let mut x = 12u64;
    let sample = |i: i32| {
        x ^= x << 13;
        x ^= x >> 7;
        x ^= x << 17;
        let tone = if i < 24_000 { 0 } else { [-3_000, 3_000][(i / 120 % 2) as usize] };
        ((x >> 53) as i32 - 1_024 + tone) as f32
    };
    (0..48_000).map(sample).collect()
}

/// What Rust gets from the same calls.
fn cleaned(sound: &[f32], model: &[u8]) -> Vec<f32> {
    let (mut store, mut record) = (vec![0.0; tuppence::STORE], [0; tuppence::RECORD]);
    assert_eq!(tuppence::open(&mut record, &mut store, 0, model), 0);
    let mut all = vec![];
    for piece in sound.chunks(1_000) {
        let (before, mut out, mut answers) = (record[5], [0.0; 4_320], [0.0; 27]);
        assert_eq!(tuppence::take(&mut record, &mut store, 0, piece, model, &mut out, &mut answers), 0);
        all.extend(&out[..480 * (record[5] - before) as usize]);
    }
    all
}

#[test]
fn a_second_cleaned_by_a_program_in_c() {
    let (source, model) = (root().join("bindings/c/clean_a_second.c"), root().join("host/model/house.rnn"));
    let output = said(Command::new(compiled(&source, "clean_a_second")).arg(&model));
    let wanted: Vec<u8> = cleaned(&sound(), &fs::read(model).unwrap()).iter().flat_map(|x| x.to_le_bytes()).collect();
    assert_eq!(wanted.len(), 4 * 48_000);
    assert!(output.stdout == wanted, "another sound than Rust gets");
    let heard = String::from_utf8(output.stderr).unwrap();
    assert!(heard.starts_with("100 frames, "), "{heard}");
}

#[test]
fn every_function_of_the_header_is_in_the_library() {
    let header = fs::read_to_string(root().join("bindings/c/tuppence.h")).unwrap();
    let begins = |line: &&str| !line.starts_with(' ') && line.contains(" tuppence_") && line.contains('(');
    let prototypes = header.lines().filter(begins);
    let names: Vec<&str> = prototypes.map(|line| line.split([' ', '(']).nth(1).unwrap()).collect();
    assert!(names.len() > 40 && names.iter().all(|name| name.starts_with("tuppence_")), "{names:?}");
    let list: String = names.iter().map(|name| format!("    (function){name},\n")).collect();
    let text = format!(
        "#include \"tuppence.h\"\ntypedef void (*function)(void);\nstatic function volatile all[] = {{\n{list}}};\n\
         int main(void) {{ return all[0] == 0; }}\n"
    );
    let source = Path::new(env!("CARGO_TARGET_TMPDIR")).join("every_function.c");
    fs::write(&source, text).unwrap();
    said(&mut Command::new(compiled(&source, "every_function")));
}
