//! `box pack` and `box unpack`: round both ways, and each error with exit status 1 and nothing left behind.

use std::collections::BTreeMap;
use std::fs;
use std::path::{Path, PathBuf};
use std::process::{Command, Output};
use tuppencehop::cleaning::demo::HOUSE;

/// A folder of its own for each test, with the house model in it and taken apart.
fn folder(name: &str) -> PathBuf {
    let path = Path::new(env!("CARGO_TARGET_TMPDIR")).join(format!("pack-{name}"));
    let _ = fs::remove_dir_all(&path);
    fs::create_dir_all(&path).unwrap();
    fs::write(path.join("house.rnn"), HOUSE).unwrap();
    assert!(unpack(&path, "house.rnn", "loose").status.success());
    path
}

fn host(words: &[&str]) -> Output {
    Command::new(env!("CARGO_BIN_EXE_tuppencehop")).args(words).output().unwrap()
}

fn unpack(path: &Path, model: &str, out: &str) -> Output {
    let [model, out] = [model, out].map(|name| path.join(name));
    host(&["unpack", model.to_str().unwrap(), "--out", out.to_str().unwrap()])
}

fn pack(path: &Path, layers: &str, out: &str) -> Output {
    let [layers, out] = [layers, out].map(|name| path.join(name));
    host(&["pack", "--layers", layers.to_str().unwrap(), "--out", out.to_str().unwrap()])
}

/// The names and the bytes in a folder.
fn contents(path: &Path) -> BTreeMap<String, Vec<u8>> {
    let entries = fs::read_dir(path).unwrap().map(|entry| entry.unwrap());
    entries.map(|e| (e.file_name().into_string().unwrap(), fs::read(e.path()).unwrap())).collect()
}

/// The run ends with 1, says this, and leaves nothing new.
fn fails(path: &Path, output: Output, words: &[&str]) {
    let said = String::from_utf8(output.stderr).unwrap();
    assert_eq!(output.status.code(), Some(1), "{said}");
    for word in words {
        assert!(said.contains(word), "{said}");
    }
    let mut names: Vec<_> = fs::read_dir(path).unwrap().map(|e| e.unwrap().file_name()).collect();
    names.sort();
    assert_eq!(names, ["house.rnn", "loose"], "{said}");
}

#[test]
fn round_both_ways() {
    let path = folder("round");
    let loose = contents(&path.join("loose"));
    assert_eq!(loose.len(), 16);
    assert!(String::from_utf8_lossy(&loose["layers.txt"]).starts_with("input_dense 42 "));
    // a model, taken apart and put together again
    assert!(pack(&path, "loose", "again.rnn").status.success());
    assert!(fs::read(path.join("again.rnn")).unwrap() == HOUSE);
    // loose arrays, put together and taken apart again
    fs::write(path.join("loose/vad_gru.bias"), loose["vad_gru.bias"].iter().map(|b| !b).collect::<Vec<_>>()).unwrap();
    assert!(pack(&path, "loose", "other.rnn").status.success());
    assert!(fs::read(path.join("other.rnn")).unwrap() != HOUSE);
    assert!(unpack(&path, "other.rnn", "apart").status.success());
    assert!(contents(&path.join("apart")) == contents(&path.join("loose")));
}

#[test]
fn an_array_of_another_length() {
    let path = folder("length");
    let bias = path.join("loose/denoise_gru.bias");
    let bytes = fs::read(&bias).unwrap();
    let (n, wanted) = (bytes.len() - 1, format!("{} are wanted", bytes.len()));
    fs::write(&bias, &bytes[1..]).unwrap();
    let has = format!("denoise_gru.bias has {n} bytes");
    fails(&path, pack(&path, "loose", "new.rnn"), &[&has, &wanted, "refusal 16", "layer 3"]);
}

#[test]
fn other_numbers() {
    let path = folder("numbers");
    let list = path.join("loose/layers.txt");
    let text = fs::read_to_string(&list).unwrap();
    let with = |old: &str, new: &str| fs::write(&list, text.replacen(old, new, 1)).unwrap();
    with("input_dense 42", "input_dense 128");
    fails(&path, pack(&path, "loose", "new.rnn"), &["input_dense: 128 inputs are more than 127", "refusal 12"]);
    with("input_dense 42", "input_dense -42");
    fails(&path, pack(&path, "loose", "new.rnn"), &["layers.txt", "line 1", "`input_dense -42"]);
    with("vad_gru", "vad_dense");
    fails(&path, pack(&path, "loose", "new.rnn"), &["layers.txt", "line 2", "`vad_gru INPUTS NEURONS ACTIVATION`"]);
    fs::write(&list, text.lines().skip(1).collect::<Vec<_>>().join("\n")).unwrap();
    fails(&path, pack(&path, "loose", "new.rnn"), &["six lines", "this has 5"]);
}

#[test]
fn layers_that_do_not_go_together() {
    let path = folder("together");
    let list = path.join("loose/layers.txt");
    let text = fs::read_to_string(&list).unwrap();
    // vad_output of two neurons, its arrays as long as it says
    let line = text.lines().last().unwrap();
    let words: Vec<&str> = line.split(' ').collect();
    let inputs: usize = words[1].parse().unwrap();
    fs::write(&list, text.replace(line, &format!("vad_output {inputs} 2 1"))).unwrap();
    fs::write(path.join("loose/vad_output.weights"), vec![0; 2 * inputs]).unwrap();
    fs::write(path.join("loose/vad_output.bias"), [0, 0]).unwrap();
    fails(&path, pack(&path, "loose", "new.rnn"), &["22 gains and one voice", "refusal 18"]);
}

#[test]
fn missing_files() {
    let path = folder("missing");
    fs::remove_file(path.join("loose/noise_gru.recurrent")).unwrap();
    fails(&path, pack(&path, "loose", "new.rnn"), &["noise_gru.recurrent"]);
    fails(&path, pack(&path, "none", "new.rnn"), &["pack: --layers ", "none: no such file"]);
    fails(&path, pack(&path, "loose", "none/new.rnn"), &["noise_gru.recurrent"]);
    fails(&path, unpack(&path, "none.rnn", "new"), &["none.rnn"]);
    fails(&path, unpack(&path, "house.rnn", "house.rnn/new"), &["house.rnn/new"]);
}

#[test]
fn a_refused_model() {
    let path = folder("refused");
    fs::write(path.join("house.rnn"), &HOUSE[..HOUSE.len() - 1]).unwrap();
    fails(&path, unpack(&path, "house.rnn", "new"), &["it ends within a layer's weights", "refusal 16", "vad_output"]);
}
