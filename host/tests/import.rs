//! `box import` and `box export`: the forms of a model, round both ways; each refusal by layer, array and line; and
//! 10,000 damaged files.

mod models;

use models::{any, as_c, c_name, declarations, layers, pick, plain, up_to, HEAD};
use std::fs;
use std::path::{Path, PathBuf};
use std::process::{Command, Output};
use tuppencehop::cleaning::demo::{dictation, Rng, HOUSE};
use tuppencehop::models::export::rnnn;
use tuppencehop::models::import::model;
use tuppencehop::models::layers::{first_array, Layers, LAYERS};
use tuppencehop::reading::wav;

/// The text form, with any white space between its numbers.
fn as_rnnn(layers: &Layers, rng: &mut Rng) -> String {
    let mut text = String::from("rnnoise-nu model file version 1");
    for byte in plain(layers) {
        text += pick(rng, &[" ", " ", " ", "\n", "\r\n", "  ", "\t", "\n\n"]);
        text += &(byte as i8).to_string();
    }
    text + pick(rng, &["", "\n", "\r\n", " "])
}

#[test]
fn models_of_any_shape_in_any_form() {
    let mut rng = Rng(3);
    for _ in 0..500 {
        let layers = any(&mut rng, 127);
        let file = plain(&layers);
        assert!(model(file.clone()) == Ok(file.clone()));
        assert!(model(as_rnnn(&layers, &mut rng).into_bytes()) == Ok(file.clone()));
        assert!(model(as_c(&layers, &mut rng).into_bytes()) == Ok(file.clone()));
        let exported = rnnn(&Layers::of(&file).unwrap());
        assert!(model(exported.into_bytes()) == Ok(file));
    }
    // the largest that reads, and the usual shape
    for neurons in [[84, 1, 84, 127], [24, 24, 48, 96]] {
        let layers = layers(&mut rng, neurons, 127);
        assert!(model(as_rnnn(&layers, &mut rng).into_bytes()) == Ok(plain(&layers)));
        assert!(model(as_c(&layers, &mut rng).into_bytes()) == Ok(plain(&layers)));
    }
}

#[test]
fn the_house_model_through_both_and_back() {
    let (house, mut rng) = (Layers::of(HOUSE).unwrap(), Rng(4));
    for text in [rnnn(&house), as_rnnn(&house, &mut rng), as_c(&house, &mut rng)] {
        assert!(model(text.into_bytes()).unwrap() == HOUSE);
    }
}

/// A damage to some bytes: one is another, is gone, or there twice; the end is gone; a part is given twice; a
/// number is another.
fn damaged(mut text: Vec<u8>, rng: &mut Rng) -> Vec<u8> {
    for _ in 0..=up_to(rng, 1) {
        let at = up_to(rng, text.len() as u32 - 1) as usize;
        let byte = b" 0123456789-+.,;{}[]()=/*#\"'\\\n\r_aAz\0\xFF"[up_to(rng, 36) as usize];
        match up_to(rng, 6) {
            0 | 1 => text[at] = byte,
            2 => text.insert(at, byte),
            3 => _ = text.remove(at),
            4 => text.truncate(at + 1),
            5 => {
                let to = text.len().min(at + up_to(rng, 40) as usize);
                let part = text[at..to].to_vec();
                text.splice(at..at, part);
            }
            _ => {
                let digits: Vec<usize> = (0..text.len()).filter(|k| text[*k].is_ascii_digit()).collect();
                if let Some(at) = digits.get(up_to(rng, digits.len().max(1) as u32 - 1) as usize) {
                    let number = pick(rng, &["127", "128", "-128", "-129", "200", "0", "3", "99999999999", "1.5"]);
                    text.splice(*at..at + 1, number.bytes());
                }
            }
        }
    }
    text
}

/// What a text in rnnoise-nu's form is worth, told in another way: the bytes of its numbers, where all are bytes and
/// the library's reader takes them.
fn worth(text: &[u8]) -> Option<Vec<u8>> {
    let text = std::str::from_utf8(text).ok()?;
    let words: Vec<&str> = text.split([' ', '\t', '\n', '\r']).filter(|word| !word.is_empty()).collect();
    let (first, numbers) = words.split_at_checked(5)?;
    if first[..4] != ["rnnoise-nu", "model", "file", "version"] || first[4].parse() != Ok(1) {
        return None;
    }
    let file: Vec<u8> =
        numbers.iter().map(|word| word.parse::<i8>().map(|x| x as u8)).collect::<Result<_, _>>().ok()?;
    (tuppence::model(&mut [0; 30], &file) == 0).then_some(file)
}

#[test]
fn five_thousand_damaged_texts_of_rnnoise_nu() {
    let (mut rng, mut taken) = (Rng(5), 0);
    for k in 0..5_000 {
        let text = damaged(as_rnnn(&any(&mut rng, 127), &mut rng).into_bytes(), &mut rng);
        match (text.starts_with(b"rnnoise-nu"), model(text.clone())) {
            (true, outcome) => {
                assert!(outcome.clone().ok() == worth(&text), "{k}: {outcome:?}\n{}", text.escape_ascii());
                taken += u32::from(outcome.is_ok());
            }
            // not this form any more: it is handed on, and refused by the library
            (false, Ok(file)) => assert!(tuppence::model(&mut [0; 30], &file) != 0, "{k}"),
            (false, Err(_)) => assert!(text[0].is_ascii_whitespace() || text[0] == b'#' || text[0] == b'/', "{k}"),
        }
    }
    assert!((500..4_500).contains(&taken), "{taken} were whole");
}

/// The text without comments, told in another way than the importer does: by cutting at each end of a comment.
fn without_comments(text: &str) -> String {
    let mut found = String::new();
    for (k, part) in text.split("/*").enumerate() {
        found += if k == 0 { part } else { part.split_once("*/").map_or("", |(_, behind)| behind) };
    }
    found.lines().map(|line| line.split("//").next().unwrap().to_string() + "\n").collect()
}

/// The numbers of an array in C, where it stands there once.
fn numbers_of(text: &str, name: &str) -> Option<Vec<u8>> {
    let declared = format!("rnn_weight {name}[");
    let mut places = text.match_indices(&declared).map(|(at, _)| at);
    let (at, None) = (places.next()?, places.next()) else { return None };
    let inside = text[at..].split_once('{')?.1.split_once('}')?.0;
    let words = inside.split(',').map(|word| word.split_whitespace().collect::<String>());
    words.filter(|word| !word.is_empty()).map(|word| word.parse::<i8>().ok().map(|number| number as u8)).collect()
}

/// What is taken is a model that the library reads, and its arrays are those that another reader finds in the text.
#[test]
fn five_thousand_damaged_texts_in_c() {
    let (mut rng, mut taken, mut refused, mut compared) = (Rng(6), 0, 0, 0);
    for k in 0..5_000 {
        let text = HEAD.to_string() + &declarations(&any(&mut rng, 127)).concat();
        let text = damaged(text.into_bytes(), &mut rng);
        let Ok(file) = model(text.clone()) else {
            refused += 1;
            continue;
        };
        let Ok(found) = Layers::of(&file) else {
            assert!(!text.starts_with(b"/*"), "{k}");
            continue;
        };
        taken += 1;
        let text = without_comments(&String::from_utf8_lossy(&text));
        for (layer, (name, arrays)) in LAYERS.iter().enumerate() {
            for (array, bytes) in arrays.iter().zip(&found.arrays[first_array(layer)..]) {
                let other = numbers_of(&text, &c_name(name, array));
                assert!(other.is_none() || other.as_ref() == Some(bytes), "{k}: {name} {array}\n{text}");
                compared += u32::from(other.is_some());
            }
        }
    }
    assert!(taken > 500 && refused > 2_000, "{taken} taken, {refused} refused");
    assert!(compared > 14 * taken, "{compared} arrays of {taken} models were found by the other reader");
}

/// The smallest model, its weights 0.
fn smallest() -> Layers {
    let mut smallest = layers(&mut Rng(1), [1; 4], 0);
    smallest.arrays.iter_mut().for_each(|array| array.fill(0));
    (0..4).for_each(|layer| smallest.shapes[3 * layer + 2] = 0);
    smallest
}

/// The text of the smallest model with one line (from 1) changed: a word of it is another, or with none the line is.
fn with_line(text: &str, line: usize, from: &str, to: &str) -> String {
    let change = |(k, old): (usize, &str)| match (k + 1 == line, from) {
        (true, "") => to.to_string(),
        (true, from) => {
            assert!(old.contains(from), "line {line} has no {from}: {old}");
            old.replacen(from, to, 1)
        }
        (false, _) => old.to_string(),
    };
    text.lines().enumerate().map(|line| change(line) + "\n").collect()
}

fn refused(text: &str, why: &str) {
    let error = model(text.as_bytes().to_vec()).unwrap_err();
    assert_eq!((error.to_string().as_str(), error.status()), (why, 1));
    // a refusal's number is kept, and not in the words alone
    let number = error.refusal().map(|refusal| format!("(refusal {}", refusal.0 / 256 % 256));
    assert_eq!(number.is_some_and(|number| why.contains(&number)), why.contains("(refusal "), "{why}");
}

#[test]
fn each_refusal_of_a_text_of_rnnoise_nu() {
    let text = rnnn(&smallest());
    assert_eq!(text.lines().count(), 22);
    assert!(model(text.clone().into_bytes()).is_ok());
    for (line, from, to, why) in [
        (1, "1", "2", "version `2` of rnnoise-nu's form; version 1 is read"),
        (1, "model", "models", "it does not begin with `rnnoise-nu model file version 1`"),
        (7, "0 0 0", "0 200 0", "line 7: vad_gru.recurrent, number 2 of 3: `200` is not from -128 to 127"),
        (7, "0 0 0", "-129 0 0", "line 7: vad_gru.recurrent, number 1 of 3: `-129` is not from -128 to 127"),
        (18, "0", "1.5", "line 18: denoise_output.weights, number 1 of 22: `1.5` is no whole number"),
        (2, "0", "x", "line 2: input_dense, activation: `x` is no whole number"),
        (
            5,
            "1 1 0",
            "1 1 3",
            "line 5: vad_gru: its activation is `3`, and not 0, 1 or 2 (tanh, sigmoid, relu) (refusal 14, layer 1)",
        ),
        (2, "42", "128", "line 2: input_dense: `128` inputs are not from 0 to 127 (refusal 12, layer 0)"),
        (9, "44", "-1", "line 9: noise_gru: `-1` inputs are not from 0 to 127 (refusal 12, layer 2)"),
        (13, "44 1", "44 128", "line 13: denoise_gru: `128` neurons are not from 1 to 127 (refusal 13, layer 3)"),
        (20, "1 1", "1 0", "line 20: vad_output: it has no neurons (refusal 15, layer 5)"),
        (22, "0", "", "it ends within vad_output.bias: 0 of 1 numbers are there (refusal 16, layer 5)"),
        (22, "0", "0\r\n\r\n0", "line 24: `0` follows the last number of vad_output.bias"),
        (20, "1 1 1", "", "it ends before the activation of vad_output"),
    ] {
        refused(&with_line(&text, line, from, to), why);
    }
    refused(
        "\u{FEFF}\n\nrnnoise-nu model file version 1\n42 x",
        "line 4: input_dense, neurons: `x` is no whole number",
    );
    refused("rnnoise-nu model file version\n", "it ends before its version");
    refused("rnnoise-nu model file version 1\n42 1", "it ends before the activation of input_dense");
    let cut = text.lines().take(9).collect::<Vec<_>>().join("\n") + "\n1 2 3 4 5";
    refused(&cut, "it ends within noise_gru.weights: 5 of 132 numbers are there (refusal 16, layer 2)");
    let long = text + &" ".repeat(16 << 20);
    refused(&long, "a text of more than 16 MiB is no model");
}

/// Layers whose arrays are as long as their counts say, with one count that does not go together with the others'.
fn apart(layer: usize, part: usize, count: u32) -> Layers {
    let mut layers = smallest();
    layers.shapes[3 * layer + part] = count;
    let lengths = tuppencehop::models::layers::lengths(layer, layers.shapes[3 * layer], layers.shapes[3 * layer + 1]);
    for (array, length) in layers.arrays[first_array(layer)..].iter_mut().zip(lengths) {
        array.resize(length, 0);
    }
    layers
}

#[test]
fn layers_that_do_not_go_together() {
    for (layer, part, count, why) in [
        (5, 1, 2, "it does not take 42 features to 22 gains and one voice (refusal 18)"),
        (5, 0, 2, "vad_gru does not fit input_dense and vad_output (refusal 19)"),
        (2, 0, 43, "noise_gru does not fit the layers before it (refusal 20)"),
        (3, 0, 43, "denoise_gru does not fit the layers before it (refusal 21)"),
        (4, 0, 2, "denoise_output does not fit denoise_gru (refusal 22)"),
    ] {
        let layers = apart(layer, part, count);
        refused(&rnnn(&layers), why);
        refused(&as_c(&layers, &mut Rng(1)), why);
    }
}

/// The smallest model in C: behind a head of eight lines, input_dense's weights in lines 9 to 16, its bias to 19, the
/// layer to 24, and so on.
fn smallest_in_c() -> String {
    HEAD.to_string() + &declarations(&smallest()).concat()
}

/// What is said where one part of that text is another.
fn refused_in_c(from: &str, to: &str, why: &str) {
    let text = smallest_in_c();
    assert!(text.contains(from), "{from}");
    refused(&text.replacen(from, to, 1), why);
}

#[test]
fn each_refusal_of_a_number_in_c() {
    assert!(model(smallest_in_c().into_bytes()).is_ok());
    for (number, why) in [
        ("-129", "`-129` is not from -128 to 127"),
        ("128", "`128` is not from -128 to 127"),
        ("010", "`010` is no decimal number in C"),
        ("0x1", "`0x1` is no whole number"),
        ("1.5", "`1.5` is no whole number"),
        ("- -1", "`--` is no whole number"),
        ("ONE", "`ONE` is no whole number"),
    ] {
        let to = format!("input_dense_bias[1] = {{\n   {number}\n");
        let why = format!("line 18: input_dense_bias, number 1: {why}");
        refused_in_c("input_dense_bias[1] = {\n   0\n", &to, &why);
    }
    let recurrent = "vad_gru_recurrent_weights[3] = {\n   0, 0";
    let why = "line 30: vad_gru_recurrent_weights, number 2: `200` is not from -128 to 127";
    refused_in_c(recurrent, "vad_gru_recurrent_weights[3] = {\n   0,\n200", why);
}

#[test]
fn each_refusal_of_an_array_in_c() {
    for (array, why) in [
        ("[3] = {\n   0, 0\n", "line 31: vad_gru_bias[3] has 2 numbers"),
        ("[3] = {\n   0, 0, 0, 0,\n", "line 31: vad_gru_bias[3] has 4 numbers"),
        ("[THREE] = {\n   0, 0, 0\n", "line 31: vad_gru_bias[THREE] has 3 numbers"),
        ("[3] = {\n   0 0, 0\n", "line 32: vad_gru_bias: `}` is wanted, not `0`"),
        ("[3] = \n   0, 0, 0\n", "line 32: vad_gru_bias: `{` is wanted, not `0`"),
        ("[2] = {\n   0, 0\n", "line 34: vad_gru: vad_gru_bias has 2 numbers, 3 are wanted (refusal 16, layer 1)"),
        ("s[3] = {\n   0, 0, 0\n", "line 34: vad_gru: there is no array `vad_gru_bias` of rnn_weight"),
    ] {
        refused_in_c("vad_gru_bias[3] = {\n   0, 0, 0\n", &format!("vad_gru_bias{array}"), why);
    }
    let none = "line 34: vad_gru: there is no array `vad_gru_bias` of rnn_weight";
    refused_in_c("rnn_weight vad_gru_bias", "float vad_gru_bias", none);
    let twice = "line 120: vad_gru_bias is there for the second time";
    refused_in_c("rnn_weight vad_output_bias", "rnn_weight vad_gru_bias", twice);
    let text = smallest_in_c();
    let cut = text.find("noise_gru_bias[3] = {\n   0,").unwrap() + 26;
    refused(&text[..cut], "it ends within noise_gru_bias");
    refused(&(text + "/* and then"), "line 128: a comment begins and does not end");
    refused("\u{FEFF}#if 0\n\"\n#endif", "line 2: a quotation begins and does not end");
    refused(&(HEAD.to_string() + "\"quoted\n\""), "line 9: a quotation begins and does not end");
}

#[test]
fn each_refusal_of_a_layer_in_c() {
    let activation = "and not 0, 1 or 2 (tanh, sigmoid, relu) (refusal 14, layer 0)";
    for (numbers, why) in [
        ("42, 1, ACTIVATION_LINEAR", &format!("its activation is `ACTIVATION_LINEAR`, {activation}")[..]),
        ("42, 1, 3", &format!("its activation is `3`, {activation}")),
        ("128, 1, 0", "`128` inputs are not from 0 to 127 (refusal 12, layer 0)"),
        ("42, 128, 0", "`128` neurons are not from 1 to 127 (refusal 13, layer 0)"),
        ("42, -1, 0", "`-1` neurons are not from 1 to 127 (refusal 13, layer 0)"),
        ("42, 0, 0", "it has no neurons (refusal 15, layer 0)"),
        ("NB_FEATURES, 1, 0", "`NB_FEATURES` is no whole number"),
        (
            "1, ACTIVATION_TANH",
            "a DenseLayer of bias, weights, inputs, neurons, activation is wanted; this is a DenseLayer of 4 parts",
        ),
    ] {
        refused_in_c("42, 1, ACTIVATION_TANH", numbers, &format!("line 20: input_dense: {why}"));
    }
    let kind =
        "line 34: vad_gru: a GRULayer of bias, weights, recurrent weights, inputs, neurons, activation is wanted; \
                this is a DenseLayer of 6 parts";
    refused_in_c("GRULayer vad_gru =", "DenseLayer vad_gru =", kind);
    let none = |name: &str| format!("there is no layer {name} (what is between #if and #endif is not read)");
    refused_in_c("DenseLayer vad_output", "DenseLayer vad_out", &none("vad_output"));
    refused_in_c("static const DenseLayer vad_output", "#if 1\nconst DenseLayer vad_output", &none("vad_output"));
    let twice = "line 123: denoise_output is there for the second time";
    refused_in_c("DenseLayer vad_output", "DenseLayer denoise_output", twice);
}

#[test]
fn models_of_another_architecture() {
    let newer =
        "a model of RNNoise 0.2 or later, whose layers are others (two convolutions and three GRUs of its own); \
                 models of RNNoise 0.1, of rnnoise-nu and of nnnoiseless are taken";
    for text in [
        "DNNw\0\0\0\0",
        "/* Auto generated */\n#include \"rnnoise_data.h\"\nstatic const float conv1_bias[128] = {\n",
        "#ifndef USE_WEIGHTS_FILE\nconst WeightArray rnnoise_arrays[] = {\n",
    ] {
        refused(text, newer);
    }
}

/// A folder of its own for each test, with the house model in each form.
fn folder(name: &str) -> PathBuf {
    let path = Path::new(env!("CARGO_TARGET_TMPDIR")).join(format!("import-{name}"));
    let _ = fs::remove_dir_all(&path);
    fs::create_dir_all(&path).unwrap();
    let house = Layers::of(HOUSE).unwrap();
    fs::write(path.join("house.rnn"), HOUSE).unwrap();
    fs::write(path.join("house.rnnn"), as_rnnn(&house, &mut Rng(8))).unwrap();
    fs::write(path.join("rnn_data.c"), as_c(&house, &mut Rng(9))).unwrap();
    path
}

fn host(path: &Path, words: &str) -> (Output, String) {
    let mut host = Command::new(env!("CARGO_BIN_EXE_tuppencehop"));
    let output = host.args(words.split(' ')).current_dir(path).output().unwrap();
    let said = String::from_utf8([&output.stdout[..], &output.stderr].concat()).unwrap();
    (output, said)
}

fn names(path: &Path) -> Vec<String> {
    let mut names: Vec<_> =
        fs::read_dir(path).unwrap().map(|entry| entry.unwrap().file_name().into_string().unwrap()).collect();
    names.sort();
    names
}

#[test]
fn each_form_is_imported() {
    let (path, house) = (folder("forms"), Layers::of(HOUSE).unwrap());
    for (file, out) in [("house.rnn", "a.rnn"), ("house.rnnn", "b.rnn"), ("rnn_data.c", "new/c.rnn")] {
        let (output, said) = host(&path, &format!("import {file} --out {out}"));
        assert!(output.status.success(), "{said}");
        let [a, b, c, d] = [0, 1, 2, 3].map(|layer| house.shapes[3 * layer + 1]);
        let told = format!("{out}: {} bytes, layers of {a}, {b}, {c} and {d} neurons\n", HOUSE.len());
        assert_eq!(said, told);
        assert!(fs::read(path.join(out)).unwrap() == HOUSE, "{file}");
    }
    let (output, said) = host(&path, "export rnn_data.c --as rnnn --out d.rnnn");
    assert!(output.status.success() && said.starts_with("d.rnnn: "), "{said}");
    assert!(fs::read_to_string(path.join("d.rnnn")).unwrap() == rnnn(&house));
    assert_eq!(names(&path), ["a.rnn", "b.rnn", "d.rnnn", "house.rnn", "house.rnnn", "new", "rnn_data.c"]);
}

/// Nothing is left behind by what is refused, and nothing is written over without a word.
#[test]
fn what_is_refused_writes_nothing() {
    let path = folder("refused");
    let text = fs::read_to_string(path.join("house.rnnn")).unwrap();
    fs::write(path.join("cut.rnnn"), &text[..text.len() / 2]).unwrap();
    fs::write(path.join("cut.rnn"), &HOUSE[..HOUSE.len() - 1]).unwrap();
    let before = names(&path);
    for (words, why) in [
        ("import cut.rnnn --out new/m.rnn", "cut.rnnn: it ends within denoise_gru.weights: "),
        ("import cut.rnn --out m.rnn", "cut.rnn: the model is refused: it ends within a layer's weights (refusal 16"),
        ("import none.c --out m.rnn", "none.c: "),
        ("import house.rnnn --out house.rnn/m.rnn", "house.rnn: "),
        ("import house.rnnn --out cut.rnn", "cut.rnn: it already exists"),
        ("export cut.rnn --as rnnn --out m.rnnn", "cut.rnn: the model is refused"),
        ("export house.rnn --as rnnn --out cut.rnn", "cut.rnn: it already exists"),
        ("export house.rnn --as c --out m.c", "export: --as c: rnnn is wanted"),
        ("import house.rnnn", "import: --out M.rnn is missing"),
    ] {
        let (output, said) = host(&path, words);
        assert!(!output.status.success() && said.contains(why), "{words}: {said}");
        assert_eq!(names(&path), before, "{words}");
    }
    assert!(fs::read(path.join("cut.rnn")).unwrap() == HOUSE[..HOUSE.len() - 1]);
    let (output, said) = host(&path, "import --force house.rnnn --out cut.rnn");
    assert!(output.status.success(), "{said}");
    assert!(fs::read(path.join("cut.rnn")).unwrap() == HOUSE);
    assert_eq!(names(&path), before);
}

/// What never ends is no model.
#[cfg(unix)]
#[test]
fn no_more_is_read_than_a_model_can_have() {
    let path = folder("endless");
    let (output, said) = host(&path, "import /dev/zero --out m.rnn");
    assert!(!output.status.success() && said.contains("/dev/zero: the model is refused"), "{said}");
}

/// Whether a line of a page names its model.
fn names_model(line: &[u8]) -> bool {
    String::from_utf8_lossy(line).contains(">model<")
}

/// A recording is cleaned alike with a model in any form, and taken apart alike.
#[test]
fn each_form_is_taken_as_a_model() {
    let path = folder("taken");
    for (bench, name) in ["L.wav", "R.wav"].into_iter().enumerate() {
        fs::write(path.join(name), wav::write(48_000, &dictation(bench).noisy[..48_000])).unwrap();
    }
    let forms = ["house.rnn", "house.rnnn", "rnn_data.c"];
    for form in forms {
        let words = format!("clean --left L.wav --right R.wav --model {form} --out of-{form}");
        let (output, said) = host(&path, &words);
        assert!(output.status.success(), "{said}");
        let (output, said) = host(&path, &format!("unpack {form} --out apart-{form}"));
        assert!(output.status.success(), "{said}");
    }
    for folder in ["of", "apart"] {
        let [one, others @ ..] = forms.map(|form| path.join(format!("{folder}-{form}")));
        for (other, name) in others.iter().flat_map(|other| names(&one).into_iter().map(move |name| (other, name))) {
            // a page names its model
            let read = |folder: &Path| {
                let file = fs::read(folder.join(&name)).unwrap();
                file.split(|byte| *byte == b'\n')
                    .filter(|line| !names_model(line))
                    .map(<[u8]>::to_vec)
                    .collect::<Vec<_>>()
            };
            assert!(read(&one) == read(other), "{name}");
        }
    }
    fs::write(path.join("bad.rnnn"), "rnnoise-nu model file version 1\n42 24 3").unwrap();
    let (output, said) = host(&path, "clean --left L.wav --right L.wav --model bad.rnnn --out bad");
    assert!(
        !output.status.success() && said.contains("bad.rnnn: line 2: input_dense: its activation is `3`"),
        "{said}"
    );
    assert!(!path.join("bad").exists());
}
