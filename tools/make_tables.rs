// Writes each table as a constant of the code and, by its bit patterns, as a definition. tools/make_tables.sh puts the
// Rust text in front of this file. The cosines are not in that text: they are computed here, and the logarithm's
// constants in tools/logarithm.rs.
use std::fs::write;

fn main() {
    let c = common();
    let what = "The window's 960 numbers, `window` in `common()` of lib.rs";
    table("bands", "window", "Window", "window", what, &c.window);
    let what = "The DCT's 22 rows of 22 numbers, `dct_table` in `common()` of lib.rs";
    table("bands", "dct_table", "DctTable", "dct_table", what, &c.dct_table);
    let what = "The activations' 201 numbers, `TANSIG_TABLE` of util.rs";
    table("numbers", "table", "Tansig", "tansig", what, &TANSIG_TABLE);
    one_by_one("crates/numbers/src/table.rt", "tansig", &TANSIG_TABLE);
    let turn: Vec<f32> = (0..960).map(cosine).collect();
    let what = "The cosines of m/960 of a turn, each the nearest f32, +0 at 240 and 720";
    table("transforms", "cosine", "Cosine", "cosine", what, &turn);
    logarithm_tables();
    println!("wnorm {:08X}", c.wnorm.to_bits());
}

// The nearest f32 to the cosine of m/960 of a turn. The f64 cosine is off by less than its last bit. So this stops if a
// midpoint of two f32 is within eight times that distance.
fn cosine(m: usize) -> f32 {
    if m % 480 == 240 {
        return 0.0;
    }
    let exact = (std::f64::consts::TAU * m as f64 / 960.0).cos();
    let near = exact as f32;
    for other in [near.to_bits() - 1, near.to_bits() + 1] {
        let middle = (near as f64 + f32::from_bits(other) as f64) / 2.0;
        let far = (exact - middle).abs() > 8.0 * f64::EPSILON * exact.abs();
        assert!(near.abs() == 1.0 || far, "{m} is near a midpoint");
    }
    near
}

fn literal(x: f32) -> String {
    if x.fract() == 0.0 { format!("{x:.1}") } else { format!("{x}") }
}

// A function for one number of a table, behind what `table` wrote.
fn one_by_one(file: &str, name: &str, numbers: &[f32]) {
    let last = numbers.len() - 1;
    let arm = |(i, x): (usize, &f32)| format!("        {i} => {},\n", literal(*x));
    let arms: String = numbers[..last].iter().enumerate().map(arm).collect();
    let written = std::fs::read_to_string(file).unwrap();
    let written = written.replace(
        "ghost use Rattle.std.specs.Prelude.{◌≡◌};\n",
        "ghost use Rattle.std.specs.Prelude.{◌≡◌, ◌≤◌};\nghost use Rattle.rules.specs.F32.{at};\n",
    );
    let code = format!(
        "{written}
// One of them: a match is compiled to a table that is never filled.
pub(crate) fn entry(i: u32) -> f32
    requires {{ i ≤ {last} }}
    ensures {{ result ≡ at {name} i }}
{{
    match i {{
{arms}        _ => {},
    }}
}}
",
        literal(numbers[last])
    );
    write(file, code).unwrap();
}

// Half a row of the DCT, which takes two lines.
const HALF_ROW: &str = "abbrev half_row : ℕ → ℕ → ℕ → ℕ → ℕ → ℕ → ℕ → ℕ → ℕ → ℕ → ℕ → List ℕ
half_row a b c d e f g h i j k = a ∷ b ∷ c ∷ d ∷ e ∷ f ∷ g ∷ h ∷ i ∷ j ∷ k ∷ []

";

fn table(krate: &str, module: &str, spec: &str, name: &str, what: &str, numbers: &[f32]) {
    let count = numbers.len();
    let constant = if spec == "DctTable" { "DCT_TABLE".into() } else { spec.to_uppercase() };
    let lines: String = numbers.iter().map(|x| format!("    {},\n", literal(*x))).collect();
    let code = format!(
        "// {what}.
// Whoever loops over them takes them once, by `all`: each mention of a constant array fills it anew.
ghost use Rattle.std.specs.Prelude.{{◌≡◌}};
ghost use Rattle.{krate}.specs.{spec}.{{{name}}};

const {constant}: [f32; {count}] = [
{lines}];

pub fn all() -> [f32; {count}]
    ensures {{ result ≡ {name} }}
{{
    {constant}
}}
"
    );
    let bits: Vec<String> = numbers.iter().map(|x| format!("0x{:08X}", x.to_bits())).collect();
    let (half_row, list) = if spec == "DctTable" {
        let half_row = |half: &[String]| format!("    half_row {}\n    {}", half[..6].join(" "), half[6..].join(" "));
        (HALF_ROW, bits.chunks(11).map(half_row).collect::<Vec<_>>().join(" ++\n"))
    } else {
        ("", bits.chunks(8).map(|eight| format!("    {} ∷", eight.join(" ∷ "))).collect::<Vec<_>>().join("\n") + " []")
    };
    let text = format!(
        "-- {what}: by their bit patterns.
use Rattle.std.specs.Prelude.{{◌∷◌{}}}
use Rattle.rules.specs.Common.{{ℕ, List, [], map, Float, of_bits}}
use Rattle.rules.specs.F32.{{f32}}

{half_row}unfoldable pub {name}_bits : List ℕ
{name}_bits =
{list}

unfoldable pub {name} : List Float
unfolding {name}_bits of_bits
{name} = map f32 {name}_bits
",
        if half_row.is_empty() { "" } else { ", ◌++◌" }
    );
    write(format!("crates/{krate}/src/{module}.rt"), code).unwrap();
    write(format!("crates/{krate}/specs/{spec}.antt"), text).unwrap();
}
