
// ---- The numbers that `log10` of the crate `logs` uses, computed in whole numbers of 2^-192. The Rust text has none.

// A number below 2^63, its lowest digits first.
type Fine = [u64; 4];

fn plus(a: Fine, b: Fine) -> Fine {
    let mut carry = 0;
    std::array::from_fn(|i| {
        let sum = a[i] as u128 + b[i] as u128 + carry;
        carry = sum >> 64;
        sum as u64
    })
}

// a - b, for a b up to a.
fn minus(a: Fine, b: Fine) -> Fine {
    plus(plus(a, b.map(|digit| !digit)), [1, 0, 0, 0])
}

fn times(a: Fine, n: u64) -> Fine {
    let mut carry = 0;
    a.map(|digit| {
        let product = digit as u128 * n as u128 + carry;
        carry = product >> 64;
        product as u64
    })
}

fn over(a: Fine, n: u64) -> Fine {
    let mut rest = 0;
    let mut quotient = [0; 4];
    for i in (0..4).rev() {
        let part = rest << 64 | a[i] as u128;
        quotient[i] = (part / n as u128) as u64;
        rest = part % n as u128;
    }
    quotient
}

fn below(a: Fine, b: Fine) -> bool {
    a.iter().rev().lt(b.iter().rev())
}

// a / b, for an a below b, digit by digit.
fn ratio(mut a: Fine, b: Fine) -> Fine {
    let mut quotient = [0; 4];
    for place in (0..192).rev() {
        a = times(a, 2);
        if !below(a, b) {
            a = minus(a, b);
            quotient[place / 64] |= 1 << (place % 64);
        }
    }
    quotient
}

// ln((n + d) / (n - d)), twice the series of the inverse hyperbolic tangent at d / n.
fn logarithm(d: u64, n: u64) -> Fine {
    let mut power = over([0, 0, 0, 2 * d], n);
    let mut sum = [0; 4];
    for k in (1..).step_by(2) {
        if power == [0; 4] {
            break;
        }
        sum = plus(sum, over(power, k));
        power = over(over(times(times(power, d), d), n), n);
    }
    sum
}

// The nearest f64. It stops where the digits worked out don't tell which one that is.
fn nearest(mut a: Fine) -> f64 {
    if a == [0; 4] {
        return 0.0;
    }
    let mut unit = 2048.0;
    while a[3] >> 63 == 0 {
        a = times(a, 2);
        unit /= 2.0;
    }
    let (kept, dropped) = (a[3] >> 11, a[3] << 53 | a[2] >> 11);
    assert!(dropped.abs_diff(1 << 63) > 1 << 32, "near a midpoint");
    (kept + (dropped >> 63)) as f64 * unit
}

// The nearest whole number of 2^-places, and what it is short of a.
fn split(a: Fine, places: usize) -> [f64; 2] {
    let unit = 192 - places;
    let mut half = [0; 4];
    half[unit / 64] = 1 << (unit % 64 - 1);
    let mut high = plus(a, half);
    high[unit / 64] &= u64::MAX << (unit % 64);
    high[..unit / 64].fill(0);
    let low = if below(a, high) { -nearest(minus(high, a)) } else { nearest(minus(a, high)) };
    [nearest(high), low]
}

// 33 rows: a centre near 32 / (32 + i), of 20 binary digits, and minus its logarithm in two parts.
fn rows(ln_10: Fine) -> Vec<[f64; 3]> {
    let row = |i: u64| {
        let units = ((1 << 26) / (32 + i) + 1) / 2;
        let [high, low] = split(ratio(logarithm((1 << 20) - units, (1 << 20) + units), ln_10), 40);
        [units as f64 / 1048576.0, high, low]
    };
    (0..=32).map(row).collect()
}

// What else there is: by name in the code, by name in the definition.
fn constants(ln_2: Fine, ln_10: Fine) -> Vec<(&'static str, &'static str, f64)> {
    let [two_high, two_low] = split(ratio(ln_2, ln_10), 40);
    let [slope_high, slope_low] = split(ratio([0, 0, 0, 1], ln_10), 25);
    // of ln(1 + r) / ln(10), the numbers at r^k
    let series = |k: u64| nearest(ratio([0, 0, 0, 1], times(ln_10, k))) * if k % 2 == 0 { -1.0 } else { 1.0 };
    vec![
        ("TWO_HIGH", "two_high", two_high),
        ("TWO_LOW", "two_low", two_low),
        ("SLOPE_HIGH", "slope_high", slope_high),
        ("SLOPE_LOW", "slope_low", slope_low),
        ("SERIES_2", "series2", series(2)),
        ("SERIES_3", "series3", series(3)),
        ("SERIES_4", "series4", series(4)),
        ("SERIES_5", "series5", series(5)),
        ("SERIES_6", "series6", series(6)),
        ("SERIES_7", "series7", series(7)),
    ]
}

// Both as code and, by bit patterns, as definitions.
fn logarithm_tables() {
    let ln_2 = logarithm(1, 3);
    let ln_10 = plus(times(ln_2, 3), logarithm(1, 9));
    let rows = rows(ln_10);
    let constants = constants(ln_2, ln_10);
    let row = |[centre, high, low]: &[f64; 3]| format!("Row {{ centre: {centre:?}, high: {high:?}, low: {low:?} }},\n");
    let arms: String = rows[..32].iter().enumerate().map(|(i, x)| format!("        {i} => {}", row(x))).collect();
    let constant = |(name, _, x): &(_, _, f64)| format!("pub(crate) const {name}: f64 = {x:?};\n\n");
    let named: String = constants.iter().map(constant).collect();
    let code = format!(
        "// The constants of `log10`, made by tools/make_tables.sh. A high part is a whole number of 2^-40, and
// the low part is what it lacks.
ghost use Rattle.std.specs.Prelude.{{◌≡◌, ◌≤◌}};
ghost use Rattle.logs.specs.Tables.{{row_at}};

// log10(2), 1 / ln(10), and the numbers of the series of log10(1 + r) from r^2 on.
{named}// A centre near 32 / (32 + i), of 20 binary digits, and the two parts of minus its logarithm.
#[derive(Drop)]
pub struct Row {{
    // The centre: what 1 / m is near to.
    pub centre: f64,
    // The high part of minus its logarithm.
    pub high: f64,
    // The low part: what the high part lacks.
    pub low: f64,
}}

// One of 33: a match is compiled to a table that is never filled.
pub(crate) fn row_at(i: u64) -> Row
    requires {{ i ≤ 32 }}
    ensures {{ result ≡ row_at i }}
{{
    match i {{
{arms}        _ => {}    }}
}}
",
        row(&rows[32])
    );
    let bits = |x: f64| format!("0x{:016X}", x.to_bits());
    let lines: Vec<String> = rows.iter().map(|row| format!("    {} ∷", row.map(bits).join(" ∷ "))).collect();
    let definition =
        |(_, name, x): &(_, _, f64)| format!("\nabbrev pub {name} : Float\n{name} = f64 {}\n", bits(*x));
    let named: String = constants.iter().map(definition).collect();
    let text = format!(
        "-- The constants of `log10`, made by tools/make_tables.sh: by their bit patterns.
use Rattle.std.specs.Prelude.{{◌+◌, ◌*◌, ◌∷◌}}
use Rattle.rules.specs.Common.{{ℕ, List, [], map, Float, of_bits}}
use Rattle.rules.specs.F32.{{at}}
use Rattle.rules.specs.F64.{{f64}}
use Rattle.logs.specs.declared.table.Row.{{Row}}

-- 33 rows: a centre near 32 / (32 + i), of 20 binary digits, and the high and the low part of minus its logarithm
unfoldable pub row_bits : List ℕ
row_bits =
{} []

unfoldable pub rows : List Float
unfolding row_bits of_bits
rows = map f64 row_bits

abbrev pub row_at : ℕ → Row
row_at i = record {{ centre = at rows (3 * i); high = at rows (3 * i + 1); low = at rows (3 * i + 2) }}

-- log10(2), 1 / ln(10), and the numbers of the series of log10(1 + r) from r^2 on
{named}",
        lines.join("\n")
    );
    write("crates/logs/src/table.rt", code).unwrap();
    write("crates/logs/specs/Tables.antt", text).unwrap();
}
