//! Comparing, counting, and showing the first differences in full.

use std::fmt::Write;

/// Something that a call was given or left. Of floats, what is wanted says how they are compared.
#[derive(Clone, Copy)]
pub enum Value<'a> {
    /// All NaNs alike, and both zeros.
    Floats(&'a [f32]),
    /// All NaNs alike.
    Signed(&'a [f32]),
    /// Bit for bit.
    Kept(&'a [f32]),
    Words(&'a [u32]),
    Longs(&'a [u64]),
    Bytes(&'a [u8]),
}

macro_rules! value {
    ($($variant:ident $t:ty),*) => {$(
        impl<'a> From<&'a [$t]> for Value<'a> {
            fn from(list: &'a [$t]) -> Self {
                Value::$variant(list)
            }
        }
        impl<'a, const N: usize> From<&'a [$t; N]> for Value<'a> {
            fn from(list: &'a [$t; N]) -> Self {
                Value::$variant(list)
            }
        }
        impl<'a> From<&'a Vec<$t>> for Value<'a> {
            fn from(list: &'a Vec<$t>) -> Self {
                Value::$variant(list)
            }
        }
        impl<'a> From<&'a $t> for Value<'a> {
            fn from(one: &'a $t) -> Self {
                Value::$variant(std::slice::from_ref(one))
            }
        }
    )*};
}
value!(Floats f32, Words u32, Longs u64, Bytes u8);

/// Values by their variables.
#[macro_export]
macro_rules! values {
    ($($value:expr),* $(,)?) => { &[$($crate::tally::Value::from(&$value)),*] };
}

/// Values with the names of their variables.
#[macro_export]
macro_rules! named {
    ($($value:ident),* $(,)?) => { &[$((stringify!($value), $crate::tally::Value::from(&$value))),*] };
}

/// What a call is given, by name, taken down before the call: whether it was changed can be told afterwards.
#[derive(Clone, Copy)]
pub struct Given<'a> {
    values: &'a [(&'a str, Value<'a>)],
    sum: u64,
}

impl<'a> Given<'a> {
    pub fn new(values: &'a [(&'a str, Value<'a>)]) -> Given<'a> {
        Given { values, sum: sum(values) }
    }

    pub fn changed(&self) -> bool {
        sum(std::hint::black_box(self.values)) != self.sum
    }
}

/// A sum of all numbers that a change of any one of them changes.
fn sum(values: &[(&str, Value)]) -> u64 {
    fn of(numbers: impl Iterator<Item = u64>) -> u64 {
        numbers.zip(0u64..).fold(0, |sum, (x, i)| sum.wrapping_add(x.wrapping_mul(2 * i + 1)))
    }
    let each = values.iter().map(|(_, value)| match value {
        Value::Floats(list) | Value::Signed(list) | Value::Kept(list) => of(list.iter().map(|x| x.to_bits().into())),
        Value::Words(list) => of(list.iter().map(|x| u64::from(*x))),
        Value::Longs(list) => of(list.iter().copied()),
        Value::Bytes(list) => of(list.iter().map(|x| u64::from(*x))),
    });
    of(each)
}

/// A way of comparing, by the kind of value that is wanted.
pub type By = fn(&[f32]) -> Value;

pub fn floats(list: &[f32]) -> Value<'_> {
    Value::Floats(list)
}

pub fn signed(list: &[f32]) -> Value<'_> {
    Value::Signed(list)
}

pub fn kept(list: &[f32]) -> Value<'_> {
    Value::Kept(list)
}

/// All NaNs alike, and both zeros.
pub fn alike(a: f32, b: f32) -> bool {
    a == b || (a.is_nan() && b.is_nan())
}

/// Bit for bit, but all NaNs alike.
pub fn exactly(a: f32, b: f32) -> bool {
    a.to_bits() == b.to_bits() || (a.is_nan() && b.is_nan())
}

impl Value<'_> {
    fn len(&self) -> usize {
        match self {
            Value::Floats(list) | Value::Signed(list) | Value::Kept(list) => list.len(),
            Value::Words(list) => list.len(),
            Value::Longs(list) => list.len(),
            Value::Bytes(list) => list.len(),
        }
    }

    /// The first place where a list differs from the one that is wanted; the shorter one ends there, if no number does.
    fn difference(&self, wanted: &Value) -> Option<usize> {
        let place = match (self, wanted) {
            (Value::Floats(a), Value::Floats(b)) => a.iter().zip(*b).position(|(a, b)| !alike(*a, *b)),
            (Value::Floats(a), Value::Signed(b)) => a.iter().zip(*b).position(|(a, b)| !exactly(*a, *b)),
            (Value::Floats(a), Value::Kept(b)) => a.iter().zip(*b).position(|(a, b)| a.to_bits() != b.to_bits()),
            (Value::Words(a), Value::Words(b)) => a.iter().zip(*b).position(|(a, b)| a != b),
            (Value::Longs(a), Value::Longs(b)) => a.iter().zip(*b).position(|(a, b)| a != b),
            (Value::Bytes(a), Value::Bytes(b)) => a.iter().zip(*b).position(|(a, b)| a != b),
            _ => Some(0),
        };
        place.or((self.len() != wanted.len()).then(|| self.len().min(wanted.len())))
    }

    fn show(&self, text: &mut String) {
        let words: Box<dyn Iterator<Item = String>> = match self {
            Value::Floats(list) | Value::Signed(list) | Value::Kept(list) => {
                Box::new(list.iter().map(|x| format!("{:08x}", x.to_bits())))
            }
            Value::Words(list) => Box::new(list.iter().map(u32::to_string)),
            Value::Longs(list) => Box::new(list.iter().map(u64::to_string)),
            Value::Bytes(list) => Box::new(list.iter().map(|x| format!("{x:02x}"))),
        };
        let _ = write!(text, "[{}]", self.len());
        for word in words {
            let _ = write!(text, " {word}");
        }
        text.push('\n');
    }
}

/// The differences that are shown.
const SHOWN: u64 = 3;

/// A group's count.
pub struct Tally {
    group: &'static str,
    pub compared: u64,
    pub differences: u64,
    shown: String,
    notes: String,
}

impl Tally {
    pub fn new(group: &'static str) -> Tally {
        Tally { group, compared: 0, differences: 0, shown: String::new(), notes: String::new() }
    }

    /// One call: what it was given, and what it answered and left beside what is wanted, the number returned first.
    pub fn judge(&mut self, what: &str, given: Given, ours: &[Value], wanted: &[Value]) {
        self.compared += 1;
        assert_eq!(ours.len(), wanted.len());
        let differing = ours.iter().zip(wanted).enumerate().find_map(|(i, (a, b))| Some((i, a.difference(b)?)));
        let fault = match differing {
            Some((which, place)) => format!("the answers differ first in list {which}, at place {place}"),
            None if given.changed() => "what was given is changed".into(),
            None => return,
        };
        self.differs(|text| {
            let _ = writeln!(text, "{what}: {fault}");
            for (name, value) in given.values {
                let _ = write!(text, "  {name} ");
                value.show(text);
            }
            for (side, values) in [("ours", ours), ("wanted", wanted)] {
                for value in values {
                    let _ = write!(text, "  {side}: ");
                    value.show(text);
                }
            }
        });
    }

    /// A call of a leaf with one answer buffer: where the arguments fit, the Rust's answer and 0, else 5 and nothing
    /// changed.
    pub fn leaf(
        &mut self,
        what: &str,
        given: &[(&str, Value)],
        fits: bool,
        out: &[f32],
        ours: impl FnOnce(&mut [f32]) -> u32,
        rusts: impl FnOnce(&mut [f32]),
    ) {
        self.leaf_by(signed, what, given, fits, out, ours, rusts);
    }

    /// The same, where the signs of the Rust's zeros may be open.
    pub fn leaf_by(
        &mut self,
        by: By,
        what: &str,
        given: &[(&str, Value)],
        fits: bool,
        out: &[f32],
        ours: impl FnOnce(&mut [f32]) -> u32,
        rusts: impl FnOnce(&mut [f32]),
    ) {
        let given = Given::new(given);
        let (mut mine, mut theirs) = (out.to_vec(), out.to_vec());
        let number = ours(&mut mine);
        if fits {
            rusts(&mut theirs);
        }
        let (want, left) = if fits { (0u32, by(&theirs)) } else { (5, Value::Kept(&theirs)) };
        self.judge(what, given, values![number, mine], &[(&want).into(), left]);
    }

    /// A difference that `show` describes.
    pub fn differs(&mut self, show: impl FnOnce(&mut String)) {
        self.differences += 1;
        if self.differences <= SHOWN {
            show(&mut self.shown);
        }
    }

    /// Something measured, to be said behind the group's line.
    pub fn note(&mut self, text: &str) {
        self.notes += &format!("\n  {text}");
    }

    /// What was counted elsewhere for the same group.
    pub fn join(&mut self, other: Tally) {
        self.compared += other.compared;
        self.differences += other.differences;
        self.shown.push_str(&other.shown);
        self.notes.push_str(&other.notes);
    }

    /// The first differences in full, the group's line, and its notes.
    pub fn report(&self) -> String {
        format!(
            "{}{}: {} compared, {} differences{}",
            self.shown,
            self.group,
            thousands(self.compared),
            thousands(self.differences),
            self.notes
        )
    }
}

/// A number with its thousands set apart.
pub fn thousands(n: u64) -> String {
    let digits = n.to_string();
    let mut text = String::new();
    for (i, digit) in digits.chars().enumerate() {
        if i > 0 && (digits.len() - i).is_multiple_of(3) {
            text.push(',');
        }
        text.push(digit);
    }
    text
}

#[cfg(test)]
mod tests {
    use super::*;

    /// Whether a call that left `ours` where this is wanted counts as a difference.
    fn differs(ours: &[f32], wanted: Value) -> bool {
        let mut tally = Tally::new("test");
        tally.judge("test", Given::new(&[]), &[ours.into()], &[wanted]);
        tally.differences == 1
    }

    #[test]
    fn what_counts_as_a_difference() {
        let nans = [0x7fc0_0000, 0xffc0_0001].map(f32::from_bits);
        assert!(differs(&[1.0, 2.0], Value::Floats(&[1.0, 2.5])) && differs(&[1.0], Value::Floats(&[1.0, 1.0])));
        assert!(!differs(&[0.0, nans[0]], Value::Floats(&[-0.0, nans[1]])));
        assert!(differs(&[0.0], Value::Signed(&[-0.0])) && !differs(&nans[..1], Value::Signed(&nans[1..])));
        assert!(differs(&nans[..1], Value::Kept(&nans[1..])) && !differs(&nans, Value::Kept(&nans)));
    }

    #[test]
    fn a_changed_input_is_noticed() {
        let (before, after) = ([1.0, -0.0, 3.0], [1.0, 0.0, 3.0]);
        let given = Given { sum: Given::new(named![before]).sum, values: named![after] };
        assert!(given.changed() && !Given::new(named![after]).changed());
        let mut tally = Tally::new("test");
        tally.judge("test", given, &[], &[]);
        assert_eq!(tally.differences, 1);
    }
}
