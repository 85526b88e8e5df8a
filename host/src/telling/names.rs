//! Which side a file name means. Every command uses this one rule.

use crate::cleaning::recorder::Side;
use std::path::{Path, PathBuf};

/// The words of a name. Anything that is not a letter or a digit separates two words, and so does a change from lower
/// to upper case, as in `patientR`.
fn words(name: &str) -> Vec<String> {
    let (mut words, mut last) = (vec![String::new()], ' ');
    for letter in name.chars() {
        if !letter.is_alphanumeric() || (last.is_lowercase() && letter.is_uppercase()) {
            words.push(String::new());
        }
        if letter.is_alphanumeric() {
            words.last_mut().expect("there is always one").extend(letter.to_lowercase());
        }
        last = letter;
    }
    words.retain(|word| !word.is_empty());
    words
}

/// Whether a name contains a side: `left` or `right` as any of its words, or `l` or `r` as the last word that is not a
/// number. A number may be written directly after these words, and directly before `left` or `right`.
fn contains(name: &str, side: Side) -> bool {
    let is_digit = |letter: char| letter.is_ascii_digit();
    let words = words(name);
    let last = words.iter().rev().map(|word| word.trim_end_matches(is_digit)).find(|word| !word.is_empty());
    words.iter().any(|word| word.trim_matches(is_digit) == side.name()) || last == Some(&side.name()[..1])
}

/// The side that a name means. A name that contains both sides means none.
fn side_in_name(name: &str) -> Option<Side> {
    match Side::BOTH.map(|side| contains(name, side)) {
        [true, false] => Some(Side::Left),
        [false, true] => Some(Side::Right),
        _ => None,
    }
}

/// The folder of a file.
fn folder(path: &Path) -> PathBuf {
    let folder = path.parent().unwrap_or(Path::new(""));
    if folder.file_name().is_some() {
        return folder.to_owned();
    }
    let here = if folder == Path::new("") { Path::new(".") } else { folder };
    here.canonicalize().unwrap_or_default()
}

/// The side that a file's name means, and whose name that is: the file's, or its folder's if the file's own name means
/// no side. Standard input, called `-`, has no name.
pub fn meant(path: &Path) -> Option<(Side, &'static str)> {
    if path == Path::new("-") {
        return None;
    }
    let side = |name: Option<&std::ffi::OsStr>| side_in_name(&name.unwrap_or_default().to_string_lossy());
    let own = side(path.file_stem()).map(|side| (side, "name"));
    own.or_else(|| Some((side(folder(path).file_name())?, "folder's name")))
}

/// Whose name means the other side than this one.
pub fn means_another(path: &Path, side: Side) -> Option<&'static str> {
    meant(path).filter(|(other, _)| *other != side).map(|(_, whose)| whose)
}

#[cfg(test)]
mod tests {
    use super::*;

    #[test]
    fn what_a_name_means() {
        let left = [
            "left.wav",
            "foot left.wav",
            "LEFT-2.wav",
            "left2.wav",
            "2024left.wav",
            "2024_left_foot.wav",
            "leftFoot.wav",
            "Wright left foot.wav",
            "left-before.wav",
            "L.wav",
            "-l.wav",
            "a-L.wav",
            "a_l.wav",
            "a L.wav",
            "patientL.wav",
            "a-L-2.wav",
            "a (L) 2024 3.wav",
            "a-L2.wav",
            "left.wav.part",
            "l-r-left-2.wav",
        ];
        let right = [
            "right.wav",
            "Right.wav",
            "the.right.one.wav",
            "p R.wav",
            "p-r.wav",
            "p (R).wav",
            "p-R-2.wav",
            "patientR.wav",
            "left/right.wav",
            "äußerst-right.wav",
            "äußerstR.wav",
        ];
        let none = [
            "Wright 2024.wav",
            "lefty.wav",
            "bright.wav",
            "leftright.wav",
            "äright.wav",
            "left-or-right.wav",
            "left-R.wav",
            "al.wav",
            "R patient.wav",
            "L and more.wav",
            "4L.wav",
            "R2D2.wav",
            "2.wav",
            "x/rec.wav",
            "-",
        ];
        let sides = |names: &[&str]| names.iter().map(|name| meant(Path::new(name))).collect::<Vec<_>>();
        for (names, side) in [(&left[..], Side::Left), (&right, Side::Right)] {
            for (name, meant) in names.iter().zip(sides(names)) {
                assert_eq!(meant, Some((side, "name")), "{name}");
                assert!(means_another(Path::new(name), side).is_none());
            }
        }
        for (name, meant) in none.iter().zip(sides(&none)) {
            assert_eq!(meant, None, "{name}");
        }
        assert_eq!(means_another(Path::new("a-L.wav"), Side::Right), Some("name"));
    }

    /// The folder is asked if the file's own name means no side, whether it contains none or both.
    #[test]
    fn the_folder_is_asked_second() {
        let side = |path: &str| meant(Path::new(path));
        for path in [
            "left/rec.wav",
            "monday/left foot/1.wav",
            "bench-L/rec.wav",
            "right/left/rec.wav",
            "left/Wright.wav",
            "left/left-or-right.wav",
        ] {
            assert_eq!(side(path), Some((Side::Left, "folder's name")), "{path}");
        }
        for path in ["RIGHT/rec.wav", "/a/b_R/rec.wav", "R/1.wav"] {
            assert_eq!(side(path), Some((Side::Right, "folder's name")), "{path}");
        }
        for path in ["left and right/rec.wav", "left/x/rec.wav", "Wright/rec.wav"] {
            assert_eq!(side(path), None, "{path}");
        }
    }
}
