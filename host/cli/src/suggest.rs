//! Which name was meant where one is mistyped.

/// The name that is nearest, if it is near. Of names that are equally near it is the first.
pub fn nearest<'n>(typed: &str, names: impl IntoIterator<Item = &'n str>) -> Option<&'n str> {
    let typed: Vec<char> = typed.chars().collect();
    let with_distance = names.into_iter().map(|name| (distance(&typed, &name.chars().collect::<Vec<char>>()), name));
    let near = with_distance.filter(|(distance, name)| *distance <= most(name));
    near.min_by_key(|(distance, _)| *distance).map(|(_, name)| name)
}

/// How many changes leave a name recognizable: one for every four characters, rounded up.
fn most(name: &str) -> usize {
    name.len().div_ceil(4)
}

/// The edit distance: how many characters must be put in, taken out or changed, or exchanged with the next.
fn distance(from: &[char], to: &[char]) -> usize {
    // How far the characters read so far are from each beginning of the other name; and the same one character before.
    let (mut before, mut last): (Vec<usize>, Vec<usize>) = (Vec::new(), (0..=to.len()).collect());
    for i in 0..from.len() {
        let mut row = vec![i + 1];
        for j in 0..to.len() {
            let changed = last[j] + usize::from(from[i] != to[j]);
            let exchanged = i > 0 && j > 0 && from[i] == to[j - 1] && from[i - 1] == to[j];
            let least = changed.min(last[j + 1] + 1).min(row[j] + 1);
            row.push(if exchanged { least.min(before[j - 1] + 1) } else { least });
        }
        before = std::mem::replace(&mut last, row);
    }
    last[to.len()]
}

#[cfg(test)]
mod tests {
    use super::*;

    fn between(from: &str, to: &str) -> usize {
        let characters = |text: &str| text.chars().collect::<Vec<char>>();
        distance(&characters(from), &characters(to))
    }

    #[test]
    fn distances() {
        for (from, to, expected) in [
            ("", "", 0),
            ("", "map", 3),
            ("slip", "slip", 0),
            ("slip", "slips", 1),
            ("slip", "sip", 1),
            ("slip", "slap", 1),
            ("slip", "silp", 1),
            ("at", "ta", 1),
            ("kitten", "sitting", 3),
            ("stretch", "strech", 1),
            ("check", "chekc", 1),
            ("abc", "cab", 2),
        ] {
            assert_eq!((between(from, to), between(to, from)), (expected, expected), "{from} {to}");
        }
    }

    #[test]
    fn near_names() {
        let names = ["tracks", "at", "map", "slip", "read-slip", "features"];
        for (typed, name) in [
            ("track", "tracks"),
            ("trakcs", "tracks"),
            ("ta", "at"),
            ("feturs", "features"),
            ("read_slip", "read-slip"),
        ] {
            assert_eq!(nearest(typed, names), Some(name), "{typed}");
        }
        for typed in ["", "x", "--json", "film.mov", "trololo", "ffffffffffffffffffff"] {
            assert_eq!(nearest(typed, names), None, "{typed}");
        }
        assert_eq!(nearest("mat", names), Some("at"));
    }
}
