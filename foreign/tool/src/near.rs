//! Which known word was meant by one that is not known.

/// The nearest of the known words, if it is near enough that it may have been meant: at most a third
/// of its characters are other ones, and one at least may be.
pub fn nearest<'a>(word: &str, known: impl Iterator<Item = &'a str>) -> Option<&'a str> {
    let near = |known: &'a str| {
        let far = distance(word, known);
        (far <= (known.chars().count() / 3).max(1)).then_some((far, known))
    };
    // the first one of those that are equally near
    let nearest = known.filter_map(near).min_by_key(|(far, _)| *far);
    nearest.map(|(_, known)| known)
}

/// How many characters are to be put in, taken out, changed, or exchanged with their neighbours, to
/// make one word of the other.
fn distance(left: &str, right: &str) -> usize {
    let (left, right): (Vec<char>, Vec<char>) = (left.chars().collect(), right.chars().collect());
    // the rows of the table for two, one and no characters before the end of what is read of `left`
    let mut before: Vec<usize> = Vec::new();
    let mut last: Vec<usize> = (0..=right.len()).collect();
    for (i, &sign) in left.iter().enumerate() {
        let mut row = vec![i + 1];
        for (j, &other) in right.iter().enumerate() {
            let changed = last[j] + usize::from(sign != other);
            let mut least = changed.min(last[j + 1] + 1).min(row[j] + 1);
            if i > 0 && j > 0 && sign == right[j - 1] && left[i - 1] == other {
                least = least.min(before[j - 1] + 1);
            }
            row.push(least);
        }
        before = std::mem::replace(&mut last, row);
    }
    last[right.len()]
}

#[cfg(test)]
mod tests {
    use super::*;

    #[test]
    fn distances() {
        for (left, right, far) in [
            ("", "", 0),
            ("", "abc", 3),
            ("check", "check", 0),
            ("chekc", "check", 1),
            ("chck", "check", 1),
            ("checkk", "check", 1),
            ("Check", "check", 1),
            ("recheck", "check", 2),
            ("kitten", "sitting", 3),
            ("é", "e", 1),
        ] {
            assert_eq!(distance(left, right), far, "{left} {right}");
            assert_eq!(distance(right, left), far, "{right} {left}");
        }
    }

    #[test]
    fn what_may_have_been_meant() {
        let known = ["check", "pair", "recheck", "--threads"];
        let nearest = |word| nearest(word, known.into_iter());
        assert_eq!(nearest("chekc"), Some("check"));
        assert_eq!(nearest("rechek"), Some("recheck"));
        assert_eq!(nearest("pare"), None);
        assert_eq!(nearest("pairs"), Some("pair"));
        assert_eq!(nearest("--thread"), Some("--threads"));
        assert_eq!(nearest("frobnicate"), None);
        assert_eq!(nearest(""), None);
    }
}
