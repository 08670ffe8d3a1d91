//! Which pairs of rules are asked about, and in which order.

use std::ops::Range;

/// The pairs of so many rules: those of the first one, then those of the second one, and so on. Of
/// the rules the last ones may be new; then only pairs with a new rule are meant.
#[derive(Clone, Copy, Debug, PartialEq, Eq)]
pub struct Pairs {
    rules: usize,
    /// How many rules stand before the new ones.
    old: usize,
}

impl Pairs {
    /// All pairs of so many rules.
    pub fn of(rules: usize) -> Pairs {
        Pairs { rules, old: 0 }
    }

    /// Those with a rule that is not one of the first `old` ones.
    pub fn with_new(rules: usize, old: usize) -> Pairs {
        Pairs { rules, old: old.min(rules) }
    }

    pub fn count(&self) -> usize {
        self.before(self.rules)
    }

    /// How many pairs have a left rule before this one.
    fn before(&self, left: usize) -> usize {
        let new = self.rules - self.old;
        let (old, others) = (left.min(self.old), left.saturating_sub(self.old));
        old * new + others * new.saturating_sub(1) - others * others.saturating_sub(1) / 2
    }

    /// The first rule that stands on the right of this one.
    fn first_right(&self, left: usize) -> usize {
        self.old.max(left + 1)
    }

    /// The numbers of the two rules of each of these pairs, in order.
    pub fn walk(self, range: Range<usize>) -> impl Iterator<Item = (usize, usize)> {
        // the last left rule before which there are no more pairs than these
        let (mut left, mut end) = (0, self.rules);
        while left + 1 < end {
            let middle = left + (end - left) / 2;
            if self.before(middle) <= range.start {
                left = middle;
            } else {
                end = middle;
            }
        }
        let mut right = self.first_right(left) + range.start.saturating_sub(self.before(left));
        range.map(move |_| {
            while right >= self.rules && left < self.rules {
                left += 1;
                right = self.first_right(left);
            }
            right += 1;
            (left, right - 1)
        })
    }
}

/// One of several parts of the pairs, from 1 on.
#[derive(Clone, Copy, Debug, PartialEq, Eq)]
pub struct Part {
    pub number: usize,
    pub of: usize,
}

impl Part {
    /// The whole, as one part.
    pub const WHOLE: Part = Part { number: 1, of: 1 };

    /// Those of so many pieces that are in this part: as many as in the others, or one more or less.
    /// The parts in their order are the whole in its order.
    pub fn range(self, count: usize) -> Range<usize> {
        let end = |parts: usize| (count as u128 * parts as u128 / self.of as u128) as usize;
        end(self.number - 1)..end(self.number)
    }

    /// From the form `I/N`, where I is one of 1 to N.
    pub fn read(text: &str) -> Option<Part> {
        let number = |text: &str| {
            let digits = !text.is_empty() && text.bytes().all(|digit| digit.is_ascii_digit());
            text.parse().ok().filter(|_| digits)
        };
        let (first, second) = text.split_once('/')?;
        let part = Part { number: number(first)?, of: number(second)? };
        (1..=part.of).contains(&part.number).then_some(part)
    }
}

#[cfg(test)]
mod tests {
    use super::*;

    fn wanted(rules: usize, old: usize) -> Vec<(usize, usize)> {
        let all = (0..rules).flat_map(|left| (left + 1..rules).map(move |right| (left, right)));
        all.filter(|&(_, right)| right >= old).collect()
    }

    #[test]
    fn pairs_in_their_order() {
        for (rules, old) in (0..9).flat_map(|rules| (0..=rules).map(move |old| (rules, old))) {
            let (pairs, wanted) = (Pairs::with_new(rules, old), wanted(rules, old));
            assert_eq!(pairs.count(), wanted.len(), "{rules} {old}");
            for (start, end) in (0..=wanted.len()).flat_map(|end| (0..=end).map(move |s| (s, end)))
            {
                let walked: Vec<_> = pairs.walk(start..end).collect();
                assert_eq!(walked, wanted[start..end], "{rules} {old} {start}..{end}");
            }
        }
        assert_eq!(Pairs::of(5), Pairs::with_new(5, 0));
        assert_eq!(Pairs::of(20_000).count(), 199_990_000);
    }

    #[test]
    fn parts_are_the_whole() {
        for (count, of) in [(0, 1), (0, 3), (1, 1), (2, 5), (10, 3), (124_750, 7), (9, 9)] {
            let mut next = 0;
            for number in 1..=of {
                let range = Part { number, of }.range(count);
                assert_eq!(range.start, next);
                assert!(range.len().abs_diff(count / of) <= 1);
                next = range.end;
            }
            assert_eq!(next, count);
        }
        assert_eq!(Part::WHOLE.range(7), 0..7);
    }

    #[test]
    fn parts_as_they_are_written() {
        assert_eq!(Part::read("2/3"), Some(Part { number: 2, of: 3 }));
        assert_eq!(Part::read("1/1"), Some(Part::WHOLE));
        for wrong in ["", "/", "1", "0/3", "4/3", "1/0", "-1/3", "+1/3", "1/3/5", "1 / 3", "a/b"] {
            assert_eq!(Part::read(wrong), None, "{wrong}");
        }
    }
}
