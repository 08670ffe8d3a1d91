//! Clashes that belong together: those of one rule with many.

use std::collections::HashMap;
use std::hash::Hash;

/// Clashes, by their place in a row, that have a rule in common.
#[derive(Clone, Debug, PartialEq, Eq)]
pub struct Group<K> {
    /// The rule that all of them have; none where it is one clash alone.
    pub rule: Option<K>,
    /// In their order.
    pub members: Vec<usize>,
}

/// Puts pairs of rules into groups: the rule with the most pairs takes all of them, then the one with
/// the most of those that are left, and so on. Of rules with as many the earlier one comes first.
/// Pairs that are left over stand alone, behind the groups.
pub fn groups<K: Copy + Eq + Hash>(pairs: &[(K, K)]) -> Vec<Group<K>> {
    let mut rules = in_order(pairs);
    let (mut taken, mut groups) = (vec![false; pairs.len()], Vec::new());
    loop {
        for (_, members) in &mut rules {
            members.retain(|&member| !taken[member]);
        }
        // of several with as many the last one is taken by max_by_key, so they stand backwards
        let most = rules.iter().rev().max_by_key(|(_, members)| members.len());
        let (rule, members) = match most {
            Some((rule, members)) if members.len() > 1 => (rule, members),
            _ => break,
        };
        members.iter().for_each(|&member| taken[member] = true);
        groups.push(Group { rule: Some(*rule), members: members.clone() });
    }
    let alone = (0..pairs.len()).filter(|&pair| !taken[pair]);
    groups.extend(alone.map(|pair| Group { rule: None, members: vec![pair] }));
    groups
}

/// The rules in the order in which they first stand in a pair, each with its pairs.
fn in_order<K: Copy + Eq + Hash>(pairs: &[(K, K)]) -> Vec<(K, Vec<usize>)> {
    let (mut rules, mut known) = (Vec::<(K, Vec<usize>)>::new(), HashMap::new());
    for (pair, (left, right)) in pairs.iter().enumerate() {
        for rule in [left, right] {
            let place = *known.entry(*rule).or_insert_with(|| {
                rules.push((*rule, Vec::new()));
                rules.len() - 1
            });
            rules[place].1.push(pair);
        }
    }
    rules
}

#[cfg(test)]
mod tests {
    use super::*;

    fn shown(pairs: &[(char, char)]) -> Vec<String> {
        let shown = |group: &Group<char>| {
            let members: String = group.members.iter().map(usize::to_string).collect();
            format!("{}{members}", group.rule.map_or(String::new(), String::from))
        };
        groups(pairs).iter().map(shown).collect()
    }

    #[test]
    fn the_rule_with_the_most_comes_first() {
        assert_eq!(shown(&[]), [""; 0]);
        assert_eq!(shown(&[('a', 'b')]), ["0"]);
        assert_eq!(shown(&[('a', 'b'), ('c', 'd')]), ["0", "1"]);
        // a rule at the end of a file that takes everything
        assert_eq!(shown(&[('a', 'z'), ('b', 'z'), ('c', 'z')]), ["z012"]);
        assert_eq!(shown(&[('a', 'b'), ('a', 'z'), ('b', 'z'), ('c', 'z')]), ["z123", "0"]);
        assert_eq!(shown(&[('a', 'b'), ('a', 'c'), ('b', 'c')]), ["a01", "2"]);
        assert_eq!(
            shown(&[('a', 'b'), ('c', 'd'), ('c', 'e'), ('f', 'g'), ('f', 'h'), ('f', 'i')]),
            ["f345", "c12", "0"]
        );
    }

    #[test]
    fn every_pair_once() {
        let pairs: Vec<(usize, usize)> = (0..200).map(|pair| (pair % 7, 7 + pair % 11)).collect();
        let mut members: Vec<usize> =
            groups(&pairs).into_iter().flat_map(|group| group.members).collect();
        members.sort_unstable();
        assert!(members.into_iter().eq(0..200));
    }
}
