//! What is said of several pairs, in words: the clashes, those of one rule with many together, then
//! what is not decided.

use std::ptr;

use crate::ask::Asked;
use crate::groups::{groups, Group};
use crate::paint::Paint;
use crate::report::{counted, label_words, pair_words, shared_lines};
use crate::sides::Side;

/// Two rules, and what was said of them.
#[derive(Clone, Debug)]
pub struct Told<'s> {
    pub left: &'s Side,
    pub right: &'s Side,
    pub asked: Asked,
}

/// All of these in words, but for those without a clash. A rule is known by its place in memory: two
/// of different files may have the same name.
pub fn told_words(told: &[Told<'_>], paint: Paint) -> String {
    let with = |clashes| told.iter().filter(move |told| told.asked.answer.clashes() == clashes);
    let clashes: Vec<&Told> = with(Some(true)).collect();
    let key = |side: &Side| side as *const Side;
    let pairs: Vec<_> = clashes.iter().map(|told| (key(told.left), key(told.right))).collect();
    let group = |Group { rule, members }: Group<*const Side>| -> String {
        let members = members.iter().map(|&member| clashes[member]);
        match rule {
            Some(rule) => group_words(rule, members.collect(), paint),
            None => members.map(|told| told.words(paint)).collect(),
        }
    };
    let clashing: String = groups(&pairs).into_iter().map(group).collect();
    clashing + &with(None).map(|told| told.words(paint)).collect::<String>()
}

impl Told<'_> {
    fn words(&self, paint: Paint) -> String {
        pair_words(self.left, self.right, &self.asked, paint)
    }
}

/// Clashes of one rule with many.
fn group_words(rule: *const Side, clashes: Vec<&Told>, paint: Paint) -> String {
    let mut words = String::new();
    for (index, Told { left, right, asked }) in clashes.iter().enumerate() {
        let (rule, other) = if ptr::eq(*left, rule) { (left, right) } else { (right, left) };
        if index == 0 {
            let many = counted(clashes.len(), "rule", "rules");
            let clashes = paint.wrong("clashes");
            words += &format!("{} {clashes} with {many}:\n", rule.told());
        }
        words += &match &asked.shared {
            Some(shared) => {
                let label = paint.bold(&label_words(left.edition, &shared.label));
                let name = |side: &Side| side.title.to_string();
                let made = shared_lines(left, right, shared, "    ", name);
                format!("  {}: {label}\n{made}", other.told())
            }
            None => format!("  {}: {}\n", other.told(), asked.answer),
        };
    }
    words
}
