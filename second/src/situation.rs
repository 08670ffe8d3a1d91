//! Situations: trimming, striking, putting.

use std::collections::BTreeMap;

use crate::pattern::{characters, Allowed, PlaceSet, ONLY_START};
use crate::sheet::{Question, Token, ALL_FIELDS};

/// "A situation is the two token lists and the place set of each field still
/// standing in them."
#[derive(Clone, Debug, PartialEq, Eq, Hash)]
pub struct Situation {
    pub left: Vec<Token>,
    pub right: Vec<Token>,
    /// The fields still standing, by number, each with its place set. A field
    /// that is struck is taken out.
    pub sets: BTreeMap<u8, PlaceSet>,
}

/// "After trimming a situation is finished ..., dead ... or open."
#[derive(Clone, Copy, Debug, PartialEq, Eq)]
pub enum State {
    Finished,
    Dead,
    Open,
}

/// How a child was made from its parent.
#[derive(Clone, Debug, PartialEq, Eq)]
pub enum Step {
    /// The left front, a field, was struck everywhere.
    StrikeLeft,
    /// The right front, a field, was struck everywhere.
    StrikeRight,
    /// The character was put before each of these fields.
    Put { character: u8, fields: Vec<u8> },
}

impl Situation {
    /// The question as a situation, not yet trimmed. Each place set "at first
    /// ... holds only the start".
    pub fn of(question: &Question) -> Situation {
        let sides = question.left.iter().chain(&question.right);
        let sets = sides.filter_map(|token| match *token {
            Token::Field(field) => Some((field, ONLY_START)),
            Token::Character(_) => None,
        });
        Situation {
            left: question.left.clone(),
            right: question.right.clone(),
            sets: sets.collect(),
        }
    }

    /// "Trimming drops equal characters from both fronts while there are any."
    pub fn trimmed(mut self) -> Situation {
        let equal = self
            .left
            .iter()
            .zip(&self.right)
            .take_while(|(a, b)| a == b && matches!(a, Token::Character(_)))
            .count();
        self.left.drain(..equal);
        self.right.drain(..equal);
        self
    }

    /// What a trimmed situation is.
    pub fn state(&self) -> State {
        use Token::Character;
        match (self.left.first(), self.right.first()) {
            // "finished (both sides empty)"
            (None, None) => State::Finished,
            // "dead (two different characters in front, or one side empty and
            // a character in front of the other)"
            (Some(Character(_)), Some(Character(_)))
            | (Some(Character(_)), None)
            | (None, Some(Character(_))) => State::Dead,
            // "or open"
            _ => State::Open,
        }
    }

    /// The children of an open situation in their order, not yet trimmed.
    pub fn children(&self, question: &Question) -> Vec<(Situation, Step)> {
        let allowed = &question.allowed;
        let left = self.left.first().copied();
        let right = self.right.first().copied();
        let mut children = Vec::new();

        // "the left front is a field whose set may end: strike it everywhere"
        if let Some(Token::Field(field)) = left {
            if allowed[usize::from(field)].may_end(self.sets[&field]) {
                children.push((self.strike(field), Step::StrikeLeft));
            }
        }
        // "the right front is a field, not the same as the left front, whose
        // set may end: strike it everywhere"
        if let Some(Token::Field(field)) = right {
            if left != right && allowed[usize::from(field)].may_end(self.sets[&field]) {
                children.push((self.strike(field), Step::StrikeRight));
            }
        }
        // "if neither side is empty, for each character c from 0 to 42"
        if let (Some(left), Some(right)) = (left, right) {
            // "Where both fronts are one field, this is done once."
            let fronts = if left == right { vec![left] } else { vec![left, right] };
            for character in characters(question.characters) {
                children.extend(self.put(character, &fronts, allowed));
            }
        }
        children
    }

    /// Strikes a field everywhere; its place set goes with it.
    fn strike(&self, field: u8) -> Situation {
        let mut child = self.clone();
        child.left.retain(|&token| token != Token::Field(field));
        child.right.retain(|&token| token != Token::Field(field));
        child.sets.remove(&field);
        child
    }

    /// "a character in front must be c, and each front field's set after c
    /// must not be empty; put c before each front field wherever that field
    /// stands, and give the field its new set"
    fn put(
        &self,
        character: u8,
        fronts: &[Token],
        allowed: &[Allowed; ALL_FIELDS],
    ) -> Option<(Situation, Step)> {
        let mut sets = Vec::new();
        for &front in fronts {
            match front {
                Token::Character(in_front) => {
                    if in_front != character {
                        return None;
                    }
                }
                Token::Field(field) => {
                    let set = allowed[usize::from(field)].after(self.sets[&field], character);
                    if set == 0 {
                        return None;
                    }
                    sets.push((field, set));
                }
            }
        }
        let mut child = self.clone();
        for &(field, set) in &sets {
            child.sets.insert(field, set);
            child.left = put_before(character, Token::Field(field), &child.left);
            child.right = put_before(character, Token::Field(field), &child.right);
        }
        let fields = sets.into_iter().map(|(field, _)| field).collect();
        Some((child, Step::Put { character, fields }))
    }
}

/// The side with the character before each standing of the field.
fn put_before(character: u8, field: Token, side: &[Token]) -> Vec<Token> {
    let mut put = Vec::with_capacity(2 * side.len());
    for &token in side {
        if token == field {
            put.push(Token::Character(character));
        }
        put.push(token);
    }
    put
}
