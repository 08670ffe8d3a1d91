//! A script beside the question of its sheet: "It must mean the same question".

use std::collections::BTreeSet;

use super::language::{difference, Difference};
use super::literal::shown;
use super::script::{self, Piece, Script};
use super::Told;
use crate::edition::Edition;
use crate::sheet::{Question, Token};

/// Reads a script and compares it with the question.
pub fn says(script: &[u8], question: &Question) -> Told<()> {
    let script = script::read(script)?;
    declared(&script, question)?;
    side(question.edition, "left", &script.left, &question.left)?;
    side(question.edition, "right", &script.right, &question.right)?;
    memberships(&script, question)?;
    for (field, membership) in &script.memberships {
        let allowed = &question.allowed[usize::from(*field)];
        if let Some(found) = difference(question.edition, membership, allowed) {
            return Err(told(*field, &found));
        }
    }
    Ok(())
}

fn told(field: u8, Difference { text, too_many }: &Difference) -> String {
    let text = shown(text);
    if *too_many {
        format!("the membership of f{field} takes {text}, which the field may not hold")
    } else {
        format!("the membership of f{field} doesn't take {text}, which the field may hold")
    }
}

/// The fields that stand in a side, hidden ones too.
fn standing(question: &Question) -> BTreeSet<u8> {
    let tokens = question.left.iter().chain(&question.right);
    tokens
        .filter_map(|token| match token {
            Token::Field(field) => Some(*field),
            Token::Character(_) => None,
        })
        .collect()
}

/// "a string constant for each field that stands in a side, hidden ones too"
fn declared(script: &Script, question: &Question) -> Told<()> {
    let standing = standing(question);
    if let Some(field) = standing.difference(&script.declared).next() {
        return Err(format!("f{field} is not declared and stands in a side of the sheet"));
    }
    match script.declared.difference(&standing).next() {
        Some(field) => Err(format!("f{field} is declared and stands in no side of the sheet")),
        None => Ok(()),
    }
}

/// "a reader in our tests gives back the sheet's sides"
fn side(edition: Edition, name: &str, pieces: &[Piece], tokens: &[Token]) -> Told<()> {
    let tokens: Vec<Piece> = tokens.iter().map(|token| piece(edition, token)).collect();
    let longer = pieces.len().max(tokens.len());
    match (0..longer).find(|&at| pieces.get(at) != tokens.get(at)) {
        None => Ok(()),
        Some(at) => Err(format!(
            "the {name} side's token {} is {} in the script and {} in the sheet",
            at + 1,
            token_shown(pieces.get(at)),
            token_shown(tokens.get(at)),
        )),
    }
}

/// A character as its sign.
fn piece(edition: Edition, token: &Token) -> Piece {
    match token {
        Token::Character(value) => Piece::Sign(edition.ascii(*value).into()),
        Token::Field(field) => Piece::Field(*field),
    }
}

fn token_shown(piece: Option<&Piece>) -> String {
    match piece {
        Some(Piece::Sign(sign)) => shown(&[*sign]),
        Some(Piece::Field(field)) => format!("f{field}"),
        None => "missing".to_string(),
    }
}

/// "one membership for each field"
fn memberships(script: &Script, question: &Question) -> Told<()> {
    for field in standing(question) {
        let times = script.memberships.iter().filter(|(of, _)| *of == field).count();
        if times != 1 {
            return Err(format!("f{field} has {times} memberships instead of one"));
        }
    }
    Ok(())
}
