//! The same search with the situations in the lent working buffer, as flat
//! slots of 184 bytes, and with the look-up done by a plain scan over them
//! from the oldest to the newest.
//!
//! A slot, by offset:
//!
//! | Bytes | What |
//! |---|---|
//! | 0, 1 | lengths of the left and of the right token list |
//! | 2 to 49 | left tokens, the rest 0 |
//! | 50 to 97 | right tokens, the rest 0 |
//! | 98 to 177 | place set of each field in eight bytes, 0 for a field that is gone |
//! | 178, 179 | number of the parent |
//! | 180 | the character put, 253 or 254 for a struck left or right front, or 255 for the start |
//!
//! Bytes 0 to 177 are the situation, the others its way.

use crate::pattern::{characters, Allowed, PlaceSet, ONLY_START};
use crate::search::Ending;
use crate::sheet::{self, Question, Token, ALL_FIELDS, FIELDS};
use crate::steps::{Told, STEPS_TOO_SHORT};
use crate::{
    room, Outcome, ANSWER_BUFFER_TOO_SHORT, ANSWER_RECORD_HEAD, CLASH, MOST_TEXT, MOST_TOKENS,
    SITUATION_BYTES,
};

const LEFT: usize = 2;
const RIGHT: usize = LEFT + MOST_TOKENS;
const SETS: usize = RIGHT + MOST_TOKENS;
/// The bytes of a place set.
const SET: usize = size_of::<PlaceSet>();
const KEY_BYTES: usize = SETS + SET * ALL_FIELDS;
const PARENT: usize = KEY_BYTES;
const STEP: usize = PARENT + 2;
/// The step bytes where no character was put.
const LEFT_STRUCK: u8 = 253;
const RIGHT_STRUCK: u8 = 254;
const NO_STEP: u8 = 255;

/// The token of field 0 in a slot, whatever the edition: above every character.
const FIELD: u8 = 192;

/// The part of a slot that is the situation.
type Key = [u8; KEY_BYTES];

/// Judges the sheet, searches, and writes the answer.
pub fn answer(sheet: &[u8], work: &mut [u8], answer: &mut [u8]) -> Outcome {
    let question = match sheet::read(sheet) {
        Ok(question) => question,
        Err(fault) => return Outcome::of_fault(fault),
    };
    asked(&question, work, answer)
}

/// Searches in the room of the working buffer, and writes the answer.
pub fn asked(question: &Question, work: &mut [u8], answer: &mut [u8]) -> Outcome {
    let mut slots = Slots { room: room(work.len()), work, count: 0 };
    let (number, written) = match search(question, &mut slots) {
        Ending::Clash(finish) => write_answer(question, &slots, finish, answer),
        other => (other.number(), 0),
    };
    let count = slots.count;
    work.fill(0);
    Outcome::of_search(number, count, written)
}

/// Searches in the room of the working buffer and writes no text: the answer's
/// number and the count.
pub fn searched(question: &Question, work: &mut [u8]) -> (u8, usize) {
    let mut slots = Slots { room: room(work.len()), work, count: 0 };
    let number = search(question, &mut slots).number();
    let count = slots.count;
    work.fill(0);
    (number, count)
}

/// Judges the sheet, searches, and writes the answer and the steps.
pub fn steps(sheet: &[u8], work: &mut [u8], answer: &mut [u8], steps: &mut [u8]) -> Told {
    let question = match sheet::read(sheet) {
        Ok(question) => question,
        Err(fault) => return Told::of_fault(fault),
    };
    let mut slots = Slots { room: room(work.len()), work, count: 0 };
    let (number, written, bytes) = match search(&question, &mut slots) {
        Ending::Clash(finish) => write_steps(&question, &slots, finish, answer, steps),
        other => (other.number(), 0, 0),
    };
    let count = slots.count;
    work.fill(0);
    Told::of_search(number, count, written, bytes)
}

/// The entered situations in the working buffer.
struct Slots<'a> {
    work: &'a mut [u8],
    room: usize,
    count: usize,
}

impl Slots<'_> {
    fn slot(&self, number: usize) -> &[u8] {
        &self.work[number * SITUATION_BYTES..][..SITUATION_BYTES]
    }

    /// Scans from the oldest to the newest.
    fn already_entered(&self, key: &Key) -> bool {
        let entered = &self.work[..self.count * SITUATION_BYTES];
        entered.chunks_exact(SITUATION_BYTES).any(|slot| slot[..KEY_BYTES] == key[..])
    }

    /// Enters a situation behind the newest; there must be room.
    fn enter(&mut self, key: &Key, parent: usize, step: u8) {
        let slot = &mut self.work[self.count * SITUATION_BYTES..][..SITUATION_BYTES];
        slot[..KEY_BYTES].copy_from_slice(key);
        slot[PARENT..STEP].copy_from_slice(&(parent as u16).to_le_bytes());
        slot[STEP] = step;
        self.count += 1;
    }

    /// The situation of a slot.
    fn situation(&self, number: usize) -> Flat {
        let slot = self.slot(number);
        let set = |field: usize| {
            let at = SETS + SET * field;
            PlaceSet::from_le_bytes(std::array::from_fn(|byte| slot[at + byte]))
        };
        Flat {
            left: Side::of(&slot[LEFT..][..usize::from(slot[0])]),
            right: Side::of(&slot[RIGHT..][..usize::from(slot[1])]),
            sets: std::array::from_fn(set),
        }
    }

    /// The way to a situation from its parent.
    fn way(&self, number: usize) -> Way {
        let slot = self.slot(number);
        let parent = usize::from(u16::from_le_bytes([slot[PARENT], slot[PARENT + 1]]));
        let step = slot[STEP];
        if step >= LEFT_STRUCK {
            return Way { parent, step, put: None, before: [None, None] };
        }
        // A character is put only where neither side is empty.
        let fronts = self.slot(parent);
        let before = [field(fronts[LEFT]), field(fronts[RIGHT])];
        Way { parent, step, put: Some(step), before }
    }
}

/// "a situation's way is the one by which it was first entered"
struct Way {
    parent: usize,
    /// The slot's step byte.
    step: u8,
    /// The character put; none for a strike.
    put: Option<u8>,
    /// The parent's front fields, before which it was put; twice the same
    /// where both fronts are one field.
    before: [Option<usize>; 2],
}

/// A token as it stands in a slot.
fn inner(token: Token) -> u8 {
    match token {
        Token::Character(character) => character,
        Token::Field(field) => FIELD + field,
    }
}

/// The field of such a token, if it is one.
fn field(token: u8) -> Option<usize> {
    (token >= FIELD).then(|| usize::from(token - FIELD))
}

/// A token list, long enough for a child that is not yet trimmed: no token
/// becomes more than two.
#[derive(Clone, Copy)]
struct Side {
    tokens: [u8; 2 * MOST_TOKENS],
    /// Tokens before this one are trimmed.
    from: usize,
    to: usize,
}

impl Side {
    fn empty() -> Side {
        Side { tokens: [0; 2 * MOST_TOKENS], from: 0, to: 0 }
    }

    fn of(tokens: &[u8]) -> Side {
        let mut side = Side::empty();
        side.tokens[..tokens.len()].copy_from_slice(tokens);
        side.to = tokens.len();
        side
    }

    fn push(&mut self, token: u8) {
        self.tokens[self.to] = token;
        self.to += 1;
    }

    fn tokens(&self) -> &[u8] {
        &self.tokens[self.from..self.to]
    }

    fn front(&self) -> Option<u8> {
        self.tokens().first().copied()
    }

    /// The side without any standing of the token.
    fn strike(&self, struck: u8) -> Side {
        let mut side = Side::empty();
        for &token in self.tokens() {
            if token != struck {
                side.push(token);
            }
        }
        side
    }

    /// The side with the character before each standing of a front field.
    fn put(&self, character: u8, left_front: u8, right_front: u8) -> Side {
        let mut side = Side::empty();
        for &token in self.tokens() {
            if token >= FIELD && (token == left_front || token == right_front) {
                side.push(character);
            }
            side.push(token);
        }
        side
    }
}

/// A situation, the place sets of fields that are gone being 0.
#[derive(Clone, Copy)]
struct Flat {
    left: Side,
    right: Side,
    sets: [PlaceSet; ALL_FIELDS],
}

impl Flat {
    fn of(question: &Question) -> Flat {
        let mut start = Flat { left: Side::empty(), right: Side::empty(), sets: [0; ALL_FIELDS] };
        for &token in &question.left {
            start.left.push(inner(token));
        }
        for &token in &question.right {
            start.right.push(inner(token));
        }
        for &token in question.left.iter().chain(&question.right) {
            if let Token::Field(field) = token {
                start.sets[usize::from(field)] = ONLY_START;
            }
        }
        start
    }

    fn trim(&mut self) {
        while let (Some(left), Some(right)) = (self.left.front(), self.right.front()) {
            if left != right || left >= FIELD {
                break;
            }
            self.left.from += 1;
            self.right.from += 1;
        }
    }

    fn finished(&self) -> bool {
        self.left.front().is_none() && self.right.front().is_none()
    }

    /// Not finished, and no field in front of either side.
    fn dead(&self) -> bool {
        let is_field = |front: Option<u8>| front.is_some_and(|token| token >= FIELD);
        !self.finished() && !is_field(self.left.front()) && !is_field(self.right.front())
    }

    fn too_long(&self) -> bool {
        self.left.tokens().len() > MOST_TOKENS || self.right.tokens().len() > MOST_TOKENS
    }

    fn key(&self) -> Key {
        let (left, right) = (self.left.tokens(), self.right.tokens());
        let mut key = [0; KEY_BYTES];
        key[0] = left.len() as u8;
        key[1] = right.len() as u8;
        key[LEFT..][..left.len()].copy_from_slice(left);
        key[RIGHT..][..right.len()].copy_from_slice(right);
        for (field, set) in self.sets.iter().enumerate() {
            key[SETS + SET * field..][..SET].copy_from_slice(&set.to_le_bytes());
        }
        key
    }

    /// The child with a field struck, if its set may end.
    fn strike(&self, token: u8, allowed: &[Allowed; ALL_FIELDS]) -> Option<Flat> {
        let field = field(token)?;
        if !allowed[field].may_end(self.sets[field]) {
            return None;
        }
        let mut sets = self.sets;
        sets[field] = 0;
        Some(Flat { left: self.left.strike(token), right: self.right.strike(token), sets })
    }

    /// The child with the character put before the front fields, if both
    /// fronts allow it.
    fn put(
        &self,
        character: u8,
        fronts: (u8, u8),
        allowed: &[Allowed; ALL_FIELDS],
    ) -> Option<Flat> {
        let mut sets = self.sets;
        for front in [fronts.0, fronts.1] {
            match field(front) {
                None => {
                    if front != character {
                        return None;
                    }
                }
                // From the parent's set, so that one field in both fronts
                // takes the character once.
                Some(field) => {
                    sets[field] = allowed[field].after(self.sets[field], character);
                    if sets[field] == 0 {
                        return None;
                    }
                }
            }
        }
        Some(Flat {
            left: self.left.put(character, fronts.0, fronts.1),
            right: self.right.put(character, fronts.0, fronts.1),
            sets,
        })
    }
}

/// A clash is given with the number of the finished situation.
fn search(question: &Question, slots: &mut Slots) -> Ending<usize> {
    let allowed = &question.allowed;
    if slots.room == 0 {
        return Ending::NoRoom;
    }
    let mut start = Flat::of(question);
    start.trim();
    slots.enter(&start.key(), 0, NO_STEP);
    if start.finished() {
        return Ending::Clash(0);
    }

    let mut taken = 0;
    while taken < slots.count {
        let parent = slots.situation(taken);
        let (left, right) = (parent.left.front(), parent.right.front());
        if !parent.dead() {
            if let Some(child) = left.and_then(|left| parent.strike(left, allowed)) {
                if let Some(ending) = offer(child, taken, LEFT_STRUCK, slots) {
                    return ending;
                }
            }
            if left != right {
                if let Some(child) = right.and_then(|right| parent.strike(right, allowed)) {
                    if let Some(ending) = offer(child, taken, RIGHT_STRUCK, slots) {
                        return ending;
                    }
                }
            }
            if let (Some(left), Some(right)) = (left, right) {
                for character in characters(question.characters) {
                    if let Some(child) = parent.put(character, (left, right), allowed) {
                        if let Some(ending) = offer(child, taken, character, slots) {
                            return ending;
                        }
                    }
                }
            }
        }
        taken += 1;
    }
    Ending::NoClash
}

/// "Each child is trimmed, then: dead is dropped; a side above 48 tokens gives
/// 19; one already entered is dropped; no room gives 18; otherwise it is
/// entered, and a finished one ends the search at once."
fn offer(mut child: Flat, parent: usize, step: u8, slots: &mut Slots) -> Option<Ending<usize>> {
    child.trim();
    if child.dead() {
        return None;
    }
    if child.too_long() {
        return Some(Ending::SideTooLong);
    }
    let key = child.key();
    if slots.already_entered(&key) {
        return None;
    }
    if slots.count == slots.room {
        return Some(Ending::NoRoom);
    }
    slots.enter(&key, parent, step);
    child.finished().then(|| Ending::Clash(slots.count - 1))
}

/// The length of each field's text, and the bytes of the records. The hidden
/// fields "get no answer record".
fn measured(question: &Question, slots: &Slots, finish: usize) -> ([usize; ALL_FIELDS], usize) {
    // By walking the way back.
    let mut lengths = [0; ALL_FIELDS];
    walk_back(slots, finish, |_, field| lengths[field] += 1);
    assert!(lengths.iter().all(|&length| length <= MOST_TEXT));
    let bytes = |field: usize| record_bytes(question, &lengths, field);
    let written = (0..FIELDS).map(bytes).sum();
    (lengths, written)
}

fn stands(question: &Question, field: usize) -> bool {
    let field = Token::Field(field as u8);
    question.left.contains(&field) || question.right.contains(&field)
}

fn record_bytes(question: &Question, lengths: &[usize; ALL_FIELDS], field: usize) -> usize {
    if stands(question, field) {
        ANSWER_RECORD_HEAD + lengths[field]
    } else {
        0
    }
}

/// Writes the records if they fit: the answer's number and the bytes written.
fn write_answer(
    question: &Question,
    slots: &Slots,
    finish: usize,
    answer: &mut [u8],
) -> (u8, usize) {
    let (lengths, written) = measured(question, slots, finish);
    if written > answer.len() {
        return (ANSWER_BUFFER_TOO_SHORT, 0);
    }

    // The records without their values, and where each record ends.
    let mut ends = [0; FIELDS];
    let mut at = 0;
    for field in 0..FIELDS {
        if stands(question, field) {
            answer[at..at + 2].copy_from_slice(b"VA");
            answer[at + 2] = field as u8;
            answer[at + 3..at + 5].copy_from_slice(&(lengths[field] as u16).to_le_bytes());
        }
        at += record_bytes(question, &lengths, field);
        ends[field] = at;
    }
    // The values, from the last to the first.
    walk_back(slots, finish, |character, field| {
        if field < FIELDS {
            ends[field] -= 1;
            answer[ends[field]] = character;
        }
    });
    (CLASH, written)
}

/// From the finish back to the start: each character put and the field before
/// which it was put.
fn walk_back(slots: &Slots, finish: usize, mut each: impl FnMut(u8, usize)) {
    let mut at = finish;
    while at != 0 {
        let Way { parent, put, before: [left, right], .. } = slots.way(at);
        if let Some(character) = put {
            if let Some(field) = left {
                each(character, field);
            }
            // "Where both fronts are one field, this is done once."
            if let Some(field) = right.filter(|_| right != left) {
                each(character, field);
            }
        }
        at = parent;
    }
}

/// Writes the records and the steps if both fit: the answer's number, and the
/// bytes written to each buffer.
fn write_steps(
    question: &Question,
    slots: &Slots,
    finish: usize,
    answer: &mut [u8],
    steps: &mut [u8],
) -> (u8, usize, usize) {
    if measured(question, slots, finish).1 > answer.len() {
        return (ANSWER_BUFFER_TOO_SHORT, 0, 0);
    }
    // Each record, from the last to the first.
    let mut way = Vec::new();
    let mut at = finish;
    while at != 0 {
        let Way { parent, step, .. } = slots.way(at);
        way.push(match step {
            LEFT_STRUCK => vec![b'S', b'T', 0],
            RIGHT_STRUCK => vec![b'S', b'T', 1],
            character => vec![b'S', b'T', 2, character],
        });
        at = parent;
    }
    let bytes = way.iter().map(Vec::len).sum();
    if bytes > steps.len() {
        return (STEPS_TOO_SHORT, 0, 0);
    }
    let mut end = bytes;
    for record in way {
        steps[end - record.len()..end].copy_from_slice(&record);
        end -= record.len();
    }
    let (number, written) = write_answer(question, slots, finish, answer);
    (number, written, bytes)
}
