//! Asks the library whether two rules make the same label, in room that grows.

use bradovusc::{
    answer_bytes, steps_bytes, Answer, Step, WayFound, Written, MOST_SITUATIONS, SITUATION_BYTES,
};

use crate::sides::{sheet, texts, Side, Text, RIGHT};

/// Room that grows begins with so many situations.
pub const FIRST_ROOM: usize = 356;

/// While nothing is decided, the room becomes so many times what it was.
const GROWTH: usize = 4;

/// The one of the library's attempts that writes its own steps.
pub const FIRST_SEARCH: u8 = 1;

/// How much room a search has, in situations.
#[derive(Clone, Copy, Debug, Default, PartialEq, Eq)]
pub enum Room {
    /// From [`FIRST_ROOM`] to the most there can be.
    #[default]
    Growing,
    /// From there to so much.
    UpTo(usize),
    /// So much and no more.
    Fixed(usize),
}

impl Room {
    /// What is tried, one after the other.
    pub fn sizes(self) -> impl Iterator<Item = usize> {
        let (first, last) = match self {
            Room::Growing => (FIRST_ROOM, MOST_SITUATIONS),
            Room::UpTo(room) => (FIRST_ROOM.min(room), room),
            Room::Fixed(room) => (room, room),
        };
        let next = move |&room: &usize| (room < last).then(|| (room * GROWTH).min(last));
        std::iter::successors(Some(first), next)
    }
}

/// What the library said of two rules.
#[derive(Clone, Debug)]
pub struct Asked {
    /// In the last room that was tried.
    pub answer: Answer,
    /// Which of the library's attempts decided, 1 to 7; 0 where none did.
    pub search: u8,
    /// The last room that was tried, in situations.
    pub room: usize,
    /// Whether larger room was to be tried and was not, since the caller had enough.
    pub given_up: bool,
    /// The label that both make, if they clash and the library wrote the texts.
    pub shared: Option<Shared>,
}

/// A label that two rules make, without spaces at its end.
#[derive(Clone, Debug)]
pub struct Shared {
    /// By value.
    pub label: Vec<u8>,
    /// What the fields of the rules hold on it.
    pub left: Vec<Text>,
    pub right: Vec<Text>,
}

impl Asked {
    /// What is said of two rules that the library settles by their fronts, without an attempt.
    pub const SETTLED: Asked = Asked::of(Answer::NoClash { count: 0 }, 0, 0);

    /// An answer without a label.
    pub const fn of(answer: Answer, search: u8, room: usize) -> Asked {
        Asked { answer, search, room, given_up: false, shared: None }
    }
}

/// A rule, with what would else be worked out for each of its pairs.
#[derive(Debug)]
pub struct Ready<'a> {
    pub side: &'a Side,
    /// Its tokens as they stand on the right.
    right: Vec<u8>,
}

impl<'a> Ready<'a> {
    pub fn new(side: &'a Side) -> Ready<'a> {
        Ready { side, right: side.renamed(RIGHT) }
    }

    /// Whether no texts at all make the labels of this rule, on the left, and of another one the same,
    /// as the library says by their fixed fronts and ends alone. Else nothing is known.
    pub fn differs(&self, right: &Ready) -> bool {
        bradovusc::fronts_differ(self.side.edition, &self.side.tokens, &right.right)
    }
}

/// The buffers that are lent to the library.
#[derive(Debug, Default)]
pub struct Buffers {
    work: Vec<u8>,
    answer: Vec<u8>,
}

impl Buffers {
    pub fn new() -> Buffers {
        Buffers::default()
    }

    /// A working buffer with room for so many situations.
    pub fn work(&mut self, room: usize) -> &mut [u8] {
        let bytes = room * SITUATION_BYTES;
        if self.work.len() < bytes {
            self.work.resize(bytes, 0);
        }
        &mut self.work[..bytes]
    }

    /// Asks until it is decided, or the room is the most there can be.
    pub fn ask(&mut self, left: &Side, right: &Side, room: Room) -> Asked {
        self.ask_while(left, right, room, |_, _| true)
    }

    /// The same, but after the first room only while the caller wants to go on, who is told of the last
    /// room and of the next one.
    pub fn ask_while(
        &mut self,
        left: &Side,
        right: &Side,
        room: Room,
        mut go_on: impl FnMut(usize, usize) -> bool,
    ) -> Asked {
        let mut asked = Asked::of(Answer::NoRoom { count: 0 }, 0, 0);
        let sheet = match sheet(left, right) {
            Ok(sheet) => sheet,
            Err(written) => {
                // what reading the sheet would say
                if let Written::Refused { fault, place } = written {
                    asked.answer = Answer::Refused { fault, place };
                }
                return asked;
            }
        };
        for (index, room) in room.sizes().enumerate() {
            if index > 0 && !go_on(asked.room, room) {
                asked.given_up = true;
                break;
            }
            asked = self.ask_once(&sheet, room);
            if !matches!(asked.answer, Answer::NoRoom { .. } | Answer::SideTooLong { .. }) {
                break;
            }
        }
        if let Some(shared) = &mut asked.shared {
            shared.label = left.label(&shared.left);
            debug_assert_eq!(shared.label, right.label(&shared.right));
        }
        asked
    }

    /// Asks, unless the library settles it by the fronts alone.
    pub fn settle(&mut self, left: &Ready, right: &Ready, room: Room) -> Asked {
        match left.differs(right) {
            true => Asked::SETTLED,
            false => self.ask(left.side, right.side, room),
        }
    }

    /// The way to a clash that was found: that of the library's first search, where it has found the
    /// clash, and else that of the texts. Where the library has none, it says why.
    pub fn way(&mut self, left: &Side, right: &Side, asked: &Asked) -> Result<Vec<Step>, WayFound> {
        // a sheet that can't be written has no clash, and an empty one is refused
        let sheet = sheet(left, right).unwrap_or_default();
        if asked.search == FIRST_SEARCH {
            let mut answer = vec![0; answer_bytes(asked.room)];
            let mut records = vec![0; steps_bytes(asked.room)];
            let stepped =
                bradovusc::steps(&sheet, self.work(asked.room), &mut answer, &mut records);
            return Ok(steps_of(&records, stepped.steps()));
        }
        let written = self.ask_once(&sheet, asked.room).answer.written();
        way_of(&sheet, self.answer.get(..written).unwrap_or_default())
    }

    fn ask_once(&mut self, sheet: &[u8], room: usize) -> Asked {
        let mut answer = std::mem::take(&mut self.answer);
        answer.resize(answer.len().max(answer_bytes(room)), 0);
        let decision = bradovusc::decide(sheet, self.work(room), &mut answer);
        let shared = match decision.answer {
            Answer::Clash { written, .. } => {
                let (left, right) = texts(answer.get(..written).unwrap_or_default());
                Some(Shared { label: Vec::new(), left, right })
            }
            _ => None,
        };
        self.answer = answer;
        Asked { shared, ..Asked::of(decision.answer, decision.search, room) }
    }
}

/// The way of the texts in these records, or why the library has none.
pub(crate) fn way_of(sheet: &[u8], texts: &[u8]) -> Result<Vec<Step>, WayFound> {
    // enough for every way
    let mut records = vec![0; steps_bytes(MOST_SITUATIONS)];
    match bradovusc::find_way(sheet, texts, &mut records) {
        WayFound::Steps { written } => Ok(steps_of(&records, written)),
        none => Err(none),
    }
}

/// The steps in the first bytes of a buffer.
fn steps_of(records: &[u8], written: usize) -> Vec<Step> {
    bradovusc::way(records.get(..written).unwrap_or_default()).collect()
}

#[cfg(test)]
mod tests {
    use super::*;
    use crate::sides::Title;
    use bradovusc::{Edition, Fault};

    #[test]
    fn the_room_grows_fourfold() {
        assert!(Room::Growing.sizes().eq([356, 1_424, 5_696, 22_784, 65_535]));
        assert!(Room::UpTo(17).sizes().eq([17]));
        assert!(Room::UpTo(2_000).sizes().eq([356, 1_424, 2_000]));
        assert!(Room::UpTo(65_535).sizes().eq(Room::Growing.sizes()));
        assert!(Room::Fixed(17).sizes().eq([17]));
        assert!(Room::Fixed(65_535).sizes().eq([65_535]));
    }

    #[test]
    fn a_rule_that_the_library_refuses() {
        let (edition, title) = (Edition::Code39, Title::Number(0));
        let (place, patterns, fields) = (None, Vec::new(), Vec::new());
        let side = Side { edition, title, place, patterns, tokens: vec![4, 43], fields };
        let asked = Buffers::new().ask(&side, &side, Room::Growing);
        assert_eq!(asked.answer, Answer::Refused { fault: Fault::WrongToken, place: 4 });
        assert!(asked.shared.is_none());
    }
}
