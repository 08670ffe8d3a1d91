//! The faults of a sheet or a rule looked for once more, by counting instead of
//! going down a pattern: the number, the place, and what shows the fault.

use std::collections::BTreeMap;

/// What shows a fault.
#[derive(Clone, Copy, Debug, PartialEq, Eq, PartialOrd, Ord)]
pub enum Shown {
    CutShort,
    Mark,
    BehindTheEnd,
    Field,
    PatternLength,
    SideLength,
    NoCode,
    LoAbove42,
    LoAbove42WithoutHi,
    HiAbove42,
    HiBelowLo,
    LeftOver,
    LeftOverNoCode,
    RunsOut,
    /// A 15 of one of these kinds in a pattern with 64 leaves before it.
    BehindThe64thLeaf,
    Character,
    Range,
    FirstToken,
    LaterToken,
    EditionByte,
    Stray,
}

use Shown::*;

/// The record of the second edition.
pub const SECOND: &[u8] = b"ED\x02";

/// What a byte is in a side or in a pattern.
#[derive(Clone, Copy, PartialEq, Eq)]
enum Kind {
    Character,
    /// A field's token or, up to 4, a pattern's code.
    Code(u8),
    None,
}

/// In the second edition or in the first.
fn kind(second: bool, byte: u8) -> Kind {
    match (second, byte) {
        (false, 0..=42) | (true, 0..=127) => Kind::Character,
        (false, 64..=71) => Kind::Code(byte - 64),
        (true, 192..=199) => Kind::Code(byte - 192),
        _ => Kind::None,
    }
}

/// Number, place, and what shows the fault; of a pattern, the place is counted
/// from its first byte.
type Fault = (u8, usize, Shown);

/// A fault and whether it is met in the first record or in a later one; a
/// rule's `RU` is no record of its own here.
#[derive(Clone, Copy, Debug, PartialEq, Eq)]
pub struct Met {
    pub number: u8,
    pub place: usize,
    pub shown: Shown,
    pub later: bool,
}

/// The first fault of records that stand behind this front, the last of them
/// sides with these marks. A sheet, which has no front, may have an edition. Where
/// there is none, a stray pattern is one.
pub fn met(bytes: &[u8], front: &[u8], sides: &[&[u8; 2]]) -> Option<Met> {
    let mut sides = sides.iter().peekable();
    let mut field_before = None;
    let second = front.is_empty() && bytes.starts_with(b"ED");
    let first = if second { SECOND.len() } else { front.len() };
    if let Some((number, place, shown)) = second.then(|| of_edition(bytes)).flatten() {
        return Some(Met { number, place, shown, later: false });
    }
    let mut at = if second { first } else { 0 };
    loop {
        let next_side = sides.peek().map(|mark| &mark[..]);
        let read = match (next_side, &bytes[at..]) {
            (None, []) => {
                let (number, place, shown) = of_strays(second, bytes, first)?;
                return Some(Met { number, place, shown, later: place > first });
            }
            (None, _) => Err((12, at, BehindTheEnd)),
            (Some(_), [] | [_]) => Err((11, bytes.len(), CutShort)),
            (Some(_), rest) if at < front.len() => {
                rest.starts_with(front).then_some(front.len()).ok_or((12, at, Mark))
            }
            (Some(b"LE"), [b'P', b'A', ..]) => pattern_record(second, bytes, at, &mut field_before),
            (Some(side), rest) if rest.starts_with(side) => {
                sides.next();
                side_record(second, bytes, at)
            }
            _ => Err((12, at, Mark)),
        };
        match read {
            Ok(end) => at = end,
            Err((number, place, shown)) => {
                return Some(Met { number, place, shown, later: at > first });
            }
        }
    }
}

/// The fault of bytes that begin with `ED` there.
fn of_edition(bytes: &[u8]) -> Option<Fault> {
    match bytes {
        [_, _] => Some((11, 2, CutShort)),
        [_, _, 2, ..] => None,
        _ => Some((44, 2, EditionByte)),
    }
}

/// The first pattern of a field whose token stands behind the patterns nowhere but in
/// a mark or a length, of records without another fault.
fn of_strays(second: bool, bytes: &[u8], first: usize) -> Option<Fault> {
    let mut marks = Vec::new();
    let mut at = first;
    while bytes[at] == b'P' {
        marks.push(at);
        at += 4 + usize::from(bytes[at + 3]);
    }
    let mut standing = [false; 8];
    while at < bytes.len() {
        let end = at + 3 + usize::from(bytes[at + 2]);
        for &token in &bytes[at + 3..end] {
            if let Kind::Code(field) = kind(second, token) {
                standing[usize::from(field)] = true;
            }
        }
        at = end;
    }
    let stray = marks.into_iter().find(|mark| !standing[usize::from(bytes[mark + 2])])?;
    Some((22, stray, Stray))
}

/// Where the record ends, or its fault.
fn pattern_record(
    second: bool,
    bytes: &[u8],
    at: usize,
    before: &mut Option<u8>,
) -> Result<usize, Fault> {
    let body = at + 4;
    if bytes.len() < body {
        return Err((11, bytes.len(), CutShort));
    }
    let (field, length) = (bytes[at + 2], usize::from(bytes[at + 3]));
    let end = body + length;
    if field > 7 || Some(field) <= *before {
        Err((13, at + 2, Field))
    } else if length == 0 || length > 192 {
        Err((14, at + 3, PatternLength))
    } else if bytes.len() < end {
        Err((11, bytes.len(), CutShort))
    } else if let Some((number, place, shown)) = of_pattern(second, &bytes[body..end]) {
        Err((number, body + place, shown))
    } else {
        *before = Some(field);
        Ok(end)
    }
}

fn side_record(second: bool, bytes: &[u8], at: usize) -> Result<usize, Fault> {
    let body = at + 3;
    if bytes.len() < body {
        return Err((11, bytes.len(), CutShort));
    }
    let end = body + usize::from(bytes[at + 2]);
    if end > body + 24 {
        return Err((14, at + 2, SideLength));
    }
    if bytes.len() < end {
        return Err((11, bytes.len(), CutShort));
    }
    match bytes[body..end].iter().position(|&token| kind(second, token) == Kind::None) {
        None => Ok(end),
        Some(0) => Err((17, body, FirstToken)),
        Some(number) => Err((17, body + number, LaterToken)),
    }
}

fn of_pattern(second: bool, body: &[u8]) -> Option<Fault> {
    let mut leaves = Vec::new();
    let wrong = of_codes(second, body, &mut leaves);
    match (wrong, leaves.get(63)) {
        (Some((place, _)), Some(_)) => Some((15, place, BehindThe64thLeaf)),
        (Some((place, shown)), None) => Some((15, place, shown)),
        (None, Some(&(place, shown))) => Some((16, place, shown)),
        (None, None) => None,
    }
}

/// Where the bytes are not one pattern; the leaves up to there are gathered.
fn of_codes(second: bool, body: &[u8], leaves: &mut Vec<(usize, Shown)>) -> Option<(usize, Shown)> {
    // A character, a code from 0 to 4, or neither.
    let kind = |byte: u8| match kind(second, byte) {
        Kind::Code(5..) => Kind::None,
        kind => kind,
    };
    let is_character = |byte: u8| kind(byte) == Kind::Character;
    // So many patterns have still to come.
    let mut missing = 1;
    let mut at = 0;
    while missing > 0 {
        let Some((&code, behind)) = body[at..].split_first() else {
            return Some((body.len(), RunsOut));
        };
        match (kind(code), behind) {
            (Kind::None, _) => return Some((at, NoCode)),
            (Kind::Code(1), []) => return Some((body.len(), RunsOut)),
            (Kind::Code(1), [lo]) if is_character(*lo) => return Some((body.len(), RunsOut)),
            (Kind::Code(1), [_]) => return Some((at + 1, LoAbove42WithoutHi)),
            (Kind::Code(1), [lo, ..]) if !is_character(*lo) => return Some((at + 1, LoAbove42)),
            (Kind::Code(1), [_, hi, ..]) if !is_character(*hi) => return Some((at + 2, HiAbove42)),
            (Kind::Code(1), [lo, hi, ..]) if hi < lo => return Some((at + 2, HiBelowLo)),
            (Kind::Code(1), _) => {
                leaves.push((at, Range));
                missing -= 1;
                at += 2;
            }
            (Kind::Character, _) => {
                leaves.push((at, Character));
                missing -= 1;
            }
            (Kind::Code(0), _) => missing -= 1,
            (Kind::Code(2 | 3), _) => missing += 1,
            (Kind::Code(_), _) => {}
        }
        at += 1;
    }
    match body.get(at) {
        None => None,
        Some(&byte) if kind(byte) == Kind::None => Some((at, LeftOverNoCode)),
        Some(_) => Some((at, LeftOver)),
    }
}

/// Each of them comes up so many times, in the first record and in later ones.
pub fn all_come_up(seen: &BTreeMap<(Shown, bool), usize>, times: usize) {
    let everywhere = [
        CutShort,
        Mark,
        Field,
        PatternLength,
        SideLength,
        NoCode,
        LoAbove42,
        LoAbove42WithoutHi,
        HiAbove42,
        HiBelowLo,
        LeftOver,
        LeftOverNoCode,
        RunsOut,
        BehindThe64thLeaf,
        Character,
        Range,
        FirstToken,
        LaterToken,
        Stray,
    ];
    let first = everywhere.map(|shown| (shown, false));
    let later = everywhere.map(|shown| (shown, true));
    for row in first.into_iter().chain(later).chain([(BehindTheEnd, true)]) {
        let seen_times = seen.get(&row).copied().unwrap_or(0);
        assert!(seen_times >= times, "{row:?}: {seen_times} of {seen:?}");
    }
}

/// The sizes of patterns that must come up.
#[derive(Clone, Copy, Debug, PartialEq, Eq, PartialOrd, Ord)]
pub enum Size {
    From97To192Bytes,
    Bytes192,
    Bytes193,
    From32To63Leaves,
    Leaves63,
    Leaves64,
}

/// Counts each pattern of the records behind this front that is one pattern, up
/// to the first record that is none of a pattern.
pub fn sizes(bytes: &[u8], front: &[u8], seen: &mut BTreeMap<Size, usize>) {
    let mut rest = bytes.strip_prefix(front).unwrap_or(&[]);
    while let [b'P', b'A', _, length, behind @ ..] = rest {
        let Some((body, behind)) = behind.split_at_checked(usize::from(*length)) else {
            return;
        };
        let mut leaves = Vec::new();
        if of_codes(front == SECOND, body, &mut leaves).is_none() {
            let sizes = [
                (Size::From97To192Bytes, (97..=192).contains(&body.len())),
                (Size::Bytes192, body.len() == 192),
                (Size::Bytes193, body.len() == 193),
                (Size::From32To63Leaves, (32..=63).contains(&leaves.len())),
                (Size::Leaves63, leaves.len() == 63),
                (Size::Leaves64, leaves.len() == 64),
            ];
            for (size, _) in sizes.into_iter().filter(|(_, is)| *is) {
                *seen.entry(size).or_insert(0) += 1;
            }
        }
        rest = behind;
    }
}

/// The sizes below the limits come up so many times, those at them and just
/// above them so many.
pub fn all_sizes_come_up(seen: &BTreeMap<Size, usize>, below: usize, at: usize) {
    use Size::*;
    let below = [From97To192Bytes, From32To63Leaves].map(|size| (size, below));
    let at = [Bytes192, Bytes193, Leaves63, Leaves64].map(|size| (size, at));
    for (size, times) in below.into_iter().chain(at) {
        assert!(seen.get(&size).is_some_and(|&seen| seen >= times), "{size:?}: {seen:?}");
    }
}
