//! The cases of other makers with the stray patterns taken out, of each sheet and rule
//! that was good with them. What they are answered is what they were answered with
//! them, so their buffers stay around the bounds; an output buffer is shorter by what
//! is taken out.

use crate::catalogue::RULE;
use crate::edition::Edition;
use crate::sheet::{Reading, PATTERN_HEAD};
use crate::{cases, drop_strays, steps, writer};

/// A case of a sheet.
pub fn case(case: cases::Case) -> cases::Case {
    match drop_strays::sheet(&case.sheet) {
        Ok(sheet) => cases::Case { sheet, ..case },
        Err(_) => case,
    }
}

/// A case of a sheet or a rule with an output buffer.
pub fn spelt(case: cases::Case) -> cases::Case {
    let drop = if case.sheet.starts_with(RULE) { drop_strays::rule } else { drop_strays::sheet };
    match drop(&case.sheet) {
        Ok(sheet) => {
            let answer = case.answer.saturating_sub((case.sheet.len() - sheet.len()) as u32);
            cases::Case { answer, sheet, ..case }
        }
        Err(_) => case,
    }
}

/// A case of the steps.
pub fn stepped(case: steps::Case) -> steps::Case {
    steps::Case { case: self::case(case.case), ..case }
}

/// A case of the player, or of the way of given texts.
pub fn handed(handed: steps::Handed) -> steps::Handed {
    steps::Handed { case: case(handed.case), ..handed }
}

/// A case of the writer of sheets.
pub fn written(case: writer::Case) -> writer::Case {
    let writer::Case { edition, lengths, patterns, left, right, .. } = &case;
    let Ok(said_in) = Edition::asked_for(*edition) else { return case };
    if writer::sheet_by(Reading::Old, *edition, patterns, lengths, left, right).is_err() {
        return case;
    }
    let mut kept = writer::Case { patterns: Vec::new(), ..case.clone() };
    let mut rest = &patterns[..];
    for (field, length) in kept.lengths.iter_mut().enumerate().filter(|(_, length)| **length > 0) {
        let (own, behind) = rest.split_at(*length as usize);
        let token = said_in.field(field as u8);
        if left.contains(&token) || right.contains(&token) {
            kept.patterns.extend_from_slice(own);
        } else {
            kept.output = kept.output.saturating_sub((PATTERN_HEAD + own.len()) as u16);
            *length = 0;
        }
        rest = behind;
    }
    kept.patterns.extend_from_slice(rest);
    kept
}
