//! How a question ends, as the tool's exit status tells it.

use crate::report::Tally;

/// How a command ends.
#[derive(Clone, Copy, Debug, PartialEq, Eq, PartialOrd, Ord)]
pub enum Status {
    /// 0: what was asked for is done; of rules that were checked, no two clash.
    Good,
    /// 1: two rules clash.
    Clash,
    /// 2: of some rules it is not decided whether they clash, and no two are known to.
    NotDecided,
    /// 3: a fault of a file of rules, of a catalogue, or of the words of the command.
    Fault,
    /// 4: something could not be read or written.
    Failure,
    /// 5: a file of rules has no rule.
    NoRule,
    /// 6: no rule reads some label, and no label is read by several.
    NotRead,
}

impl Status {
    pub fn number(self) -> u8 {
        self as u8
    }
}

/// A clash comes before all else.
impl From<Tally> for Status {
    fn from(tally: Tally) -> Status {
        match tally {
            Tally { clashes: 1.., .. } => Status::Clash,
            Tally { not_decided: 1.., .. } => Status::NotDecided,
            _ => Status::Good,
        }
    }
}

#[cfg(test)]
mod tests {
    use super::*;

    #[test]
    fn a_tally_is_a_clash_before_all_else() {
        let status =
            |clashes, not_decided, apart| Status::from(Tally { clashes, not_decided, apart });
        assert_eq!(status(1, 1, 1), Status::Clash);
        assert_eq!(status(0, 1, 1), Status::NotDecided);
        assert_eq!(status(0, 0, 1), Status::Good);
    }
}
