//! What the library's program printed for a stream of cases, beside the cases.
//!
//! For each case:
//!
//! - a line of three numbers: the answer, the place, and the bytes written
//! - after answer 0, so many bytes of script
//! - then a line of three numbers: the answer for a buffer of exactly so many
//!   bytes, the answer for one of a byte less, and how many bytes of that one
//!   changed

use super::compare::says;
use super::Told;
use crate::cases::{push_each, Case};
use crate::sheet;

/// "success is 0"
const DONE: usize = 0;
/// "Refusals: the sheet's own, then 40 if the output buffer is too short."
pub const OUTPUT_TOO_SHORT: usize = 40;

/// How many cases there were, by what they gave.
#[derive(Clone, Copy, Debug, Default, PartialEq, Eq)]
pub struct Checked {
    pub scripts: usize,
    pub refused: usize,
}

impl Checked {
    pub fn line(&self) -> String {
        let Checked { scripts, refused } = self;
        format!("{scripts} scripts say their sheets, {refused} sheets refused")
    }
}

/// Checks each case of the stream, of which only the sheet counts.
pub fn check(stream: &[u8], output: &[u8]) -> Told<Checked> {
    let mut checked = Checked::default();
    let mut cases = stream;
    let mut output = output;
    while !cases.is_empty() {
        let number = checked.scripts + checked.refused + 1;
        let Some((case, behind)) = Case::read(cases) else {
            return Err(format!("case {number}: the stream stops inside it"));
        };
        cases = behind;
        let refused = one(&case.sheet, &mut output)
            .map_err(|what| format!("case {number}: {what}\nsheet{}", each(&case.sheet)))?;
        *(if refused { &mut checked.refused } else { &mut checked.scripts }) += 1;
    }
    match output {
        [] => Ok(checked),
        _ => Err(format!("{} bytes of output behind the last case", output.len())),
    }
}

fn each(bytes: &[u8]) -> String {
    let mut line = String::new();
    push_each(&mut line, bytes);
    line
}

/// What was printed for one sheet; is the sheet refused?
fn one(sheet: &[u8], output: &mut &[u8]) -> Told<bool> {
    let [number, place, written] = numbers(output)?;
    let answered = format!("answer {number}, place {place}, written {written}");
    let question = match sheet::read(sheet) {
        Ok(question) => question,
        Err(fault) if [number, place, written] == [usize::from(fault.number), fault.place, 0] => {
            return Ok(true);
        }
        Err(fault) => {
            return Err(format!(
                "{answered}; the sheet's fault is {}, its place {}",
                fault.number, fault.place
            ));
        }
    };
    // "success is 0; count and place are 0"
    if [number, place] != [DONE, 0] {
        return Err(format!("{answered}; the sheet has no fault"));
    }
    let Some((script, behind)) = output.split_at_checked(written) else {
        return Err(format!("the output ends inside the script of {written} bytes"));
    };
    *output = behind;
    says(script, &question)?;
    buffers(numbers(output)?)?;
    Ok(false)
}

/// "a refusal changes no lent buffer"
fn buffers([exact, less, changed]: [usize; 3]) -> Told<()> {
    if exact != DONE {
        Err(format!("a buffer of exactly the script's bytes gives {exact}"))
    } else if less != OUTPUT_TOO_SHORT {
        Err(format!("a buffer of one byte less gives {less}"))
    } else if changed != 0 {
        Err(format!("{changed} bytes of the short buffer changed"))
    } else {
        Ok(())
    }
}

/// A line of three decimal numbers, one space between.
fn numbers(output: &mut &[u8]) -> Told<[usize; 3]> {
    let Some(end) = output.iter().position(|&byte| byte == b'\n') else {
        return Err("the output ends before the end of a line".to_string());
    };
    let line = String::from_utf8_lossy(&output[..end]).into_owned();
    *output = &output[end + 1..];
    let numbers: Option<Vec<usize>> = line.split(' ').map(decimal).collect();
    match numbers.as_deref() {
        Some(&[a, b, c]) => Ok([a, b, c]),
        _ => Err(format!("{line:?} is no line of three numbers")),
    }
}

/// Digits alone, and no 0 in front.
fn decimal(word: &str) -> Option<usize> {
    let number: usize = word.parse().ok()?;
    (number.to_string() == word).then_some(number)
}
