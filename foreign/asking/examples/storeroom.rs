//! All rules of a text: `cargo run --example storeroom`.

use bradovusc_asking::{check, Wrong};

const RULES: &str = "
mortice = LT{size}{finish}
  size   = [0-9]{2}
  finish = BR | CH | SS
keypad  = KP{n}-{n}        # the same field twice: the same text twice
  n = [0-9]+
latch   = LT{rest}         # no line for rest: one character or more
";

fn main() -> Result<(), Wrong> {
    print!("{}", said()?);
    Ok(())
}

/// What is printed.
pub fn said() -> Result<String, Wrong> {
    let checked = check(RULES)?;
    let mut said = format!("{checked}\n");
    for pair in &checked.pairs {
        if let (Some(label), Some(texts)) = (pair.label(), pair.left_texts()) {
            said += &format!("{label} with {texts:?}\n");
        }
    }
    Ok(said)
}
