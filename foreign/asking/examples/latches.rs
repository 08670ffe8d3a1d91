//! Two rules in parts: `cargo run --example latches`.

use bradovusc_asking::{pair, rule, Reads, Wrong};

fn main() -> Result<(), Wrong> {
    print!("{}", said()?);
    Ok(())
}

/// What is printed.
pub fn said() -> Result<String, Wrong> {
    let mortice = rule("LT{size}{finish}").named("mortice");
    let mortice = mortice.field("size", "[0-9]{2}").field("finish", "BR|CH|SS");
    let rim = rule("LT{set}C{turn}").named("rim").field("set", "[0-9]+").field("turn", "H|K|T");
    let pair = pair(&mortice, &rim)?;
    let mut said = format!("{pair}\n");
    match pair.clashes() {
        Some(true) => {
            let label = pair.label().unwrap_or_default();
            for band in pair.right_bands().unwrap_or_default() {
                let read = &label[band.from..band.to.min(label.len())];
                said += &match band.reads {
                    Reads::Fixed(text) => format!("{text} stands there\n"),
                    Reads::Field(name) => format!("{read} is read by {name}\n"),
                };
            }
        }
        Some(false) => said += "no label can be made by both\n",
        // neither yes nor no: they may well clash
        None => said += "not decided\n",
    }
    Ok(said)
}
