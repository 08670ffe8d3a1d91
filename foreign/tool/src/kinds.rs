//! Which kind of file it is, where another one was wanted: a file of rules or a catalogue.

use std::path::Path;

/// What a catalogue begins with: the mark of its first rule, and that of a pattern or of the side.
const FRONTS: [&[u8]; 2] = [b"RUPA", b"RULE"];

/// Whether the bytes are those of a catalogue, be it whole or not: no text has them.
pub fn is_catalogue(bytes: &[u8]) -> bool {
    let empty = !bytes.is_empty() && bytes.iter().all(|&byte| byte == 0);
    empty || (FRONTS.iter().any(|front| bytes.starts_with(front)) && !is_text(bytes))
}

/// Whether the bytes may be those of a file of rules: a text that has a rule's sign.
pub fn is_rules(bytes: &[u8]) -> bool {
    is_text(bytes) && bytes.contains(&b'=')
}

fn is_text(bytes: &[u8]) -> bool {
    let control = |&byte: &u8| byte.is_ascii_control() && !b"\t\n\r".contains(&byte);
    !bytes.iter().any(control)
}

/// That a file of rules was wanted, and this is a catalogue.
pub fn a_catalogue(path: &Path) -> String {
    let name = path.display();
    format!(
        "{name} is a catalogue, not a file of rules: 'bradovusc list' prints its rules, and \
         'bradovusc recheck' asks of every pair of them"
    )
}

/// That a catalogue was wanted, and this is a file of rules.
pub fn rules(name: &str) -> String {
    format!(
        "{name} is a file of rules, not a catalogue: 'bradovusc check' asks of every pair of its \
         rules, and 'bradovusc add --new' begins a catalogue"
    )
}

#[cfg(test)]
mod tests {
    use super::*;

    #[test]
    fn kinds() {
        let catalogue = b"RULE\x01\x04RUPA\x00\x01\x04LE\x02\x40\x41\0\0";
        assert!(is_catalogue(catalogue) && !is_rules(catalogue));
        assert!(is_catalogue(&catalogue[..12]) && is_catalogue(&[0; 9]));
        for text in ["", "RULE = A\n", "RUPA_1 = {n}\r\n\tn = [0-9]\n", "full ascii\nx = é\n"] {
            assert!(!is_catalogue(text.as_bytes()), "{text}");
            assert_eq!(is_rules(text.as_bytes()), !text.is_empty());
        }
        assert!(!is_rules(b"a = A\0") && !is_rules(b"latch\n"));
    }
}
