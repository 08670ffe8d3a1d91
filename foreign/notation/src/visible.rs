//! Characters that are not seen, or that change the order in which others are seen: in what is told
//! they are written out, so that nothing is there unseen.

/// Whether a character has no sign of its own: one that controls, directs, joins or marks others.
pub fn is_hidden(sign: char) -> bool {
    sign.is_control()
        || matches!(
            sign,
            '\u{AD}'
                | '\u{34F}'
                | '\u{61C}'
                | '\u{115F}'..='\u{1160}'
                | '\u{17B4}'..='\u{17B5}'
                | '\u{180B}'..='\u{180F}'
                | '\u{200B}'..='\u{200F}'
                | '\u{2028}'..='\u{202E}'
                | '\u{2060}'..='\u{206F}'
                | '\u{3164}'
                | '\u{FE00}'..='\u{FE0F}'
                | '\u{FEFF}'
                | '\u{FFA0}'
                | '\u{FFF0}'..='\u{FFFB}'
                | '\u{1BCA0}'..='\u{1BCA3}'
                | '\u{1D173}'..='\u{1D17A}'
                | '\u{E0000}'..='\u{E0FFF}'
        )
}

/// A character as it is told: itself, or its code.
pub fn visible_sign(sign: char) -> String {
    if is_hidden(sign) {
        format!("<U+{:04X}>", u32::from(sign))
    } else {
        sign.to_string()
    }
}

/// A text of one line as it is told.
pub fn visible(text: &str) -> String {
    text.chars().map(visible_sign).collect()
}

#[cfg(test)]
mod tests {
    use super::*;

    #[test]
    fn what_is_not_seen_is_written_out() {
        assert_eq!(visible("latch é \u{FFFD} \"LT4\" \\"), "latch é \u{FFFD} \"LT4\" \\");
        assert_eq!(visible("a\nb\tc\u{1B}[31m\u{7F}"), "a<U+000A>b<U+0009>c<U+001B>[31m<U+007F>");
        assert_eq!(visible("\u{85}\u{9B}\u{AD}"), "<U+0085><U+009B><U+00AD>");
        // what directs: marks, embeddings, overrides, isolates
        for sign in "\u{61C}\u{200E}\u{200F}\u{202A}\u{202B}\u{202C}\u{202D}\u{202E}".chars() {
            assert!(is_hidden(sign), "{:?}", sign);
        }
        for sign in "\u{2066}\u{2067}\u{2068}\u{2069}\u{FEFF}\u{E0041}".chars() {
            assert!(is_hidden(sign), "{:?}", sign);
        }
        assert_eq!(visible("\u{E0041}"), "<U+E0041>");
    }
}
