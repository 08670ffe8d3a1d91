//! What a string literal means in the Unicode Strings theory.

use super::Told;

/// A character of the theory, by its code point.
pub type Sign = u32;

/// The theory's characters are the code points up to this one.
pub const LAST_SIGN: Sign = 0x2FFFF;

/// The text of a literal. The theory allows the printable characters of ASCII
/// in it, 32 to 126, and has two escapes; a backslash that begins neither
/// stands for itself.
pub fn text(literal: &[u8]) -> Told<Vec<Sign>> {
    let mut text = Vec::new();
    let mut rest = literal;
    while let Some((&first, behind)) = rest.split_first() {
        if !(32..=126).contains(&first) {
            return Err(format!("byte {first} in a literal; the theory allows 32 to 126"));
        }
        let (sign, behind) = escape(rest).unwrap_or((Sign::from(first), behind));
        text.push(sign);
        rest = behind;
    }
    Ok(text)
}

/// `\u` and four hexadecimal digits, or `\u{`, one to five of them and `}`,
/// where the first of five is at most 2.
fn escape(literal: &[u8]) -> Option<(Sign, &[u8])> {
    let rest = literal.strip_prefix(b"\\u")?;
    let (digits, behind) = match rest.strip_prefix(b"{") {
        Some(inner) => {
            let end = inner.iter().position(|&byte| byte == b'}')?;
            (&inner[..end], &inner[end + 1..])
        }
        None => rest.split_at_checked(4)?,
    };
    if !(1..=5).contains(&digits.len()) {
        return None;
    }
    let sign = digits
        .iter()
        .try_fold(0, |high, &digit| char::from(digit).to_digit(16).map(|low| 16 * high + low))?;
    (sign <= LAST_SIGN).then_some((sign, behind))
}

/// A literal that means this text, for messages.
pub fn shown(text: &[Sign]) -> String {
    let sign = |&sign: &Sign| match char::from_u32(sign) {
        Some('"') => "\"\"".to_string(),
        Some(plain @ (' '..='[' | ']'..='~')) => plain.to_string(),
        _ => format!("\\u{{{sign:X}}}"),
    };
    format!("\"{}\"", text.iter().map(sign).collect::<String>())
}
