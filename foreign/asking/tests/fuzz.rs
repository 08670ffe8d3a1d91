//! Requests that are nearly right: each gets an answer, which is JSON, and the same one again.

mod common;

use bradovusc_asking::json::{read, Value};
use bradovusc_asking::request::answer;
use common::{object, quoted, LATCHES};

/// Numbers that look random and are the same in every run.
struct Dice(u64);

impl Dice {
    fn below(&mut self, n: usize) -> usize {
        self.0 ^= self.0 >> 12;
        self.0 ^= self.0 << 25;
        self.0 ^= self.0 >> 27;
        (self.0.wrapping_mul(0x2545_F491_4F6C_DD1D) >> 16) as usize % n.max(1)
    }

    fn pick<'a>(&mut self, list: &[&'a str]) -> &'a str {
        list[self.below(list.len())]
    }
}

/// What is put into a request.
const PIECES: [&str; 28] = [
    "{",
    "}",
    "[",
    "]",
    ",",
    ":",
    "\"",
    "\\",
    "\\u00e9",
    "\\ud83d",
    "null",
    "true",
    "-1",
    "0.5e9",
    "\"rules\"",
    "\"files\"",
    "\"left\"",
    "\"pairs\"",
    "\"room\":9",
    "\"all\"",
    "a = {x}",
    "\\n",
    "#",
    " ",
    "\u{0}",
    "é",
    "\u{2028}",
    "{x}{x}",
];

fn requests() -> Vec<String> {
    let latches = quoted(LATCHES);
    let two = r#""left":{"template":"LT{size}","fields":{"size":"[0-9]{2}"}},"right":{"template":"L{x}"}"#;
    vec![
        format!("{{\"rules\":{latches},\"steps\":true,\"bands\":true,\"words\":true,\"summary\":true}}"),
        format!("{{\"files\":[{{\"name\":\"a\",\"text\":{latches}}}],\"pairs\":[[\"mortice\",\"rim\"]],\"room\":99}}"),
        format!("{{{two},\"edition\":\"full ascii\",\"no_clash\":false}}"),
    ]
}

/// One to four changes: a piece put in, some bytes taken out, a byte changed, a part said twice.
fn changed(dice: &mut Dice, request: &str) -> Vec<u8> {
    let mut bytes = request.as_bytes().to_vec();
    for _ in 0..1 + dice.below(4) {
        let at = dice.below(bytes.len() + 1);
        let end = (at + dice.below(9)).min(bytes.len());
        match dice.below(4) {
            0 => drop(bytes.splice(at..at, dice.pick(&PIECES).bytes())),
            1 => drop(bytes.drain(at..end)),
            2 if at < bytes.len() => bytes[at] = dice.below(256) as u8,
            _ => {
                let again = bytes[at..end].to_vec();
                drop(bytes.splice(at..at, again));
            }
        }
    }
    bytes
}

#[test]
fn requests_that_are_nearly_right() {
    let (mut dice, requests) = (Dice(41), requests());
    let mut statuses = [0; 6];
    for number in 0..6_000 {
        let request = changed(&mut dice, &requests[number % requests.len()]);
        let (status, lines) = answer(&request);
        statuses[usize::from(status.number())] += 1;
        let shown = || String::from_utf8_lossy(&request).into_owned();
        assert_ne!(status.number(), 4, "{}", shown());
        assert!(lines.is_empty() || lines.ends_with('\n'), "{}", shown());
        for line in lines.lines() {
            let told = object(line);
            let kinds = ["left", "summary", "mistake", "mistakes", "error"];
            assert_eq!(kinds.iter().filter(|kind| told.contains_key(**kind)).count(), 1, "{line}");
        }
        if number % 10 == 0 {
            assert_eq!(answer(&request).1, lines);
        }
    }
    assert!(statuses[1] > 100 && statuses[3] > 1_000, "{statuses:?}");
}

/// What is read is written by the notation's writer, and read again as the same.
#[test]
fn what_is_read_is_text() {
    let (mut dice, mut good) = (Dice(42), 0);
    for _ in 0..20_000 {
        let pieces: String = (0..dice.below(6)).map(|_| dice.pick(&PIECES)).collect();
        let text = format!("\"{pieces}\"");
        if let Ok(Value::Text(read_once)) = read(text.as_bytes()) {
            assert_eq!(read(quoted(&read_once).as_bytes()), Ok(Value::Text(read_once)));
            good += 1;
        }
    }
    assert!(good > 1_000, "{good}");
}
