//! Texts of Full ASCII spelt and read back: the rows of the standard's table, and
//! each answer with what it leaves in the buffer.

use std::collections::BTreeSet;

use second::full_ascii::{into, read_back, spelling, spelt, Case, Done};
use second::make::{ascii, Dice};
use second::{Outcome, CODE_39};

const FILL: u8 = 165;

fn values(signs: &str) -> Vec<u8> {
    signs.bytes().map(|sign| CODE_39.iter().position(|&of| of == sign).unwrap() as u8).collect()
}

/// Each character with its spelling by signs, row by row as RULES has them.
#[test]
fn the_rows_of_the_table() {
    let rows = [
        (0, "%U"),
        (1, "$A $B $C $D $E $F $G $H $I $J $K $L $M $N $O $P $Q $R $S $T $U $V $W $X $Y $Z"),
        (27, "%A %B %C %D %E"),
        (33, "/A /B /C /D /E /F /G /H /I /J /K /L - . /O"),
        (48, "0 1 2 3 4 5 6 7 8 9 /Z %F %G %H %I %J %V"),
        (65, "A B C D E F G H I J K L M N O P Q R S T U V W X Y Z %K %L %M %N %O %W"),
        (97, "+A +B +C +D +E +F +G +H +I +J +K +L +M +N +O +P +Q +R +S +T +U +V +W +X +Y +Z"),
        (123, "%P %Q %R %S %T"),
    ];
    let mut seen = 1;
    assert_eq!(spelling(b' '), Some(values(" ")));
    for (first, row) in rows {
        for (character, signs) in (first..).zip(row.split(' ')) {
            assert_eq!(spelling(character), Some(values(signs)), "{character}");
            seen += 1;
        }
    }
    assert_eq!(seen, 128);
    assert!((128..=255).all(|byte| spelling(byte).is_none()));
}

#[test]
fn no_two_are_spelt_alike() {
    let spellings: BTreeSet<_> = (0..128).map(|character| spelling(character).unwrap()).collect();
    assert_eq!(spellings.len(), 128);
    // None begins another.
    assert!(spellings.iter().all(|long| long.len() == 1 || !spellings.contains(&long[..1])));
}

#[test]
fn what_the_table_does_not_give() {
    for signs in
        ["$", "/", "+", "%", "A$", "%X", "%Y", "%Z", "/M", "/N", "/P", "/Y", "+0", "$-", "%%", "/$"]
    {
        assert_eq!(read_back(&values(signs)), None, "{signs}");
    }
    for value in 43..=255 {
        assert_eq!(read_back(&[value]), None);
        assert_eq!(read_back(&[42, value]), None);
    }
    // 89 characters have a shift sign and 39 have none.
    let pairs = (0..43u8).flat_map(|first| (0..43u8).map(move |second| [first, second]));
    let texts: Vec<usize> = pairs.filter_map(|pair| Some(read_back(&pair)?.len())).collect();
    assert_eq!(texts.iter().filter(|&&length| length == 1).count(), 89);
    assert_eq!(texts.iter().filter(|&&length| length == 2).count(), 39 * 39);
}

#[test]
fn the_buffers() {
    let text: Vec<u8> = (0..128).collect();
    let values = spelt(&text).unwrap();
    assert_eq!(values.len(), 128 + 89);
    for (done, bytes, made) in [(Done::Spell, &text, &values), (Done::Read, &values, &text)] {
        for length in 0..made.len() + 3 {
            let mut output = vec![FILL; length];
            let told = into(done, bytes, &mut output);
            let (number, written) = if length < made.len() { (46, 0) } else { (0, made.len()) };
            assert_eq!(told, Outcome { number, count: 0, place: 0, written });
            assert_eq!(output[..written], made[..written]);
            assert!(output[written..].iter().all(|&byte| byte == FILL));
        }
    }
    // 45 comes before 46.
    for length in [0, 1, 9] {
        let mut output = vec![FILL; length];
        let refused = Outcome { number: 45, count: 0, place: 0, written: 0 };
        assert_eq!(into(Done::Spell, &[65, 128], &mut output), refused);
        assert_eq!(into(Done::Read, &[10, 42], &mut output), refused);
        assert!(output.iter().all(|&byte| byte == FILL));
    }
}

#[test]
fn there_and_back() {
    let mut dice = Dice::new(10);
    let (mut read, mut refused) = (0, 0);
    for _ in 0..20_000 {
        let case = ascii::made(&mut dice);
        match (case.done, read_back(&case.bytes)) {
            (Done::Spell, _) => {
                if let Some(values) = spelt(&case.bytes) {
                    assert_eq!(read_back(&values).as_ref(), Some(&case.bytes));
                }
            }
            (Done::Read, Some(text)) => {
                assert_eq!(spelt(&text).as_ref(), Some(&case.bytes));
                read += 1;
            }
            (Done::Read, None) => refused += 1,
        }
    }
    assert!(read > 2_000 && refused > 2_000, "{read} {refused}");
}

#[test]
fn a_stream_is_read_as_it_was_written() {
    let mut dice = Dice::new(3);
    let mut cases: Vec<Case> = (0..200).map(|_| ascii::made(&mut dice)).collect();
    cases.extend(ascii::stored());
    let mut stream = Vec::new();
    cases.iter().for_each(|case| case.write(&mut stream));
    let mut rest = &stream[..];
    for case in &cases {
        assert!(case.bytes.len() <= 1_024 && case.output <= 2_304);
        let (read, behind) = Case::read(rest).unwrap();
        assert_eq!(&read, case);
        rest = behind;
    }
    assert!(rest.is_empty());
    assert_eq!(Case::read(&stream[..3]), None);
}
