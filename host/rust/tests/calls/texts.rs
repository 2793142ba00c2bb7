//! The DIMACS reader on drawn texts, on their beginnings and with bytes changed, and on all short texts over a few bytes.
use crate::compare::{same, Comparison, Counts};
use crate::draw::Draw;
use crate::guarded;
use crate::reckoning::dimacs::{self, Formula};
use crate::reckoning::{reader, refusal, DIMACS_ROOM};

/// Compares the answer to one text, and gives the book if there is one.
fn compare(text: &[u8], counts: &mut Counts) -> Option<Vec<u8>> {
    let read = dimacs::read(text);
    let expected = read.as_ref().map(Formula::book).map_err(|&refusal| refusal);
    same(guarded::read_dimacs(text, DIMACS_ROOM), expected.clone(), "book", text);
    counts.add("texts", 1);
    match expected {
        Ok(_) => counts.add("books made", 1),
        Err(refusal) => counts.add_refusal(refusal),
    }
    same_models(&read.ok()?, expected.as_ref().unwrap(), counts);
    expected.ok()
}

/// The book's models and the text's must be the same fillings.
fn same_models(formula: &Formula, bytes: &[u8], counts: &mut Counts) {
    let book = reader::read(bytes).expect("a text makes a book that is accepted");
    counts.add("clauses dropped", formula.clauses.len() - book.rules.len());
    if formula.variables > 6 {
        return;
    }
    for filling in 0..1 << formula.variables {
        let obeyed = book.rules.iter().all(|r| r.yes & filling != 0 || r.no & !filling != 0);
        assert_eq!(obeyed, formula.holds(filling));
        counts.add("models held against the text", obeyed.into());
    }
}

/// One or more bytes that part, of those given.
fn part(draw: &mut Draw, text: &mut Vec<u8>, parting: &[u8]) {
    let count = if draw.chance(80) { 1 } else { draw.between(1, 3) };
    text.extend((0..count).map(|_| draw.pick(parting)));
}

/// A number, once in a while in a form that is wrong or too large.
fn number(draw: &mut Draw, value: usize) -> String {
    let odd = ["0", "00", "01", "-0", "+1", "--1", "-", "1-", "x", "49", "129", "257", "65537"];
    let huge = ["4294967297", "18446744073709551617", "99999999999999999999999999"];
    match draw.between(0, 399) {
        0 => draw.pick(&odd).to_string(),
        1 => draw.pick(&huge).to_string(),
        2 => format!("0{value}"),
        _ => value.to_string(),
    }
}

fn clause(draw: &mut Draw, text: &mut Vec<u8>, variables: usize) {
    let length = match draw.between(0, 19) {
        0 => draw.between(7, 14),
        1 => 0,
        _ => draw.between(1, 4),
    };
    for _ in 0..if variables == 0 { 0 } else { length } {
        let over = usize::from(draw.chance(1) && draw.chance(20));
        let variable = draw.between(1, variables) + over;
        let sign = if draw.chance(50) { "-" } else { "" };
        text.extend(sign.bytes());
        text.extend(number(draw, variable).bytes());
        part(draw, text, b"  \t\r\n");
    }
    text.push(b'0');
}

fn text(draw: &mut Draw) -> Vec<u8> {
    let mut text = Vec::new();
    for _ in 0..draw.pick(&[0, 0, 0, 1, 2]) {
        text.extend(draw.pick(&["c", "cc p cnf 1 1\r", "c 1 0\t\x00\u{ff}"]).bytes());
        text.push(b'\n');
    }
    let small = [0, 1, 2, 3, 4, 5, 6];
    let variables = if draw.chance(70) { draw.pick(&small) } else { draw.between(7, 49) };
    let count = if draw.chance(95) { draw.between(0, 8) } else { draw.pick(&[126, 127, 128, 129]) };
    text.push(b'p');
    part(draw, &mut text, b"  \t\r");
    text.extend(b"cnf");
    part(draw, &mut text, b"  \t\r");
    text.extend(number(draw, variables).bytes());
    part(draw, &mut text, b"  \t\r");
    text.extend(number(draw, count).bytes());
    for _ in 0..count {
        part(draw, &mut text, b"\n\n\n \t\r");
        clause(draw, &mut text, variables);
    }
    if draw.chance(50) {
        part(draw, &mut text, b"\n\n \t\r");
    }
    text
}

#[test]
fn drawn_texts() {
    let mut counts = Counts::default();
    for number in 0..24_000 {
        let mut draw = Draw::new("text", number);
        let text = text(&mut draw);
        let made = compare(&text, &mut counts);
        let room = draw.between(0, DIMACS_ROOM - 1);
        same(guarded::read_dimacs(&text, room), Err(refusal(8, 0)), "book", &text);
        if let Some(bytes) = made {
            let counts = &mut counts;
            let at = draw.moment();
            Comparison { bytes: &bytes, at, draw: &mut draw, counts, limit: 20_000 }.every_call();
        }
    }
    counts.print("drawn texts");
    counts.at_least(&[("books made", 18_000), ("models held against the text", 80_000)]);
    counts.at_least(&[("clauses dropped", 12_000), ("books by search", 500), ("steps", 20_000)]);
    counts.refused_at_least(12, 2_000);
    counts.refused_at_least(13, 600);
}

#[test]
fn changed_texts() {
    let mut counts = Counts::default();
    let mut number = 0;
    while counts.get("texts") < 200_000 {
        number += 1;
        let mut draw = Draw::new("changed text", number);
        let text = text(&mut draw);
        if text.len() > 120 {
            continue;
        }
        for place in 0..text.len() {
            compare(&text[..place], &mut counts);
            let byte = draw.next() as u8;
            let changed = draw.pick(&[byte, b'0', b'1', b'9', b'-', b' ', b'\n', b'c', b'p', 0x0b]);
            let other = [&text[..place], &[changed], &text[place + 1..]].concat();
            compare(&other, &mut counts);
            let more = [&text[..place], &[changed], &text[place..]].concat();
            compare(&more, &mut counts);
        }
    }
    counts.print("changed texts");
    counts.at_least(&[("texts", 200_000), ("books made", 20_000)]);
    counts.refused_at_least(12, 130_000);
    counts.refused_at_least(13, 2_000);
}

/// All texts of up to so many of these bytes, behind a beginning.
fn all_short(beginning: &str, bytes: &[u8], most: u32, counts: &mut Counts) {
    for length in 0..=most {
        for mut number in 0..bytes.len().pow(length) {
            let mut text = beginning.as_bytes().to_vec();
            for _ in 0..length {
                text.push(bytes[number % bytes.len()]);
                number /= bytes.len();
            }
            compare(&text, counts);
        }
    }
}

#[test]
fn all_short_texts() {
    let mut counts = Counts::default();
    all_short("", b"cpnf 0\n", 5, &mut counts);
    all_short("c\n", b"cp \n", 4, &mut counts);
    all_short("p", b" \t\r\ncnf", 5, &mut counts);
    all_short("p cnf ", b"01249 \t\n-x", 5, &mut counts);
    all_short("p cnf 2 1\n", b"0123 \t\n-c", 5, &mut counts);
    all_short("p cnf 1 2 ", b"01 \r\n-", 6, &mut counts);
    counts.print("all short texts");
    counts.at_least(&[("texts", 250_000), ("books made", 2_500)]);
    counts.refused_at_least(12, 200_000);
    counts.refused_at_least(13, 10_000);
}

/// The number and place of the refusal, written out by hand.
#[test]
fn refused_texts_by_hand() {
    let refused: [(&str, u8, usize); 24] = [
        ("", 12, 0),
        ("c", 12, 1),
        ("c\n", 12, 2),
        (" p cnf 1 0", 12, 0),
        ("p\ncnf 1 0", 12, 1),
        ("p cnf 1", 12, 7),
        ("p cnf 49", 13, 6),
        ("p cnf 49x", 13, 6),
        ("p cnf 48x", 12, 8),
        ("p cnf 048 0", 12, 7),
        ("p cnf 1\n0", 12, 7),
        ("p cnf 1 129", 13, 8),
        ("p cnf 1 00", 12, 9),
        ("p cnf 1 1", 12, 9),
        ("p cnf 1 1 -0", 12, 11),
        ("p cnf 1 1 -", 12, 11),
        ("p cnf 1 1 +1 0", 12, 10),
        ("p cnf 1 1 1 -2x", 12, 12),
        ("p cnf 1 1 1", 12, 11),
        ("p cnf 1 1 1 0 0", 12, 14),
        ("p cnf 1 1 1 01", 12, 13),
        ("p cnf 1 1\nc\n1 0", 12, 10),
        ("p cnf 9 1  9 8 7 6 5 4 3 2 1 0x", 13, 11),
        ("p cnf 9 1  9 8 7 6 5 4 3 2 1", 12, 28),
    ];
    for (text, number, place) in refused {
        let expected = Err(refusal(number, place));
        same(guarded::read_dimacs(text.as_bytes(), DIMACS_ROOM), expected, text, text.as_bytes());
    }
}

/// The bytes of the book, written out by hand.
#[test]
fn good_texts_by_hand() {
    let header = b"CS\x01\0\x01\0\x01CS\x02\0\x01\0\x01";
    let made: [(&str, u8, &[u8]); 5] = [
        ("p cnf 2 0", 0, b""),
        ("c x\np \tcnf\r2 0 \n\n", 0, b""),
        ("p cnf 2 1\n-2 1 0", 1, b"RL\x02\x01\xfe"),
        ("p cnf 2 3\n0\n1 -1 2 0 2 2\n2 0\n", 2, b"RL\0RL\x01\x02"),
        ("p cnf 2 1 1 2 -1 1 2 1 2 1 2 1 2 0", 0, b""),
    ];
    for (text, rules, records) in made {
        let book = [b"HD\x02\x02", &[rules][..], header, records, b"EN"].concat();
        same(guarded::read_dimacs(text.as_bytes(), DIMACS_ROOM), Ok(book), text, text.as_bytes());
    }
}

/// Very long texts: comments, blanks and digits without end.
#[test]
fn long_texts() {
    let mut counts = Counts::default();
    for length in [4_000, 100_000] {
        let comment = format!("c{}\n", "x".repeat(length));
        let blanks = "\n".repeat(length);
        let digits = "1".repeat(length);
        for text in [
            format!("{comment}p cnf 1 1 1 0"),
            comment.trim_end().to_string(),
            "c\n".repeat(length),
            format!("p cnf 1 1{blanks}1{blanks}0{blanks}"),
            format!("p cnf 1 1{blanks}1{blanks}"),
            format!("p cnf {digits} 1"),
            format!("p cnf 1 {digits}"),
            format!("p cnf 1 1 -{digits} 0"),
            format!("p cnf 1 1 {}0", "1 ".repeat(length)),
            format!("p cnf 1 1 {}0 0", "1 -1 ".repeat(length)),
        ] {
            compare(text.as_bytes(), &mut counts);
        }
    }
    counts.at_least(&[("texts", 20), ("books made", 6)]);
}
