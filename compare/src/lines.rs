//! Texts of lines (document 02, E1), around every edge of what passes, and what must happen with them.

use journal::Answer;
use judge::lines::{self, Reading, MOST_DIGITS, MOST_PLACES};

use crate::random::Random;

/// What must happen with texts. Where a text is refused, the first line that has a number would pass but
/// for what is named.
pub const EVENTS: [&str; 30] = [
    "lines: none",
    "lines: one",
    "lines: more than one",
    "lines: 4,096",
    "lines: 5,000, refused by 5",
    "lines: -0",
    "lines: +0",
    "lines: 15 digits",
    "lines: 15 digits, with leading zeros left of the point",
    "lines: 15 digits, with leading zeros right of the point",
    "lines: 16 digits",
    "lines: 16 digits, with leading zeros left of the point",
    "lines: 16 digits, with leading zeros right of the point",
    "lines: 22 places",
    "lines: 23 places",
    "lines: 23 places, all of them 0",
    "lines: a product with a power of ten would be another number",
    "lines: a whole part plus a fraction would be another number",
    "lines: a reading like .5",
    "lines: a reading like 5.",
    "lines: a reading like +1",
    "lines: a reading like 1e3",
    "lines: two spaces",
    "lines: CR",
    "lines: tab",
    "lines: no newline",
    "lines: an empty line",
    "lines: 13 or 14 on the last line alone",
    "lines: 13 and 14 within a line",
    "lines: 14 on an earlier line than 13",
];

/// So many digits, the first of them not 0.
fn digits(random: &mut Random, count: usize) -> String {
    let kind = random.below(8);
    let digit = |at: usize| match kind {
        0 => b'9',
        1 if at > 0 => b'0',
        _ if at == 0 => b'1' + random.below(9) as u8,
        _ => b'0' + random.below(10) as u8,
    };
    (0..count).map(digit).map(char::from).collect()
}

/// So many digits with leading zeros dropped, so many places after the point.
fn reading_of(random: &mut Random, count: usize, places: usize) -> String {
    let zeros = random.pick(&[0, 0, 0, 1, 2, 30]);
    let number = digits(random, count);
    let padded = format!("{}{number:0>width$}", "0".repeat(zeros), width = places + 1);
    let (whole, fraction) = padded.split_at(padded.len() - places);
    let (minus, point) =
        (if random.one_in(3) { "-" } else { "" }, if places > 0 { "." } else { "" });
    format!("{minus}{whole}{point}{fraction}")
}

/// A reading that passes, often with as many digits or places as do.
fn reading(random: &mut Random) -> String {
    let count = match random.below(6) {
        0 => 0,
        1 | 2 => MOST_DIGITS,
        _ => random.between(1, MOST_DIGITS),
    };
    let places = match random.below(8) {
        0 => MOST_PLACES,
        1 => random.between(0, MOST_PLACES),
        2 => count,
        3 | 4 => 0,
        _ => random.between(1, 3),
    };
    reading_of(random, count, places)
}

/// A reading with too many digits, mostly by one.
fn long_reading(random: &mut Random) -> String {
    let more = random.pick(&[1, 1, 1, 2, 40]);
    if random.one_in(2) {
        let places = random.pick(&[0, 1, 16, 17, MOST_PLACES]);
        reading_of(random, MOST_DIGITS + more, places)
    } else {
        let count = random.pick(&[0, 1, MOST_DIGITS]);
        reading_of(random, count, MOST_PLACES + more)
    }
}

/// What is nearly a reading.
fn wrong_reading(random: &mut Random) -> String {
    let right = reading(random);
    match random.below(8) {
        0 => ".5".to_string(),
        1 => format!("{}.", right.split('.').next().unwrap_or_default()),
        2 => format!("+{}", right.trim_start_matches('-')),
        3 => format!("{}e{}", random.below(10), random.below(10)),
        4 => right.replace('.', ","),
        5 => format!("{right}-"),
        6 => right.trim_start_matches(|byte: char| byte != '.').to_string(),
        _ => random.pick(&["", "-", ".", "-.", "inf", "nan", "0x1", "1.2.3"]).to_string(),
    }
}

/// So many lines that pass: all of a pit, depth in m and density in kg/m³, or all at the edges.
pub fn right(random: &mut Random, count: usize) -> Vec<u8> {
    let pit = random.one_in(2);
    let mut text = String::new();
    for _ in 0..count {
        let (x, y) = match pit {
            true => {
                let depth = format!("{}.{:02}", random.below(4), random.below(100));
                (depth, format!("{}.5", random.between(150, 600)))
            }
            false => (reading(random), reading(random)),
        };
        text += &format!("{x} {y}\n");
    }
    text.into_bytes()
}

/// A line that is nearly right.
fn wrong_line(random: &mut Random) -> String {
    let (x, y) = (reading(random), reading(random));
    match random.below(16) {
        0 => "\n".to_string(),
        1 => format!("{x}  {y}\n"),
        2 => format!("{x}\t{y}\n"),
        3 => format!("{x} {y}\r\n"),
        4 => format!("{x} {y} \n"),
        5 => format!(" {x} {y}\n"),
        6 => format!("{x}\n"),
        7 => format!("{} {}\n", long_reading(random), wrong_reading(random)),
        8 => format!("{} {}\n", wrong_reading(random), long_reading(random)),
        9 => format!("{x} {}\n", wrong_reading(random)),
        10 | 11 => format!("{} {y}\n", wrong_reading(random)),
        12 => format!("{} {}\n", long_reading(random), long_reading(random)),
        13 => format!("{x} {}\n", long_reading(random)),
        _ => format!("{} {y}\n", long_reading(random)),
    }
}

/// Right lines with something wrong, mostly in one place.
pub fn wrong(random: &mut Random, count: usize) -> Vec<u8> {
    let mut text = right(random, count);
    match random.below(8) {
        0 => drop(text.pop()),
        1 => text.truncate(random.below(text.len() + 1)),
        2 if !text.is_empty() => {
            let (at, byte) = (random.below(text.len()), random.next() as u8);
            text[at] = random.pick(&[b'0', b'.', b'-', b' ', b'\n', b'\r', byte]);
        }
        3 => text = (0..random.below(30)).map(|_| random.pick(b"-.015 \n\n")).collect(),
        4 => text.extend(wrong_line(random).bytes()),
        _ => {
            let mut lines: Vec<Vec<u8>> = lines::lines(&text).into_iter().map(Vec::from).collect();
            for _ in 0..random.between(1, 2) {
                let at = random.below(lines.len() + 1);
                lines.insert(at, wrong_line(random).into_bytes());
            }
            text = lines.concat();
        }
    }
    text
}

/// The first difference between samples of a text and what the platform's own parser reads, for lines
/// that were added.
pub fn parsed_otherwise(text: &[u8], xs: &[f64], ys: &[f64]) -> Option<String> {
    let text = String::from_utf8_lossy(text);
    let added = xs.iter().zip(ys).flat_map(|(x, y)| [*x, *y]);
    let same = |value: f64, written: &str| {
        written.parse::<f64>().map_or(false, |parsed| parsed.to_bits() == value.to_bits())
    };
    let readings: Vec<&str> = text.split_whitespace().collect();
    if readings.len() != 2 * xs.len() {
        return Some(format!("{} readings, {} samples", readings.len(), xs.len()));
    }
    let other = added.zip(readings).find(|(value, written)| !same(*value, written));
    other.map(|(value, written)| format!("{written} is read as {value:?}"))
}

/// What happened with a text, by name.
pub fn happened(text: &[u8], answer: &Answer) -> Vec<&'static str> {
    let lines = lines::lines(text);
    match answer {
        Answer::Book(_) => answered(&lines),
        Answer::Refused(5) if lines.len() == 5000 => vec!["lines: 5,000, refused by 5"],
        Answer::Refused(13 | 14) => refused(&lines),
        _ => Vec::new(),
    }
}

/// The readings of a line.
fn readings(line: &[u8]) -> Vec<(Reading, &[u8])> {
    let fields = line.split(|byte| matches!(byte, b' ' | b'\n'));
    fields.filter_map(|field| Some((lines::reading(field)?, field))).collect()
}

fn answered(lines: &[&[u8]]) -> Vec<&'static str> {
    let mut events = vec![match lines.len() {
        0 => "lines: none",
        1 => "lines: one",
        4096 => "lines: 4,096",
        _ => "lines: more than one",
    }];
    for (read, field) in lines.iter().flat_map(|line| readings(line)) {
        let leading = leading_zeros(field);
        let mut note_if = |holds: bool, event| {
            if holds {
                events.push(event);
            }
        };
        note_if(read.digits.is_empty(), if read.minus { "lines: -0" } else { "lines: +0" });
        let fifteen = read.digits.len() == MOST_DIGITS;
        note_if(fifteen, "lines: 15 digits");
        note_if(fifteen && leading.0, "lines: 15 digits, with leading zeros left of the point");
        note_if(fifteen && leading.1, "lines: 15 digits, with leading zeros right of the point");
        note_if(read.places == MOST_PLACES, "lines: 22 places");
        let (product, sum) = other_ways(&read, field);
        let value = read.value();
        note_if(value != product, "lines: a product with a power of ten would be another number");
        note_if(value != sum, "lines: a whole part plus a fraction would be another number");
    }
    events
}

/// Whether a digit follows zeros before the point, and whether it follows zeros after it.
fn leading_zeros(field: &[u8]) -> (bool, bool) {
    let unsigned = field.strip_prefix(b"-").unwrap_or(field);
    let zeros = unsigned.iter().take_while(|byte| matches!(byte, b'0' | b'.')).count();
    match unsigned[..zeros].iter().position(|&byte| byte == b'.') {
        None => (zeros > 0, false),
        Some(point) => (false, zeros > point + 1),
    }
}

/// The value by a product with 10⁻ᵖ, and by a whole part plus a fraction.
fn other_ways(read: &Reading, field: &[u8]) -> (f64, f64) {
    let number =
        |digits: &[u8]| digits.iter().fold(0.0, |n, digit| 10.0 * n + f64::from(digit - b'0'));
    let sign = if read.minus { -1.0 } else { 1.0 };
    let product = number(&read.digits) * (1.0 / 10f64.powi(read.places as i32));
    let whole = field.len() - if read.places > 0 { read.places + 1 } else { 0 };
    let whole = &field[usize::from(read.minus)..whole];
    let fraction = number(&field[field.len() - read.places..]) / 10f64.powi(read.places as i32);
    (sign * product, sign * (number(whole) + fraction))
}

fn refused(lines: &[&[u8]]) -> Vec<&'static str> {
    let bad = |line: &&[u8]| lines::malformed(line) || lines::too_many_digits(line);
    let first = match lines.iter().position(bad) {
        Some(first) => first,
        None => return Vec::new(),
    };
    let (line, later) = (lines[first], &lines[first + 1..]);
    let mut events = if lines::malformed(line) { mended(line) } else { long_ones(line) };
    if first > 0 && later.is_empty() {
        events.push("lines: 13 or 14 on the last line alone");
    }
    if lines::malformed(line) && lines::too_many_digits(line) {
        events.push("lines: 13 and 14 within a line");
    }
    if !lines::malformed(line) && later.iter().any(|line| lines::malformed(line)) {
        events.push("lines: 14 on an earlier line than 13");
    }
    events
}

/// By how much a line has too many digits.
fn long_ones(line: &[u8]) -> Vec<&'static str> {
    let mut events = Vec::new();
    for (read, field) in readings(line) {
        if read.digits.len() == MOST_DIGITS + 1 && read.places <= MOST_PLACES {
            events.push("lines: 16 digits");
            match leading_zeros(field) {
                (true, _) => events.push("lines: 16 digits, with leading zeros left of the point"),
                (_, true) => events.push("lines: 16 digits, with leading zeros right of the point"),
                _ => {}
            }
        }
        if read.places == MOST_PLACES + 1 && read.digits.len() <= MOST_DIGITS {
            events.push("lines: 23 places");
            if read.digits.is_empty() {
                events.push("lines: 23 places, all of them 0");
            }
        }
    }
    events
}

/// What is wrong with a malformed line that would pass without it.
fn mended(line: &[u8]) -> Vec<&'static str> {
    if line == b"\n" {
        return vec!["lines: an empty line"];
    }
    let text = String::from_utf8_lossy(line);
    let mends = [
        ("lines: no newline", format!("{text}\n")),
        ("lines: CR", text.replace('\r', "")),
        ("lines: tab", text.replace('\t', " ")),
        ("lines: two spaces", text.replace("  ", " ")),
        ("lines: a reading like .5", format!(" {text}").replace(" .", " 0.").split_off(1)),
        ("lines: a reading like 5.", text.replace(". ", ".0 ").replace(".\n", ".0\n")),
        ("lines: a reading like +1", text.replace('+', "")),
        ("lines: a reading like 1e3", text.replace('e', "")),
    ];
    let passes = |text: &str| !lines::malformed(text.as_bytes());
    mends.iter().filter(|(_, mended)| passes(mended)).map(|(event, _)| *event).collect()
}
