//! Readings as written in the field book: document 02's E1. `tests/lists.rs` checks that each edge is met.

use journal::{Call, Name, Request};
use judge::sums::PLACES;

use crate::list::{List, AIC_1};

/// Depth in m, density in kg/m³.
const PIT: [(&str, &str); 6] = [
    ("0.10", "212"),
    ("0.30", "240.5"),
    ("0.50", "251"),
    ("0.70", "287"),
    ("0.90", "290.0"),
    ("1.10", "322.5"),
];

/// 15 digits, and 16.
const FIFTEEN: &str = "123456789012345";
const SIXTEEN: &str = "1234567890123456";

/// The most bytes of a text that its comment shows whole.
const SHOWN: usize = 100;

impl List {
    /// A text as lines, under a comment that shows it.
    fn written(&mut self, text: &str) {
        if text.len() <= SHOWN {
            self.line(&format!("# {text:?}"));
        } else {
            let lines = text.matches('\n').count();
            self.line(&format!("# {} bytes, {lines} of them newlines", text.len()));
        }
        self.call(Call::AddLines(text.as_bytes().to_vec()));
    }

    /// A reading as x and as y, beside a plain one.
    fn on_either_side(&mut self, reading: &str) {
        self.written(&format!("{reading} 1\n"));
        self.written(&format!("1 {reading}\n"));
    }

    /// The columns with one place more.
    fn columns(&mut self, count: usize) {
        self.show(Name::Xs, count + 1);
        self.show(Name::Ys, count + 1);
    }
}

pub fn lines() -> String {
    let mut list =
        List::new("Readings as written in the field book: document 02, E1. Made by `lists lines`.");
    season(&mut list);
    values(&mut list);
    zeros(&mut list);
    digits(&mut list);
    places(&mut list);
    malformed(&mut list);
    order(&mut list);
    whole(&mut list);
    room(&mut list);
    fields(&mut list);
    list.text
}

fn text_of(pairs: &[(&str, &str)]) -> String {
    pairs.iter().map(|(x, y)| format!("{x} {y}\n")).collect()
}

fn season(list: &mut List) {
    list.head("season: a pit as written, then a line more, a correction and a withdrawal");
    list.call(Call::Open);
    list.written(&text_of(&PIT));
    list.columns(6);
    list.show(Name::Sums, PLACES + 1);
    list.whole_report(AIC_1, 6);
    list.written("1.30 331\n");
    list.call(Call::Correct { index: 3, y: 278.0 });
    list.call(Call::Withdraw { index: 4 });
    list.written("1.50 358\n1.70 349.5\n");
    list.columns(8);
    list.fit(1);
    list.show(Name::Coefficients, 3);

    list.head("season: the same pit by single adds has the same columns and sums");
    list.call(Call::Open);
    for (x, y) in [(0.1, 212.0), (0.3, 240.5), (0.5, 251.0), (0.7, 287.0), (0.9, 290.0)] {
        list.add(x, y);
    }
    list.add(1.1, 322.5);
    list.columns(6);
    list.show(Name::Sums, PLACES + 1);
    list.whole_report(AIC_1, 6);
    list.line("# and no lines at all answer the book");
    list.written("");
}

/// Readings whose nearest double is missed by some other way: by a product with 10⁻ᵖ from 0.3 on, by a
/// whole part plus a fraction from 1.14 on, by single precision, by digits that are cut.
const VALUES: [(&str, &str); 18] = [
    ("0.1", "-0.1"),
    ("0.3", "0.7"),
    ("0.35", "0.009"),
    ("1.14", "-1.14"),
    ("1.118", "8.41"),
    ("16777217", "-16777217"),
    ("4503599627370.5", "0.000000000000001"),
    (FIFTEEN, "-123456789012345"),
    ("999999999999999", "-999999999999999"),
    ("99999999999999.9", "9.99999999999999"),
    ("0.123456789012345", "0.999999999999999"),
    ("0.0000000000000000000001", "-0.0000000000000000000003"),
    ("0.0000000999999999999999", "0.0000000123456789012345"),
    ("0.0000000900719925474099", "0.0000000562949953421312"),
    ("1000", "1000.000"),
    ("00012.50", "-000.5"),
    ("3.14159265358979", "2.71828182845904"),
    ("0.5", "0.25"),
];

fn values(list: &mut List) {
    list.head("values: the nearest double, by one rounding");
    list.call(Call::Open);
    for pair in VALUES {
        list.written(&text_of(&[pair]));
    }
    list.columns(VALUES.len());

    list.head("values: every number of places after the point, with 1 digit and with 15");
    list.call(Call::Open);
    let moved = |digits: &str, places: usize| {
        let padded = format!("{digits:0>width$}", width = places + 1);
        let (whole, fraction) = padded.split_at(padded.len() - places);
        format!("{whole}.{fraction}")
    };
    let pairs: Vec<(String, String)> =
        (1..=22).map(|p| (moved("7", p), format!("-{}", moved("987654321098765", p)))).collect();
    let pairs: Vec<(&str, &str)> = pairs.iter().map(|(x, y)| (&x[..], &y[..])).collect();
    list.written(&text_of(&pairs));
    list.columns(22);
}

fn zeros(list: &mut List) {
    list.head("zeros: minus zero keeps its sign");
    list.call(Call::Open);
    list.written("0 -0\n");
    list.written("-0.0 0.0\n-000 000\n");
    list.written("-0.0000000000000000000000 0.0000000000000000000000\n");
    list.columns(4);
    list.show(Name::Sums, PLACES);
}

fn digits(list: &mut List) {
    let zeros = |count| "0".repeat(count);
    list.head("digits: 15 pass, wherever leading zeros and the point stand");
    list.call(Call::Open);
    let pass = [
        FIFTEEN.to_string(),
        format!("-{FIFTEEN}"),
        format!("{}{FIFTEEN}", zeros(1)),
        format!("{}{FIFTEEN}", zeros(300)),
        "12345678901234.5".to_string(),
        "1.00000000000000".to_string(),
        format!("0.{FIFTEEN}"),
        format!("0.{}{FIFTEEN}", zeros(7)),
        format!("{}.{}{FIFTEEN}", zeros(40), zeros(7)),
    ];
    for reading in &pass {
        list.on_either_side(reading);
    }
    list.columns(2 * pass.len());

    list.head("digits: 16 are refused by 14, trailing zeros among them");
    list.call(Call::Open);
    let refused = [
        SIXTEEN.to_string(),
        format!("-{SIXTEEN}"),
        "1000000000000000".to_string(),
        format!("{}{SIXTEEN}", zeros(1)),
        format!("{}{SIXTEEN}", zeros(300)),
        "12345678901234.56".to_string(),
        "123456789012345.0".to_string(),
        "1.000000000000000".to_string(),
        format!("0.{SIXTEEN}"),
        format!("0.{}{SIXTEEN}", zeros(6)),
        format!("{}.{}{SIXTEEN}", zeros(40), zeros(6)),
        "9".repeat(60),
    ];
    for reading in &refused {
        list.on_either_side(reading);
    }
}

fn places(list: &mut List) {
    let zeros = |count| "0".repeat(count);
    list.head("places: 22 after the point pass");
    list.call(Call::Open);
    for reading in [format!("0.{}1", zeros(21)), format!("0.{}", zeros(22))] {
        list.on_either_side(&reading);
        list.on_either_side(&format!("-{reading}"));
        list.on_either_side(&format!("{}{reading}", zeros(30)));
    }
    list.columns(12);

    list.head("places: 23 are refused by 14, even if all are 0");
    list.call(Call::Open);
    for reading in [format!("0.{}1", zeros(22)), format!("0.{}", zeros(23))] {
        list.on_either_side(&reading);
        list.on_either_side(&format!("-{reading}"));
    }
}

fn malformed(list: &mut List) {
    list.head("malformed: readings that are none, as x and as y");
    list.call(Call::Open);
    let readings = [
        ".5", "-.5", "5.", "-5.", ".", "-", "-.", "", "+1", "--1", "1-", "1e3", "1E3", "1.2.3",
        "1..2", "1,5", "0x1", "1_000", "inf", "nan", "1/", "1:", "1\0", "1\u{7f}",
    ];
    for reading in readings {
        list.on_either_side(reading);
    }

    list.head("malformed: bytes above 127, and a superscript two");
    list.call(Call::AddLines(b"1 2\xFF\n".to_vec()));
    list.call(Call::AddLines(b"1 \xB2\n".to_vec()));
    list.written("1 2²\n");

    list.head("malformed: lines that are none");
    let lines = [
        "\n",
        " \n",
        "1\n",
        "1 \n",
        " 1\n",
        "1  2\n",
        " 1 2\n",
        "1 2 \n",
        "1 2 3\n",
        "1\t2\n",
        "1 2\t\n",
        "1 2\r\n",
        "\r\n",
        "1 2\r",
        "1 2",
        "1",
        "1 ",
        " ",
        "-",
        "1 2\n\n",
        "\n1 2\n",
        "1 2\n3 4",
        "1 2\n3",
        "1 2\n ",
        "1;2\n",
        "1\n2\n",
        "1\u{a0}2\n",
        "#1 2\n",
        "\u{feff}1 2\n",
    ];
    for line in lines {
        list.written(line);
    }
    list.line("# nothing of them was added");
    list.written("1 2\n");
    list.columns(1);
}

fn order(list: &mut List) {
    list.head("order: the first line that has a number gives it, 13 first within a line");
    list.call(Call::Open);
    let texts = [
        format!("{SIXTEEN} 2\nx\n"),
        format!("x\n{SIXTEEN} 2\n"),
        format!("1 2\n1 {SIXTEEN}\n3 4\n.5 2\n"),
        format!("1 2\n.5 2\n3 4\n1 {SIXTEEN}\n"),
        format!("{SIXTEEN} x\n"),
        format!("x {SIXTEEN}\n"),
        format!("{SIXTEEN} 2 3\n"),
        format!("{SIXTEEN}  2\n"),
        format!("{SIXTEEN}\n"),
        format!("1 {SIXTEEN}"),
        format!("1 {SIXTEEN}\r\n"),
        format!("{SIXTEEN} {SIXTEEN}\n"),
        format!("{SIXTEEN} 0.{}\n", "0".repeat(23)),
        format!("{SIXTEEN} 2\n{SIXTEEN} x\n"),
    ];
    for text in &texts {
        list.written(text);
    }

    list.head("order: 1 before 13 and 14, and these before 5");
    list.lent(Name::Ys, 2);
    list.call(Call::Open);
    list.written("1 2\n");
    let texts = [
        "3 4\n5 6\n".to_string(),
        "3 4\n5 6".to_string(),
        "3 4\n.5 6\n".to_string(),
        format!("3 4\n5 {SIXTEEN}\n"),
        format!("3 4\n5 6\n7 {SIXTEEN}\nx\n"),
        "3 4\n5 6\n7 8\nx\n".to_string(),
        String::new(),
    ];
    for sums in [PLACES, PLACES - 1] {
        list.lent(Name::Sums, sums);
        for text in &texts {
            list.written(text);
        }
    }
    list.lent(Name::Sums, PLACES);
    list.columns(2);
    list.written("3 4\n");
    list.columns(2);
    list.line("# a count above capacity");
    list.ask(Request::Count(3));
    for text in &texts {
        list.written(text);
    }
    list.ask(Request::Count(999_999_999));
    list.written("");
    list.lend_all();
}

fn whole(list: &mut List) {
    list.head("whole: a bad last line, and nothing is added");
    list.call(Call::Open);
    list.written("7 8\n");
    let good: String = (0..40).map(|i| format!("{i}.5 -{i}\n")).collect();
    for last in ["x\n", "1 2", "1 2\r\n", "\n", &format!("1 {SIXTEEN}\n")] {
        list.written(&format!("{good}{last}"));
        list.columns(3);
        list.show(Name::Sums, 2);
    }
    list.line("# without it, all are");
    list.written(&good);
    list.columns(41);
}

fn room(list: &mut List) {
    let text =
        |count: usize| (0..count).map(|i| format!("{} {}\n", i % 7, i % 10)).collect::<String>();
    list.head("room: 5,000 lines pass capacity; with a bad last line they are 13 or 14");
    list.call(Call::Open);
    list.written(&text(5000));
    list.written(&format!("{}x\n", text(4999)));
    list.written(&format!("{}1 {SIXTEEN}\n", text(4999)));
    list.columns(3);

    list.head("room: 4,097 lines pass it, 4,096 fill the book, also in longer columns");
    for columns in [4096, 4200] {
        for name in [Name::Xs, Name::Ys, Name::Ws] {
            list.lent(name, columns);
        }
        list.call(Call::Open);
        list.written(&text(4097));
        list.written(&text(4096));
        list.written("1 2\n");
        list.written("");
        list.written("x\n");
        list.ask(Request::Show { name: Name::Ys, from: 4090, to: 4098 });
        list.fit(1);
        list.show(Name::Coefficients, 3);
    }
    list.ask(Request::Count(4097));
    list.written("");
    list.lend_all();

    list.head("room: a book of no places takes no lines and no others");
    list.lent(Name::Xs, 0);
    list.call(Call::Open);
    list.written("");
    list.written("1 2\n");
    list.written("1 2");
    list.lend_all();
}

fn fields(list: &mut List) {
    list.head("fields: what is no text at all is malformed by this list's own rules");
    list.call(Call::Open);
    for line in ["lines ", "lines 3", "lines 3G", "lines 31 32", "lines 1 2", "line 310A", "Lines"]
    {
        list.line(line);
    }
    list.line("# small letters are fine");
    list.line("lines 3120320a");
    list.line("# the longest text, of zeros and no line; two digits more; a line of 131,101 bytes");
    list.line(&format!("lines {}", "30".repeat(65_537)));
    list.line(&format!("lines {}", "30".repeat(65_538)));
    list.line(&format!("lines {}", "3".repeat(131_101 - 6)));
    let zeros = "0".repeat(65_537 - 6);
    list.line("# the longest text, with leading zeros, that passes");
    list.written(&format!("{zeros}1.5 2\n"));
    list.columns(2);
}
