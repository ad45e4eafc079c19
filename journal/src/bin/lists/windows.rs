//! Window books: document 02's E11. `tests/lists.rs` checks that each edge is met.

use journal::{Call, Name, Request};
use judge::frame::encode;
use judge::sums::PLACES;
use judge::Sample;

use crate::list::{samples_of, up_to, List, AIC_1, NAN};

type Weighted = (f64, f64, f64);

/// Day, height in cm, and the weight of the reading.
const STAKE: [Weighted; 8] = [
    (1.0, 212.0, 1.0),
    (2.0, 209.5, 1.0),
    (3.0, 208.0, 2.0),
    (4.0, 203.5, 1.0),
    (5.0, 202.0, 0.5),
    (6.0, 198.5, 1.0),
    (7.0, 197.0, 3.0),
    (8.0, 193.5, 1.0),
];

const COLUMNS: [Name; 3] = [Name::Xs, Name::Ys, Name::Ws];

impl List {
    fn window(&mut self, (x, y, weight): Weighted) {
        self.call(Call::AddWindow(Sample { x, y, weight }));
    }

    /// So many places of the columns.
    fn three_columns(&mut self, to: usize) {
        for name in COLUMNS {
            self.show(name, to);
        }
    }

    /// A window of so many places, just opened; the place past them is marked.
    fn open_window(&mut self, length: usize) {
        self.call(Call::Open);
        for name in COLUMNS {
            self.lent(name, length);
            self.put(name, length, 77.0);
        }
    }

    fn shown(&mut self, name: Name, from: usize, to: usize) {
        self.ask(Request::Show { name, from, to });
    }

    /// A plain add, a frame and a line.
    fn plain(&mut self) {
        self.add(9.0, 9.0);
        self.frame(&[(9.0, 9.0)]);
        self.line("# \"9 9\\n\"");
        self.call(Call::AddLines(b"9 9\n".to_vec()));
    }
}

pub fn windows() -> String {
    let mut list = List::new("Window books: document 02, E11. Made by `lists windows`.");
    season(&mut list);
    by_hand(&mut list);
    no_places(&mut list);
    one(&mut list);
    two(&mut list);
    hundred(&mut list);
    most(&mut list);
    refused(&mut list);
    full(&mut list);
    mixed(&mut list);
    afresh(&mut list);
    fields(&mut list);
    list.text
}

fn season(list: &mut List) {
    list.head("season: a stake that sends every day, and the latest five readings");
    list.open_window(5);
    for reading in STAKE {
        list.window(reading);
        list.three_columns(6);
    }
    list.show(Name::Sums, PLACES + 1);
    list.fit(1);
    list.show(Name::Coefficients, 3);
    list.whole_report(up_to(2), 5);
    list.split(up_to(1), 99);
    list.losses(up_to(2));
    list.scores(up_to(2));
    list.validate(5, 1);
    list.band(6.5, 1);
}

fn by_hand(list: &mut List) {
    list.head("by hand: the same by withdrawals of sample 0 and plain adds");
    list.open_window(5);
    for (i, (x, y, weight)) in STAKE.into_iter().enumerate() {
        if i >= 5 {
            list.call(Call::Withdraw { index: 0 });
        }
        list.call(Call::Add(Sample { x, y, weight }));
        list.three_columns(6);
    }
    list.show(Name::Sums, PLACES + 1);
    list.whole_report(up_to(2), 5);
}

fn no_places(list: &mut List) {
    list.head("no places: 5, after 4 and 15; 1 comes first");
    for name in COLUMNS {
        list.open_window(3);
        list.lent(name, 0);
        for sums in [PLACES, PLACES - 1] {
            list.lent(Name::Sums, sums);
            list.window((1.0, 2.0, 1.0));
            list.window((1.0, 2.0, 0.0));
            list.window((NAN, 2.0, 0.0));
        }
        list.lend_all();
    }
}

fn one(list: &mut List) {
    list.head("one: each reading takes the place of the one before");
    list.open_window(1);
    for reading in &STAKE[..3] {
        list.window(*reading);
        list.three_columns(2);
        list.show(Name::Sums, 3);
        list.fit(0);
        list.show(Name::Coefficients, 2);
    }
    list.plain();
}

fn two(list: &mut List) {
    for name in COLUMNS {
        list.head(&format!("two: {} is the shortest", name.word()));
        list.open_window(4);
        list.lent(name, 2);
        for reading in &STAKE[..4] {
            list.window(*reading);
            list.three_columns(4);
        }
        list.show(Name::Sums, PLACES);
        list.lend_all();
    }
}

fn hundred(list: &mut List) {
    list.head("a hundred: the last place filled, and three readings more");
    list.open_window(100);
    let at = |i: usize| (i as f64, (i * 7 % 10) as f64 / 4.0, 1.0 + (i % 2) as f64);
    for i in 0..99 {
        list.window(at(i));
    }
    for i in 99..103 {
        list.window(at(i));
        list.shown(Name::Xs, 0, 2);
        list.shown(Name::Xs, 98, 101);
    }
    list.show(Name::Sums, PLACES);
    list.whole_report(up_to(2), 100);
}

fn most(list: &mut List) {
    let at = |i: usize| ((i % 7) as f64, (i % 10) as f64);
    for length in [4096, 4199] {
        list.head(&format!("most: 4,096 in columns of {length}"));
        list.open_window(length);
        list.put(Name::Xs, 4096, 78.0);
        let pairs: Vec<(f64, f64)> = (0..4095).map(at).collect();
        list.call(Call::AddFrame(encode(&samples_of(&pairs))));
        for i in 0..3 {
            list.window((i as f64, 5.0, 2.0));
            list.shown(Name::Xs, 0, 3);
            list.shown(Name::Xs, 4093, 4097);
        }
        list.show(Name::Sums, PLACES);
        list.plain();
        list.report(up_to(2));
        list.show(Name::Coefficients, 4);
    }
    list.head("most: a count above them is 1");
    list.ask(Request::Count(4097));
    list.window((1.0, 2.0, 3.0));
    list.lend_all();
}

fn refused(list: &mut List) {
    list.head("refused: 1, 4 and 15 of a full book, and nothing goes");
    list.open_window(2);
    list.window(STAKE[0]);
    list.window(STAKE[1]);
    let wrong = [
        (NAN, 1.0, 1.0),
        (1.0, f64::INFINITY, 1.0),
        (1.0, 1.0, NAN),
        (1.0, 1.0, -f64::INFINITY),
        (NAN, 1.0, 0.0),
        (1.0, 1.0, 0.0),
        (1.0, 1.0, -0.0),
        (1.0, 1.0, -5e-324),
    ];
    for sums in [PLACES, PLACES - 1] {
        list.lent(Name::Sums, sums);
        for sample in wrong {
            list.window(sample);
        }
    }
    list.window(STAKE[2]);
    list.lent(Name::Sums, PLACES);
    list.three_columns(3);
    list.show(Name::Sums, 3);
    list.line("# a column one place shorter than the count");
    list.lent(Name::Ys, 1);
    list.window(STAKE[2]);
    list.lent(Name::Ys, 2);
    list.line("# the least weight of all");
    list.window((1.0, 1.0, 5e-324));
    list.three_columns(3);
    list.lend_all();
}

fn full(list: &mut List) {
    list.head("full: an add, a frame and a line get 5, before and after a reading");
    list.open_window(3);
    for reading in &STAKE[..3] {
        list.window(*reading);
    }
    list.plain();
    list.window(STAKE[3]);
    list.plain();
    list.frame(&[]);
    list.call(Call::AddLines(Vec::new()));
    list.three_columns(4);
    list.head("full: a withdrawal makes room for one");
    list.call(Call::Withdraw { index: 1 });
    list.frame(&[(5.0, 5.0), (6.0, 6.0)]);
    list.frame(&[(5.0, 5.0)]);
    list.frame(&[(6.0, 6.0)]);
    list.window(STAKE[4]);
    list.three_columns(4);
    list.show(Name::Sums, PLACES);
    list.lend_all();
}

fn mixed(list: &mut List) {
    list.head("mixed: corrections and withdrawals of samples that moved down");
    list.open_window(4);
    for reading in &STAKE[..6] {
        list.window(*reading);
    }
    list.call(Call::Correct { index: 0, y: 207.0 });
    list.call(Call::Correct { index: 4, y: 1.0 });
    list.window(STAKE[6]);
    list.call(Call::Withdraw { index: 2 });
    list.call(Call::Withdraw { index: 3 });
    list.three_columns(5);
    list.show(Name::Sums, PLACES);
    list.line("# room for one, and then none");
    list.window(STAKE[7]);
    list.three_columns(5);
    list.window(STAKE[0]);
    list.three_columns(5);
    list.show(Name::Sums, PLACES);
    list.whole_report(AIC_1, 4);
    list.line("# carried, and emptied");
    list.call(Call::Carry);
    list.window(STAKE[1]);
    list.show(Name::Ws, 5);
    list.call(Call::Open);
    list.window(STAKE[1]);
    list.lend_all();
}

fn afresh(list: &mut List) {
    list.head("afresh: the sums less sample 0 would be others");
    list.open_window(3);
    for sample in [(1e8, 3.0, 0.3), (0.1, 0.7, 1.1), (0.3, 0.2, 0.7), (0.7, 0.9, 1.3)] {
        list.window(sample);
    }
    list.show(Name::Sums, PLACES);
    list.head("afresh: sums put by hand stand while there is room, and go with sample 0");
    list.open_window(2);
    list.window(STAKE[0]);
    list.put_sums(&[(0, 77.0), (256, NAN)]);
    list.window(STAKE[1]);
    list.show(Name::Sums, PLACES);
    list.window(STAKE[2]);
    list.show(Name::Sums, PLACES);
    list.head("afresh: what is not finite goes unjudged");
    for name in COLUMNS {
        list.put(name, 0, NAN);
        list.fit(0);
        list.window(STAKE[3]);
        list.fit(0);
    }
    list.three_columns(3);
    list.lend_all();
}

fn fields(list: &mut List) {
    list.head("fields: those of an add");
    list.call(Call::Open);
    let one = "3FF0000000000000";
    let lines = [
        "window".to_string(),
        "window ".to_string(),
        format!("window {one}"),
        format!("window {one} {one} "),
        format!("window {one} {one} 1"),
        format!("window {one} {one} {one} {one}"),
        format!("window 100 {one} {one}"),
        format!("Window {one} {one}"),
    ];
    for line in lines {
        list.line(&line);
    }
    list.line(&format!("window {one} {one}"));
    list.line(&format!("window {one} {one} {one}"));
    list.show(Name::Ws, 2);
}
