//! Course groups with one table of counters: document 02's E10. `tests/lists.rs` checks that each edge is met.

use journal::{Call, Name, Request};
use judge::fit::{PruningRule, Settings};
use judge::statistics::{Confidence, DegreeBound, Tolerance};
use judge::surface::SurfaceSample;

use crate::list::{at_whole_x, by_size, up_to, List, AIC_1, NAN};

/// Depth in m and density in kg/m³ of a pit.
const PIT: [(f64, f64); 6] =
    [(0.2, 318.0), (0.5, 344.5), (0.8, 371.5), (1.1, 390.0), (1.4, 412.0), (1.7, 425.5)];

/// The four corners of a square; a plane leaves residuals of 1 and −1.
const CORNERS: [(f64, f64, f64); 4] =
    [(1.0, 1.0, 21.75), (1.0, -1.0, -5.75), (-1.0, 1.0, 43.75), (-1.0, -1.0, 20.25)];

/// Found by search: near a line, total degree 2 is solved and its inverse fails. x and z as bits.
const AT_THE_EDGE: [(u64, u64, f64); 6] = [
    (0x3FE2_52F0_BC82_3FC4, 0x4038_8B42_A45C_FBE7, 0.0),
    (0x3FD6_9BDF_BBD9_E398, 0x402E_404B_E283_99D1, 2.0),
    (0x3FD1_B335_CBDC_98A0, 0x4027_B95A_D66C_DD15, 3.0),
    (0x3FB1_BDF8_A9E4_BD40, 0x4007_B750_5BFB_EAB7, 3.0),
    (0xBFE9_8779_D77A_BB13, 0xC041_1706_A4FF_5547, 2.0),
    (0xBFE7_C69A_46DB_4E52, 0xC03F_D9CA_6311_DB0D, 0.0),
];

/// A group's calls, by name.
#[derive(Clone, Copy, PartialEq)]
enum Costly {
    Report,
    Surface,
    Split,
}

const ALL: [Costly; 3] = [Costly::Report, Costly::Surface, Costly::Split];

impl List {
    fn start(&mut self, quota: usize) {
        self.call(Call::Start { quota });
    }

    fn renew(&mut self) {
        self.call(Call::Renew);
    }

    fn group(&mut self, kind: Costly, group: usize, settings: Settings) {
        self.call(match kind {
            Costly::Report => Call::GroupReport { group, settings },
            Costly::Surface => Call::GroupSurfaceReport { group, settings },
            Costly::Split => Call::GroupSplit { group, settings },
        });
    }

    /// The table, with a place more.
    fn table(&mut self) {
        self.show(Name::Table, 10);
    }

    fn put_table(&mut self, index: usize, number: usize) {
        self.ask(Request::PutNumber { name: Name::Table, index, number });
    }

    /// Book, columns of a surface and marks for n samples, a place more each.
    fn sites(&mut self, rows: &[(f64, f64, f64)]) {
        self.book(&rows.iter().map(|&(x, _, y)| (x, y)).collect::<Vec<_>>());
        for (index, &(x, z, y)) in rows.iter().enumerate() {
            self.ask(Request::Row { index, sample: SurfaceSample { x, z, y } });
        }
        self.mark(rows.len());
    }

    /// At a counter of the cost it is let through or refused late, and at one test less by 16.
    fn at_cost(&mut self, kind: Costly, settings: Settings, cost: usize, n: usize) {
        for quota in [cost, cost - 1] {
            self.start(quota);
            self.mark_scratch(n);
            self.group(kind, 5, settings);
            self.table();
            self.show(Name::Scratch, n + 1);
        }
    }
}

pub fn groups() -> String {
    let mut list = List::new(
        "Course groups, each with an allowance of pivot tests: document 02, E10. Made by `lists groups`.",
    );
    course(&mut list);
    costs(&mut list);
    late(&mut list);
    early(&mut list);
    short(&mut list);
    tables(&mut list);
    plain(&mut list);
    fields(&mut list);
    list.text
}

fn course(list: &mut List) {
    list.head("course: eight groups and a quota of 12, of which a report up to degree 2 takes 6");
    list.framed_book(&PIT);
    list.mark(6);
    list.start(12);
    for group in 0..8 {
        list.group(Costly::Report, group, up_to(2));
    }
    list.table();
    list.line("# group 3 goes on, and has none left in the end; the others see nothing of it");
    for degree in [1, 1, 0] {
        list.group(Costly::Report, 3, up_to(degree));
    }
    list.group(Costly::Report, 4, up_to(2));
    list.show_outputs(6);
    list.table();
    list.line("# a renewal refills all eight");
    list.renew();
    list.table();
    list.group(Costly::Report, 3, by_size(up_to(2)));
    list.group(Costly::Report, 3, up_to(2));
    list.group(Costly::Report, 3, up_to(0));
    list.table();
    list.line("# another start, with another quota");
    list.start(18);
    list.group(Costly::Split, 7, up_to(1));
    list.group(Costly::Split, 7, up_to(0));
    list.table();
}

fn costs(list: &mut List) {
    list.head("costs: a report up to degree 0, 1 and 2 takes 1, 3 and 6, nothing for its inverse");
    list.framed_book(&PIT);
    for (degree, cost) in [(0, 1), (1, 3), (2, 6)] {
        list.at_cost(Costly::Report, up_to(degree), cost, 6);
    }
    list.head("costs: Custom 9 of six samples is degree 5, and Conservative degree 0");
    list.at_cost(Costly::Report, up_to(9), 21, 6);
    let conservative = Settings { bound: DegreeBound::Conservative, ..AIC_1 };
    list.at_cost(Costly::Report, conservative, 1, 6);
    list.head(
        "costs: equal x's, whose second pivot fails and is counted, in each degree from 1 on",
    );
    list.book(&[(2.0, 1.0), (2.0, 5.0), (2.0, 6.0), (2.0, 2.5)]);
    list.at_cost(Costly::Report, up_to(3), 1 + 2 + 2 + 2, 4);
    list.head("costs: the lent sums count, and not the samples' own");
    list.framed_book(&PIT);
    list.put(Name::Sums, 17, 0.0);
    list.at_cost(Costly::Report, up_to(2), 1 + 2 + 2, 6);
    list.head("costs: a surface of four samples takes 1 and 3; total degree 2 has six terms");
    list.sites(&CORNERS);
    list.at_cost(Costly::Surface, up_to(4), 4, 4);
    list.show_outputs(4);
    list.head("costs: one z for all, whose pivot fails in total degrees 1 and 2; 3 is not tried");
    let level: Vec<_> = (0..7).map(|i| (i as f64, 4.0, (i * i % 5) as f64)).collect();
    list.sites(&level);
    list.at_cost(Costly::Surface, up_to(4), 1 + 3 + 3, 7);
    list.head("costs: a split of equal x's, each side of two with a failing pivot");
    list.book(&[(2.0, 1.0), (2.0, 5.0), (2.0, 6.0), (2.0, 2.5), (2.0, 3.0)]);
    list.at_cost(Costly::Split, up_to(2), 2 * (1 + 2) + 2 * (1 + 2 + 2), 5);
    list.head("costs: a split takes the tests of both sides of every break, 30 here");
    list.book(&at_whole_x(&[0.0, 1.1, 1.9, 3.05, 2.95, 2.1, 0.9, 0.02]));
    list.at_cost(Costly::Split, AIC_1, 30, 8);
    list.start(30);
    list.group(Costly::Split, 0, AIC_1);
    list.show(Name::Before, 17);
    list.show(Name::After, 17);
}

fn late(list: &mut List) {
    let most = f64::MAX;
    list.head("late: 11 takes the cost, and 16 comes before it");
    list.sites(&[(0.0, 0.0, most), (0.0, 1.0, most), (0.0, 2.0, most), (0.0, 3.0, most)]);
    list.at_cost(Costly::Report, up_to(1), 3, 4);
    list.at_cost(Costly::Surface, up_to(0), 1, 4);
    list.at_cost(Costly::Split, up_to(0), 2, 4);
    list.show_outputs(4);
    list.head("late: 12 of a report takes the cost, and 16 comes before it");
    list.book(&[(0.0, 1.0), (1.0, 3.0)]);
    let (p, above) = (1.0 / (1u64 << 26) as f64, 1.0 + 1.0 / 1024.0);
    list.put_sums(&[
        (0, f64::EPSILON),
        (1, p),
        (16, -p * above),
        (17, -1.0),
        (256, f64::EPSILON + 2.0 * p),
        (257, -p * above - 2.0),
    ]);
    list.at_cost(Costly::Report, up_to(1), 3, 2);
    list.head("late: 12 of a surface takes the cost, and 16 comes before it");
    let edge = AT_THE_EDGE.map(|(x, z, y)| (f64::from_bits(x), f64::from_bits(z), y));
    list.sites(&edge);
    list.at_cost(Costly::Surface, up_to(2), 10, 6);
}

fn early(list: &mut List) {
    let nan = Settings { tolerance: Tolerance::Absolute(NAN), ..up_to(16) };
    let infinite = Settings { confidence: Confidence::Custom(f64::INFINITY), ..up_to(16) };
    list.head("early: 17 above 7, before 4, 7, 8 and 16; scratch is left and nothing taken");
    list.sites(&(0..17).map(|i| (i as f64, (i % 4) as f64, 1.0)).collect::<Vec<_>>());
    list.start(0);
    for kind in ALL {
        for group in [8, 9, 255, 999_999_999] {
            list.group(kind, group, nan);
        }
        list.group(kind, 8, up_to(16));
        list.group(kind, 8, up_to(0));
        list.group(kind, 7, up_to(0));
        list.mark_scratch(17);
    }
    list.show(Name::Scratch, 18);
    list.head("early: 4 before 8 and 16, 8 before 16");
    for kind in ALL {
        list.group(kind, 7, nan);
        list.group(kind, 0, infinite);
        list.group(kind, 0, up_to(16));
    }
    list.show(Name::Scratch, 18);
    list.table();
    list.head(
        "early: a number in a column that is not finite, 4 before 16; a z is the surface's alone",
    );
    list.put(Name::Ws, 3, NAN);
    list.put(Name::Zs, 3, f64::INFINITY);
    for kind in ALL {
        list.group(kind, 2, up_to(0));
    }
    list.put(Name::Ws, 3, 1.0);
    for kind in ALL {
        list.group(kind, 2, up_to(0));
    }
    list.head("early: no samples, or three for a split, 7 before 16; 17 and 4 before it");
    list.call(Call::Open);
    for kind in [Costly::Report, Costly::Surface] {
        list.group(kind, 0, up_to(16));
        list.group(kind, 8, up_to(16));
        list.group(kind, 0, nan);
    }
    list.book(&PIT[..3]);
    list.group(Costly::Split, 0, up_to(1));
    list.group(Costly::Split, 8, up_to(1));
    list.group(Costly::Split, 0, nan);
    list.table();
}

fn short(list: &mut List) {
    let nan = Settings { tolerance: Tolerance::Absolute(NAN), ..up_to(16) };
    list.head("short: a table of eight places, 1 before 17, 4, 7 and 8; nothing changes");
    list.sites(&(0..17).map(|i| (i as f64, (i % 4) as f64, 1.0)).collect::<Vec<_>>());
    list.start(5);
    for length in [8, 0] {
        list.lent(Name::Table, length);
        list.start(7);
        list.renew();
        for kind in ALL {
            for settings in [nan, up_to(16), up_to(0)] {
                list.group(kind, 8, settings);
                list.group(kind, 0, settings);
            }
        }
    }
    list.line("# without samples, 1 before 7");
    list.call(Call::Open);
    for kind in ALL {
        list.group(kind, 0, up_to(0));
    }
    list.ask(Request::Count(17));
    list.lent(Name::Table, 9);
    list.table();
    list.show(Name::Scratch, 18);
    list.head("short: every other memory of these calls, 1 before 17");
    let lengths = [
        (Name::Sums, 271),
        (Name::Scratch, 16),
        (Name::Coefficients, 14),
        (Name::Errors, 14),
        (Name::Pruned, 14),
        (Name::Lower, 16),
        (Name::Upper, 16),
        (Name::Outliers, 16),
        (Name::Before, 15),
        (Name::After, 15),
        (Name::Zs, 16),
        (Name::Xs, 16),
    ];
    for (name, length) in lengths {
        list.lent(name, length);
        for kind in ALL {
            list.group(kind, 8, up_to(0));
        }
        list.lend_all();
        for (name, length) in [(Name::Before, 16), (Name::After, 16), (Name::Zs, 4096)] {
            list.lent(name, length);
        }
    }
    list.line("# fifteen places of coefficients are enough for a surface alone");
    list.lent(Name::Coefficients, 15);
    for kind in ALL {
        list.group(kind, 0, up_to(0));
    }
    list.lent(Name::Coefficients, 16);
    list.table();
}

fn tables(list: &mut List) {
    list.head("tables: counters of their own, whatever stands beside them");
    list.sites(&CORNERS);
    list.lent(Name::Table, 12);
    for kind in ALL {
        for (index, number) in [0, 1, 2, 3, 4, 5, 6, 7, 9, 77, 78, 79].into_iter().enumerate() {
            list.put_table(index, number);
        }
        for group in 0..8 {
            list.group(kind, group, up_to(1));
        }
        list.show(Name::Table, 13);
    }
    list.line("# the quota as it stands refills them");
    list.put_table(8, 4);
    list.renew();
    list.show(Name::Table, 13);
    list.start(999_999_999);
    list.show(Name::Table, 13);
    list.lent(Name::Table, 9);
}

fn plain(list: &mut List) {
    list.head("plain: calls without a group take nothing");
    list.sites(&CORNERS);
    list.start(0);
    list.report(up_to(1));
    list.call(Call::SurfaceReport(up_to(1)));
    list.call(Call::Split { limit: 9, settings: up_to(0) });
    list.call(Call::Scores(up_to(1)));
    list.fit(1);
    list.table();
    list.head("plain: what a group's calls answer and write is what those without a group do");
    for settings in [AIC_1, Settings { pruning: PruningRule::Size, ..up_to(2) }] {
        list.start(30);
        list.mark(4);
        list.report(settings);
        list.show_outputs(4);
        list.mark(4);
        list.group(Costly::Report, 1, settings);
        list.show_outputs(4);
        list.mark(4);
        list.call(Call::SurfaceReport(settings));
        list.show_outputs(4);
        list.mark(4);
        list.group(Costly::Surface, 1, settings);
        list.show_outputs(4);
        for sides in [true, false] {
            match sides {
                true => list.call(Call::Split { limit: 30, settings }),
                false => list.group(Costly::Split, 1, settings),
            }
            list.show(Name::Before, 17);
            list.show(Name::After, 17);
        }
        list.table();
    }
}

fn fields(list: &mut List) {
    list.head("fields: malformed lines change nothing");
    let lines = [
        "start",
        "start many",
        "start 1 2",
        "renew 0",
        "group_report",
        "group_report custom",
        "group_report 0 1 custom",
        "group_split 0 30 custom 1 aic p95 0000000000000000 none 0000000000000000",
        "group_surface_report 0 custom 4 aic p95 0000000000000000 none 0000000000000000 sign",
        "group_fit 0 1",
        "put table 0 3FF0000000000000",
        "put table 4200 0",
        "put tables 0 0",
        "show table 3 2",
        "lent table 4201",
    ];
    for line in lines {
        list.line(line);
    }
    list.table();
}
