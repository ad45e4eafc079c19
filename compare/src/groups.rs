//! Course groups (document 02, E10): lists of calls of up to eight groups, each with columns and sums of its
//! own, and one table that every call gets as the one before left it. Judge and port are compared as on any
//! list. Each group is also run by itself, with the starts and the renewals and without the calls of the
//! others: its replies, what it writes and its counter must be the same. Beside it a ledger keeps the counter.

use std::borrow::Cow;
use std::collections::{BTreeMap, BTreeSet};

use journal::{Answer, Call, Side};
use judge::book::answer_of;
use judge::fit::{self, Settings};
use judge::groups::{report_cost, split_cost, GROUPS, TABLE};
use judge::ledger::GroupLedger;
use judge::refusals::{judged, Lengths};
use judge::solve::inverse;
use judge::split::{breaks, least_total};
use judge::statistics::{max_degree, DegreeBound};
use judge::sums::{folded_afresh, PLACES, TERMS};
use judge::surface::{folded, terms_of, SurfaceSample, SURFACE_TERMS};
use judge::Sample;

use crate::arguments;
use crate::call::{conditions, name, Poke, Step};
use crate::coverage::{Coverage, Seen};
use crate::memory::{difference, filled_for, longest, sites};
use crate::random::Random;
use crate::run::{check_report, check_split, same_answer, Difference, Run};
use crate::samples::{self, Source};
use crate::shrink::{shrunk, simpler_steps};
use crate::surface;

/// A call of a list, on the memory of this group.
#[derive(Debug, Clone, PartialEq)]
pub struct Turn {
    pub group: usize,
    pub step: Step,
}

/// Calls of several groups on memory that first holds what the seed says.
#[derive(Debug, Clone, PartialEq)]
pub struct Course {
    pub contents: u64,
    pub turns: Vec<Turn>,
}

/// Whether the call is lent the table.
pub fn is_group(call: &Call) -> bool {
    is_for_all(call) || group_of(call).is_some()
}

/// A start or a renewal.
fn is_for_all(call: &Call) -> bool {
    matches!(call, Call::Start { .. } | Call::Renew)
}

/// The group that the call names.
pub fn group_of(call: &Call) -> Option<usize> {
    match call {
        Call::GroupReport { group, .. }
        | Call::GroupSurfaceReport { group, .. }
        | Call::GroupSplit { group, .. } => Some(*group),
        _ => None,
    }
}

/// The same call without a group; a split has no limit then.
pub fn without_group(call: &Call) -> Cow<'_, Call> {
    match call {
        Call::GroupReport { settings, .. } => Cow::Owned(Call::Report(*settings)),
        Call::GroupSurfaceReport { settings, .. } => Cow::Owned(Call::SurfaceReport(*settings)),
        Call::GroupSplit { settings, .. } => {
            Cow::Owned(Call::Split { limit: usize::MAX, settings: *settings })
        }
        _ => Cow::Borrowed(call),
    }
}

// ---- the run

/// The books of some groups, and the table that they share: the judge's, then each side's.
struct Machine<'a> {
    books: BTreeMap<usize, Run<'a>>,
    tables: Vec<Vec<usize>>,
}

impl<'a> Machine<'a> {
    fn new(course: &Course, groups: &[usize], others: &[&'a dyn Side]) -> Self {
        let lengths = longest(course.turns.iter().map(|turn| &turn.step.lengths));
        let mut books = BTreeMap::new();
        let mut table = Vec::new();
        for group in 0..GROUPS {
            let mut memory = filled_for(course.contents ^ group as u64, &lengths);
            let own = std::mem::take(&mut memory.table);
            if group == 0 {
                table = own;
            }
            if groups.contains(&group) {
                books.insert(group, Run::new(memory, others));
            }
        }
        Self { books, tables: vec![table; 1 + others.len()] }
    }

    /// Lends the tables to a group's memory, or takes them back.
    fn exchange(run: &mut Run, tables: &mut [Vec<usize>]) {
        std::mem::swap(&mut run.memory.table, &mut tables[0]);
        for ((_, memory), table) in run.sides.iter_mut().zip(&mut tables[1..]) {
            std::mem::swap(&mut memory.table, table);
        }
    }

    fn step(
        &mut self,
        group: usize,
        step: &Step,
        note: &mut dyn FnMut(&Seen),
    ) -> Result<Answer, String> {
        let Some(run) = self.books.get_mut(&group) else {
            return Err(format!("there is no group {group}"));
        };
        Self::exchange(run, &mut self.tables);
        let answer = run.step(step, note);
        Self::exchange(run, &mut self.tables);
        answer
    }

    fn table(&self) -> &[usize] {
        &self.tables[0]
    }
}

/// The ledgers of the groups, each from the first start on; where someone else wrote a group's memory, its
/// counter is not known until all are refilled.
#[derive(Default)]
struct Ledgers {
    started: bool,
    groups: [GroupLedger; GROUPS],
    unknown: BTreeSet<usize>,
}

impl Ledgers {
    /// Feeds a call to the ledgers that it is for, and holds what they say against what was answered.
    fn follow(&mut self, turn: &Turn, answer: &Answer, machine: &Machine) -> Result<(), String> {
        let Step { lengths, call, .. } = &turn.step;
        if is_for_all(call) {
            return self.follow_all(lengths, call, answer);
        }
        let (group, run) = match (group_of(call), machine.books.get(&turn.group)) {
            (Some(group), Some(run)) if group < GROUPS && self.started => (group, run),
            _ => return Ok(()),
        };
        match run.ledger() {
            Some(ledger) => self.groups[group].ledger = ledger.clone(),
            None => {
                self.unknown.insert(group);
            }
        }
        if self.unknown.contains(&group) {
            return Ok(());
        }
        let ledger = &mut self.groups[group];
        match call {
            Call::GroupReport { settings, .. } => {
                check_report("ledger", ledger.report(lengths, *settings), answer, &run.memory)?
            }
            Call::GroupSplit { settings, .. } => {
                check_split("ledger", ledger.split(lengths, *settings), answer, &run.memory)?
            }
            Call::GroupSurfaceReport { settings, .. } => {
                let count = turn.step.count.unwrap_or(run.count);
                let sites = sites(&run.memory, lengths, count);
                let report = ledger.surface_report(lengths, count, &sites, *settings);
                let told = report.as_ref().map(answer_of).map_or_else(
                    |number| Answer::Refused(*number),
                    |a| Answer::Report {
                        degree: a.degree,
                        solved: a.solved,
                        outliers: a.outliers,
                        pruned: a.pruned,
                    },
                );
                same(answer, &told, "ledger")?;
            }
            _ => {}
        }
        let (ours, theirs) = (machine.table()[group], ledger.counter);
        match ours == theirs {
            true => Ok(()),
            false => Err(format!("the counter is {ours}, the ledger's {theirs}")),
        }
    }

    fn follow_all(
        &mut self,
        lengths: &Lengths,
        call: &Call,
        answer: &Answer,
    ) -> Result<(), String> {
        for ledger in &mut self.groups {
            let result = match call {
                Call::Start { quota } => ledger.start(lengths, *quota),
                _ => ledger.renew(lengths),
            };
            same(answer, &result.map_or_else(Answer::Refused, |()| Answer::Done), "ledger")?;
        }
        if *answer == Answer::Done {
            self.started |= matches!(call, Call::Start { .. });
            self.unknown.clear();
        }
        Ok(())
    }
}

fn same(answer: &Answer, theirs: &Answer, name: &str) -> Result<(), String> {
    if same_answer(answer, theirs) {
        return Ok(());
    }
    Err(format!("judge answers {answer:?}, {name} {theirs:?}"))
}

/// Runs the list with all groups, and for each group without the others; notes in the coverage what happened.
pub fn run(
    course: &Course,
    others: &[&dyn Side],
    coverage: &mut Coverage,
) -> Result<(), Difference> {
    let mut groups: Vec<usize> = course.turns.iter().map(|turn| turn.group).collect();
    groups.sort_unstable();
    groups.dedup();
    let mut all = Machine::new(course, &groups, others);
    let alone = |group: &usize| (*group, Machine::new(course, &[*group], others));
    let mut alone: Vec<(usize, Machine)> = groups.iter().map(alone).collect();
    let mut ledgers = Ledgers::default();
    let mut story = Story::default();
    for (at, turn) in course.turns.iter().enumerate() {
        let different = |what| Difference { step: at, what };
        let call = &turn.step.call;
        let mut note = |seen: &Seen| coverage.note_group(seen);
        let answer = all.step(turn.group, &turn.step, &mut note).map_err(different)?;
        for (group, machine) in &mut alone {
            if is_for_all(call) || *group == turn.group {
                check_alone(*group, turn, &answer, (&all, machine)).map_err(different)?;
            }
        }
        ledgers.follow(turn, &answer, &all).map_err(different)?;
        for event in story.happened(call, &answer) {
            coverage.note_groups(event);
        }
    }
    Ok(())
}

/// The same call in the run of the group alone: the same answer, the same memory and the same counter.
fn check_alone(
    group: usize,
    turn: &Turn,
    answer: &Answer,
    (all, alone): (&Machine, &mut Machine),
) -> Result<(), String> {
    let of_its_own = |what: String| format!("group {group} by itself: {what}");
    let reply = alone.step(group, &turn.step, &mut |_| {}).map_err(of_its_own)?;
    same(answer, &reply, "by itself").map_err(of_its_own)?;
    if let Some(difference) = difference(&all.books[&group].memory, &alone.books[&group].memory) {
        return Err(of_its_own(difference));
    }
    let own = |machine: &Machine| (machine.table()[group], machine.table()[GROUPS..].to_vec());
    if own(all) != own(alone) {
        return Err(of_its_own(format!("{:?} and {:?}", all.table(), alone.table())));
    }
    Ok(())
}

/// A smaller list that fails.
pub fn smaller(course: &Course, fails: impl Fn(&Course) -> bool) -> Course {
    let of = |turns: &[Turn]| Course { contents: course.contents, turns: turns.to_vec() };
    let simpler = |turn: &Turn| {
        let group = turn.group;
        simpler_steps(&turn.step).into_iter().map(|step| Turn { group, step }).collect()
    };
    of(&shrunk(&course.turns, simpler, |turns| fails(&of(turns))))
}

impl std::fmt::Display for Course {
    fn fmt(&self, f: &mut std::fmt::Formatter<'_>) -> std::fmt::Result {
        writeln!(f, "contents {:#x}", self.contents)?;
        for (at, turn) in self.turns.iter().enumerate() {
            writeln!(f, "{at}: group {}\n{}", turn.group, turn.step)?;
        }
        Ok(())
    }
}

// ---- the lists

/// Makes the list of the given number from the given seed.
pub fn course(seed: u64, number: u64) -> Course {
    let random =
        &mut Random::new(!seed.rotate_left(17) ^ number.wrapping_mul(0xD6E8_FEB8_6659_FD93));
    let contents = random.next();
    let turns = match number % 16 {
        0..=3 => spent(random),
        4..=6 => late(random),
        7 => disturbed(random),
        8 | 9 => short(random),
        _ => mixed(random),
    };
    Course { contents, turns }
}

/// A group in the making: its ledger to know the samples and the counter, its z's, and the places of its
/// columns.
struct Group {
    ledger: GroupLedger,
    zs: Vec<f64>,
    lengths: [usize; 3],
    opened: bool,
}

/// A list in the making.
struct Maker<'a> {
    random: &'a mut Random,
    groups: Vec<Group>,
    turns: Vec<Turn>,
    /// One call in so many gets a memory that is one place too short; 0 for none.
    short_one_in: usize,
}

impl<'a> Maker<'a> {
    /// Groups whose books have so much room.
    fn new(random: &'a mut Random, room: usize) -> Self {
        let group = |random: &mut Random| {
            let mut lengths = [room + random.pick(&[0, 0, 1, 4]); 3];
            lengths[random.below(3)] = room;
            let level = random.below(4);
            let z = |random: &mut Random, i: usize| match level {
                0 => (i % 3) as f64,
                1 => random.below(5) as f64 - 2.0,
                2 if random.one_in(2) => 1.5,
                _ => random.within(-1.0, 1.0),
            };
            let zs = (0..room).map(|i| z(random, i)).collect();
            Group { ledger: GroupLedger::default(), zs, lengths, opened: false }
        };
        let groups = (0..GROUPS).map(|_| group(random)).collect();
        Self { random, groups, turns: Vec::new(), short_one_in: 0 }
    }

    fn samples(&self, group: usize) -> &[Sample] {
        &self.groups[group].ledger.ledger.samples
    }

    fn sites(&self, group: usize) -> Vec<SurfaceSample> {
        let site = |(s, &z): (&Sample, &f64)| SurfaceSample { x: s.x, z, y: s.y };
        self.samples(group).iter().zip(&self.groups[group].zs).map(site).collect()
    }

    /// Just long enough, or with some places past the end.
    fn lengths(&mut self, group: usize) -> Lengths {
        let n = self.samples(group).len();
        let [x, y, weight] = self.groups[group].lengths;
        let z = self.groups[group].zs.len();
        let mut more = || self.random.pick(&[0, 0, 0, 1, 3]);
        let mut lengths = Lengths {
            x,
            z,
            y,
            weight,
            sums: PLACES + more(),
            scratch: n + more(),
            coefficients: TERMS + more(),
            errors: TERMS + more(),
            pruned: TERMS + more(),
            lower: n + more(),
            upper: n + more(),
            outlier: n + more(),
            before: TERMS + more(),
            after: TERMS + more(),
            losses: n,
            solved: TERMS,
            scores: TERMS,
            table: TABLE + more(),
            ..Lengths::default()
        };
        if self.short_one_in > 0 && self.random.one_in(self.short_one_in) {
            shorten(self.random, &mut lengths, n);
        }
        lengths
    }

    fn call(&mut self, group: usize, call: Call) {
        self.step(group, Vec::new(), call);
    }

    /// The z's of a surface stand in its column when it is called for.
    fn step(&mut self, group: usize, mut pokes: Vec<Poke>, call: Call) {
        if !self.groups[group].opened && !is_for_all(&call) {
            self.groups[group].opened = true;
            self.call(group, Call::Open);
        }
        let lengths = self.lengths(group);
        if let Call::GroupSurfaceReport { .. } = call {
            let zs = self.groups[group].zs.iter().enumerate();
            pokes.extend(zs.map(|(at, &value)| Poke::Z { at, value }));
        }
        self.follow(group, &lengths, &call);
        self.turns.push(Turn { group, step: Step { pokes, count: None, lengths, call } });
    }

    /// Keeps ledgers and counters up with the calls; refusals change nothing.
    fn follow(&mut self, group: usize, lengths: &Lengths, call: &Call) {
        for group in &mut self.groups {
            let _ = match call {
                Call::Start { quota } => group.ledger.start(lengths, *quota),
                Call::Renew => group.ledger.renew(lengths),
                _ => Ok(()),
            };
        }
        let sites = self.sites(group);
        let own = &mut self.groups[group].ledger;
        let _ = match call {
            Call::Open => own.ledger.open(lengths),
            Call::Add(sample) => own.ledger.add(lengths, *sample),
            Call::AddFrame(bytes) => own.ledger.add_frame(lengths, bytes),
            Call::Correct { index, y } => own.ledger.correct(lengths, *index, *y),
            Call::Withdraw { index } => own.ledger.withdraw(lengths, *index),
            Call::GroupReport { settings, .. } => own.report(lengths, *settings).map(|_| 0),
            Call::GroupSplit { settings, .. } => own.split(lengths, *settings).map(|_| 0),
            Call::GroupSurfaceReport { settings, .. } => {
                own.surface_report(lengths, sites.len(), &sites, *settings).map(|_| 0)
            }
            _ => Ok(0),
        };
    }

    /// Samples of some kind.
    fn fill(&mut self, group: usize, n: usize) {
        let samples = Source::new(self.random, n).take(self.random, n);
        self.fill_with(group, &samples);
    }

    fn fill_with(&mut self, group: usize, samples: &[Sample]) {
        self.call(group, Call::AddFrame(judge::frame::encode_weighted(samples)));
    }

    /// A call that costs, by this group.
    fn costly(&mut self, group: usize) -> Call {
        let settings = self.settings(group);
        match self.random.below(4) {
            0 => Call::GroupSurfaceReport { group, settings: self.surface_settings() },
            1 => Call::GroupSplit { group, settings },
            _ => Call::GroupReport { group, settings },
        }
    }

    /// Mostly of low degrees, so that costs are small.
    fn settings(&mut self, group: usize) -> Settings {
        let settings = arguments::settings(self.random);
        if self.samples(group).is_empty() || self.random.one_in(4) {
            return settings;
        }
        Settings { bound: DegreeBound::Custom(self.random.below(3)), ..settings }
    }

    fn surface_settings(&mut self) -> Settings {
        let bound = match self.random.below(8) {
            0 => arguments::bound(self.random),
            _ => DegreeBound::Custom(self.random.below(5)),
        };
        Settings { bound, ..arguments::settings(self.random) }
    }

    /// What the call would cost; 0 where it is refused before it costs anything.
    fn cost(&self, group: usize, call: &Call) -> usize {
        let (samples, sites) = (self.samples(group), self.sites(group));
        let n = samples.len();
        let lengths = Lengths {
            x: n,
            z: n,
            y: n,
            weight: n,
            sums: PLACES,
            scratch: n,
            coefficients: TERMS,
            errors: TERMS,
            pruned: TERMS,
            lower: n,
            upper: n,
            outlier: n,
            before: TERMS,
            after: TERMS,
            table: TABLE,
            ..Lengths::default()
        };
        if judged(&conditions(call, &lengths, n, (samples, &sites))).is_err() {
            return 0;
        }
        cost_of(call, samples, &folded_afresh(samples), &sites).unwrap_or(0)
    }

    fn start(&mut self, quota: usize) {
        let group = self.random.below(GROUPS);
        self.call(group, Call::Start { quota });
    }

    fn renew(&mut self) {
        let group = self.random.below(GROUPS);
        self.call(group, Call::Renew);
    }
}

/// One memory one place too short, now and then without any place.
fn shorten(random: &mut Random, lengths: &mut Lengths, n: usize) {
    let empty = random.one_in(5);
    let short = |places: usize| if empty { 0 } else { places.saturating_sub(1) };
    match random.below(12) {
        0 => lengths.sums = short(PLACES),
        1 => lengths.scratch = short(n),
        2 => lengths.coefficients = short(random.pick(&[TERMS, SURFACE_TERMS])),
        3 => lengths.errors = short(random.pick(&[TERMS, SURFACE_TERMS])),
        4 => lengths.pruned = short(random.pick(&[TERMS, SURFACE_TERMS])),
        5 => lengths.lower = short(n),
        6 => lengths.upper = short(n),
        7 => lengths.before = short(TERMS),
        8 => lengths.after = short(TERMS),
        9 => lengths.outlier = short(n),
        _ => lengths.table = short(TABLE),
    }
}

const ROOMS: [usize; 9] = [0, 1, 3, 4, 5, 6, 8, 10, 15];

/// Quotas that let few calls through, none, or all.
const QUOTAS: [usize; 12] = [0, 1, 2, 3, 4, 6, 9, 12, 20, 40, 120, usize::MAX];

/// Groups to take turns.
fn some_groups(random: &mut Random) -> Vec<usize> {
    match random.below(4) {
        0 => (0..GROUPS).collect(),
        1 => vec![random.below(GROUPS)],
        _ => (0..random.between(2, 5)).map(|_| random.below(GROUPS)).collect(),
    }
}

/// Calls as they come: changes, calls that cost, calls without a group, renewals and starts.
fn mixed(random: &mut Random) -> Vec<Turn> {
    let groups = some_groups(random);
    let room = random.pick(&ROOMS);
    let mut maker = Maker::new(random, room);
    for &group in &groups {
        let n = maker.random.between(0, room);
        maker.fill(group, n);
    }
    if maker.random.one_in(8) {
        // Before any start the table holds whatever it holds.
        let call = maker.costly(groups[0]);
        maker.call(groups[0], call);
    }
    let quota = maker.random.pick(&QUOTAS);
    maker.start(quota);
    maker.short_one_in = 40;
    for _ in 0..maker.random.between(8, 24) {
        let group = maker.random.pick(&groups);
        match maker.random.below(16) {
            0 => maker.renew(),
            1 if maker.random.one_in(2) => {
                let quota = maker.random.pick(&QUOTAS);
                maker.start(quota);
            }
            2 => {
                let sample = Source::new(maker.random, room).next(maker.random);
                maker.call(group, Call::Add(sample));
            }
            3 => {
                let n = maker.samples(group).len().max(1);
                let (index, y) = (maker.random.below(n), maker.random.within(-9.0, 9.0));
                maker.call(group, Call::Correct { index, y });
            }
            4 => {
                let index = maker.random.below(maker.samples(group).len().max(1));
                maker.call(group, Call::Withdraw { index });
            }
            5 => {
                let settings = maker.settings(group);
                maker.call(group, Call::Report(settings));
            }
            6 if maker.random.one_in(2) => {
                let above = maker.random.pick(&[8, 9, 255, 256, usize::MAX]);
                let settings = maker.settings(group);
                let call = match maker.random.below(3) {
                    0 => Call::GroupReport { group: above, settings },
                    1 => Call::GroupSurfaceReport { group: above, settings },
                    _ => Call::GroupSplit { group: above, settings },
                };
                maker.call(group, call);
            }
            _ => {
                let call = maker.costly(group);
                maker.call(group, call);
            }
        }
    }
    maker.turns
}

/// A quota that is spent to the last test, or lacks one: after the start, and after a renewal again.
fn spent(random: &mut Random) -> Vec<Turn> {
    let groups = some_groups(random);
    let room = random.pick(&[3, 4, 5, 6, 7, 10, 15]);
    let mut maker = Maker::new(random, room);
    let mut calls = Vec::new();
    for &group in &groups {
        if maker.samples(group).is_empty() {
            maker.fill(group, room);
        }
        for _ in 0..maker.random.between(1, 3) {
            let call = maker.costly(group);
            calls.push((group, call));
        }
    }
    let mut costs = [0; GROUPS];
    for (group, call) in &calls {
        costs[*group] += maker.cost(*group, call);
    }
    let most = costs.iter().copied().max().unwrap_or(0);
    let quota = maker.random.pick(&[most, most, most.saturating_sub(1), most + 1]);
    maker.start(quota);
    for round in 0..2 {
        // In another order.
        for _ in 0..calls.len() {
            let (a, b) = (maker.random.below(calls.len()), maker.random.below(calls.len()));
            calls.swap(a, b);
        }
        for (group, call) in &calls {
            maker.call(*group, call.clone());
        }
        let group = maker.random.pick(&groups);
        let call = maker.costly(group);
        maker.call(group, call);
        if round == 0 {
            maker.renew();
        }
    }
    maker.turns
}

/// Calls that 11 or 12 refuses, with counters of their cost or of one less.
fn late(random: &mut Random) -> Vec<Turn> {
    let (twelve, site) = (random.one_in(2), random.one_in(2));
    let samples: Vec<Sample>;
    let mut zs = Vec::new();
    let degree;
    if twelve && site {
        let found = (0..9).find_map(|_| surface::at_pivot_edge(random)).unwrap_or_default();
        zs = found.iter().map(|s| s.z).collect();
        samples = found.iter().map(|s| Sample::unweighted(s.x, s.y)).collect();
        degree = 2;
    } else if twelve {
        let found = (0..9).find_map(|_| samples::at_some_pivot_edge(random));
        (samples, degree) = found.unwrap_or_default();
    } else {
        let sample = Sample::unweighted(random.below(3) as f64, random.sign() * f64::MAX);
        samples = vec![sample; random.between(4, 7)];
        degree = random.below(3);
    }
    let (a, b) = (random.below(GROUPS), random.below(GROUPS));
    let mut maker = Maker::new(random, samples.len());
    for group in [a, b] {
        maker.groups[group].zs.splice(..zs.len(), zs.iter().copied());
        if maker.samples(group).is_empty() {
            maker.fill_with(group, &samples);
        }
    }
    for _ in 0..3 {
        let settings = arguments::settings(maker.random);
        let settings = Settings { bound: DegreeBound::Custom(degree), ..settings };
        let group = maker.random.pick(&[a, b]);
        let call = match maker.random.below(if twelve { 4 } else { 3 }) {
            0 => Call::GroupSplit { group, settings },
            1 => Call::GroupSurfaceReport { group, settings },
            _ if site => Call::GroupSurfaceReport { group, settings },
            _ => Call::GroupReport { group, settings },
        };
        let cost = maker.cost(group, &call);
        let quota = maker.random.pick(&[cost, cost, cost.saturating_sub(1), cost + 1, 0, 2 * cost]);
        maker.start(quota);
        maker.call(group, call.clone());
        let other = maker.costly(a + b - group);
        maker.call(a + b - group, other);
        maker.call(group, call);
    }
    maker.turns
}

/// Someone else writes a group's sums or columns.
fn disturbed(random: &mut Random) -> Vec<Turn> {
    let groups = some_groups(random);
    let mut maker = Maker::new(random, 6);
    for &group in &groups {
        maker.fill(group, 5);
    }
    let quota = maker.random.pick(&QUOTAS);
    maker.start(quota);
    for _ in 0..8 {
        let group = maker.random.pick(&groups);
        let value = match maker.random.below(4) {
            0 => arguments::not_finite(maker.random),
            1 => 0.0,
            _ => maker.random.within(-4.0, 4.0),
        };
        let poke = match maker.random.below(5) {
            0 => Poke::X { at: maker.random.below(6), value },
            1 => Poke::Y { at: maker.random.below(6), value },
            2 => Poke::Weight { at: maker.random.below(6), value },
            _ => Poke::Sums { at: maker.random.pick(&[0, 1, 16, 17, 34, 256, 257]), value },
        };
        let call = maker.costly(group);
        maker.step(group, vec![poke], call);
        if maker.random.one_in(4) {
            maker.renew();
        }
    }
    maker.turns
}

/// Memory too short, the table's too, with other numbers that would do.
fn short(random: &mut Random) -> Vec<Turn> {
    let groups = some_groups(random);
    let mut maker = Maker::new(random, 17);
    for &group in &groups {
        let n = maker.random.pick(&[0, 1, 3, 7, 17, 17, 17]);
        maker.fill(group, n);
    }
    let quota = maker.random.pick(&[0, 1000]);
    maker.start(quota);
    maker.short_one_in = 3;
    for _ in 0..12 {
        let group = maker.random.pick(&groups);
        let mut settings = arguments::settings(maker.random);
        if maker.random.one_in(3) {
            settings.bound = DegreeBound::Custom(16);
        }
        if maker.random.one_in(3) {
            settings.tolerance = judge::statistics::Tolerance::Absolute(f64::NAN);
        }
        let named = maker.random.pick(&[group, group, 8, usize::MAX]);
        let call = match maker.random.below(10) {
            0 => Call::Renew,
            1 => Call::Start { quota: maker.random.below(100) },
            2..=4 => Call::GroupSurfaceReport { group: named, settings },
            5 | 6 => Call::GroupSplit { group: named, settings },
            _ => Call::GroupReport { group: named, settings },
        };
        maker.call(group, call);
    }
    maker.turns
}

// ---- what must happen

/// What each call may answer, besides being let through, in checking order.
pub const REFUSALS: [(&str, &[u8]); 5] = [
    ("start", &[1]),
    ("renew", &[1]),
    ("group_report", &[1, 17, 4, 7, 8, 16, 11, 12]),
    ("group_surface_report", &[1, 17, 4, 7, 8, 16, 11, 12]),
    ("group_split", &[1, 17, 4, 7, 8, 16, 11]),
];

/// Of each call that costs.
const OF_EACH: [&str; 12] = [
    "let through at a counter of the cost",
    "16 at one test too few",
    "16 at a counter of 0",
    "16 before 11",
    "11 takes its cost",
    "4 at a counter of 0",
    "7 at a counter of 0",
    "8 at a counter of 0",
    "a failing pivot among its tests",
    "another group's counter would let it through",
    "another group's counter would refuse it",
    "17 for group 8",
];

/// Of either report.
const OF_REPORTS: [&str; 4] = [
    "16 before 12",
    "12 takes its cost",
    "solving again would pass the counter",
    "inverting would pass the counter",
];

const EVENTS: [&str; 12] = [
    "groups: a quota of 0",
    "groups: the greatest quota",
    "groups: another quota in mid list",
    "groups: a renewal of counters that differ",
    "groups: 17 for the greatest number",
    "groups: 16, then a call that costs less let through",
    "groups: 16, then let through after a renewal",
    "groups: all eight let through in one list",
    "groups: a call between two of another group",
    "group_report: the lent sums cost otherwise than its own",
    "group_surface_report: a total degree that is not tried would pass the counter",
    "group_split: one side would be let through",
];

/// The names of all that must happen, besides every refusal and every length.
pub fn events() -> Vec<String> {
    let mut keys: Vec<String> = EVENTS.map(String::from).to_vec();
    for (call, _) in &REFUSALS[2..] {
        keys.extend(OF_EACH.map(|event| format!("{call}: {event}")));
    }
    for call in ["group_report", "group_surface_report"] {
        keys.extend(OF_REPORTS.map(|event| format!("{call}: {event}")));
    }
    for group in 0..GROUPS {
        keys.push(format!("groups: group {group} let through"));
        keys.push(format!("groups: group {group} refused by 16"));
    }
    keys
}

/// What a call costs that passes 8; none for one that costs nothing.
fn cost_of(
    call: &Call,
    samples: &[Sample],
    sums: &[f64],
    sites: &[SurfaceSample],
) -> Option<usize> {
    match call {
        Call::GroupReport { settings, .. } => Some(report_cost(samples, sums, *settings)),
        Call::GroupSurfaceReport { settings, .. } => {
            Some(report_cost(sites, &folded(sites), *settings))
        }
        Call::GroupSplit { settings, .. } => Some(split_cost(samples, *settings)),
        _ => None,
    }
}

/// What happened, by name.
pub fn happened(seen: &Seen) -> Vec<String> {
    let mut keys = Vec::new();
    let mut note_if = |holds: bool, event: String| {
        if holds {
            keys.push(event);
        }
    };
    let answered = seen.answer == Answer::Done;
    match seen.call {
        Call::Start { quota } => {
            note_if(answered && *quota == 0, "groups: a quota of 0".to_string());
            note_if(answered && *quota == usize::MAX, "groups: the greatest quota".to_string());
        }
        Call::Renew => {
            let counters = seen.before.table.iter().take(GROUPS).collect::<BTreeSet<_>>();
            let differ = answered && counters.len() > 1;
            note_if(differ, "groups: a renewal of counters that differ".to_string());
        }
        call => note_costly(call, seen, &mut note_if),
    }
    keys
}

fn note_costly(call: &Call, seen: &Seen, note_if: &mut dyn FnMut(bool, String)) {
    let (name, group) = (name(call), group_of(call).unwrap_or(GROUPS));
    let mut note = |holds: bool, event: &str| note_if(holds, format!("{name}: {event}"));
    let by_17 = seen.answer == Answer::Refused(17);
    note(by_17 && group == GROUPS, "17 for group 8");
    if by_17 || group >= GROUPS {
        note_if(by_17 && group == usize::MAX, "groups: 17 for the greatest number".to_string());
        return;
    }
    // Refused by 1, the table may have no place for the group.
    let counter = match seen.answer {
        Answer::Refused(1) => return,
        _ => seen.before.table[group],
    };
    if let Answer::Refused(number @ (4 | 7 | 8)) = seen.answer {
        return note(counter == 0, &format!("{number} at a counter of 0"));
    }
    let sums = &seen.memory.sums;
    let cost = cost_of(call, &seen.samples, sums, &seen.sites).unwrap_or(0);
    let refused = seen.answer == Answer::Refused(16);
    let late = late_refusal(call, seen);
    note(!refused && counter == cost, "let through at a counter of the cost");
    note(refused && counter + 1 == cost, "16 at one test too few");
    note(refused && counter == 0, "16 at a counter of 0");
    note(refused && late == Some(11), "16 before 11");
    note(refused && late == Some(12), "16 before 12");
    note(seen.answer == Answer::Refused(11), "11 takes its cost");
    note(seen.answer == Answer::Refused(12), "12 takes its cost");
    let others = (0..GROUPS).filter(|other| *other != group).map(|other| seen.before.table[other]);
    let others: Vec<usize> = others.collect();
    note(
        refused && others.iter().any(|c| *c >= cost),
        "another group's counter would let it through",
    );
    note(!refused && others.iter().any(|c| *c < cost), "another group's counter would refuse it");
    match call {
        Call::GroupReport { settings, .. } => {
            let bound = max_degree(settings.bound, seen.count);
            let pivots = (0..=bound).map(|degree| degree + 1).sum::<usize>();
            note(cost < pivots, "a failing pivot among its tests");
            let own = report_cost(&seen.samples, &folded_afresh(&seen.samples), *settings);
            note(!refused && own != cost, "the lent sums cost otherwise than its own");
        }
        Call::GroupSurfaceReport { settings, .. } => {
            let bound = max_degree(settings.bound, seen.count);
            let tried = fit::tried::<SurfaceSample>(bound, seen.count);
            let pivots = tried.iter().map(|degree| terms_of(*degree)).sum::<usize>();
            note(cost < pivots, "a failing pivot among its tests");
            let more = tried.len() <= bound && cost + 1 > counter;
            note(!refused && more, "a total degree that is not tried would pass the counter");
        }
        Call::GroupSplit { settings, .. } => {
            let n = seen.count;
            let pivots =
                |n: usize| (0..=max_degree(settings.bound, n)).map(|d| d + 1).sum::<usize>();
            let all: usize = (2..=n - 2).map(|b| pivots(b) + pivots(n - b)).sum();
            note(cost < all, "a failing pivot among its tests");
            note(refused && counter >= cost / 2, "one side would be let through");
        }
        _ => {}
    }
    if let Answer::Report { degree, .. } = seen.answer {
        let k = if name == "group_report" { degree + 1 } else { terms_of(degree) };
        note(counter < cost + k, "solving again would pass the counter");
        note(counter < cost + k * k, "inverting would pass the counter");
    }
    note_if(!refused, format!("groups: group {group} let through"));
    note_if(refused, format!("groups: group {group} refused by 16"));
}

/// By which number the call is refused once its cost is taken.
fn late_refusal(call: &Call, seen: &Seen) -> Option<u8> {
    fn of<S: judge::terms::Observed>(
        samples: &[S],
        sums: &[f64],
        settings: Settings,
    ) -> Option<u8> {
        let bound = max_degree(settings.bound, samples.len());
        match fit::chosen(&fit::scores(samples, sums, bound, settings.criterion)) {
            None => Some(11),
            Some(degree) => {
                inverse(sums, judge::terms::count_of::<S>(degree)).is_none().then_some(12)
            }
        }
    }
    match call {
        Call::GroupReport { settings, .. } => of(&seen.samples, &seen.memory.sums, *settings),
        Call::GroupSurfaceReport { settings, .. } => {
            of(&seen.sites, &folded(&seen.sites), *settings)
        }
        Call::GroupSplit { settings, .. } => {
            least_total(&breaks(&seen.samples, *settings)).is_none().then_some(11)
        }
        _ => None,
    }
}

/// What a list of several calls tells.
#[derive(Default)]
struct Story {
    starts: usize,
    through: BTreeSet<usize>,
    last: Option<usize>,
    /// The groups refused by 16, and whether there was a renewal since.
    refused: BTreeMap<usize, bool>,
}

impl Story {
    fn happened(&mut self, call: &Call, answer: &Answer) -> Vec<String> {
        let mut keys = Vec::new();
        match (call, answer) {
            (Call::Start { .. }, Answer::Done) => {
                self.starts += 1;
                self.refused.clear();
                if self.starts > 1 {
                    keys.push("groups: another quota in mid list".to_string());
                }
            }
            (Call::Renew, Answer::Done) => {
                self.refused.values_mut().for_each(|since| *since = true)
            }
            _ => {}
        }
        let Some(group) = group_of(call).filter(|group| *group < GROUPS) else { return keys };
        let turned = self.last.replace(group).map_or(false, |last| last != group);
        match answer {
            Answer::Refused(16) => {
                self.refused.insert(group, false);
            }
            Answer::Refused(_) => {}
            _ => {
                match self.refused.remove(&group) {
                    Some(false) => {
                        keys.push("groups: 16, then a call that costs less let through".to_string())
                    }
                    Some(true) => {
                        keys.push("groups: 16, then let through after a renewal".to_string())
                    }
                    None => {}
                }
                if turned && !self.through.insert(group) {
                    keys.push("groups: a call between two of another group".to_string());
                }
                self.through.insert(group);
                if self.through.len() == GROUPS {
                    keys.push("groups: all eight let through in one list".to_string());
                }
            }
        }
        keys
    }
}
