//! A season book (document 02, E14): lists of calls on the 32 stakes of one glacier, on memory that is lent
//! whole and whose lengths are seldom multiples of 32. Judge and port are compared, every answer and every place.
//! Beside each of them a book of its own for each stake gets the stake's calls alone, by the calls without a
//! season: its answers, all that it writes and its count must be those of the stake, and no other place of what
//! is lent may change. Between two season reports of the same settings and memory, one stake may be corrected:
//! the others keep their bits.

use std::ops::Range;

use journal::{Answer, Call, Judge, Memory, Side};
use judge::fit::Settings;
use judge::ledger::Ledger;
use judge::refusals::{self, Conditions, Lengths};
use judge::season::STAKES;
use judge::statistics::{DegreeBound, Tolerance};
use judge::sums::{PLACES, TERMS};
use judge::Sample;

use crate::arguments;
use crate::call::{conditions, name, List, Poke, Step};
use crate::coverage::Coverage;
use crate::lines;
use crate::memory::{difference, filled, poke};
use crate::random::Random;
use crate::run::{same_answer, Difference};
use crate::samples::{self, Source};
use crate::split;
use crate::weights;

/// Whether the call is a season's.
pub fn is_season(call: &Call) -> bool {
    matches!(call, Call::SeasonOpen | Call::Season { .. } | Call::SeasonReport(_))
}

/// Whether a list has calls of a season.
pub fn is_glacier(list: &List) -> bool {
    list.steps.iter().any(|step| is_season(&step.call))
}

// ---- parts

/// Where a stake's part of so many places lies.
fn places(length: usize, stake: usize) -> Range<usize> {
    let size = (length - length % STAKES) / STAKES;
    stake * size..stake * size + size
}

/// The lengths of a part; what is not cut is as it is lent, and a book is lent nothing else.
fn part_lengths(whole: &Lengths) -> Lengths {
    let part = |length| places(length, 0).len();
    Lengths {
        x: part(whole.x),
        y: part(whole.y),
        weight: part(whole.weight),
        sums: part(whole.sums),
        scratch: part(whole.scratch),
        coefficients: part(whole.coefficients),
        errors: part(whole.errors),
        pruned: part(whole.pruned),
        lower: part(whole.lower),
        upper: part(whole.upper),
        outlier: part(whole.outlier),
        z: 0,
        table: 0,
        counts: 0,
        ..*whole
    }
}

/// A stake's part of all memory, and what is not cut as it is.
fn cut(whole: &Memory, lengths: &Lengths, stake: usize) -> Memory {
    let floats = |all: &[f64], length| all[places(length, stake)].to_vec();
    let bytes = |all: &[u8], length| all[places(length, stake)].to_vec();
    Memory {
        x: floats(&whole.x, lengths.x),
        y: floats(&whole.y, lengths.y),
        weight: floats(&whole.weight, lengths.weight),
        sums: floats(&whole.sums, lengths.sums),
        scratch: floats(&whole.scratch, lengths.scratch),
        coefficients: floats(&whole.coefficients, lengths.coefficients),
        errors: floats(&whole.errors, lengths.errors),
        pruned: bytes(&whole.pruned, lengths.pruned),
        lower: floats(&whole.lower, lengths.lower),
        upper: floats(&whole.upper, lengths.upper),
        outlier: bytes(&whole.outlier, lengths.outlier),
        before: whole.before.clone(),
        after: whole.after.clone(),
        losses: whole.losses.clone(),
        solved: whole.solved.clone(),
        scores: whole.scores.clone(),
        z: Vec::new(),
        table: Vec::new(),
        counts: Vec::new(),
    }
}

/// A stake's part back in its place.
fn put_back(whole: &mut Memory, lengths: &Lengths, stake: usize, own: &Memory) {
    let floats = |all: &mut [f64], length, own: &[f64]| {
        all[places(length, stake)].copy_from_slice(own);
    };
    let bytes = |all: &mut [u8], length, own: &[u8]| {
        all[places(length, stake)].copy_from_slice(own);
    };
    floats(&mut whole.x, lengths.x, &own.x);
    floats(&mut whole.y, lengths.y, &own.y);
    floats(&mut whole.weight, lengths.weight, &own.weight);
    floats(&mut whole.sums, lengths.sums, &own.sums);
    floats(&mut whole.scratch, lengths.scratch, &own.scratch);
    floats(&mut whole.coefficients, lengths.coefficients, &own.coefficients);
    floats(&mut whole.errors, lengths.errors, &own.errors);
    bytes(&mut whole.pruned, lengths.pruned, &own.pruned);
    floats(&mut whole.lower, lengths.lower, &own.lower);
    floats(&mut whole.upper, lengths.upper, &own.upper);
    bytes(&mut whole.outlier, lengths.outlier, &own.outlier);
    whole.before.copy_from_slice(&own.before);
    whole.after.copy_from_slice(&own.after);
    whole.losses.copy_from_slice(&own.losses);
    whole.solved.copy_from_slice(&own.solved);
    whole.scores.copy_from_slice(&own.scores);
}

/// The conditions of the refusals of a stake's call: 18, then 1 for the counts too, then the call's own over the
/// stake's parts.
pub fn stake_conditions(
    stake: usize,
    call: &Call,
    lengths: &Lengths,
    count: usize,
    samples: &[Sample],
) -> Conditions {
    let own = conditions(call, &part_lengths(lengths), count, (samples, &[]));
    let mut all = refusals::stake(lengths, stake);
    all[1].1 |= own[0].1;
    all.extend(&own[1..]);
    all
}

// ---- the run

/// A stake's book of its own: what its own calls left.
struct Own {
    count: usize,
    x: Vec<f64>,
    y: Vec<f64>,
    weight: Vec<f64>,
    sums: Vec<f64>,
}

/// The lengths of what is kept between calls.
fn kept_lengths(lengths: &Lengths) -> [usize; 4] {
    [lengths.x, lengths.y, lengths.weight, lengths.sums]
}

/// A season by one side.
struct Glacier<'a> {
    side: &'a dyn Side,
    memory: Memory,
    /// Of a call without a season.
    count: usize,
    kept: [usize; 4],
    /// Until someone else changes a stake, or a call changes one that lies elsewhere.
    alone: Option<Vec<Own>>,
}

impl<'a> Glacier<'a> {
    fn new(list: &List, side: &'a dyn Side) -> Self {
        let memory = filled(list);
        let lengths = list.steps.first().map_or_else(Lengths::default, |step| step.lengths);
        let own = |stake: usize| {
            let own = cut(&memory, &lengths, stake);
            let count = memory.counts.get(stake).copied().unwrap_or(0);
            Own { count, x: own.x, y: own.y, weight: own.weight, sums: own.sums }
        };
        let alone = Some((0..STAKES).map(own).collect());
        Self { side, memory, count: 0, kept: kept_lengths(&lengths), alone }
    }

    /// What someone else writes, into the stake's own book too.
    fn disturb(&mut self, written: Poke) {
        poke(&mut self.memory, written);
        let kept = self.kept;
        let Some(alone) = &mut self.alone else { return };
        let (length, at, value, of): (_, _, _, fn(&mut Own) -> &mut Vec<f64>) = match written {
            Poke::X { at, value } => (kept[0], at, value, |own| &mut own.x),
            Poke::Y { at, value } => (kept[1], at, value, |own| &mut own.y),
            Poke::Weight { at, value } => (kept[2], at, value, |own| &mut own.weight),
            Poke::Sums { at, value } => (kept[3], at, value, |own| &mut own.sums),
            Poke::Counts { at, number } => {
                if let Some(own) = alone.get_mut(at) {
                    own.count = number;
                }
                return;
            }
            Poke::Z { .. } | Poke::Table { .. } => return,
        };
        let size = places(length, 0).len();
        if size > 0 && at / size < STAKES {
            of(&mut alone[at / size])[at % size] = value;
        }
    }

    /// Makes a call, and holds it against those of the stakes' own books.
    fn step(&mut self, step: &Step) -> Result<Answer, String> {
        for &written in &step.pokes {
            self.disturb(written);
        }
        let (lengths, count) = (&step.lengths, step.count.unwrap_or(self.count));
        let before = self.memory.clone();
        let answer = self.side.make(&step.call, count, self.memory.lend(lengths));
        if !is_season(&step.call) {
            self.alone = None;
            if let Answer::Book(count) = answer {
                self.count = count;
            }
            return Ok(answer);
        }
        let mut expected = before;
        let theirs = self.by_books(&step.call, lengths, &mut expected);
        if !same_answer(&answer, &theirs) {
            return Err(format!("a season answers {answer:?}, books of its stakes {theirs:?}"));
        }
        match difference(&expected, &self.memory) {
            Some(difference) => {
                Err(format!("books of the stakes, and {}'s season: {difference}", self.side.name()))
            }
            None => Ok(answer),
        }
    }

    /// What the call is due to answer and to leave, by a book for each stake.
    fn by_books(&mut self, call: &Call, lengths: &Lengths, memory: &mut Memory) -> Answer {
        let no_counts = lengths.counts < STAKES;
        match call {
            Call::SeasonOpen if no_counts => Answer::Refused(1),
            Call::SeasonOpen => {
                let all = 0..STAKES;
                let opened: Vec<Answer> =
                    all.map(|stake| self.by_book(stake, &Call::Open, lengths, memory)).collect();
                match opened.iter().all(|answer| *answer == Answer::Book(0)) {
                    true => Answer::Done,
                    false => Answer::Refused(1),
                }
            }
            Call::Season { stake, .. } if *stake >= STAKES => Answer::Refused(18),
            Call::Season { .. } if no_counts => Answer::Refused(1),
            Call::Season { stake, call } => self.by_book(*stake, call, lengths, memory),
            Call::SeasonReport(settings) => {
                let report = |stake| match no_counts {
                    true => Answer::Refused(1),
                    false => self.by_book(stake, &Call::Report(*settings), lengths, memory),
                };
                let stakes: Vec<Answer> = (0..STAKES).map(report).collect();
                let refused = |answer: &&Answer| matches!(answer, Answer::Refused(_));
                let answered = STAKES - stakes.iter().filter(refused).count();
                Answer::Season { answered, stakes }
            }
            other => panic!("{other} is no call of a season"),
        }
    }

    /// A stake's call by its own book, and its part of the memory as that leaves it.
    fn by_book(
        &mut self,
        stake: usize,
        call: &Call,
        lengths: &Lengths,
        memory: &mut Memory,
    ) -> Answer {
        let mut own = cut(memory, lengths, stake);
        let mut count = memory.counts[stake];
        let same_place = kept_lengths(lengths) == self.kept;
        if let (Some(alone), true) = (&mut self.alone, same_place) {
            let book = &mut alone[stake];
            count = book.count;
            std::mem::swap(&mut own.x, &mut book.x);
            std::mem::swap(&mut own.y, &mut book.y);
            std::mem::swap(&mut own.weight, &mut book.weight);
            std::mem::swap(&mut own.sums, &mut book.sums);
        }
        let answer = self.side.make(call, count, own.lend(&part_lengths(lengths)));
        put_back(memory, lengths, stake, &own);
        if let Answer::Book(count) = answer {
            memory.counts[stake] = count;
        }
        match &mut self.alone {
            Some(alone) if same_place => {
                let Memory { x, y, weight, sums, .. } = own;
                alone[stake] = Own { count: memory.counts[stake], x, y, weight, sums };
            }
            // It lies elsewhere, and was changed there.
            _ if matches!(answer, Answer::Book(_)) => self.alone = None,
            _ => {}
        }
        answer
    }
}

/// A season report, to be compared with the next one.
struct Reported {
    settings: Settings,
    lengths: Lengths,
    stakes: Vec<Answer>,
    memory: Memory,
    /// The stake that was corrected since, if one was.
    corrected: Option<usize>,
}

/// Runs the list by the judge and the other sides; notes in the coverage what happened, by the judge.
pub fn run(list: &List, others: &[&dyn Side], coverage: &mut Coverage) -> Result<(), Difference> {
    let mut judge = Glacier::new(list, &Judge);
    let mut others: Vec<Glacier> = others.iter().map(|side| Glacier::new(list, *side)).collect();
    let mut reported: Option<Reported> = None;
    for (at, step) in list.steps.iter().enumerate() {
        let different = |what| Difference { step: at, what };
        let before = before_call(&judge, step);
        let answer = judge.step(step).map_err(different)?;
        for other in &mut others {
            let theirs = other.step(step).map_err(different)?;
            let name = other.side.name();
            if !same_answer(&answer, &theirs) {
                return Err(different(format!("judge answers {answer:?}, {name} {theirs:?}")));
            }
            if let Some(difference) = difference(&judge.memory, &other.memory) {
                return Err(different(format!("judge and {name}: {difference}")));
            }
        }
        let mut events = happened(step, &before, &answer);
        let again = check_again(&mut reported, step, &answer, &judge.memory);
        events.extend(again.map_err(different)?);
        coverage.note_season(&step.call, &answer, &before.conditions, events);
    }
    if judge.alone.is_some() {
        coverage.note_groups("season: books of their own to the end".to_string());
    }
    Ok(())
}

/// What a call finds: the counts, the stake's samples and the conditions of its refusals.
struct Before {
    counts: Vec<usize>,
    conditions: Conditions,
    /// Whether a column of another stake holds something that is not finite below its count.
    spoilt_elsewhere: bool,
}

fn before_call(judge: &Glacier, step: &Step) -> Before {
    // As the call finds it.
    let mut memory = judge.memory.clone();
    step.pokes.iter().for_each(|written| poke(&mut memory, *written));
    let lengths = &step.lengths;
    let counts: Vec<usize> = memory.counts.iter().copied().take(lengths.counts).collect();
    let samples_of = |stake: usize| {
        let count = counts.get(stake).copied().unwrap_or(0);
        let column = |all: &[f64], length| all[places(length, stake)].to_vec();
        let [x, y, weight] = [
            column(&memory.x, lengths.x),
            column(&memory.y, lengths.y),
            column(&memory.weight, lengths.weight),
        ];
        let many = if count > x.len().min(y.len()).min(weight.len()) { 0 } else { count };
        (0..many).map(|i| Sample { x: x[i], y: y[i], weight: weight[i] }).collect::<Vec<_>>()
    };
    let finite = |s: &Sample| s.x.is_finite() && s.y.is_finite() && s.weight.is_finite();
    let (conditions, named) = match &step.call {
        Call::SeasonOpen => (refusals::season_open(lengths), None),
        Call::Season { stake, call } => {
            let there = *stake < STAKES && lengths.counts >= STAKES;
            let (count, samples) = match there {
                true => (counts[*stake], samples_of(*stake)),
                false => (0, Vec::new()),
            };
            (stake_conditions(*stake, call, lengths, count, &samples), there.then_some(*stake))
        }
        _ => (Vec::new(), None),
    };
    let spoilt = |stake: &usize| !samples_of(*stake).iter().all(finite);
    let spoilt_elsewhere = named.map_or(false, |named| {
        !spoilt(&named) && (0..STAKES).any(|stake| stake != named && spoilt(&stake))
    });
    Before { counts, conditions, spoilt_elsewhere }
}

/// Of two season reports with the same settings and memory, nothing between them but one stake's corrections:
/// answers and parts of the others are the same.
fn check_again(
    reported: &mut Option<Reported>,
    step: &Step,
    answer: &Answer,
    memory: &Memory,
) -> Result<Vec<String>, String> {
    let mut events = Vec::new();
    if !step.pokes.is_empty() {
        *reported = None;
    }
    let (settings, stakes) = match (&step.call, answer) {
        (Call::SeasonReport(settings), Answer::Season { stakes, .. }) => (*settings, stakes),
        (Call::Season { stake, call }, Answer::Book(_)) => {
            let corrects = matches!(**call, Call::Correct { .. });
            let last = reported.take().filter(|last| {
                let same = kept_lengths(&last.lengths) == kept_lengths(&step.lengths);
                corrects && same && last.corrected.map_or(true, |before| before == *stake)
            });
            *reported = last.map(|last| Reported { corrected: Some(*stake), ..last });
            return Ok(events);
        }
        // What is refused changes nothing; of what reads, only outputs.
        (_, Answer::Refused(_)) => return Ok(events),
        _ => {
            *reported = None;
            return Ok(events);
        }
    };
    if let Some(last) = reported {
        if last.settings == settings && last.lengths == step.lengths {
            let corrected = last.corrected;
            for stake in (0..STAKES).filter(|stake| Some(*stake) != corrected) {
                if last.stakes[stake] != stakes[stake] {
                    let (a, b) = (&last.stakes[stake], &stakes[stake]);
                    return Err(format!("stake {stake} was reported {a:?}, and then {b:?}"));
                }
                let [first, second] =
                    [&last.memory, memory].map(|memory| cut(memory, &step.lengths, stake));
                if let Some(difference) = difference(&first, &second) {
                    return Err(format!("stake {stake} between two reports: {difference}"));
                }
            }
            if let Some(stake) = corrected {
                events.push("season: one stake corrected between two reports".to_string());
                let parts = [&last.memory, memory].map(|m| cut(m, &step.lengths, stake));
                if difference(&parts[0], &parts[1]).is_some() {
                    events.push("season: a corrected stake's report is another".to_string());
                }
            } else {
                events.push("season: reported twice with nothing between".to_string());
            }
        }
    }
    *reported = Some(Reported {
        settings,
        lengths: step.lengths,
        stakes: stakes.clone(),
        memory: memory.clone(),
        corrected: None,
    });
    Ok(events)
}

// ---- the lists

/// Makes the list of the given number from the given seed.
pub fn list(seed: u64, number: u64) -> List {
    let random =
        &mut Random::new(seed.rotate_left(31) ^ number.wrapping_mul(0xA076_1D64_78BD_642F));
    let contents = random.next();
    let steps = match number % 16 {
        0..=4 => mixed(random),
        5 | 6 => late(random),
        7..=9 => corrected(random),
        10 | 11 => disturbed(random),
        12..=14 => short(random),
        _ => few(random),
    };
    List { contents, steps }
}

/// A list in the making: a ledger for each stake, to know the samples, and the lengths of what is kept.
struct Maker<'a> {
    random: &'a mut Random,
    ledgers: Vec<Ledger>,
    lengths: Lengths,
    steps: Vec<Step>,
    pokes: Vec<Poke>,
    /// One call in so many gets a memory that is too short; 0 for none.
    short_one_in: usize,
}

/// So many places for each stake, and a rest.
fn whole(random: &mut Random, places: usize) -> usize {
    STAKES * places + random.pick(&[0, 0, 1, 2, 16, 31])
}

impl<'a> Maker<'a> {
    /// A season whose stakes have so much room.
    fn new(random: &'a mut Random, room: usize) -> Self {
        let mut columns = [room + random.pick(&[0, 0, 1, 3]); 3];
        columns[random.below(3)] = room;
        let [x, y, weight] = columns.map(|places| whole(random, places));
        let places = PLACES + random.pick(&[0, 0, 1, 4]);
        let sums = whole(random, places);
        let lengths = Lengths { x, y, weight, sums, ..Lengths::default() };
        let ledgers = vec![Ledger::default(); STAKES];
        let (steps, pokes) = (Vec::new(), Vec::new());
        Self { random, ledgers, lengths, steps, pokes, short_one_in: 0 }
    }

    fn samples(&self, stake: usize) -> &[Sample] {
        self.ledgers.get(stake).map_or(&[], |ledger| &ledger.samples)
    }

    fn fullest(&self) -> usize {
        self.ledgers.iter().map(|ledger| ledger.samples.len()).max().unwrap_or(0)
    }

    /// Parts that are just long enough, or with some places past the end, for the stake or for all.
    fn lengths(&mut self, stake: Option<usize>) -> Lengths {
        let n = stake.map_or_else(|| self.fullest(), |stake| self.samples(stake).len());
        let n = if self.random.one_in(3) { self.fullest() } else { n };
        let random = &mut *self.random;
        let mut some = |places: usize| {
            let places = places + random.pick(&[0, 0, 0, 1, 3]);
            whole(random, places)
        };
        let mut lengths = Lengths {
            scratch: some(n),
            coefficients: some(TERMS),
            errors: some(TERMS),
            pruned: some(TERMS),
            lower: some(n),
            upper: some(n),
            outlier: some(n),
            ..self.lengths
        };
        let mut more = || self.random.pick(&[0, 0, 1, 3]);
        lengths.before = TERMS + more();
        lengths.after = TERMS + more();
        lengths.losses = n + more();
        lengths.solved = TERMS + more();
        lengths.scores = TERMS + more();
        lengths.counts = STAKES + more();
        if self.short_one_in > 0 && self.random.one_in(self.short_one_in) {
            shorten(self.random, &mut lengths, n);
        }
        lengths
    }

    fn push(&mut self, lengths: Lengths, call: Call) {
        let pokes = std::mem::take(&mut self.pokes);
        self.steps.push(Step { pokes, count: None, lengths, call });
    }

    fn open(&mut self) {
        let lengths = self.lengths(None);
        if refusals::judged(&refusals::season_open(&lengths)).is_ok() {
            self.ledgers.iter_mut().for_each(|ledger| ledger.samples.clear());
        }
        self.push(lengths, Call::SeasonOpen);
    }

    fn report(&mut self, settings: Settings) {
        let lengths = self.lengths(None);
        self.push(lengths, Call::SeasonReport(settings));
    }

    /// A stake's call, which its ledger follows; refusals change nothing.
    fn call(&mut self, stake: usize, call: Call) {
        let lengths = self.lengths(Some(stake));
        if let Some(own) = self.ledgers.get_mut(stake).filter(|_| lengths.counts >= STAKES) {
            let part = &part_lengths(&lengths);
            let _ = match &call {
                Call::Open => own.open(part),
                Call::Add(sample) => own.add(part, *sample),
                Call::AddWindow(sample) => own.add_window(part, *sample),
                Call::AddFrame(bytes) => own.add_frame(part, bytes),
                Call::AddLines(text) => own.add_lines(part, text),
                Call::Correct { index, y } => own.correct(part, *index, *y),
                Call::Withdraw { index } => own.withdraw(part, *index),
                _ => Ok(0),
            };
        }
        self.push(lengths, Call::Season { stake, call: Box::new(call) });
    }

    /// Samples of some kind, in a frame.
    fn fill(&mut self, stake: usize, n: usize) {
        let samples = Source::new(self.random, n).take(self.random, n);
        self.call(stake, Call::AddFrame(judge::frame::encode_weighted(&samples)));
    }

    /// A call that changes a stake, most of them let through.
    fn change(&mut self, stake: usize) -> Call {
        let (n, random) = (self.samples(stake).len(), &mut *self.random);
        let index = match random.below(10) {
            0 => random.pick(&[n, n + 1, usize::MAX]),
            _ => random.below(n.max(1)),
        };
        let y = match random.below(10) {
            0 => arguments::not_finite(random),
            _ => random.within(-9.0, 9.0),
        };
        let few = random.below(3);
        let mut samples = Source::new(random, few + 1).take(random, few + 1);
        if random.one_in(8) {
            weights::spoil(random, &mut samples);
        }
        match random.below(20) {
            0..=4 => Call::Add(samples[0]),
            5..=8 => Call::AddWindow(samples[0]),
            9 | 10 => Call::AddFrame(weights::frame_of(random, &samples)),
            11 if random.one_in(2) => Call::AddFrame(weights::any_frame(random)),
            11 => Call::AddFrame(arguments::wrong_frame(random, &samples)),
            12 => Call::AddLines(lines::right(random, few)),
            13 => Call::AddLines(lines::wrong(random, few)),
            14 | 15 => Call::Correct { index, y },
            16 | 17 => Call::Withdraw { index },
            18 => Call::Carry,
            _ => Call::Open,
        }
    }

    /// A call that reads a stake.
    fn reading(&mut self, stake: usize) -> Call {
        let samples = self.samples(stake).to_vec();
        match self.random.below(6) {
            0 if samples.len() <= 12 => split::call(self.random, &samples),
            1 => arguments::validate(self.random, samples.len()),
            _ => arguments::reading(self.random, &samples),
        }
    }

    /// Any call of a stake.
    fn any(&mut self, stake: usize) -> Call {
        match self.random.below(2) {
            0 => self.change(stake),
            _ => self.reading(stake),
        }
    }

    /// One of these stakes, seldom one that is none.
    fn pick(&mut self, stakes: &[usize]) -> usize {
        match self.random.below(16) {
            0 => self.random.pick(&[32, 33, 63, 255, usize::MAX]),
            _ => self.random.pick(stakes),
        }
    }
}

/// Stakes to take turns.
fn some_stakes(random: &mut Random) -> Vec<usize> {
    match random.below(4) {
        0 => (0..STAKES).collect(),
        1 => vec![random.pick(&[0, 31])],
        2 => vec![0, 31, random.below(STAKES)],
        _ => (0..random.between(2, 6)).map(|_| random.below(STAKES)).collect(),
    }
}

/// One memory too short: a place less than 32 parts that do, or a part less and some places, or none.
fn shorten(random: &mut Random, lengths: &mut Lengths, n: usize) {
    let way = random.below(5);
    let short = |places: usize| match way {
        0 => 0,
        1 if places > 0 => STAKES * (places - 1) + 31,
        _ => (STAKES * places).saturating_sub(1),
    };
    let own = |places: usize| if way == 0 { 0 } else { places.saturating_sub(1) };
    match random.below(20) {
        0 | 1 => lengths.sums = short(PLACES),
        2 => lengths.x = short(n),
        3 => lengths.y = short(n),
        4 => lengths.weight = short(n),
        5 | 6 => lengths.scratch = short(n),
        7 | 8 => lengths.coefficients = short(TERMS),
        9 => lengths.errors = short(TERMS),
        10 => lengths.pruned = short(TERMS),
        11 => lengths.lower = short(n),
        12 => lengths.upper = short(n),
        13 => lengths.outlier = short(n),
        14 => lengths.before = own(TERMS),
        15 => lengths.after = own(TERMS),
        16 => lengths.losses = own(n),
        17 => lengths.solved = own(TERMS),
        18 => lengths.scores = own(TERMS),
        _ => lengths.counts = own(STAKES),
    }
}

const ROOMS: [usize; 9] = [0, 1, 2, 4, 5, 6, 8, 12, 17];

/// Calls as they come: changes, calls that read, season reports, and now and then an opening.
fn mixed(random: &mut Random) -> Vec<Step> {
    let stakes = some_stakes(random);
    let room = random.pick(&ROOMS);
    let mut maker = Maker::new(random, room);
    // Before it is opened a season holds whatever it holds.
    if maker.random.one_in(8) {
        maker.report(arguments::settings(&mut Random::new(room as u64)));
    }
    maker.open();
    for &stake in &stakes {
        let n = maker.random.between(0, room);
        maker.fill(stake, n);
    }
    maker.short_one_in = 40;
    for _ in 0..maker.random.between(10, 28) {
        let stake = maker.pick(&stakes);
        match maker.random.below(24) {
            0 | 1 => {
                let settings = arguments::settings(maker.random);
                maker.report(settings);
            }
            2 if maker.random.one_in(4) => maker.open(),
            _ => {
                let call = maker.any(stake);
                maker.call(stake, call);
            }
        }
    }
    maker.steps
}

/// Stakes that are refused late, by 10, 11 and 12, beside others that are not.
fn late(random: &mut Random) -> Vec<Step> {
    let mut maker = Maker::new(random, 17);
    maker.open();
    let most = Sample::unweighted(maker.random.below(3) as f64, f64::MAX);
    let (edge, highest) =
        (0..9).find_map(|_| samples::at_some_pivot_edge(maker.random)).unwrap_or_default();
    let stakes = [maker.random.below(16), 16 + maker.random.below(15), 31];
    let all = maker.random.between(4, 7);
    maker.call(stakes[0], Call::AddFrame(judge::frame::encode(&vec![most; all])));
    maker.call(stakes[1], Call::AddFrame(judge::frame::encode_weighted(&edge)));
    let n = maker.random.between(1, 17);
    maker.fill(stakes[2], n);
    for _ in 0..12 {
        let stake = maker.random.pick(&stakes);
        let degree = if stake == stakes[1] { highest } else { maker.random.below(4) };
        let settings = arguments::settings(maker.random);
        let settings = Settings { bound: DegreeBound::Custom(degree), ..settings };
        let x = maker.samples(stake).first().map_or(0.0, |sample| sample.x);
        let call = match maker.random.below(9) {
            0 => Call::Fit { degree },
            1 => {
                let (confidence, tolerance) = (settings.confidence, settings.tolerance);
                Call::Band { x, degree, confidence, tolerance }
            }
            2 => {
                let (bound, criterion) = (settings.bound, settings.criterion);
                Call::Validate { folds: 2, bound, criterion }
            }
            3 => Call::Split {
                limit: usize::MAX,
                settings: Settings { bound: DegreeBound::Custom(0), ..settings },
            },
            4 => Call::Losses(settings),
            5 => Call::Scores(settings),
            6 => Call::Report(settings),
            _ => {
                maker.report(settings);
                continue;
            }
        };
        maker.call(stake, call);
    }
    maker.steps
}

/// Our user's case: a season report, a correction of one stake, and the same report once more.
fn corrected(random: &mut Random) -> Vec<Step> {
    let room = random.pick(&[3, 5, 8, 12]);
    let mut maker = Maker::new(random, room);
    maker.open();
    let empty = maker.random.below(4);
    for stake in 0..STAKES {
        if empty == 0 || stake % 4 != empty {
            let n = maker.random.between(1, room);
            maker.fill(stake, n);
        }
    }
    for _ in 0..3 {
        let settings = arguments::settings(maker.random);
        maker.report(settings);
        let lengths = maker.steps.last().map_or_else(Lengths::default, |step| step.lengths);
        let stake = maker.random.below(STAKES);
        for _ in 0..maker.random.below(3) {
            let n = maker.samples(stake).len().max(1);
            let (index, y) = (maker.random.below(n), maker.random.within(-50.0, 50.0));
            maker.call(stake, Call::Correct { index, y });
        }
        maker.push(lengths, Call::SeasonReport(settings));
        let call = maker.any(stake);
        maker.call(stake, call);
    }
    maker.steps
}

/// Someone else writes columns, sums and counts.
fn disturbed(random: &mut Random) -> Vec<Step> {
    let stakes = some_stakes(random);
    let room = random.pick(&[2, 4, 6, 8]);
    let mut maker = Maker::new(random, room);
    maker.open();
    for &stake in &stakes {
        let n = maker.random.between(1, room);
        maker.fill(stake, n);
    }
    maker.short_one_in = 12;
    for _ in 0..14 {
        let stake = maker.random.pick(&stakes);
        let any = maker.random.below(STAKES);
        let of = maker.random.pick(&[stake, stake, any]);
        let value = match maker.random.below(3) {
            0 => maker.random.within(-4.0, 4.0),
            _ => arguments::not_finite(maker.random),
        };
        let n = maker.samples(of).len().max(1);
        let mut place = |length: usize, n: usize| {
            let part = places(length, of);
            part.start + maker.random.below(n).min(part.len().saturating_sub(1))
        };
        let Lengths { x, y, weight, sums, .. } = maker.lengths;
        let poke = match value.to_bits() % 6 {
            0 => Poke::X { at: place(x, n), value },
            1 => Poke::Y { at: place(y, n), value },
            2 => Poke::Weight { at: place(weight, n), value },
            3 => Poke::Sums { at: place(sums, PLACES), value },
            4 => Poke::Y { at: place(y, n), value },
            _ => {
                let number = maker.random.pick(&[0, 1, room, room + 1, 4096, 4097, usize::MAX]);
                Poke::Counts { at: of, number }
            }
        };
        if maker.random.one_in(2) {
            maker.pokes.push(poke);
        }
        match maker.random.below(5) {
            0 => {
                let settings = arguments::settings(maker.random);
                maker.report(settings);
            }
            1 => {
                let call = maker.any(stake);
                maker.call(stake, call);
            }
            _ => {
                let call = maker.reading(stake);
                maker.call(stake, call);
            }
        }
    }
    maker.steps
}

/// Memory too short, with other numbers that would do, and stakes that there are not.
fn short(random: &mut Random) -> Vec<Step> {
    let stakes = some_stakes(random);
    let mut maker = Maker::new(random, 17);
    maker.open();
    for &stake in &stakes {
        let n = maker.random.pick(&[0, 1, 3, 7, 17, 17, 17]);
        maker.fill(stake, n);
    }
    maker.short_one_in = 2;
    for _ in 0..18 {
        let of = maker.random.pick(&stakes);
        if maker.random.one_in(3) {
            none(&mut maker);
        }
        let stake = maker.random.pick(&[of, of, of, 32, usize::MAX]);
        let mut settings = arguments::settings(maker.random);
        if maker.random.one_in(3) {
            settings.bound = DegreeBound::Custom(16);
        }
        if maker.random.one_in(3) {
            settings.tolerance = Tolerance::Absolute(f64::NAN);
        }
        let call = match maker.random.below(11) {
            0 | 9 | 10 => Call::Report(settings),
            1 => Call::Losses(settings),
            2 => Call::Scores(settings),
            3 => Call::Split { limit: 0, settings },
            4 => Call::Validate { folds: 0, bound: settings.bound, criterion: settings.criterion },
            5 => {
                let (confidence, tolerance) = (settings.confidence, settings.tolerance);
                Call::Band { x: 1e300, degree: 99, confidence, tolerance }
            }
            6 => {
                match maker.random.below(3) {
                    0 => maker.open(),
                    _ => maker.report(settings),
                }
                continue;
            }
            7 => maker.reading(of),
            _ => maker.change(of),
        };
        maker.call(stake, call);
    }
    maker.steps
}

/// A call of a stake that there is not, with what would refuse it otherwise.
fn none(maker: &mut Maker) {
    let random = &mut *maker.random;
    let mut samples = [Sample::unweighted(1.0, 2.0)];
    weights::spoil(random, &mut samples);
    let (index, y) = (random.below(3), arguments::not_finite(random));
    let call = match random.below(9) {
        0 => Call::Add(samples[0]),
        1 => Call::AddWindow(samples[0]),
        2 => Call::AddFrame(weights::any_frame(random)),
        3 => Call::AddLines(lines::wrong(random, 1)),
        4 => Call::Correct { index, y },
        5 => Call::Withdraw { index },
        6 => Call::Carry,
        7 => Call::Open,
        _ => arguments::reading(random, &[]),
    };
    let stake = random.pick(&[32, usize::MAX]);
    let mut lengths = maker.lengths(None);
    if maker.random.one_in(2) {
        lengths.counts = maker.random.pick(&[0, 31]);
    }
    maker.push(lengths, Call::Season { stake, call: Box::new(call) });
}

/// Lengths below 32, and none at all.
fn few(random: &mut Random) -> Vec<Step> {
    let mut maker = Maker::new(random, 2);
    maker.open();
    for stake in [0, 31] {
        maker.fill(stake, 1);
    }
    for _ in 0..16 {
        let stake = maker.random.pick(&[0, 31, 5]);
        let call = maker.any(stake);
        let mut lengths = maker.lengths(Some(stake));
        for length in [
            &mut lengths.x,
            &mut lengths.y,
            &mut lengths.weight,
            &mut lengths.sums,
            &mut lengths.scratch,
            &mut lengths.coefficients,
            &mut lengths.errors,
            &mut lengths.pruned,
            &mut lengths.lower,
            &mut lengths.upper,
            &mut lengths.outlier,
            &mut lengths.counts,
        ] {
            if maker.random.one_in(6) {
                *length = maker.random.pick(&[0, 1, 31, 32, 33]);
            }
        }
        let call = match maker.random.below(6) {
            0 => Call::SeasonOpen,
            1 => Call::SeasonReport(arguments::settings(maker.random)),
            _ => Call::Season { stake, call: Box::new(call) },
        };
        maker.push(lengths, call);
    }
    maker.steps
}

// ---- what must happen

/// What each call may answer, besides being let through, in checking order.
pub const REFUSALS: [(&str, &[u8]); 16] = [
    ("season_open", &[1]),
    ("season_open_stake", &[18, 1]),
    ("season_add", &[18, 1, 4, 15, 5]),
    ("season_add_window", &[18, 1, 4, 15, 5]),
    ("season_correct", &[18, 1, 4, 6]),
    ("season_withdraw", &[18, 1, 6]),
    ("season_add_frame", &[18, 1, 2, 3, 4, 15, 5]),
    ("season_add_lines", &[18, 1, 13, 14, 5]),
    ("season_carry", &[18, 1]),
    ("season_fit", &[18, 1, 4, 7, 8, 10]),
    ("season_report_stake", &[18, 1, 4, 7, 8, 11, 12]),
    ("season_split", &[18, 1, 4, 7, 8, 16, 11]),
    ("season_losses", &[18, 1, 4, 7, 8, 11, 12]),
    ("season_scores", &[18, 1, 4, 7, 8, 11, 12]),
    ("season_validate", &[18, 1, 4, 7, 8, 10, 11]),
    ("season_band", &[18, 1, 4, 7, 8, 9, 10, 12]),
];

/// The memory that is cut, by name.
const CUT: [&str; 11] = [
    "xs",
    "ys",
    "ws",
    "sums",
    "scratch",
    "coefficients",
    "errors",
    "pruned",
    "lower",
    "upper",
    "outliers",
];

const EVENTS: [&str; 20] = [
    "season: opened, whatever the counts were",
    "season: not opened for its counts",
    "season: not opened for its sums",
    "season: a full window slides",
    "season: a NaN in another stake's column alone",
    "season: books of their own to the end",
    "season: reported twice with nothing between",
    "season: one stake corrected between two reports",
    "season: a corrected stake's report is another",
    "season_report: no stake answered",
    "season_report: all stakes answered",
    "season_report: some stakes answered",
    "season_report: short counts",
    "season_report: 1 for some stakes only",
    "season_report: a refused stake before one that answers",
    "season_report: a stake refused by 4",
    "season_report: a stake refused by 7",
    "season_report: a stake refused by 8",
    "season_report: a stake refused by 11",
    "season_report: a stake refused by 12",
];

/// The names of all that must happen.
pub fn events() -> Vec<String> {
    let mut keys: Vec<String> = EVENTS.map(String::from).to_vec();
    for (call, numbers) in REFUSALS {
        keys.push(format!("{call}: answered"));
        keys.extend(numbers.iter().map(|number| format!("{call}: refused by {number}")));
        if numbers[0] == 18 {
            keys.push(format!("{call}: 18 for stake 32"));
            keys.push(format!("{call}: 18 for the greatest number"));
            // Those that come out of the fit or of a split's search are not judged before it, and a stake
            // that there is not has no samples: none is not finite, and every bound is 0.
            let early = numbers[1..].iter().filter(|n| !matches!(n, 10..=12 | 16));
            let early = early.filter(|n| match **n {
                4 => !["season_fit", "season_validate"].contains(&call),
                8 => ["season_fit", "season_band"].contains(&call),
                _ => true,
            });
            keys.extend(early.map(|number| format!("{call}: 18 before {number}")));
        }
    }
    for memory in CUT {
        keys.push(format!("season: {memory} with a rest that is nobody's"));
        keys.push(format!("season: {memory} in parts that just do"));
        keys.push(format!("season: {memory} a place short of that"));
        keys.push(format!("season: {memory} of fewer than 32 places"));
        keys.push(format!("season: {memory} of no places"));
    }
    for stake in 0..STAKES {
        keys.push(format!("season: stake {stake} changed"));
        keys.push(format!("season: stake {stake} reported"));
    }
    keys
}

/// The length of each memory that is cut, and what a stake's part of it needs for a call.
fn lengths_of(step: &Step, count: usize) -> Vec<(&'static str, usize, Option<usize>)> {
    let Lengths { x, y, weight, sums, scratch, .. } = step.lengths;
    let Lengths { coefficients, errors, pruned, lower, upper, outlier, .. } = step.lengths;
    let (reads, fits, reports, columns) = match &step.call {
        Call::SeasonReport(_) => (true, true, true, true),
        Call::Season { call, .. } => match **call {
            Call::Report(_) => (true, true, true, true),
            Call::Fit { .. } | Call::Validate { .. } => (true, true, false, true),
            Call::Band { .. } | Call::Split { .. } | Call::Losses(_) | Call::Scores(_) => {
                (true, false, false, true)
            }
            Call::Open => (false, false, false, false),
            _ => (false, false, false, true),
        },
        _ => (false, false, false, false),
    };
    let need = |lent: bool, places: usize| lent.then_some(places);
    vec![
        ("xs", x, need(columns, count)),
        ("ys", y, need(columns, count)),
        ("ws", weight, need(columns, count)),
        ("sums", sums, need(true, PLACES)),
        ("scratch", scratch, need(reads, count)),
        ("coefficients", coefficients, need(fits, TERMS)),
        ("errors", errors, need(reports, TERMS)),
        ("pruned", pruned, need(reports, TERMS)),
        ("lower", lower, need(reports, count)),
        ("upper", upper, need(reports, count)),
        ("outliers", outlier, need(reports, count)),
    ]
}

/// What happened, by name.
fn happened(step: &Step, before: &Before, answer: &Answer) -> Vec<String> {
    let mut keys = Vec::new();
    if !is_season(&step.call) {
        return keys;
    }
    let mut note_if = |holds: bool, event: String| {
        if holds {
            keys.push(event);
        }
    };
    let lengths = &step.lengths;
    let refused = matches!(answer, Answer::Refused(_));
    match (&step.call, answer) {
        (Call::SeasonOpen, answer) => {
            let anything = before.counts.iter().take(STAKES).any(|count| *count > 0);
            let opened = *answer == Answer::Done && anything;
            note_if(opened, "season: opened, whatever the counts were".to_string());
            let counts = lengths.counts < STAKES;
            note_if(refused && counts, "season: not opened for its counts".to_string());
            note_if(refused && !counts, "season: not opened for its sums".to_string());
        }
        (Call::SeasonReport(_), Answer::Season { answered, stakes }) => {
            let mut note = |holds: bool, event: &str| {
                note_if(holds, format!("season_report: {event}"));
            };
            let short = lengths.counts < STAKES;
            note(*answered == 0, "no stake answered");
            note(*answered == STAKES, "all stakes answered");
            note((1..STAKES).contains(answered), "some stakes answered");
            note(short, "short counts");
            let by = |number| stakes.iter().filter(|a| **a == Answer::Refused(number)).count();
            note((1..STAKES).contains(&by(1)), "1 for some stakes only");
            for number in [4, 7, 8, 11, 12] {
                note(by(number) > 0, &format!("a stake refused by {number}"));
            }
            let first = stakes.iter().position(|a| matches!(a, Answer::Refused(_)));
            let last = stakes.iter().rposition(|a| matches!(a, Answer::Report { .. }));
            let between = matches!((first, last), (Some(first), Some(last)) if first < last);
            note(between, "a refused stake before one that answers");
            for (stake, answer) in stakes.iter().enumerate() {
                let told = matches!(answer, Answer::Report { .. });
                note_if(told, format!("season: stake {stake} reported"));
            }
        }
        (Call::Season { stake, call }, answer) => {
            let by_18 = *answer == Answer::Refused(18);
            let name = name(&step.call);
            note_if(by_18 && *stake == STAKES, format!("{name}: 18 for stake 32"));
            let greatest = by_18 && *stake == usize::MAX;
            note_if(greatest, format!("{name}: 18 for the greatest number"));
            let changed = matches!(answer, Answer::Book(_));
            note_if(changed, format!("season: stake {stake} changed"));
            let full = before.counts.get(*stake).map_or(false, |count| {
                *count > 0 && *count == refusals::capacity(&part_lengths(lengths))
            });
            let slides = changed && full && matches!(**call, Call::AddWindow(_));
            note_if(slides, "season: a full window slides".to_string());
            let read = !changed && !refused;
            let elsewhere = read && before.spoilt_elsewhere;
            note_if(elsewhere, "season: a NaN in another stake's column alone".to_string());
        }
        _ => {}
    }
    let stake = match &step.call {
        Call::Season { stake, .. } => *stake,
        _ => 0,
    };
    let count = before.counts.get(stake).copied().unwrap_or(0);
    for (memory, length, need) in lengths_of(step, count) {
        let mut note = |holds: bool, event: &str| {
            note_if(holds, format!("season: {memory} {event}"));
        };
        note(need.is_some() && !refused && length % STAKES > 0, "with a rest that is nobody's");
        let need = match need {
            Some(need) if matches!(step.call, Call::Season { .. }) => need,
            _ => continue,
        };
        let exact = STAKES * need;
        note(!refused && exact > 0 && length == exact, "in parts that just do");
        let short = *answer == Answer::Refused(1) && exact > 0 && length + 1 == exact;
        note(short, "a place short of that");
        note((1..STAKES).contains(&length), "of fewer than 32 places");
        note(length == 0, "of no places");
    }
    keys
}
