//! The comparison finds faults, and shrinks the lists that show them.

use journal::{Answer, Buffers, Call, Judge, Lent, Port, Side};
use judge::lines::{samples, too_many_digits};

use crate::call::List;
use crate::carry::{self, Caller};
use crate::coverage::Coverage;
use crate::generate;
use crate::groups::{self, Course};
use crate::mirror;
use crate::replay::{self, Replays};
use crate::run::run;
use crate::season;
use crate::shrink::shrink;
use crate::surface;
use crate::text;
use crate::two_column;

/// What a faulty side does after the judge's call: it may change the memory and the answer.
type Fault = fn(&Call, usize, &mut Lent, &[f64], Answer) -> Answer;

/// The judge with a fault.
struct Faulty(Fault);

fn again<'a>(lent: &'a mut Lent<'_>) -> Lent<'a> {
    Lent {
        x: lent.x,
        y: lent.y,
        weight: lent.weight,
        sums: lent.sums,
        scratch: lent.scratch,
        coefficients: lent.coefficients,
        errors: lent.errors,
        pruned: lent.pruned,
        lower: lent.lower,
        upper: lent.upper,
        outlier: lent.outlier,
        before: lent.before,
        after: lent.after,
        losses: lent.losses,
        z: lent.z,
        solved: lent.solved,
        scores: lent.scores,
        table: lent.table,
        counts: lent.counts,
    }
}

impl Side for Faulty {
    fn name(&self) -> &'static str {
        "faulty"
    }
    fn make(&self, call: &Call, count: usize, mut lent: Lent) -> Answer {
        let sums = lent.sums.to_vec();
        let answer = Judge.make(call, count, again(&mut lent));
        (self.0)(call, count, &mut lent, &sums, answer)
    }
}

/// The shrunk list that shows the fault, which must be found among the first lists.
fn found(fault: Fault) -> List {
    let side = Faulty(fault);
    let fails = |list: &List| run(list, &[&side], &mut Coverage::default()).is_err();
    let list = (1..4000).map(|number| generate::list(7, number)).find(|list| fails(list));
    let smallest = shrink(&list.expect("the fault is found"), fails);
    assert!(fails(&smallest));
    smallest
}

/// The same among the lists of surfaces.
fn found_in_surfaces(fault: Fault) -> List {
    let side = Faulty(fault);
    let fails = |list: &List| run(list, &[&side], &mut Coverage::default()).is_err();
    // The first lists have few samples.
    let list = (33..1000).map(|number| surface::list(7, number)).find(|list| fails(list));
    let smallest = shrink(&list.expect("the fault is found"), fails);
    assert!(fails(&smallest));
    smallest
}

#[test]
fn surfaces_with_faults() {
    let none = Faulty(|_, _, _, _, answer| answer);
    for number in 33..200 {
        assert!(run(&surface::list(7, number), &[&none], &mut Coverage::default()).is_ok());
    }
    let faults: [Fault; 6] = [
        // The sixteenth place of the coefficients is written.
        |call, _, lent, _, answer| {
            let fit =
                matches!(call, Call::SurfaceFit { .. }) && matches!(answer, Answer::Degree(_));
            if let (true, Some(place)) = (fit, lent.coefficients.get_mut(15)) {
                *place = 0.5;
            }
            answer
        },
        // A mark of a term whose error is not the least.
        |call, _, lent, _, answer| {
            if let (Call::SurfaceReport(_), Answer::Report { degree: 1, .. }) = (call, &answer) {
                lent.pruned[2] ^= 1;
            }
            answer
        },
        // Scratch as it was at 12.
        |call, count, lent, _, answer| {
            if surface::is_surface(call) && answer == Answer::Refused(12) {
                lent.scratch[count - 1] = 1.0;
            }
            answer
        },
        // A degree counted that is not tried.
        |call, count, _, _, answer| match (call, answer) {
            (Call::SurfaceReport(_), Answer::Report { degree, solved, outliers, pruned })
                if count == 5 && solved == 2 =>
            {
                Answer::Report { degree, solved: 3, outliers, pruned }
            }
            (_, answer) => answer,
        },
        // z not judged by 9.
        |call, _, lent, _, answer| match (call, &answer) {
            (Call::SurfaceBand { site, .. }, Answer::Refused(9)) if lent.x.contains(&site.x) => {
                Answer::Refused(10)
            }
            _ => answer,
        },
        // A z in the column not judged by 4.
        |call, count, lent, _, answer| match (call, &answer) {
            (Call::SurfaceReport(_), Answer::Refused(4))
                if lent.z[..count].iter().any(|z| !z.is_finite()) =>
            {
                Answer::Refused(11)
            }
            _ => answer,
        },
    ];
    for fault in faults {
        let list = found_in_surfaces(fault);
        // The first step writes the columns.
        assert!(list.steps.len() <= 2, "{list:?}");
    }
}

/// The same among the lists of groups.
fn found_in_groups(fault: Fault) -> Course {
    let side = Faulty(fault);
    let fails = |course: &Course| groups::run(course, &[&side], &mut Coverage::default()).is_err();
    let course = (1..1000).map(|number| groups::course(7, number)).find(|course| fails(course));
    let smallest = groups::smaller(&course.expect("the fault is found"), fails);
    assert!(fails(&smallest));
    smallest
}

#[test]
fn groups_with_faults() {
    let none = Faulty(|_, _, _, _, answer| answer);
    for number in 0..100 {
        let outcome = groups::run(&groups::course(7, number), &[&none], &mut Coverage::default());
        assert!(outcome.is_ok(), "{number}: {outcome:?}");
    }
    let faults: [Fault; 8] = [
        // A cost taken at 16.
        |call, _, lent, _, answer| {
            if let (Some(group), Answer::Refused(16)) = (groups::group_of(call), &answer) {
                lent.table[group] /= 2;
            }
            answer
        },
        // None taken at 11.
        |call, _, lent, _, answer| {
            if let (Some(group), Answer::Refused(11)) = (groups::group_of(call), &answer) {
                lent.table[group] += 1;
            }
            answer
        },
        // A refill of all but one.
        |call, _, lent, _, answer| {
            if let (Call::Renew, Answer::Done) = (call, &answer) {
                lent.table[7] /= 2;
            }
            answer
        },
        // One counter for two groups.
        |call, _, lent, _, answer| {
            if let (Some(3), Answer::Report { .. }) = (groups::group_of(call), &answer) {
                lent.table[4] = lent.table[3];
            }
            answer
        },
        // 16 at a counter of the cost.
        |call, _, lent, _, answer| match (groups::group_of(call), &answer) {
            (Some(group), Answer::Split { .. }) if lent.table[group] == 0 => Answer::Refused(16),
            _ => answer,
        },
        // 17 before 1.
        |call, _, _, _, answer| match (groups::group_of(call), &answer) {
            (Some(8), Answer::Refused(1)) => Answer::Refused(17),
            _ => answer,
        },
        // Scratch touched at 17.
        |call, count, lent, _, answer| {
            let by_17 = groups::is_group(call) && answer == Answer::Refused(17);
            if by_17 && count > 0 && lent.scratch[0].to_bits() != 0 {
                lent.scratch[0] = 0.0;
            }
            answer
        },
        // The quota goes with the first group.
        |call, _, lent, _, answer| {
            if let (Some(0), Answer::Report { .. }) = (groups::group_of(call), &answer) {
                lent.table[8] = lent.table[0];
            }
            answer
        },
    ];
    for fault in faults {
        let course = found_in_groups(fault);
        assert!(course.turns.len() <= 4, "{course}");
    }
}

/// Every list is the same when made again; a few hundred of them bring all that must happen with groups.
#[test]
fn lists_of_groups() {
    let mut coverage = Coverage::default();
    for number in 0..600 {
        let course = groups::course(5, number);
        assert!(course.to_string() == groups::course(5, number).to_string(), "{number}");
        let outcome = groups::run(&course, &[&Port], &mut coverage);
        assert!(outcome.is_ok(), "{number}: {outcome:?}");
    }
    let of_groups = |key: &String| {
        let calls = ["group", "start", "renew", "length: group", "length: start", "length: renew"];
        calls.iter().any(|call| key.starts_with(call))
    };
    let missing: Vec<String> = coverage.missing().into_iter().filter(of_groups).collect();
    assert!(missing.is_empty(), "{missing:#?}");
}

/// The same among the lists of seasons.
fn found_in_seasons(fault: Fault) -> List {
    let side = Faulty(fault);
    let fails = |list: &List| season::run(list, &[&side], &mut Coverage::default()).is_err();
    let list = (1..400).map(|number| season::list(7, number)).find(|list| fails(list));
    let smallest = shrink(&list.expect("the fault is found"), fails);
    assert!(fails(&smallest));
    smallest
}

/// The stake that a season's call names, if there is one, and the call.
fn of_stake(call: &Call) -> Option<(usize, &Call)> {
    match call {
        Call::Season { stake, call } if *stake < 32 => Some((*stake, &**call)),
        _ => None,
    }
}

#[test]
fn seasons_with_faults() {
    let none = Faulty(|_, _, _, _, answer| answer);
    for number in 0..60 {
        let outcome = season::run(&season::list(7, number), &[&none], &mut Coverage::default());
        assert!(outcome.is_ok(), "{number}: {outcome:?}");
    }
    let faults: [Fault; 14] = [
        // The next stake's count goes along.
        |call, _, lent, _, answer| {
            if let (Some((stake @ 0..=30, _)), Answer::Book(count)) = (of_stake(call), &answer) {
                lent.counts[stake + 1] = *count + 1;
            }
            answer
        },
        // 1 before 18.
        |call, _, lent, _, answer| match call {
            Call::Season { .. } if lent.counts.len() < 32 => Answer::Refused(1),
            _ => answer,
        },
        // Stake 32 is told otherwise.
        |call, _, _, _, answer| match call {
            Call::Season { stake: 32, .. } => Answer::Refused(6),
            _ => answer,
        },
        // The greatest number wraps around.
        |call, _, _, _, answer| match call {
            Call::Season { stake: usize::MAX, .. } => Answer::Refused(1),
            _ => answer,
        },
        // What is nobody's is written.
        |call, _, lent, _, answer| {
            let rest = lent.coefficients.len() % 32 > 0;
            if let (Some(_), Answer::Degree(_), true) = (of_stake(call), &answer, rest) {
                lent.coefficients[lent.coefficients.len() - 1] = 0.5;
            }
            answer
        },
        // A season report ends at a stake that 11 refuses.
        |_, _, _, _, answer| match answer {
            Answer::Season { answered, mut stakes } => {
                let by_11 = stakes.iter().position(|stake| *stake == Answer::Refused(11));
                for stake in stakes.iter_mut().skip(by_11.unwrap_or(32)) {
                    *stake = Answer::Refused(11);
                }
                Answer::Season { answered, stakes }
            }
            _ => answer,
        },
        // Refused stakes are counted too.
        |_, _, _, _, answer| match answer {
            Answer::Season { stakes, .. } => Answer::Season { answered: 32, stakes },
            _ => answer,
        },
        // The last stake's count is left where the season is opened.
        |call, _, lent, _, answer| {
            if let (Call::SeasonOpen, Answer::Done) = (call, &answer) {
                lent.counts[31] = 1;
            }
            answer
        },
        // The first sum of the next stake goes along.
        |call, _, lent, _, answer| {
            if let (Some((stake @ 0..=30, _)), Answer::Book(_)) = (of_stake(call), &answer) {
                let part = lent.sums.len() / 32;
                lent.sums[part * (stake + 1)] += 1.0;
            }
            answer
        },
        // All scratch is cleared.
        |call, _, lent, _, answer| {
            if let (Some((_, Call::Report(_))), Answer::Report { .. }) = (of_stake(call), &answer) {
                lent.scratch.fill(0.0);
            }
            answer
        },
        // A count that is not kept, and one that is kept though the call is refused.
        |call, _, lent, _, answer| {
            if let (Some((stake, Call::Withdraw { .. })), Answer::Book(count)) =
                (of_stake(call), &answer)
            {
                lent.counts[stake] = count + 1;
            }
            answer
        },
        |call, _, lent, _, answer| {
            if let (Some((stake, _)), Answer::Refused(5)) = (of_stake(call), &answer) {
                lent.counts[stake] += 1;
            }
            answer
        },
        // Losses, which are not cut, in a stake's part of them.
        |call, _, lent, _, answer| {
            if let (Some((stake, Call::Losses(_))), Answer::Losses { .. }) =
                (of_stake(call), &answer)
            {
                let many = lent.losses.len();
                lent.losses.rotate_right(stake.min(many));
            }
            answer
        },
        // The errors of another stake move with a correction.
        |call, _, lent, _, answer| {
            if let Some((stake, Call::Correct { .. })) = of_stake(call) {
                let part = lent.errors.len() / 32;
                if part > 0 {
                    lent.errors[part * ((stake + 1) % 32)] += 1.0;
                }
            }
            answer
        },
    ];
    for (number, fault) in faults.into_iter().enumerate() {
        let list = found_in_seasons(fault);
        let outcome = season::run(&list, &[&Faulty(fault)], &mut Coverage::default());
        // Fewer calls would leave other things in memory at first, counts too.
        assert!(list.steps.len() <= 10, "{number}: {outcome:?} of {list:?}");
    }
}

/// A side whose report of a stake hangs on another stake's y's, which no list without a correction shows.
struct Leaks;

impl Side for Leaks {
    fn name(&self) -> &'static str {
        "leaking"
    }
    fn make(&self, call: &Call, count: usize, mut lent: Lent) -> Answer {
        let answer = Judge.make(call, count, again(&mut lent));
        if let Call::SeasonReport(_) = call {
            // The sum of all y's, of which one that is corrected is another.
            let sum: f64 = lent.y.iter().filter(|y| y.is_finite()).map(|y| y.fract()).sum();
            lent.lower.iter_mut().for_each(|lower| *lower = sum);
        }
        answer
    }
}

/// Every list is the same when made again; some hundred of them bring all that must happen with seasons.
#[test]
fn lists_of_seasons() {
    let mut coverage = Coverage::default();
    for number in 0..800 {
        let list = season::list(5, number);
        assert!(format!("{list:?}") == format!("{:?}", season::list(5, number)), "{number}");
        let outcome = season::run(&list, &[&Port], &mut coverage);
        assert!(outcome.is_ok(), "{number}: {outcome:?}");
    }
    let of_season = |key: &String| key.starts_with("season");
    let missing: Vec<String> = coverage.missing().into_iter().filter(of_season).collect();
    assert!(missing.is_empty(), "{missing:#?}");
    let leaks = |number| {
        season::run(&season::list(5, number), &[&Leaks], &mut Coverage::default()).is_err()
    };
    assert!((0..40).any(leaks));
}

/// The list of a season in tests/: every call answered and refused by each of its numbers, and 18 before every
/// other.
#[test]
fn text_of_a_season() {
    let list = text::list_of(&file("glacier.calls"));
    let mut coverage = Coverage::default();
    let outcome = season::run(&list, &[&Port], &mut coverage);
    assert!(outcome.is_ok(), "{outcome:?}");
    let asked = |key: &String| {
        let outcome = key.starts_with("season_") && !key.contains("greatest number");
        outcome || key.contains("short of that") || key.contains("corrected")
    };
    let missing: Vec<String> = coverage.missing().into_iter().filter(asked).collect();
    // Those that the list of plain calls and the comparison have.
    let late = |key: &&String| {
        [": refused by 10", ": refused by 11", ": refused by 12", ": refused by 8"]
            .iter()
            .any(|end| key.ends_with(end))
    };
    let missing: Vec<&String> = missing.iter().filter(|key| !late(key)).collect();
    assert!(missing.is_empty(), "{missing:#?}");
}

#[test]
fn no_fault_no_difference() {
    let side = Faulty(|_, _, _, _, answer| answer);
    for number in 1..200 {
        let list = generate::list(7, number);
        assert!(run(&list, &[&side], &mut Coverage::default()).is_ok());
    }
}

#[test]
fn one_bit_of_a_coefficient() {
    let list = found(|_, _, lent, _, answer| {
        if let Answer::Degree(_) = answer {
            lent.coefficients[0] = f64::from_bits(lent.coefficients[0].to_bits() ^ 1);
        }
        answer
    });
    assert!(list.steps.len() <= 3, "{list:?}");
}

#[test]
fn a_byte_past_the_end() {
    let list = found(|_, count, lent, _, answer| {
        if let (Answer::Report { .. }, Some(byte)) = (&answer, lent.outlier.get_mut(count)) {
            *byte ^= 1;
        }
        answer
    });
    assert!(list.steps.len() <= 3, "{list:?}");
}

#[test]
fn scratch_left_dirty_at_11() {
    let list = found(|_, _, lent, _, answer| {
        if answer == Answer::Refused(11) {
            lent.scratch[0] = -0.0;
        }
        answer
    });
    assert!(list.steps.len() <= 4, "{list:?}");
}

#[test]
fn full_before_not_finite() {
    let list = found(|call, count, lent, _, answer| match (call, &answer) {
        (Call::Add(_), Answer::Refused(4)) if count == lent.x.len() => Answer::Refused(5),
        _ => answer,
    });
    assert!(list.steps.len() <= 3, "{list:?}");
}

#[test]
fn mean_loss_for_the_total() {
    let list = found(|_, count, _, _, answer| match answer {
        Answer::Losses { degree, total, score } => {
            Answer::Losses { degree, total: total / count as f64, score }
        }
        _ => answer,
    });
    assert!(list.steps.len() <= 4, "{list:?}");
}

#[test]
fn last_loss_not_written() {
    let list = found(|_, count, lent, _, answer| {
        if let Answer::Losses { .. } = answer {
            lent.losses[count - 1] += 1.0;
        }
        answer
    });
    assert!(list.steps.len() <= 3, "{list:?}");
}

#[test]
fn chosen_score_for_the_least() {
    let list = found(|_, _, lent, _, answer| match answer {
        Answer::Scores { degree, bound, solved, tests, .. } => {
            Answer::Scores { degree, bound, solved, tests, least: lent.scores[degree] }
        }
        _ => answer,
    });
    assert!(list.steps.len() <= 8, "{list:?}");
}

#[test]
fn byte_past_the_bound_left() {
    let list = found(|_, _, lent, _, answer| {
        if let Answer::Scores { bound: 0..=14, .. } = answer {
            lent.solved[15] = 1;
        }
        answer
    });
    assert!(list.steps.len() <= 3, "{list:?}");
}

#[test]
fn tests_of_the_chosen_degree_alone() {
    let list = found(|_, _, _, _, answer| match answer {
        Answer::Scores { degree, bound, solved, least, .. } => {
            Answer::Scores { degree, bound, solved, tests: degree + 1, least }
        }
        _ => answer,
    });
    assert!(list.steps.len() <= 4, "{list:?}");
}

#[test]
fn full_window_refused() {
    let list = found(|call, count, _, _, answer| match (call, &answer) {
        (Call::AddWindow(_), Answer::Book(1)) if count == 1 => Answer::Refused(5),
        _ => answer,
    });
    assert!(list.steps.len() <= 3, "{list:?}");
}

#[test]
fn refused_window_withdraws() {
    let list = found(|call, count, lent, _, answer| {
        if let (Call::AddWindow(_), Answer::Refused(4 | 15)) = (call, &answer) {
            if count == lent.x.len() && count > 1 {
                lent.y[0] = lent.y[1];
            }
        }
        answer
    });
    assert!(list.steps.len() <= 4, "{list:?}");
}

/// Adjusting sums by subtraction on withdrawal: bits drift.
#[test]
fn withdrawal_by_subtraction() {
    let list = found(|call, count, lent, before, answer| {
        if let (Call::Withdraw { index }, Answer::Book(_)) = (call, &answer) {
            // Only the last sample, whose x is still in its vacated place.
            if *index + 1 == count {
                lent.sums[1] = before[1] - lent.x[*index];
            }
        }
        answer
    });
    // Shrinking does not lower an index, so the adds below it stay.
    assert!(list.steps.len() <= 6, "{list:?}");
}

#[test]
fn weight_kept_in_its_place_by_a_withdrawal() {
    let list = found(|call, count, lent, _, answer| {
        if let (Call::Withdraw { index }, Answer::Book(_)) = (call, &answer) {
            // Only where the last sample but one goes: its weight stays, and the last one's is lost.
            if *index + 2 == count {
                lent.weight[*index] += 1.0;
            }
        }
        answer
    });
    // Shrinking does not lower an index, so the adds below it stay.
    assert!(list.steps.len() <= 6, "{list:?}");
}

#[test]
fn weight_1_after_a_correction() {
    let list = found(|call, _, lent, _, answer| {
        if let (Call::Correct { index, .. }, Answer::Book(_)) = (call, &answer) {
            lent.weight[*index] = 1.0;
        }
        answer
    });
    assert!(list.steps.len() <= 3, "{list:?}");
}

#[test]
fn not_above_zero_before_not_finite() {
    let list = found(|call, _, _, _, answer| match (call, &answer) {
        (Call::Add(sample), Answer::Refused(4)) if sample.weight <= 0.0 => Answer::Refused(15),
        _ => answer,
    });
    assert_eq!(list.steps.len(), 1, "{list:?}");
    // The first sample that is wrong decides, where all are due to be judged by 4 first.
    let list = found(|call, _, _, _, answer| match (call, &answer) {
        (Call::AddFrame(bytes), Answer::Refused(4)) => {
            let zero = |sample: &judge::Sample| sample.weight <= 0.0 && sample.weight.is_finite();
            let first = judge::frame::samples(bytes).first().map_or(false, zero);
            Answer::Refused(if first { 15 } else { 4 })
        }
        _ => answer,
    });
    assert_eq!(list.steps.len(), 1, "{list:?}");
}

#[test]
fn version_2_counted_by_16() {
    let list = found(|call, _, _, _, answer| match (call, &answer) {
        (Call::AddFrame(bytes), Answer::Refused(2)) if bytes.len() % 16 == 3 && bytes[2] == 2 => {
            Answer::Refused(3)
        }
        _ => answer,
    });
    assert_eq!(list.steps.len(), 1, "{list:?}");
}

#[test]
fn zero_without_its_sign() {
    let list = found(|call, count, lent, _, answer| {
        if let (Call::AddLines(_), Answer::Book(new)) = (call, &answer) {
            lent.y[count..*new].iter_mut().for_each(|y| *y += 0.0);
        }
        answer
    });
    assert_eq!(shortest_text(&list), Some(5), "{list:?}");
}

#[test]
fn too_many_digits_before_malformed() {
    let list = found(|call, _, _, _, answer| match (call, &answer) {
        (Call::AddLines(text), Answer::Refused(13)) if too_many_digits(text) => Answer::Refused(14),
        _ => answer,
    });
    // 16 digits or 23 places, a space and a newline.
    assert!(shortest_text(&list) <= Some(27), "{list:?}");
}

#[test]
fn lines_added_before_a_bad_one() {
    let list = found(|call, count, lent, _, answer| {
        if let (Call::AddLines(text), Answer::Refused(13)) = (call, &answer) {
            let place = lent.x.get_mut(count);
            if let (Some(sample), Some(place)) = (samples(text).first(), place) {
                *place = sample.x;
            }
        }
        answer
    });
    assert!(shortest_text(&list) <= Some(5), "{list:?}");
}

/// How long the shortest text of the list is.
fn shortest_text(list: &List) -> Option<usize> {
    let length = |call: &Call| match call {
        Call::AddLines(text) => Some(text.len()),
        _ => None,
    };
    list.steps.iter().filter_map(|step| length(&step.call)).min()
}

#[test]
fn faults_of_a_split() {
    // One bit of the total.
    let list = found(|_, _, _, _, answer| match answer {
        Answer::Split { b, degrees, tests, total } => {
            let total = f64::from_bits(total.to_bits() ^ 1);
            Answer::Split { b, degrees, tests, total }
        }
        _ => answer,
    });
    assert!(list.steps.len() <= 5, "{list:?}");
    // A place past the sixteen.
    let list = found(|_, _, lent, _, answer| {
        if let (Answer::Split { .. }, Some(place)) = (&answer, lent.after.get_mut(16)) {
            *place += 1.0;
        }
        answer
    });
    assert!(list.steps.len() <= 5, "{list:?}");
    // 16 where the limit is what it needs.
    let list = found(|call, _, _, _, answer| match (call, &answer) {
        (Call::Split { limit, .. }, Answer::Split { tests, .. }) if limit == tests => {
            Answer::Refused(16)
        }
        _ => answer,
    });
    assert!(list.steps.len() <= 5, "{list:?}");
    // Scratch left as it was at 16.
    let list = found(|_, count, lent, _, answer| {
        if answer == Answer::Refused(16) {
            lent.scratch[count - 1] = 1.0;
        }
        answer
    });
    assert!(list.steps.len() <= 5, "{list:?}");
}

#[test]
fn faults_of_a_replay() {
    let found = |replays: Replays| {
        let fails = |number| {
            let list = generate::list(7, number);
            replay::check(&list, replays, &mut Coverage::default()).is_err()
        };
        (1..200).any(fails)
    };
    assert!(!found(Buffers::replay));
    // The last call's last result is not written.
    assert!(found(|buffers| {
        let last = buffers.results.last().copied();
        let count = buffers.replay();
        if let (Some(place), Some(last)) = (buffers.results.last_mut(), last) {
            *place = last;
        }
        count
    }));
    // A place past the lent windows is written.
    assert!(found(|buffers| {
        let count = buffers.replay();
        let past = buffers.lengths.upper;
        buffers.memory.upper[past] += 1.0;
        count
    }));
    // A place of a column past the count is cleared.
    assert!(found(|buffers| {
        let count = buffers.replay()?;
        if count < buffers.lengths.x {
            buffers.memory.x[count] = 0.0;
        }
        Some(count)
    }));
    // Buffers that are too short are not told.
    assert!(found(|buffers| buffers.replay().or(Some(0))));
}

#[test]
fn faults_of_two_columns() {
    let found = |calls: two_column::Calls| {
        let fails = |number| {
            let list = generate::list(7, number);
            two_column::check(&list, calls, &mut Coverage::default()).is_err()
        };
        (1..400).any(fails)
    };
    assert!(!found(two_column::port));
    // A frame of version 2 is let through.
    assert!(found(|call, count, lent| match call {
        Call::AddFrame(frame) if frame.get(2) == Some(&2) => {
            let read = judge::frame::samples(frame);
            two_column::port(&Call::AddFrame(judge::frame::encode(&read)), count, lent)
        }
        _ => two_column::port(call, count, lent),
    }));
    // A weight is judged.
    assert!(found(|call, count, lent| match call {
        Call::Add(sample) if sample.weight <= 0.0 => Some(Answer::Refused(15)),
        _ => two_column::port(call, count, lent),
    }));
    // The vacated last place is cleared.
    assert!(found(|call, count, lent| {
        let (x, y, sums) = (&mut *lent.x, &mut *lent.y, &mut *lent.sums);
        let answer = two_column::port(call, count, two_column::Lent { x, y, sums });
        if let (Call::Withdraw { .. }, Some(Answer::Book(new))) = (call, &answer) {
            lent.y[*new] = 0.0;
        }
        answer
    }));
}

/// The judge with another carry.
struct Carries(fn(usize, Lent) -> Answer);

impl Side for Carries {
    fn name(&self) -> &'static str {
        "faulty"
    }
    fn make(&self, call: &Call, count: usize, lent: Lent) -> Answer {
        match call {
            Call::Carry => (self.0)(count, lent),
            _ => Judge.make(call, count, lent),
        }
    }
}

#[test]
fn faults_of_a_carry() {
    let by = |two_column: two_column::Calls, carries| {
        let caller = Caller { two_column, side: &Carries(carries) };
        let fails = |number| {
            let list = generate::list(7, number);
            carry::check(&list, caller, &mut Coverage::default()).is_err()
        };
        (1..200).any(fails)
    };
    let right = |count, lent: Lent| Judge.make(&Call::Carry, count, lent);
    let found = |carries| by(two_column::port, carries);
    assert!(!found(right));
    // Weights past the count are set.
    assert!(found(|count, mut lent| {
        let answer = Judge.make(&Call::Carry, count, again(&mut lent));
        if answer != Answer::Refused(1) {
            lent.weight.fill(1.0);
        }
        answer
    }));
    // Weights are left as they were, all of them or the last.
    assert!(found(|count, mut lent| {
        let before = lent.weight.to_vec();
        let answer = Judge.make(&Call::Carry, count, again(&mut lent));
        lent.weight.copy_from_slice(&before);
        answer
    }));
    assert!(found(|count, mut lent| {
        let before = lent.weight.to_vec();
        let answer = Judge.make(&Call::Carry, count, again(&mut lent));
        if let (Answer::Book(_), Some(last)) = (&answer, count.checked_sub(1)) {
            lent.weight[last] = before[last];
        }
        answer
    }));
    // The sums are folded, which of a book's own sums nobody sees.
    assert!(found(|count, mut lent| {
        let answer = Judge.make(&Call::Carry, count, again(&mut lent));
        if let Answer::Book(_) = answer {
            let (x, y) = (&lent.x[..count], &lent.y[..count]);
            let of = |(&x, &y)| judge::Sample::unweighted(x, y);
            let samples: Vec<judge::Sample> = x.iter().zip(y).map(of).collect();
            judge::sums::fold(lent.sums, &samples);
        }
        answer
    }));
    // A full book is refused, or one in a weight column that is too short is not.
    assert!(found(|count, lent| {
        let full = count == lent.x.len().min(lent.y.len()).min(lent.weight.len());
        match Judge.make(&Call::Carry, count, lent) {
            Answer::Book(_) if full => Answer::Refused(1),
            answer => answer,
        }
    }));
    assert!(found(|count, lent| {
        let short = lent.weight.len() < count && count <= lent.x.len().min(lent.y.len());
        match Judge.make(&Call::Carry, count, lent) {
            Answer::Refused(1) if short => Answer::Book(count),
            answer => answer,
        }
    }));
    // The book of two columns had other sums.
    let other_sums: two_column::Calls = |call, count, lent| {
        let (x, y, sums) = (&mut *lent.x, &mut *lent.y, &mut *lent.sums);
        let answer = two_column::port(call, count, two_column::Lent { x, y, sums });
        if let (Call::Withdraw { .. }, Some(Answer::Book(_))) = (call, &answer) {
            lent.sums[1] += 1.0;
        }
        answer
    };
    assert!(by(other_sums, right));
}

/// One fixed list of calls beside its mirror image; a side that sees the sign of y is found.
#[test]
fn a_fixed_list_beside_its_image() {
    // Taken out, put in, and left where there is no reading.
    assert_eq!(
        mirror::lines_image(b"4 -3.5\n5 -0\n6 7\n-1 --2\n1 2 3\n1\n1 .5\n1 -"),
        b"4 3.5\n5 0\n6 -7\n-1 --2\n1 -2 3\n1\n1 .5\n1 -"
    );
    let course = mirror::course(&text::list_of(&file("season.calls")));
    let mut coverage = Coverage::default();
    for side in [&Judge as &dyn Side, &Port] {
        let outcome = mirror::run(&course, side, &mut coverage);
        assert!(outcome.is_ok(), "{outcome:?}");
    }
    assert_eq!(coverage.mirrored, 2 * course.turns.len() as u64);
    let faults: [Fault; 3] = [
        // A mark by one side of the band alone.
        |call, count, lent, _, answer| {
            if let (Call::Report(_), Answer::Report { .. }) = (call, &answer) {
                let below = |i: usize| u8::from(lent.y[i] < lent.lower[i]);
                (0..count).for_each(|i| lent.outlier[i] = below(i));
            }
            answer
        },
        // Bounds that do not change places.
        |_, _, _, _, answer| match answer {
            Answer::Band { value, lower, .. } => Answer::Band { value, lower, upper: value },
            _ => answer,
        },
        // No y below zero.
        |call, _, _, _, answer| match call {
            Call::Correct { y, .. } if *y < 0.0 => Answer::Refused(4),
            _ => answer,
        },
    ];
    for (number, fault) in faults.into_iter().enumerate() {
        let outcome = mirror::run(&course, &Faulty(fault), &mut Coverage::default());
        assert!(outcome.is_err(), "fault {number}");
    }
}

/// Every list is the same when made again, and so is its run.
#[test]
fn lists_are_made_again() {
    for number in 1..300 {
        assert_eq!(
            format!("{:?}", generate::list(5, number)),
            format!("{:?}", generate::list(5, number))
        );
    }
}

/// A list of tests/ at the top of the repository.
fn file(name: &str) -> Vec<u8> {
    let path = std::path::PathBuf::from(env!("CARGO_MANIFEST_DIR")).join("../tests").join(name);
    std::fs::read(&path).unwrap_or_else(|error| panic!("{}: {error}", path.display()))
}

/// Runs a text's calls, beside the ledger, polyfit and the port, and answers what never happened of what is
/// asked for.
fn missing_in(name: &str, asked: impl Fn(&str) -> bool) -> Vec<String> {
    let mut coverage = Coverage::default();
    let outcome = run(&text::list_of(&file(name)), &[&Port], &mut coverage);
    assert!(outcome.is_ok(), "{name}: {outcome:?}");
    assert!(coverage.by_reference > 0);
    coverage.missing().into_iter().filter(|key| asked(key)).collect()
}

#[test]
fn texts_are_judged() {
    missing_in("edges.calls", |_| false);
    // Every refusal of every call but lines, splits, windows, losses, scores, surfaces, groups and seasons, and every pair
    // in order. A text has no reader. 15 is met with the weights.
    let of_groups =
        |key: &str| ["group", "start", "renew"].iter().any(|call| key.starts_with(call));
    let refusal = |key: &str| {
        let refusal = key.contains(" before ") || key.contains(": refused by ");
        let elsewhere = [
            "reader",
            "add_lines",
            "add_window",
            "split",
            "losses",
            "scores",
            "surface",
            "season",
            "length",
        ];
        let elsewhere = of_groups(key) || elsewhere.iter().any(|call| key.starts_with(call));
        refusal && !elsewhere && !key.contains("by polyfit")
    };
    let missing = missing_in("season.calls", |key| refusal(key) && !key.contains("15"));
    assert!(missing.is_empty(), "{missing:?}");
    let missing = missing_in("weights.calls", |key| {
        let weights = key.starts_with("weights") || key.starts_with("frames: add_frame");
        let weights = weights && !key.contains("split");
        weights || refusal(key) && key.contains("15")
    });
    assert!(missing.is_empty(), "{missing:?}");
    // The same of lines, and all that must happen with them.
    let missing =
        missing_in("lines.calls", |key| key.starts_with("add_lines") || key.starts_with("lines"));
    assert!(missing.is_empty(), "{missing:?}");
    // The same of splits; weights below the count that are not finite or not above zero are there too.
    let missing = missing_in("split.calls", |key| {
        let split = key.starts_with("split") || key.starts_with("length: split, sc");
        let weights = key.starts_with("weights") && key.contains("split");
        (split || weights) && !key.contains("greatest limit")
    });
    assert!(missing.is_empty(), "{missing:?}");
    let missing = missing_in("windows.calls", |key| {
        key.starts_with("add_window") || key.starts_with("window")
    });
    assert!(missing.is_empty(), "{missing:?}");
    // No list has a 12 of the samples' own sums.
    let missing = missing_in("losses.calls", |key| {
        key.starts_with("losses") && key != "losses by polyfit: refused by 12"
    });
    assert!(missing.is_empty(), "{missing:?}");
    let missing = missing_in("scores.calls", |key| {
        key.starts_with("scores") && key != "scores by polyfit: refused by 12"
    });
    assert!(missing.is_empty(), "{missing:?}");
    // Every refusal of a surface, every pair in order, and each memory at its length and one place short.
    let missing = missing_in("surface.calls", |key| {
        key.starts_with("surface_") || key.starts_with("length: surface")
    });
    let longer = |key: &String| key.ends_with("with places past the end");
    assert!(missing.iter().all(longer), "{missing:?}");
    // The same of groups; what several calls tell is the comparison's. The 12 is not of the samples' own sums.
    let missing = missing_in("groups.calls", |key| {
        let several =
            key.starts_with("groups: ") || key == "group_report by polyfit: refused by 12";
        of_groups(key) && !several
    });
    assert!(missing.is_empty(), "{missing:?}");
    // Every call and refusal, by polyfit too, every setting and event; the pairs are the season's. It has no
    // surfaces, no groups and no stakes.
    let missing = missing_in("fixed.calls", |key| {
        let call = key.ends_with(": answered") || key.contains(": refused by ");
        let calls = ["report: ", "split: criterion", "split: bound", "validate: ", "band: "];
        let setting = calls.iter().any(|call| key.starts_with(call));
        let elsewhere = ["reader", "surface", "season"].iter().any(|call| key.starts_with(call));
        let elsewhere = elsewhere || of_groups(key);
        (call || setting) && !elsewhere && !key.contains(": 1 before ")
    });
    assert!(missing.is_empty(), "{missing:?}");
}

/// The ledger stays with a book whose weights are 1, and leaves one whose weights the carry changes.
#[test]
fn texts_with_a_carry() {
    missing_in("../examples/c/update.calls", |_| false);
    let one = "3FF0000000000000";
    let two = "4000000000000000";
    let text = format!(
        "open\nadd {one} {one}\ncarry\nadd {two} {two} {two}\nlent ws 1\ncarry\nlent ws 3\n\
         put ws 2 {two}\ncarry\nfit 1\nadd {one} {two}\nlent sums 271\ncarry\n"
    );
    let list = text::list_of(text.as_bytes());
    assert!(run(&list, &[&Port], &mut Coverage::default()).is_ok());
    // A carry that folds the sums, where they are not those of weights of 1.
    let folds = Carries(|count, mut lent| {
        let answer = Judge.make(&Call::Carry, count, again(&mut lent));
        if answer == Answer::Book(2) {
            lent.sums[0] = 2.0;
        }
        answer
    });
    let difference = run(&list, &[&folds], &mut Coverage::default()).unwrap_err();
    assert_eq!(difference.step, 5, "{difference:?}");
}

#[test]
fn fixed_list_is_as_made() {
    assert!(text::write(110, 3000).as_bytes() == file("fixed.calls"));
}
