//! Document 02, E10: an allowance for each course group. Eight groups share one table of counters, which
//! each call of any group and each renewal gets as the one before left it. A report, also a surface one, or
//! a split costs its pivot tests and takes them from its group; all else is the call without a group.

use crate::book::{self, clear_scratch, Memory, ReportAnswer, ReportMemory, SplitAnswer};
use crate::fit::{pivot_tests, Settings};
use crate::refusals::{self, Lengths};
use crate::split::{breaks, tests};
use crate::statistics::max_degree;
use crate::surface::{self, Columns};
use crate::terms::Observed;
use crate::Sample;

/// Eight groups, numbered 0 to 7.
pub const GROUPS: usize = 8;

/// The table: the counters of the groups, and the quota behind them.
pub const TABLE: usize = GROUPS + 1;
const QUOTA: usize = GROUPS;

/// The start: one quota for all, at which each counter begins.
pub fn start(quota: usize, table: &mut [usize]) -> Result<(), u8> {
    let lengths = Lengths { table: table.len(), ..Lengths::default() };
    refusals::judged(&refusals::start(&lengths))?;
    table[..GROUPS].fill(quota);
    table[QUOTA] = quota;
    Ok(())
}

/// Refills all eight.
pub fn renew(table: &mut [usize]) -> Result<(), u8> {
    let lengths = Lengths { table: table.len(), ..Lengths::default() };
    refusals::judged(&refusals::renew(&lengths))?;
    let quota = table[QUOTA];
    table[..GROUPS].fill(quota);
    Ok(())
}

/// What a report costs, on a curve's samples or a surface's: the pivot tests of its choice.
pub fn report_cost<S: Observed>(samples: &[S], sums: &[f64], settings: Settings) -> usize {
    pivot_tests(samples, sums, max_degree(settings.bound, samples.len()))
}

/// What a split costs: the pivot tests of its whole search.
pub fn split_cost(samples: &[Sample], settings: Settings) -> usize {
    tests(&breaks(samples, settings))
}

/// Takes the cost from a counter. With too few left it is 16, and the counter stands.
pub fn take(counter: &mut usize, cost: usize) -> Result<(), u8> {
    if cost > *counter {
        return Err(16);
    }
    *counter -= cost;
    Ok(())
}

/// The report of a group. The cost is taken also where it is then refused by 11 or 12.
pub fn report(
    group: usize,
    count: usize,
    memory: &Memory,
    settings: Settings,
    scratch: &mut [f64],
    out: &mut ReportMemory,
    table: &mut [usize],
) -> Result<ReportAnswer, u8> {
    let samples = memory.samples(count);
    let lengths = Lengths { table: table.len(), ..out.lengths(scratch, memory.lengths()) };
    refusals::judged(&refusals::group_report(&lengths, count, &samples, settings, group))?;
    clear_scratch(scratch, count);
    take(&mut table[group], report_cost(&samples, memory.sums, settings))?;
    book::report(count, memory, settings, scratch, out)
}

/// The surface report of a group.
pub fn surface_report(
    group: usize,
    count: usize,
    columns: Columns,
    settings: Settings,
    scratch: &mut [f64],
    out: &mut ReportMemory,
    table: &mut [usize],
) -> Result<ReportAnswer, u8> {
    let samples = columns.samples(count);
    let lengths = Lengths { table: table.len(), ..out.lengths(scratch, columns.lengths()) };
    refusals::judged(&refusals::group_surface_report(&lengths, count, &samples, settings, group))?;
    clear_scratch(scratch, count);
    take(&mut table[group], report_cost(&samples, &surface::folded(&samples), settings))?;
    surface::report(count, columns, settings, scratch, out)
}

/// The split of a group, whose counter stands in place of the limit. Writes 16 coefficients before the
/// break and 16 after it.
pub fn split(
    group: usize,
    count: usize,
    memory: &Memory,
    settings: Settings,
    scratch: &mut [f64],
    (before, after): (&mut [f64], &mut [f64]),
    table: &mut [usize],
) -> Result<SplitAnswer, u8> {
    let samples = memory.samples(count);
    let lengths = Lengths {
        scratch: scratch.len(),
        before: before.len(),
        after: after.len(),
        table: table.len(),
        ..memory.lengths()
    };
    refusals::judged(&refusals::group_split(&lengths, count, &samples, settings, group))?;
    clear_scratch(scratch, count);
    let cost = split_cost(&samples, settings);
    take(&mut table[group], cost)?;
    book::split(count, memory, (settings, cost), scratch, before, after)
}
