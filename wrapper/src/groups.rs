//! Course groups that share one machine.

use crate::sys;
use crate::{judged, lend, Book, Refusal, Report, Settings, Split, TERMS};

/// The counters of the groups, and the quota behind them.
const TABLE: usize = Allowance::GROUPS + 1;

/// How many pivot tests each of eight course groups, numbered 0 to 7, may still ask for. All begin at one
/// quota, and a renewal brings all back to it.
///
/// A report, also a surface's, or a split of a group costs the pivot tests of its choice: at most k for each
/// degree that is tried, where k is its number of terms, so that a report up to degree d costs at most
/// (d + 1) (d + 2) / 2; a split costs as much for both sides of every break, which [`Split::tests`] tells. It
/// is taken from the group's own counter, also where the call is then refused by [`Refusal::NoDegree`] or
/// [`Refusal::NoCovariance`]. Where too few are left the call is refused by [`Refusal::LimitPassed`], and
/// nothing is taken. No group sees what another asks for.
///
/// ```
/// use stakebook::{
///     Allowance, Book, Confidence, Criterion, DegreeBound, PruningRule, Refusal, Settings, Tolerance,
/// };
///
/// let settings = Settings {
///     bound: DegreeBound::Custom(1),
///     criterion: Criterion::Aic,
///     confidence: Confidence::P95,
///     tolerance: Tolerance::None,
///     pruning: PruningRule::default(),
/// };
/// let mut book = Book::with_capacity(10);
/// book.add_lines(b"1 212\n2 209.5\n3 208\n4 203.5\n5 202\n")?;
/// // One pivot of degree 0 and two of degree 1.
/// let mut allowance = Allowance::new(5);
/// assert_eq!(book.group_report(3, &mut allowance, settings)?.degree, 1);
/// assert_eq!((allowance.left(3), allowance.left(4)), (Some(2), Some(5)));
/// let again = book.group_report(3, &mut allowance, settings).map(|report| report.degree);
/// assert_eq!((again, allowance.left(3)), (Err(Refusal::LimitPassed), Some(2)));
/// allowance.renew();
/// assert_eq!(book.group_report(3, &mut allowance, settings)?.degree, 1);
/// # Ok::<(), Refusal>(())
/// ```
#[derive(Debug, Clone, PartialEq, Eq)]
pub struct Allowance {
    table: [usize; TABLE],
}

impl Allowance {
    /// How many groups there are.
    pub const GROUPS: usize = 8;

    /// The start: this quota for each group.
    pub fn new(quota: usize) -> Allowance {
        let mut table = [0; TABLE];
        lend!(stakebook_start(quota; table));
        Allowance { table }
    }

    /// All groups have the quota again.
    pub fn renew(&mut self) {
        // SAFETY: the table is this allowance's own, of the length given.
        unsafe { sys::stakebook_renew(self.table.as_mut_ptr(), TABLE) };
    }

    /// How many pivot tests each group has at the start and after a renewal.
    pub fn quota(&self) -> usize {
        self.table[Self::GROUPS]
    }

    /// How many pivot tests a group has left; none where there is no such group.
    pub fn left(&self, group: usize) -> Option<usize> {
        self.table[..Self::GROUPS].get(group).copied()
    }

    pub(crate) fn table(&mut self) -> &mut [usize] {
        &mut self.table
    }
}

impl Book {
    /// The [report](Book::report) of a group, which takes what it costs from the group's allowance. Refused
    /// where that report is, by [`Refusal::NoSuchGroup`] above 7, and by [`Refusal::LimitPassed`] where it
    /// costs more than the group has left.
    pub fn group_report(
        &mut self,
        group: usize,
        allowance: &mut Allowance,
        settings: Settings,
    ) -> Result<Report<'_>, Refusal> {
        let (words, values) = settings.lists();
        let answer = lend!(stakebook_group_report(
            group, self.count, words.as_ptr(), words.len(), values.as_ptr(), values.len();
            self.xs, self.ys, self.ws, self.sums, self.scratch, self.coefficients, self.errors,
            self.pruned, self.lower, self.upper, self.outliers, allowance.table
        ));
        self.reported(answer)
    }

    /// The [split](Book::split) of a group, whose allowance stands in the limit's place.
    pub fn group_split(
        &mut self,
        group: usize,
        allowance: &mut Allowance,
        settings: Settings,
    ) -> Result<Split, Refusal> {
        let (words, values) = settings.lists();
        let (mut before, mut after, mut total) = ([0.0; TERMS], [0.0; TERMS], [0.0]);
        let answer = lend!(stakebook_group_split(
            group, self.count, words.as_ptr(), words.len(), values.as_ptr(), values.len();
            self.xs, self.ys, self.ws, self.sums, self.scratch, before, after, total,
            allowance.table
        ));
        Ok(Split::of(judged(answer)?, before, after, total))
    }
}
