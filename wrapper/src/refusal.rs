//! Why a call was refused.

/// The eighteen refusals, by number. They are checked in this order, but 18 first of all, 17 after 1, 13 and 14
/// after 3, 15 after 4, and 16 after 10. A refused call changes no sample and writes no result.
#[derive(Debug, Clone, Copy, PartialEq, Eq)]
pub enum Refusal {
    /// 1: a lent memory is too short, or the count is above capacity.
    Memory = 1,
    /// 2: a frame's length is wrong.
    FrameLength,
    /// 3: a frame's version is neither 1 nor 2.
    FrameVersion,
    /// 4: a given number is not finite.
    NotFinite,
    /// 5: the samples to add would pass capacity.
    Full,
    /// 6: there is no sample of this index.
    NoSuchSample,
    /// 7: there are no samples, for a split fewer than 4, or the folds are below 2 or above their number.
    NoSamples,
    /// 8: the degree is at or above the number of samples, or it or the bound is above 15; for a surface,
    /// one of them is above 4, or the degree has more terms than there are samples.
    DegreeTooHigh,
    /// 9: x lies outside the samples, or z does.
    OutOfRange,
    /// 10: the degree is unsolved.
    Unsolved,
    /// 11: no degree is chosen; for a split, on both sides of no break.
    NoDegree,
    /// 12: the covariance can't be worked out.
    NoCovariance,
    /// 13: a line is not two readings with one space between them.
    MalformedLine,
    /// 14: a reading has more than 15 digits, leading zeros dropped, or more than 22 after the point.
    TooManyDigits,
    /// 15: a weight that is being added is not above zero.
    WeightNotAboveZero,
    /// 16: a split's search needs more pivot tests than its limit, or a group's report or split more than the
    /// group has left.
    LimitPassed,
    /// 17: a group's number is above 7.
    NoSuchGroup,
    /// 18: a stake's number is above 31.
    NoSuchStake,
}

impl Refusal {
    /// Its number, 1 to 18.
    pub fn number(self) -> u8 {
        self as u8
    }

    /// The refusal of a number; none for 0.
    pub(crate) fn of(number: u8) -> Option<Refusal> {
        const ALL: [Refusal; 18] = [
            Refusal::Memory,
            Refusal::FrameLength,
            Refusal::FrameVersion,
            Refusal::NotFinite,
            Refusal::Full,
            Refusal::NoSuchSample,
            Refusal::NoSamples,
            Refusal::DegreeTooHigh,
            Refusal::OutOfRange,
            Refusal::Unsolved,
            Refusal::NoDegree,
            Refusal::NoCovariance,
            Refusal::MalformedLine,
            Refusal::TooManyDigits,
            Refusal::WeightNotAboveZero,
            Refusal::LimitPassed,
            Refusal::NoSuchGroup,
            Refusal::NoSuchStake,
        ];
        (number != 0).then(|| ALL[usize::from(number) - 1])
    }
}

impl std::fmt::Display for Refusal {
    fn fmt(&self, f: &mut std::fmt::Formatter<'_>) -> std::fmt::Result {
        f.write_str(match self {
            Refusal::Memory => "the memory is too short",
            Refusal::FrameLength => "the frame's length is wrong",
            Refusal::FrameVersion => "the frame's version is neither 1 nor 2",
            Refusal::NotFinite => "a number is not finite",
            Refusal::Full => "the book is full",
            Refusal::NoSuchSample => "there is no sample of this index",
            Refusal::NoSamples => "there are no samples, or too few, or no such folds",
            Refusal::DegreeTooHigh => "the degree is too high",
            Refusal::OutOfRange => "x or z lies outside the samples",
            Refusal::Unsolved => "the degree is unsolved",
            Refusal::NoDegree => "no degree is chosen",
            Refusal::NoCovariance => "the covariance can't be worked out",
            Refusal::MalformedLine => "a line is not two readings with one space between them",
            Refusal::TooManyDigits => "a reading has too many digits",
            Refusal::WeightNotAboveZero => "a weight is not above zero",
            Refusal::LimitPassed => "more pivot tests are needed than the limit or the group has",
            Refusal::NoSuchGroup => "there is no group of this number",
            Refusal::NoSuchStake => "there is no stake of this number",
        })
    }
}

impl std::error::Error for Refusal {}

#[cfg(test)]
mod tests {
    use super::Refusal;

    /// Each number has its refusal, and each its own words.
    #[test]
    fn by_number() {
        assert_eq!(Refusal::of(0), None);
        let all: Vec<Refusal> = (1..=18).filter_map(Refusal::of).collect();
        assert!(all.iter().map(|refusal| refusal.number()).eq(1..=18));
        let words: std::collections::BTreeSet<String> =
            all.iter().map(Refusal::to_string).collect();
        assert_eq!(words.len(), 18);
    }
}
