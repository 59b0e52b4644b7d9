//! What a call answers, and the refusals.

use std::fmt;
use std::iter::FusedIterator;

use crate::label::Label;

/// What every call but a grade and the migration answers: 0 or the number of its refusal, and its count.
#[repr(C)]
#[derive(Clone, Copy, Debug, PartialEq, Eq, Hash)]
#[must_use]
pub struct Answer {
    /// 0 if the call is done, else the number of the refusal.
    pub number: u32,
    /// The bytes that a view wrote, the elements that a delete took or an XML intake made, the missing groups that an insert made,
    /// or 1 for the element that an update replaced; else 0.
    pub count: u64,
}

impl Answer {
    /// The count of a call that is done, or why it is not.
    ///
    /// # Errors
    ///
    /// The refusal, or an answer that no call of this version gives.
    pub fn outcome(self) -> Result<u64, Error> {
        match self {
            Answer { number: 0, count } => Ok(count),
            Answer { number, count: 0 } => Err(Refusal::from_number(number).map_or(Error::Unexpected(self), Error::Refused)),
            _ => Err(Error::Unexpected(self)),
        }
    }
}

/// What a grade answers: 0 or the number of its refusal, the step and the remainder.
#[repr(C)]
#[derive(Clone, Copy, Debug, PartialEq, Eq, Hash)]
#[must_use]
pub struct GradeAnswer {
    /// 0 if the call is done, else the number of the refusal.
    pub number: u32,
    /// The step of a grade that is done; else 0.
    pub step: i64,
    /// The remainder of a grade that is done; else 0.
    pub remainder: u32,
}

impl GradeAnswer {
    /// The grade of a call that is done, or why it is not.
    ///
    /// # Errors
    ///
    /// The refusal, or an answer that no grade of this version gives.
    pub fn outcome(self) -> Result<Grade, Error> {
        match self {
            GradeAnswer { number: 0, step, remainder } => Ok(Grade { step, remainder }),
            GradeAnswer { number, step: 0, remainder: 0 } => {
                Err(Refusal::from_number(number).map_or(Error::UnexpectedGrade(self), Error::Refused))
            }
            _ => Err(Error::UnexpectedGrade(self)),
        }
    }
}

/// An even grade in n sizes: top minus base is n × step + remainder.
#[derive(Clone, Copy, Debug, PartialEq, Eq, Hash)]
#[must_use]
pub struct Grade {
    /// The step from one size to the next, in hundredths of a millimetre, rounded down.
    pub step: i64,
    /// What is left over, in hundredths of a millimetre: 0 to n - 1.
    pub remainder: u32,
}

/// What the migration answers: 0 or 1, and the mask.
#[repr(C)]
#[derive(Clone, Copy, Debug, PartialEq, Eq, Hash)]
#[must_use]
pub struct MigrationAnswer {
    /// 0 if the migration is done, 1 if the store has another length.
    pub number: u32,
    /// Of a migration that is done the mask: bit n is set if partition n was not well formed in the order of before; else 0.
    pub mask: u32,
}

impl MigrationAnswer {
    /// The mask of a migration that is done, or why it is not.
    ///
    /// # Errors
    ///
    /// The refusal by 1, or an answer that no migration of this version gives.
    pub fn outcome(self) -> Result<Mask, Error> {
        match self {
            MigrationAnswer { number: 0, mask } => Ok(Mask(mask)),
            MigrationAnswer { number: 1, mask: 0 } => Err(Error::Refused(Refusal::StoreLength)),
            _ => Err(Error::UnexpectedMigration(self)),
        }
    }
}

/// The partitions that a migration left as they were, since they were not well formed in the order of before. One that stands in
/// the order of now already may be among them: the mask is no list of broken partitions.
#[derive(Clone, Copy, Debug, PartialEq, Eq, Hash)]
pub struct Mask(u32);

impl Mask {
    /// The mask as a number: bit n is that of the partition of label n.
    #[must_use]
    pub const fn bits(self) -> u32 {
        self.0
    }

    /// Whether there is none of them.
    #[must_use]
    pub const fn is_empty(self) -> bool {
        self.0 == 0
    }

    /// Whether the partition of a label was left as it was.
    #[must_use]
    pub const fn has(self, label: Label) -> bool {
        self.0 >> label.number() & 1 == 1
    }

    /// The labels of the partitions that were left as they were, from low to high.
    pub const fn labels(self) -> Labels {
        Labels(self.0)
    }
}

impl From<Mask> for u32 {
    fn from(mask: Mask) -> u32 {
        mask.bits()
    }
}

impl IntoIterator for Mask {
    type Item = Label;
    type IntoIter = Labels;

    fn into_iter(self) -> Labels {
        self.labels()
    }
}

/// The labels of a mask, from low to high: of the bits that are left.
#[derive(Clone, Debug)]
#[must_use]
pub struct Labels(u32);

impl Iterator for Labels {
    type Item = Label;

    fn next(&mut self) -> Option<Label> {
        let label = Label::from_number(self.0.trailing_zeros())?;
        self.0 &= self.0 - 1;
        Some(label)
    }

    fn size_hint(&self) -> (usize, Option<usize>) {
        let count = self.0.count_ones() as usize;
        (count, Some(count))
    }
}

impl ExactSizeIterator for Labels {}

impl FusedIterator for Labels {}

/// Why a call is refused: the first cause that applies, in this order but for 11, which a grade tests right after 4, and 13 and
/// 14, which an XML intake tests there. A refused call leaves the store and the output.
#[derive(Clone, Copy, Debug, PartialEq, Eq, PartialOrd, Ord, Hash)]
#[non_exhaustive]
pub enum Refusal {
    /// 1: the store is not 41,088 bytes long.
    StoreLength = 1,
    /// 2: the subject is no label.
    Subject = 2,
    /// 3: a partition that the subject dominates is not well formed. One that was written before the path order changed and holds
    /// versions of one name at two levels is not well formed until [`Store::migrate`](crate::Store::migrate) is called.
    NotWellFormed = 3,
    /// 4: the path is none, or it is the root's and the call is no view, no grade and no XML intake; of a grade, either path.
    Path = 4,
    /// 5: the kind, or the value's length or bytes, are not allowed.
    Value = 5,
    /// 6: the path's last label is not the subject's.
    OtherLabel = 6,
    /// 7: the path of a view, the parent of an XML intake or either path of a grade is not in view, the parent of an insert is not
    /// in view and one of the missing steps does not bear the subject's label, or the element of an update or a delete is not live.
    Absent = 7,
    /// 8: the element of an insert, or the top element of an XML intake, is live already.
    Live = 8,
    /// 9: the subject's partition would hold more than 32 elements: with the element of an insert and its missing groups, or with
    /// those of an XML intake.
    Full = 9,
    /// 10: the output is shorter than the listing or the XML.
    OutputShort = 10,
    /// 11: the number of sizes of a grade is not 1 to 64.
    Sizes = 11,
    /// 12: both paths of a grade are in view, and either is no live measure's: a group's, a text's, a removed element's or the
    /// root's.
    NoMeasure = 12,
    /// 13: the text of an XML intake is not in form.
    Form = 13,
    /// 14: a label in the text of an XML intake is not the subject's, or an element there is removed.
    NotOwn = 14,
}

impl Refusal {
    /// All refusals, in the order of their numbers.
    pub const ALL: &'static [Refusal] = &[
        Refusal::StoreLength,
        Refusal::Subject,
        Refusal::NotWellFormed,
        Refusal::Path,
        Refusal::Value,
        Refusal::OtherLabel,
        Refusal::Absent,
        Refusal::Live,
        Refusal::Full,
        Refusal::OutputShort,
        Refusal::Sizes,
        Refusal::NoMeasure,
        Refusal::Form,
        Refusal::NotOwn,
    ];

    /// The number that the call answers.
    #[must_use]
    pub const fn number(self) -> u32 {
        self as u32
    }

    /// The refusal of a number, if it is one.
    #[must_use]
    pub fn from_number(number: u32) -> Option<Refusal> {
        Refusal::ALL.iter().copied().find(|refusal| refusal.number() == number)
    }

    /// The cause in words.
    #[must_use]
    pub const fn cause(self) -> &'static str {
        match self {
            Refusal::StoreLength => "the store is not 41,088 bytes long",
            Refusal::Subject => "the subject is no label",
            Refusal::NotWellFormed => "a partition that the subject dominates is not well formed",
            Refusal::Path => "the path is not valid",
            Refusal::Value => "the value is not allowed",
            Refusal::OtherLabel => "the path does not end in the subject's label",
            Refusal::Absent => "the path or its parent is not in view, or the element is not live",
            Refusal::Live => "the element is live already",
            Refusal::Full => "the label's partition has no room",
            Refusal::OutputShort => "the output is too short for the view",
            Refusal::Sizes => "the number of sizes of a grade is not 1 to 64",
            Refusal::NoMeasure => "a path of the grade is in view and is no live measure's",
            Refusal::Form => "the XML is not in form",
            Refusal::NotOwn => "an element of the XML bears another label than the subject's, or is marked REMOVED",
        }
    }
}

impl fmt::Display for Refusal {
    fn fmt(&self, out: &mut fmt::Formatter<'_>) -> fmt::Result {
        write!(out, "refused by {}: {}", self.number(), self.cause())
    }
}

impl std::error::Error for Refusal {}

/// Why a typed call gives no result.
#[derive(Clone, Copy, Debug, PartialEq, Eq, Hash)]
#[non_exhaustive]
pub enum Error {
    /// The call was refused: its answer is the refusal's number, and 0 for all else.
    Refused(Refusal),
    /// The answer is not one of those that this package knows: the archive is of another version.
    Unexpected(Answer),
    /// The answer of a grade is not one of those that this package knows: the archive is of another version.
    UnexpectedGrade(GradeAnswer),
    /// The answer of a migration is not one of those that this package knows: the archive is of another version.
    UnexpectedMigration(MigrationAnswer),
    /// A line of a listing does not read as one, or XML is no text: the archive is of another version.
    Unreadable,
}

impl Error {
    /// The refusal, if the call was refused.
    #[must_use]
    pub fn refusal(self) -> Option<Refusal> {
        match self {
            Error::Refused(refusal) => Some(refusal),
            _ => None,
        }
    }

    /// What the call answered, number and count; nothing for an unexpected grade or migration, which have no count, and what does
    /// not read.
    #[must_use]
    pub fn answer(self) -> Option<Answer> {
        match self {
            Error::Refused(refusal) => Some(Answer { number: refusal.number(), count: 0 }),
            Error::Unexpected(answer) => Some(answer),
            Error::UnexpectedGrade(_) | Error::UnexpectedMigration(_) | Error::Unreadable => None,
        }
    }
}

impl fmt::Display for Error {
    fn fmt(&self, out: &mut fmt::Formatter<'_>) -> fmt::Result {
        match self {
            Error::Refused(refusal) => refusal.fmt(out),
            Error::Unexpected(Answer { number, count }) => write!(out, "unexpected answer: number {number}, count {count}"),
            Error::UnexpectedGrade(GradeAnswer { number, step, remainder }) => {
                write!(out, "unexpected answer: number {number}, step {step}, remainder {remainder}")
            }
            Error::UnexpectedMigration(MigrationAnswer { number, mask }) => {
                write!(out, "unexpected answer: number {number}, mask {mask}")
            }
            Error::Unreadable => write!(out, "a line of the listing, or the XML, does not read"),
        }
    }
}

impl std::error::Error for Error {}

impl From<Refusal> for Error {
    fn from(refusal: Refusal) -> Error {
        Error::Refused(refusal)
    }
}

#[cfg(test)]
mod tests {
    use super::*;

    #[test]
    fn an_answer_has_one_outcome() {
        assert_eq!(Answer { number: 0, count: 40 }.outcome(), Ok(40));
        for (number, refusal) in (1..).zip(Refusal::ALL.iter().copied()) {
            let answer = Answer { number, count: 0 };
            assert_eq!(answer.outcome(), Err(Error::Refused(refusal)));
            assert_eq!(Error::Refused(refusal).answer(), Some(answer));
        }
    }

    #[test]
    fn an_unexpected_answer_is_kept_whole() {
        for answer in
            [Answer { number: 15, count: 0 }, Answer { number: 7, count: 1 }, Answer { number: u32::MAX, count: u64::MAX }]
        {
            assert_eq!(answer.outcome(), Err(Error::Unexpected(answer)));
            assert_eq!(Error::Unexpected(answer).answer(), Some(answer));
        }
    }

    #[test]
    fn a_grade_has_one_outcome() {
        let answer = |number, step, remainder| GradeAnswer { number, step, remainder };
        assert_eq!(answer(0, -4, 2).outcome(), Ok(Grade { step: -4, remainder: 2 }));
        assert_eq!(answer(0, 0, 0).outcome(), Ok(Grade { step: 0, remainder: 0 }));
        for (number, refusal) in (1..).zip(Refusal::ALL.iter().copied()) {
            assert_eq!(answer(number, 0, 0).outcome(), Err(Error::Refused(refusal)));
        }
        for answer in
            [answer(15, 0, 0), answer(7, 1, 0), answer(7, -1, 0), answer(12, 0, 1), answer(u32::MAX, i64::MIN, u32::MAX)]
        {
            assert_eq!(answer.outcome(), Err(Error::UnexpectedGrade(answer)));
            assert_eq!(Error::UnexpectedGrade(answer).answer(), None);
        }
    }

    #[test]
    fn a_migration_has_one_outcome() {
        let answer = |number, mask| MigrationAnswer { number, mask };
        assert_eq!(answer(0, 544).outcome().map(Mask::bits), Ok(544));
        assert_eq!(answer(0, 0).outcome().map(Mask::bits), Ok(0));
        assert_eq!(answer(1, 0).outcome(), Err(Error::Refused(Refusal::StoreLength)));
        for answer in [answer(1, 1), answer(2, 0), answer(3, 0), answer(15, 0), answer(u32::MAX, u32::MAX)] {
            assert_eq!(answer.outcome(), Err(Error::UnexpectedMigration(answer)));
            assert_eq!(Error::UnexpectedMigration(answer).answer(), None);
        }
    }

    #[test]
    fn a_mask_has_the_labels_of_its_bits() {
        let numbers = |mask: u32| Mask(mask).into_iter().map(Label::number).collect::<Vec<_>>();
        assert_eq!(numbers(0), []);
        assert_eq!(numbers(544), [5, 9]);
        assert_eq!(numbers(0x8000_0001), [0, 31]);
        assert_eq!(numbers(u32::MAX), (0..32).collect::<Vec<_>>());
        assert_eq!([0, 544, u32::MAX].map(|mask| Mask(mask).labels().len()), [0, 2, 32]);
        assert_eq!(u32::from(Mask(544)), 544);
        assert_eq!((Mask(544).is_empty(), Mask(0).is_empty()), (false, true));
        let has = |number| Label::from_number(number).is_some_and(|label| Mask(544).has(label));
        assert_eq!((0..32).filter(|number| has(*number)).collect::<Vec<_>>(), [5, 9]);
    }

    #[test]
    fn a_refusal_says_its_number() {
        assert_eq!(Error::Refused(Refusal::Subject).to_string(), "refused by 2: the subject is no label");
        assert_eq!(Error::from(Refusal::Form).to_string(), "refused by 13: the XML is not in form");
        let unexpected = Error::UnexpectedGrade(GradeAnswer { number: 7, step: -1, remainder: 2 });
        assert_eq!(unexpected.to_string(), "unexpected answer: number 7, step -1, remainder 2");
        let unexpected = Error::UnexpectedMigration(MigrationAnswer { number: 1, mask: 5 });
        assert_eq!(unexpected.to_string(), "unexpected answer: number 1, mask 5");
    }
}
