//! Labels: a level and a set of compartments.

use std::fmt;
use std::str::FromStr;

use crate::path::number_of;

/// The levels with their names, from low to high.
const LEVELS: [(Level, &str); 4] =
    [(Level::Open, "open"), (Level::Trade, "trade"), (Level::House, "house"), (Level::Sealed, "sealed")];
/// The compartments with their names.
const COMPARTMENTS: [(Compartment, &str); 3] =
    [(Compartment::Sizing, "sizing"), (Compartment::Fabric, "fabric"), (Compartment::Cost, "cost")];

/// The level of a label.
#[derive(Clone, Copy, Debug, PartialEq, Eq, PartialOrd, Ord, Hash)]
pub enum Level {
    /// 0.
    Open = 0,
    /// 1.
    Trade = 1,
    /// 2.
    House = 2,
    /// 3.
    Sealed = 3,
}

/// A compartment of a label.
#[derive(Clone, Copy, Debug, PartialEq, Eq, Hash)]
pub enum Compartment {
    /// 1 in the compartments number.
    Sizing = 1,
    /// 2 in the compartments number.
    Fabric = 2,
    /// 4 in the compartments number.
    Cost = 4,
}

impl fmt::Display for Level {
    /// Its name, as in `house`.
    fn fmt(&self, out: &mut fmt::Formatter<'_>) -> fmt::Result {
        out.pad(name_of(&LEVELS, self))
    }
}

impl fmt::Display for Compartment {
    /// Its name, as in `sizing`.
    fn fmt(&self, out: &mut fmt::Formatter<'_>) -> fmt::Result {
        out.pad(name_of(&COMPARTMENTS, self))
    }
}

/// A label: a number from 0 to 31, level × 8 + compartments.
#[derive(Clone, Copy, Debug, PartialEq, Eq, Hash)]
pub struct Label(u8);

impl Label {
    /// The label of a level and some compartments.
    #[must_use]
    pub const fn new(level: Level, compartments: &[Compartment]) -> Label {
        let (mut number, mut at) = (level as u8 * 8, 0);
        while at < compartments.len() {
            number |= compartments[at] as u8;
            at += 1;
        }
        Label(number)
    }

    /// The label of a number, if it is one.
    #[must_use]
    pub fn from_number(number: u32) -> Option<Label> {
        u8::try_from(number).ok().filter(|number| *number < 32).map(Label)
    }

    /// All labels, in the order of their numbers.
    pub fn all() -> impl ExactSizeIterator<Item = Label> {
        (0..32).map(Label)
    }

    /// The label's number.
    #[must_use]
    pub const fn number(self) -> u32 {
        self.0 as u32
    }

    /// The label's level.
    #[must_use]
    pub const fn level(self) -> Level {
        match self.0 / 8 {
            0 => Level::Open,
            1 => Level::Trade,
            2 => Level::House,
            _ => Level::Sealed,
        }
    }

    /// The label's compartments.
    pub fn compartments(self) -> impl Iterator<Item = Compartment> {
        COMPARTMENTS.into_iter().map(|(compartment, _)| compartment).filter(move |compartment| self.has(*compartment))
    }

    /// Whether the label has a compartment.
    #[must_use]
    pub const fn has(self, compartment: Compartment) -> bool {
        self.0 & compartment as u8 != 0
    }

    /// The label in words: its level and its compartments, as in `house+sizing`.
    #[must_use]
    pub fn words(self) -> String {
        self.compartments().fold(self.level().to_string(), |words, compartment| format!("{words}+{compartment}"))
    }

    /// Whether the label's level is at least the other's and its compartments include the other's.
    #[must_use]
    pub const fn dominates(self, other: Label) -> bool {
        self.0 / 8 >= other.0 / 8 && self.0 & other.0 & 7 == other.0 & 7
    }
}

impl fmt::Display for Label {
    /// Its number.
    fn fmt(&self, out: &mut fmt::Formatter<'_>) -> fmt::Result {
        self.0.fmt(out)
    }
}

impl TryFrom<u32> for Label {
    type Error = NoLabel;

    fn try_from(number: u32) -> Result<Label, NoLabel> {
        Label::from_number(number).ok_or_else(|| NoLabel { given: number.to_string() })
    }
}

impl From<Label> for u32 {
    fn from(label: Label) -> u32 {
        label.number()
    }
}

impl From<Label> for u8 {
    fn from(label: Label) -> u8 {
        label.0
    }
}

/// What is no label: a text or a number.
#[derive(Clone, Debug, PartialEq, Eq)]
pub struct NoLabel {
    given: String,
}

impl fmt::Display for NoLabel {
    fn fmt(&self, out: &mut fmt::Formatter<'_>) -> fmt::Result {
        let rule = "a number from 0 to 31, or open, trade, house or sealed, each with +sizing, +fabric or +cost behind it";
        write!(out, "'{}' is no label: a label is {rule}", self.given)
    }
}

impl std::error::Error for NoLabel {}

impl FromStr for Label {
    type Err = NoLabel;

    /// Reads a number from 0 to 31, or words: a level and then the compartments, each once, parted by `+`.
    fn from_str(text: &str) -> Result<Label, NoLabel> {
        let label = number_of(text).map_or_else(|| of_words(text), Label::from_number);
        label.ok_or_else(|| NoLabel { given: text.to_owned() })
    }
}

/// The label of words: a level and then the compartments, each once.
fn of_words(text: &str) -> Option<Label> {
    let mut words = text.split('+');
    let level = find(&LEVELS, words.next()?)?;
    words.try_fold(Label::new(level, &[]), |label, word| {
        let compartment = find(&COMPARTMENTS, word).filter(|compartment| !label.has(*compartment))?;
        Some(Label(label.0 | compartment as u8))
    })
}

/// The name of one of these.
fn name_of<T: PartialEq>(named: &[(T, &'static str)], this: &T) -> &'static str {
    named.iter().find(|(other, _)| other == this).map_or("", |(_, name)| *name)
}

/// What bears this name.
fn find<T: Copy>(named: &[(T, &str)], word: &str) -> Option<T> {
    named.iter().find(|(_, name)| *name == word).map(|(this, _)| *this)
}

#[cfg(test)]
mod tests {
    use super::*;

    /// The label of a number that is one.
    fn label(number: u32) -> Label {
        Label::from_number(number).expect("a label")
    }

    #[test]
    fn a_label_is_level_and_compartments() {
        assert_eq!(Label::new(Level::House, &[Compartment::Sizing, Compartment::Fabric]), label(19));
        assert_eq!(label(19).level(), Level::House);
        assert!(label(19).has(Compartment::Fabric) && !label(19).has(Compartment::Cost));
    }

    #[test]
    fn no_number_is_narrowed_into_a_label() {
        assert_eq!((0..=31).filter_map(Label::from_number).map(Label::number).collect::<Vec<_>>(), (0..=31).collect::<Vec<_>>());
        assert!([32, 255, 256, 287, u32::MAX].into_iter().all(|number| Label::try_from(number).is_err()));
        assert_eq!(Label::all().map(u32::from).collect::<Vec<_>>(), (0..=31).collect::<Vec<_>>());
    }

    #[test]
    fn dominance() {
        assert!(label(19).dominates(label(17)) && !label(17).dominates(label(19)));
        assert!(!label(16).dominates(label(9)) && !label(9).dominates(label(16)));
    }

    #[test]
    fn words_are_read_back() {
        for number in 0..32 {
            assert_eq!(label(number).words().parse(), Ok(label(number)));
            assert_eq!(number.to_string().parse(), Ok(label(number)));
        }
        assert_eq!(label(0).words(), "open");
        assert_eq!(label(19).words(), "house+sizing+fabric");
        assert_eq!("sealed+cost+sizing".parse(), Ok(label(29)));
    }

    #[test]
    fn what_is_no_label_is_not_read() {
        let texts =
            ["", "32", "287", "-1", "+5", "05", "house+", "+house", "house+sizing+sizing", "sizing", "House", "house sizing"];
        for text in texts {
            assert_eq!(text.parse::<Label>(), Err(NoLabel { given: text.to_owned() }));
        }
        let rule = "a number from 0 to 31, or open, trade, house or sealed, each with +sizing, +fabric or +cost behind it";
        let refused = [Label::try_from(32), "house+".parse()].map(|read| read.map_err(|error| error.to_string()));
        assert_eq!(refused, ["32", "house+"].map(|given| Err(format!("'{given}' is no label: a label is {rule}"))));
    }
}
