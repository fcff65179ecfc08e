//! Refusals by their numbers.

use std::error::Error;
use std::fmt;

/// Why the unit refuses a call or a record.
#[derive(Debug, Clone, Copy, PartialEq, Eq, Hash, PartialOrd, Ord)]
#[non_exhaustive]
pub enum Refusal {
    /// 1: a setting is out of its range.
    Settings,
    /// 2: the memory is not one that the unit left.
    Memory,
    /// 3: the bytes of a sample have not the form of one.
    Form,
    /// 4: the layout tag of a sample is unknown.
    Tag,
    /// 5: a sample has too few I/Q bytes for its layout.
    Iq,
    /// 6: no space is left for an answer.
    Space,
    /// 7: features or angles have more than 64 entries. The room never says this.
    Count,
    /// 8: the baseline has all the frames that it takes.
    Full,
    /// 9: a record is of an unknown kind or cut short.
    Record,
}

impl Refusal {
    const ALL: [Refusal; 9] = [
        Refusal::Settings,
        Refusal::Memory,
        Refusal::Form,
        Refusal::Tag,
        Refusal::Iq,
        Refusal::Space,
        Refusal::Count,
        Refusal::Full,
        Refusal::Record,
    ];

    /// Its number, 1 to 9.
    #[must_use]
    pub const fn number(self) -> u8 {
        self as u8 + 1
    }

    /// The refusal with this number.
    #[must_use]
    pub fn from_number(number: u8) -> Option<Refusal> {
        let index = usize::from(number).checked_sub(1)?;
        Refusal::ALL.get(index).copied()
    }
}

impl fmt::Display for Refusal {
    fn fmt(&self, f: &mut fmt::Formatter<'_>) -> fmt::Result {
        f.write_str(match self {
            Refusal::Settings => "a setting is out of its range",
            Refusal::Memory => "the memory is not as the unit left it",
            Refusal::Form => "the sample's bytes do not have the form of a sample",
            Refusal::Tag => "the sample's layout tag is unknown",
            Refusal::Iq => "the sample has too few I/Q bytes for its layout",
            Refusal::Space => "no space is left for an answer",
            Refusal::Count => "more than 64 entries",
            Refusal::Full => "the baseline takes no more frames",
            Refusal::Record => "the record's kind is unknown or the record is cut short",
        })
    }
}

impl Error for Refusal {}

#[cfg(test)]
mod tests {
    use super::*;

    #[test]
    fn numbers_come_back() {
        for number in 0..=u8::MAX {
            let refusal = Refusal::from_number(number);
            assert_eq!(refusal.is_some(), (1..=9).contains(&number));
            assert!(refusal.is_none_or(|refusal| refusal.number() == number));
        }
        assert_eq!(Refusal::Full.number(), 8);
        assert_eq!(Refusal::Record.number(), 9);
    }
}
