//! The refusals of document 01 and of the requests after it, by name.

use crate::letters::Text;
use std::error::Error;
use std::fmt;

/// Why a file or a call is refused; the discriminants are the numbers of the documents. `docs/REFUSALS.md` says
/// what each means and what to ask the supplier.
#[derive(Clone, Copy, Debug, PartialEq, Eq, Hash)]
#[non_exhaustive]
#[repr(u32)]
pub enum Refusal {
    /// A lent area is shorter than stated; of a play, the unit areas are of unequal length.
    ShortArea = 1,
    /// Over 65,536 bytes or 4,096 lines; of a sheet, over 600 queries; of a play, over 1,000 units or 4,096 lines.
    TooLong = 2,
    /// Not one of the five line forms, or no line feed at the end; of a query, another form.
    BadLine = 3,
    /// A line against the stated order.
    Misplaced = 4,
    /// A kind that is not listed, an idle field that is not 0, a variable above 31.
    BadField = 5,
    /// A named line does not stand earlier; an L line may name its own iso.
    BadName = 6,
    /// Any other ceiling passed; of an import, by the list or by the file that would be written.
    Ceiling = 7,
    /// A variable bound while live, used while not, or live at the end of its clause.
    Variable = 8,
    /// Left or right in a let pattern.
    LetShape = 9,
    /// No assignment of types fits the clause.
    Type = 10,
    /// Two left patterns match one value.
    OverlapLeft = 11,
    /// Two right patterns match one value.
    OverlapRight = 12,
    /// The left patterns leave a value out.
    GapLeft = 13,
    /// The right patterns leave a value out.
    GapRight = 14,
    /// The file has no iso, or no T or P line, of that number.
    NoIso = 15,
    /// The letters are not exactly one closed value of the type.
    NoValue = 16,
    /// The full count would pass the budget.
    Spent = 17,
    /// The T line has over 4,294,967,295 values; of a pair list, over 4,096; or a type holds a list.
    TooMany = 18,
    /// The setting's number is not below the T line's count of values.
    TooHigh = 19,
    /// The lines of the list are not `0,to`, `1,to` and so on up to the counts of both types, each to once.
    BadList = 20,
    /// A T or P line that no I, C or L line reaches.
    IdleLine = 21,
    /// A line of the script is of another form, or names an absent unit or iso.
    BadScript = 22,
    /// An iso calls itself, and meets the rule for that neither as written nor as turned.
    Recursion = 23,
    /// An argument or a result of over 127 letters, or calls nested deeper than 40; of a witness, the setting has over
    /// 127 letters.
    TooLarge = 24,
    /// A number that this crate has no name for: the library that is linked is of a later version.
    Unknown(u32),
}

use Refusal::*;

/// Every refusal that has a name, in the order of their numbers, with its word.
const ALL: &[(Refusal, &str)] = &[
    (ShortArea, "short area"),
    (TooLong, "too long"),
    (BadLine, "bad line"),
    (Misplaced, "misplaced"),
    (BadField, "bad field"),
    (BadName, "bad name"),
    (Ceiling, "ceiling"),
    (Variable, "variable"),
    (LetShape, "let shape"),
    (Type, "type"),
    (OverlapLeft, "overlap left"),
    (OverlapRight, "overlap right"),
    (GapLeft, "gap left"),
    (GapRight, "gap right"),
    (NoIso, "no iso"),
    (NoValue, "no value"),
    (Spent, "spent"),
    (TooMany, "too many values"),
    (TooHigh, "number too high"),
    (BadList, "bad list"),
    (IdleLine, "idle line"),
    (BadScript, "bad script"),
    (Recursion, "recursion"),
    (TooLarge, "too large"),
];

impl Refusal {
    /// The number of the documents.
    pub fn number(self) -> u32 {
        match self {
            Unknown(number) => number,
            named => named.place() as u32 + 1,
        }
    }

    /// The word of the documents; `unknown` for a number that this crate has no name for.
    pub fn word(self) -> &'static str {
        ALL.get(self.place()).map_or("unknown", |entry| entry.1)
    }

    /// The refusal of a number, if there is one.
    pub fn of(number: u32) -> Option<Refusal> {
        let place = (number as usize).checked_sub(1)?;
        ALL.get(place).map(|entry| entry.0)
    }

    /// Where the refusal stands among those that have a name; behind them, where it has none.
    fn place(self) -> usize {
        let same = |entry: &(Refusal, &str)| entry.0 == self;
        ALL.iter().position(same).unwrap_or(ALL.len())
    }
}

impl fmt::Display for Refusal {
    fn fmt(&self, f: &mut fmt::Formatter) -> fmt::Result {
        write!(f, "{}, {}", self.number(), self.word())
    }
}

impl Error for Refusal {}

/// A refusal and the line that it names.
#[derive(Clone, Copy, Debug, PartialEq, Eq, Hash)]
pub struct Refused {
    /// Why the file or the call is refused.
    pub refusal: Refusal,
    /// The line of a refused file, counted from 1; 0 where what was asked is refused, or the file with 1 or 2.
    pub line: usize,
}

impl Refused {
    /// What a number and a line of the library say.
    pub(crate) fn unless_0(number: u32, line: usize) -> Result<(), Refused> {
        if number == 0 {
            return Ok(());
        }
        let refusal = Refusal::of(number).unwrap_or(Unknown(number));
        Err(Refused { refusal, line })
    }
}

impl fmt::Display for Refused {
    fn fmt(&self, f: &mut fmt::Formatter) -> fmt::Result {
        write!(f, "refused with {}", self.refusal)?;
        match self.line {
            0 => Ok(()),
            line => write!(f, ", at line {line}"),
        }
    }
}

impl Error for Refused {}

/// A refusal, and how many letters of a setting that shows the fault were written: none where it is not one of 11
/// to 14.
#[derive(Clone, Copy, Debug, PartialEq, Eq)]
pub struct Witnessed {
    /// The refusal, as Check gives it.
    pub refused: Refused,
    /// The letters written to the result area.
    pub length: usize,
}

/// A refusal, and the letters of a setting that shows the fault: none where it is not one of 11 to 14.
#[derive(Clone, PartialEq, Eq)]
pub struct Witness {
    /// The refusal, as Check gives it.
    pub refused: Refused,
    /// The letters of the setting.
    pub letters: Vec<u8>,
}

impl fmt::Debug for Witness {
    fn fmt(&self, f: &mut fmt::Formatter) -> fmt::Result {
        let mut shown = f.debug_struct("Witness");
        let letters = Text(&self.letters);
        shown.field("refused", &self.refused);
        shown.field("letters", &letters).finish()
    }
}

impl fmt::Display for Witnessed {
    fn fmt(&self, f: &mut fmt::Formatter) -> fmt::Result {
        self.refused.fmt(f)
    }
}

impl fmt::Display for Witness {
    fn fmt(&self, f: &mut fmt::Formatter) -> fmt::Result {
        self.refused.fmt(f)?;
        match self.letters.is_empty() {
            true => Ok(()),
            false => write!(f, ", shown by {}", String::from_utf8_lossy(&self.letters)),
        }
    }
}

impl Error for Witnessed {}

impl Error for Witness {}

#[cfg(test)]
mod tests {
    use super::{Refusal, Refused, ALL};

    #[test]
    fn a_number_without_a_name_is_an_error_value() {
        for number in [ALL.len() as u32 + 1, 65_536, u32::MAX] {
            let refusal = Refusal::Unknown(number);
            assert_eq!(
                Refused::unless_0(number, 7),
                Err(Refused { refusal, line: 7 })
            );
            assert_eq!((refusal.number(), refusal.word()), (number, "unknown"));
            assert_eq!(refusal.to_string(), format!("{number}, unknown"));
        }
        assert_eq!(Refused::unless_0(0, 7), Ok(()));
    }

    #[test]
    fn every_name_has_its_discriminant() {
        for (place, (refusal, word)) in ALL.iter().enumerate() {
            let number = place as u32 + 1;
            assert_eq!((refusal.number(), refusal.word()), (number, *word));
            assert_eq!(Refusal::of(number), Some(*refusal));
        }
    }
}
