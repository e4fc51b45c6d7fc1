//! A setting as its letters.

use crate::RESULT_LENGTH;
use std::error::Error;
use std::fmt;
use std::ops::Deref;
use std::str::FromStr;

/// The letters of a setting: one value in prefix order, with U for the unit, L or R before a part, P before two parts, N
/// for the empty list and K before an element and the list behind it, at most 127 letters. Whether a type has such a value is for the library to say.
///
/// ```
/// use rulefile::Letters;
///
/// let letters: Letters = "PRURRLU".parse()?;
/// assert_eq!(format!("{letters} {letters:?}"), "PRURRLU \"PRURRLU\"");
/// assert_eq!(letters.as_bytes(), b"PRURRLU");
/// let why = "PRUX".parse::<Letters>().unwrap_err();
/// assert_eq!(why.to_string(), "letter 4 is none of U, L, R, P, N and K");
/// # Ok::<(), rulefile::NoLetters>(())
/// ```
#[derive(Clone, PartialEq, Eq, PartialOrd, Ord, Hash)]
pub struct Letters(Vec<u8>);

/// Why a text is no setting of any type.
#[derive(Clone, Copy, Debug, PartialEq, Eq)]
pub enum NoLetters {
    /// What stands at this place, counted from 1, is none of U, L, R, P, N and K.
    Other(usize),
    /// The setting ends before this place, counted from 1.
    Behind(usize),
    /// The setting is not whole.
    Missing,
    /// There are more than 127 letters.
    TooMany,
}

impl Letters {
    /// The letters as bytes.
    pub fn as_bytes(&self) -> &[u8] {
        &self.0
    }

    /// Letters that the library gave.
    pub(crate) fn given(letters: &[u8]) -> Letters {
        Letters(letters.to_vec())
    }

    /// The letters of a text, if they are those of one value.
    fn read(text: &[u8]) -> Result<Letters, NoLetters> {
        // how many parts are still to come
        let mut parts = 1usize;
        for (place, letter) in (1..).zip(text) {
            parts = match letter {
                _ if place > RESULT_LENGTH => return Err(NoLetters::TooMany),
                b'U' | b'L' | b'R' | b'P' | b'N' | b'K' if parts == 0 => {
                    return Err(NoLetters::Behind(place))
                }
                b'U' | b'N' => parts - 1,
                b'L' | b'R' => parts,
                b'P' | b'K' => parts + 1,
                _ => return Err(NoLetters::Other(place)),
            }
        }
        match parts {
            0 => Ok(Letters(text.to_vec())),
            _ => Err(NoLetters::Missing),
        }
    }
}

impl FromStr for Letters {
    type Err = NoLetters;

    fn from_str(text: &str) -> Result<Letters, NoLetters> {
        Letters::read(text.as_bytes())
    }
}

impl TryFrom<&[u8]> for Letters {
    type Error = NoLetters;

    fn try_from(text: &[u8]) -> Result<Letters, NoLetters> {
        Letters::read(text)
    }
}

impl Deref for Letters {
    type Target = [u8];

    fn deref(&self) -> &[u8] {
        &self.0
    }
}

impl From<Letters> for Vec<u8> {
    fn from(letters: Letters) -> Vec<u8> {
        letters.0
    }
}

impl PartialEq<str> for Letters {
    fn eq(&self, text: &str) -> bool {
        self.0 == text.as_bytes()
    }
}

impl PartialEq<&str> for Letters {
    fn eq(&self, text: &&str) -> bool {
        self == *text
    }
}

impl fmt::Display for Letters {
    fn fmt(&self, f: &mut fmt::Formatter) -> fmt::Result {
        f.pad(&String::from_utf8_lossy(&self.0))
    }
}

impl fmt::Debug for Letters {
    fn fmt(&self, f: &mut fmt::Formatter) -> fmt::Result {
        fmt::Debug::fmt(&Text(&self.0), f)
    }
}

/// Bytes that are shown as the text that they are.
pub(crate) struct Text<'a>(pub(crate) &'a [u8]);

impl fmt::Debug for Text<'_> {
    fn fmt(&self, f: &mut fmt::Formatter) -> fmt::Result {
        fmt::Debug::fmt(&*String::from_utf8_lossy(self.0), f)
    }
}

impl fmt::Display for NoLetters {
    fn fmt(&self, f: &mut fmt::Formatter) -> fmt::Result {
        match self {
            NoLetters::Other(place) => {
                write!(f, "letter {place} is none of U, L, R, P, N and K")
            }
            NoLetters::Behind(place) => {
                write!(f, "the setting ends before letter {place}")
            }
            NoLetters::Missing => {
                f.write_str("the setting is not whole: letters are missing at its end")
            }
            NoLetters::TooMany => write!(f, "no setting has more than {RESULT_LENGTH} letters"),
        }
    }
}

impl Error for NoLetters {}
