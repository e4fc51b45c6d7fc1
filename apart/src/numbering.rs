//! Request 02, "Settings as numbers": the number of a setting of a T line, and
//! the setting of a number.
//!
//! Both walk along the letters once, with what still has to follow on a stack.
//! The number of a setting is the number of settings of its type that stand
//! before it in byte order, since "numbers of one type rise exactly as the
//! letters do in byte order": all that agree with it up to an R and have an L
//! there. The sentences that build a number from those of the parts are not
//! used here; the tests hold them to this.

use crate::areas::{Known, RESULT};
use crate::tree::Type;
use crate::{Refusal, Rules};

/// 18: "a count above 4,294,967,295".
pub const VALUES: u64 = 4_294_967_295;

/// What the way from letters to a number gives: "With a refusal the setting
/// number is 0."
#[derive(Debug, PartialEq, Eq, Clone, Copy)]
pub struct Numbered {
    pub number: u8,
    pub setting: u32,
}

/// What the way from a number to letters gives.
#[derive(Debug, PartialEq, Eq, Clone, Copy)]
pub struct Lettered {
    pub number: u8,
    pub length: usize,
}

/// A part that has to follow in the letters, and in how many ways all behind it
/// can be filled.
struct Due<'a> {
    ty: &'a Type,
    behind: u64,
}

/// How many closed values a type has. A type of 127 nodes has 64 leaves and so
/// at most 4 times 3 to the 20th, far below 64 bits. One that holds a list has no
/// end of them, and the greatest number stands for that: "Reqs 02, 05, 07 and 12
/// refuse 18 where a type ... holds a list" (request 14).
pub fn values(ty: &Type) -> u64 {
    match ty {
        Type::Unit => 1,
        Type::Sum(a, b) => values(a).saturating_add(values(b)),
        Type::Product(a, b) => values(a).saturating_mul(values(b)),
        Type::List(_) => u64::MAX,
    }
}

/// The type that a T line names: 15 where it is absent, then 18.
fn countable(rules: &Rules, ty: u32) -> Result<(&Type, u64), Refusal> {
    let refused = |number| Refusal { number, line: 0 };
    let place = usize::try_from(ty).map_err(|_| refused(15))?;
    // "An absent T line is 15."
    let ty = rules.types.get(place).ok_or(refused(15))?;
    // 18: "after 15 and before 16".
    match values(ty) {
        count if count > VALUES => Err(refused(18)),
        count => Ok((ty, count)),
    }
}

/// The number of the setting that the letters are.
pub fn number_of_rules(rules: &Rules, ty: u32, letters: &[u8]) -> Result<u32, Refusal> {
    let (ty, _) = countable(rules, ty)?;
    // 16: "not exactly one closed value" of that type.
    let before = before(ty, letters).ok_or(Refusal {
        number: 16,
        line: 0,
    })?;
    Ok(u32::try_from(before).expect("below the count"))
}

/// How many settings of the type stand before this one in byte order; `None`
/// where the letters are no setting of it.
fn before(ty: &Type, letters: &[u8]) -> Option<u64> {
    let mut due = vec![Due { ty, behind: 1 }];
    let mut before = 0;
    for letter in letters {
        let Due { ty, behind } = due.pop()?;
        match (ty, letter) {
            (Type::Unit, b'U') => {}
            (Type::Sum(a, _), b'L') => due.push(Due { ty: a, behind }),
            (Type::Sum(a, b), b'R') => {
                before += values(a) * behind;
                due.push(Due { ty: b, behind });
            }
            (Type::Product(a, b), b'P') => due.extend(parts(a, b, behind)),
            _ => return None,
        }
    }
    due.is_empty().then_some(before)
}

/// The parts of a pair, the first one on top.
fn parts<'a>(a: &'a Type, b: &'a Type, behind: u64) -> [Due<'a>; 2] {
    let second = Due { ty: b, behind };
    let first = Due {
        ty: a,
        behind: values(b) * behind,
    };
    [second, first]
}

/// The letters of the setting that has the number.
pub fn setting_of_rules(rules: &Rules, ty: u32, setting: u32) -> Result<Vec<u8>, Refusal> {
    let (ty, count) = countable(rules, ty)?;
    // 19: "not below the count, after 18".
    if u64::from(setting) >= count {
        return Err(Refusal {
            number: 19,
            line: 0,
        });
    }
    Ok(at(ty, setting.into()))
}

/// The setting before which so many stand in byte order, which are fewer than
/// the type has.
fn at(ty: &Type, mut before: u64) -> Vec<u8> {
    let mut due = vec![Due { ty, behind: 1 }];
    let mut letters = Vec::new();
    while let Some(Due { ty, behind }) = due.pop() {
        match ty {
            Type::Unit => letters.push(b'U'),
            Type::Sum(a, b) => {
                let lefts = values(a) * behind;
                if before < lefts {
                    letters.push(b'L');
                    due.push(Due { ty: a, behind });
                } else {
                    before -= lefts;
                    letters.push(b'R');
                    due.push(Due { ty: b, behind });
                }
            }
            Type::Product(a, b) => {
                letters.push(b'P');
                due.extend(parts(a, b, behind));
            }
            Type::List(_) => unreachable!("a type that can be counted holds no list"),
        }
    }
    letters
}

/// The number of a setting, with lent areas.
pub fn number_of(
    known: &Known,
    table: &mut [u16],
    work: &mut [u8],
    ty: u32,
    letters: &[u8],
) -> Numbered {
    let given = known
        .enter(false, table, work)
        .and_then(|rules| number_of_rules(rules, ty, letters));
    match given {
        Ok(setting) => Numbered { number: 0, setting },
        Err(Refusal { number, .. }) => Numbered { number, setting: 0 },
    }
}

/// The setting of a number, "letters written into 127 lent bytes".
pub fn setting_of(
    known: &Known,
    table: &mut [u16],
    work: &mut [u8],
    ty: u32,
    setting: u32,
    result: &mut [u8],
) -> Lettered {
    let given = known
        .enter(result.len() < RESULT, table, work)
        .and_then(|rules| setting_of_rules(rules, ty, setting));
    match given {
        Ok(letters) => {
            result[..letters.len()].copy_from_slice(&letters);
            Lettered {
                number: 0,
                length: letters.len(),
            }
        }
        Err(Refusal { number, .. }) => Lettered { number, length: 0 },
    }
}
