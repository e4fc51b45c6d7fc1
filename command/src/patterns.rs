//! `overlap`: two P lines compared.

use crate::arguments::{number, Given};
use crate::look::asked;
use crate::run::counted;
use crate::{check, Outcome};

/// Compares two P lines.
pub fn overlap(given: &Given) -> Outcome {
    let left = number(given.word(1), "P", "the first pattern")?;
    let right = number(given.word(2), "P", "the second pattern")?;
    check::ask(given, "0,0", |desk, file| {
        let overlap = desk.overlap(file, left, right);
        let overlap = overlap.map_err(|refused| asked::patterns(file, &[left, right], refused))?;
        let (clash, pairs) = (u32::from(overlap.clash), overlap.pairs);
        let words = match overlap.clash {
            true => "clash: no setting is matched by both",
            false => "do not clash: where both fit one type, some setting is matched by both",
        };
        let nodes = counted(pairs.into(), "node pair");
        Ok(format!(
            "0,{clash},{pairs}\nP{left} and P{right} {words}; {nodes} compared\n"
        ))
    })
}
