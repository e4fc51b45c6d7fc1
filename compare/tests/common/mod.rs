//! File S, and the services of the checker written apart, spoiled.

// Each test takes some of them.
#![allow(dead_code)]

use apart::areas::Known;
use compare::service::{expected, Answer, Call, Lent, Services};

/// File S of document 01.
pub const S: &[u8] = b"T,0,0,0\nT,1,0,0\nT,2,1,1\nP,0,0,0\nP,2,0,0\nP,3,0,0\nP,1,0,0\nP,1,1,0\n\
P,4,1,3\nP,4,1,4\nP,4,2,3\nI,1,1\nC,1,2\nC,2,1\nI,2,2\nC,5,6\nL,4,0,3\nC,7,7\n";

pub type Spoil = fn(&mut Answer, &mut Lent);

/// The services of the checker written apart, each answer spoiled.
pub struct Spoiled(pub Spoil);

impl Services for Spoiled {
    fn call(&mut self, file: &[u8], call: Call, mut lent: Lent) -> Answer {
        let own = Lent {
            table: &mut *lent.table,
            work: &mut *lent.work,
            out: &mut *lent.out,
            numbers: &mut *lent.numbers,
        };
        let mut answer = expected(&Known::of(file), call, own);
        (self.0)(&mut answer, &mut lent);
        answer
    }
}

pub fn unspoiled(_: &mut Answer, _: &mut Lent) {}
