//! What is counted of variables, and what is reported where the rule of
//! request 03 and the one before are at odds.

mod common;

use apart::areas::Known;
use apart::generate::life::{Again, Slip, AGAINS, SLIPS};
use apart::{before, check, Refusal};
use common::{unspoiled, Spoiled, S};
use compare::block::Block;
use compare::case::{file, Case};
use compare::service::Ask;
use compare::tally::Tally;
use compare::trip::Trip;
use compare::variables::{
    count, count_trip, law, ACCEPTED_BEFORE, ACCEPTED_NOW, LIBRARY, REFUSED_ALIKE,
    REFUSED_OTHERWISE, RULES, RUN,
};

/// Isos that use all P lines of S.
const USES: &str = "I,1,1\nC,4,4\nI,2,2\nC,5,5\nC,7,7\nI,2,2\nC,6,6\nC,7,7\n";

/// S with other lines 16 and 17, or without line 17, and these isos. With
/// `L,3,0,3` and `C,5,5` variable 0 is bound again.
fn s_with(line: &str, clause: &str) -> Vec<u8> {
    let text = String::from_utf8(S.to_vec()).expect("letters") + USES;
    let text = text.replacen("C,5,6", clause, 1);
    let line = line.to_string() + "\n";
    text.replace("L,4,0,3\n", line.trim_start()).into_bytes()
}

fn again(wanted: Again) -> usize {
    let place = AGAINS.iter().position(|again| *again == wanted);
    place.expect("listed")
}

fn slip(wanted: Slip) -> usize {
    let place = SLIPS.iter().position(|slip| *slip == wanted);
    AGAINS.len() + place.expect("listed")
}

/// The rows that are hit in a column.
fn hit(tally: &Tally, column: usize) -> Vec<usize> {
    let rows = 0..=REFUSED_OTHERWISE;
    rows.filter(|row| tally.variables.count(*row, column) > 0)
        .collect()
}

#[test]
fn files_are_counted_by_their_clauses() {
    let files = [
        (S.to_vec(), vec![]),
        (s_with("L,3,0,3", "C,5,5"), vec![again(Again::InOneLet)]),
        (s_with("L,3,0,3", "C,5,6"), vec![]), // 0 live, 1 unbound: two slips
        (s_with("L,4,0,3", "C,5,5"), vec![]), // two slips
        (
            s_with("L,0,0,3", "C,5,5"),
            vec![slip(Slip::UsedByLetAndRight)],
        ),
        (s_with("L,3,0,3", "C,5,1"), vec![slip(Slip::LiveFromLet)]),
        (s_with("L,3,2,3", "C,5,5"), vec![]), // another refusal
        (s_with("L,4,0,3", "C,3,4"), vec![]), // 10 for another reason
    ];
    for (file, wanted) in files {
        let mut tally = Tally::default();
        count(&mut tally, &Known::of(&file), LIBRARY);
        assert_eq!(hit(&tally, LIBRARY), wanted);
        assert!(hit(&tally, RULES).is_empty());
    }
}

#[test]
fn trips_are_counted_by_their_first_clause() {
    let file = s_with("L,3,0,3", "C,5,5");
    let trip = |value: &[u8]| Trip {
        iso: 1,
        value: value.to_vec(),
        given: Vec::new(),
        count: 2,
    };
    let mut tally = Tally::default();
    count_trip(&mut tally, &Known::of(&file), &trip(b"PRULU"));
    assert!(hit(&tally, RUN).is_empty());
    count_trip(&mut tally, &Known::of(&file), &trip(b"PLULU"));
    assert_eq!(hit(&tally, RUN), [again(Again::InOneLet)]);
}

#[test]
fn what_is_at_odds_with_the_rule_before_is_reported() {
    let reuses = s_with("L,3,0,3", "C,5,5");
    let refused = s_with("", "C,5,6");
    let mistyped = s_with("L,4,0,3", "C,3,4");
    let asks = [Ask {
        iso: 1,
        back: false,
        budget: 9,
        letters: b"PLULU",
    }];
    let tried = |earlier, file: &[u8]| law(&earlier, &Known::of(file), &asks);
    assert_eq!(tried(before::check(S), S), Ok(ACCEPTED_BEFORE));
    assert_eq!(tried(before::check(&refused), &refused), Ok(REFUSED_ALIKE));
    assert_eq!(tried(before::check(&reuses), &reuses), Ok(ACCEPTED_NOW));
    let later = [&reuses[..], b"C,7,7\n"].concat();
    assert_eq!(tried(before::check(&later), &later), Ok(REFUSED_OTHERWISE));
    let other = |number, line| Err(Refusal { number, line });
    assert_eq!(tried(other(8, 16), &refused), Ok(REFUSED_ALIKE));
    assert_eq!(tried(other(10, 16), &mistyped), Ok(REFUSED_ALIKE));
    // accepted before and refused now, or the other way, or another refusal
    assert!(tried(before::check(S), &refused).is_err());
    assert!(tried(other(10, 16), S).is_err());
    assert!(tried(other(9, 16), &mistyped).is_err());
    assert!(tried(other(10, 15), &mistyped).is_err());
    // 8 before for no clause, or for one that breaks the rule now too
    assert!(tried(other(8, 17), S).is_err());
    let two = s_with("", "C,5,6\nC,5,6");
    assert!(tried(other(8, 17), &two).is_err());
    // another answer: iso 1 of this file leaves its value
    let same = s_with("", "C,5,5");
    let same = check(&same).map_err(|refusal| panic!("{refusal:?}"));
    assert!(tried(same, S).is_err());
}

/// The cases that speak of variables beforehand keep their word.
#[test]
fn the_cases_of_variables() {
    let mut random = apart::generate::random::Random::new(7);
    let mut block = Block::new(Desk, Spoiled(unspoiled), &mut random);
    let slips = (0..SLIPS.len()).map(Case::Slip);
    for case in slips.chain([Case::Again, Case::Crowded, Case::Mistyped]) {
        let (made, wanted) = file(&mut random, case);
        let given = check(&made).err();
        let given = given.map_or((0, 0), |refusal| (refusal.number, refusal.line));
        assert_eq!(Some(given), wanted, "{case:?}");
        block.case(&mut random, case, 5).expect("printed");
    }
    assert_eq!(block.tally.mismatches, 0);
    for row in AGAINS.len()..ACCEPTED_BEFORE {
        assert_eq!(block.tally.variables.count(row, RULES), 1);
        assert_eq!(block.tally.variables.count(row, LIBRARY), 1);
    }
    let crowded = again(Again::NoneFree);
    assert_eq!(block.tally.variables.count(crowded, RULES), 1);
}

/// The desk program of the checker written apart.
struct Desk;

impl compare::desk::Program for Desk {
    fn printed(&mut self, input: &[u8]) -> std::io::Result<Vec<u8>> {
        Ok(apart::desk::desk(input))
    }
}
