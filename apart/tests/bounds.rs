//! Steps known beforehand, from the words of request 05 and document 01.

use apart::areas::{check_areas, Known, TABLE, WORK};
use apart::bounds::{bounds, bounds_rules, exact, Bounded, Exact, LIMIT};
use apart::generate::accepted;
use apart::generate::bounded::{self, DEEP, NEEDS, TOP};
use apart::generate::random::Random;
use apart::lines::Iso;
use apart::numbering::{setting_of_rules, values};
use apart::recursion::has_lists;
use apart::{check, run_rules, turn_rules, Rules};

mod common;
use common::{lines, refused_files, REFUSED};

/// "File S (one line each, parted here by blanks)".
const S: &str = "T,0,0,0 T,1,0,0 T,2,1,1 P,0,0,0 P,2,0,0 P,3,0,0 P,1,0,0 P,1,1,0 \
P,4,1,3 P,4,1,4 P,4,2,3 I,1,1 C,1,2 C,2,1 I,2,2 C,5,6 L,4,0,3 C,7,7";

fn rules(words: &str) -> Rules {
    check(&lines(words)).expect("accepted")
}

/// What is told of two numbers that are not flagged.
fn plain(least: u32, greatest: u32) -> Bounded {
    Bounded {
        least,
        greatest,
        ..Bounded::default()
    }
}

/// The bounds, or the number of the refusal.
fn told(rules: &Rules, iso: u32) -> Result<Bounded, u8> {
    bounds_rules(rules, iso).map_err(|refusal| {
        assert_eq!(refusal.line, 0);
        refusal.number
    })
}

#[test]
fn the_bounds_of_s() {
    let rules = rules(S);
    assert_eq!(told(&rules, 0), Ok(plain(1, 1)));
    assert_eq!(told(&rules, 1), Ok(plain(1, 2)));
    for iso in [2, 3, 256, 65_536, 65_537, u32::MAX] {
        assert_eq!(told(&rules, iso), Err(15), "{iso}");
    }
    let empty = check(b"").expect("accepted");
    assert_eq!(told(&empty, 0), Err(15));
}

/// An iso of 1 or 2, and what follows.
const TWO: &str = "T,0,0,0 T,1,0,0 P,0,0,0 P,1,0,0 P,1,1,0 P,1,2,0 P,2,0,0 P,3,0,0 I,0,0 C,0,0";

/// Iso 1 needs 1 or 2, so an iso that calls it twice 3 to 5, and one that calls
/// both of these 1 + 3 + 1 to 1 + 5 + 2.
#[test]
fn let_steps_are_counted_each_and_with_what_they_call() {
    let rules = rules(&format!(
        "{TWO} I,1,1 C,4,4 L,0,0,0 C,5,5 I,1,1 C,1,3 L,2,1,1 L,3,1,2 I,1,1 C,1,3 L,2,2,1 L,3,1,2"
    ));
    assert_eq!(told(&rules, 1), Ok(plain(1, 2)));
    assert_eq!(told(&rules, 2), Ok(plain(3, 5)));
    assert_eq!(told(&rules, 3), Ok(plain(5, 8)));
    assert_eq!(counts(&rules, 2, false, 5), Some(vec![5, 3]));
    assert_eq!(counts(&rules, 3, true, 8), Some(vec![8, 5]));
}

/// Clauses are reckoned whether they can be reached together or not: an iso
/// that exchanges two values, of which one needs 1 and the other 2, and one
/// that calls it twice. All runs of that count 4.
#[test]
fn bounds_may_lie_beyond_all_counts() {
    let rules = rules(&format!(
        "{TWO} I,1,1 C,4,5 L,0,0,0 C,5,4 I,1,1 C,1,3 L,2,1,1 L,3,1,2"
    ));
    assert_eq!(told(&rules, 2), Ok(plain(3, 5)));
    for back in [false, true] {
        assert_eq!(counts(&rules, 2, back, 5), Some(vec![4, 4]));
    }
}

#[test]
fn numbers_at_the_limit() {
    let mut random = Random::new(1);
    for (place, (number, _)) in NEEDS.into_iter().enumerate() {
        for both in [true, false] {
            let rules = check(&bounded::file(&mut random, place, both)).expect("accepted");
            let least = if both { number } else { 1 };
            let wanted = Exact {
                least,
                greatest: number,
            };
            assert_eq!(exact(&rules.isos)[TOP as usize], wanted, "{place} {both}");
            let given = told(&rules, TOP).expect("an iso of the file");
            assert_eq!(given.greatest_over, number > LIMIT, "{place} {both}");
            assert_eq!(given.least_over, both && number > LIMIT, "{place} {both}");
            assert_eq!(u128::from(given.greatest), number.min(LIMIT));
            assert_eq!(u128::from(given.least), least.min(LIMIT));
            // "iso k needs 2 to the power of k + 1, less 1".
            assert_eq!(told(&rules, 9), Ok(plain(1_023, 1_023)));
        }
    }
    // Exactly 4,294,967,295 is not above it.
    assert_eq!(NEEDS[1].0, LIMIT);
}

#[test]
fn thirty_two_deep_with_eight_let_steps() {
    let mut random = Random::new(2);
    let rules = check(&bounded::deep(&mut random)).expect("accepted");
    let numbers = exact(&rules.isos);
    let mut needs = 0;
    for (iso, number) in numbers.into_iter().enumerate() {
        needs = 1 + 8 * needs;
        let wanted = Exact {
            least: needs,
            greatest: needs,
        };
        assert_eq!(number, wanted, "{iso}");
    }
    assert_eq!((rules.isos.len(), needs), (32, DEEP));
    let given = told(&rules, TOP).expect("an iso of the file");
    assert!(given.least_over && given.greatest_over);
    assert_eq!((given.least, given.greatest), (u32::MAX, u32::MAX));
}

/// The sentences of the request, iso by iso in file order; 0 where lists are
/// reached.
fn in_order(isos: &[Iso]) -> Vec<Exact> {
    let mut numbers: Vec<Exact> = Vec::new();
    for (place, iso) in isos.iter().enumerate() {
        if has_lists(isos, place) {
            let (least, greatest) = (0, 0);
            numbers.push(Exact { least, greatest });
            continue;
        }
        let needs = |least: bool| {
            let of = |place: usize| {
                let number = numbers[place];
                if least {
                    number.least
                } else {
                    number.greatest
                }
            };
            let steps = iso.clauses.iter().map(|clause| clause.lets.iter());
            let sums = steps.map(|lets| 1 + lets.map(|step| of(step.iso)).sum::<u128>());
            sums.collect::<Vec<u128>>()
        };
        let (least, greatest) = (needs(true), needs(false));
        numbers.push(Exact {
            least: *least.iter().min().expect("a clause"),
            greatest: *greatest.iter().max().expect("a clause"),
        });
    }
    numbers
}

/// The counts of all runs of an iso on all settings of its type, in one
/// direction, if these are few and short.
fn counts(rules: &Rules, iso: usize, back: bool, longest: u32) -> Option<Vec<u64>> {
    let isos = if back { &rules.turned } else { &rules.isos };
    let from = &isos[iso].from;
    let line = rules.types.iter().position(|ty| ty == from)? as u32;
    let count = values(from);
    if count > 64 {
        return None;
    }
    let run = |number| {
        let value = setting_of_rules(rules, line, number).expect("below the count");
        run_rules(rules, iso as u16, back, longest, &value)
    };
    let ran: Option<Vec<_>> = (0..count as u32).map(|number| run(number).ok()).collect();
    ran.map(|ran| ran.into_iter().map(|(count, _)| count).collect())
}

/// "No count of an unrefused run may lie outside, and a budget that reaches an
/// unflagged greatest is never refused 17", held to all runs of small files;
/// both bounds are reached where no clause has let steps.
#[test]
fn counts_of_all_runs_lie_between() {
    let mut random = Random::new(3);
    let (mut compared, mut flat) = (0, 0);
    for _ in 0..400 {
        let rules = check(&accepted(&mut random)).expect("accepted");
        let numbers = exact(&rules.isos);
        assert_eq!(numbers, in_order(&rules.isos));
        assert_eq!(numbers, exact(&rules.turned));
        let turned = check(&turn_rules(&rules)).expect("accepted");
        assert_eq!(numbers, exact(&turned.isos));
        for (iso, Exact { least, greatest }) in numbers.iter().copied().enumerate() {
            if greatest > 500 {
                continue;
            }
            for back in [false, true] {
                // All are within a budget of the greatest, or none is compared.
                let Some(counts) = counts(&rules, iso, back, greatest as u32) else {
                    let few = counts(&rules, iso, back, u32::MAX).is_none();
                    assert!(few, "a run is refused 17 under the greatest");
                    continue;
                };
                let lowest = u128::from(*counts.iter().min().expect("a setting"));
                let highest = u128::from(*counts.iter().max().expect("a setting"));
                assert!(least <= lowest && highest <= greatest);
                let clauses = &rules.isos[iso].clauses;
                if clauses.iter().all(|clause| clause.lets.is_empty()) {
                    assert_eq!((least, lowest, highest, greatest), (1, 1, 1, 1));
                    flat += 1;
                }
                compared += 1;
            }
        }
    }
    assert!(compared > 500 && flat > 100, "{compared} {flat}");
}

/// Areas of these lengths, filled, and what the service and Check leave in
/// them.
fn left(file: &[u8], table: usize, work: usize, iso: u32) -> Bounded {
    let (mut table, mut work) = (vec![7; table], vec![7; work]);
    let (mut other_table, mut other_work) = (table.clone(), work.clone());
    let given = bounds(&Known::of(file), &mut table, &mut work, iso);
    let checked = check_areas(file, &mut other_table, &mut other_work);
    assert!(table == other_table && work == other_work, "as after Check");
    assert!(given.number == checked.number || (checked.number, given.number) == (0, 15));
    given
}

#[test]
fn refusals_give_zeros_unflagged() {
    let refused = |number| Bounded {
        number,
        ..Bounded::default()
    };
    let file = lines(S);
    assert_eq!(left(&file, TABLE, WORK, 1), plain(1, 2));
    assert_eq!(left(&file, TABLE + 9, WORK + 9, 1), plain(1, 2));
    assert_eq!(left(&file, TABLE, WORK, 2), refused(15));
    for (table, work) in [(TABLE - 1, WORK), (TABLE, WORK - 1), (0, 0)] {
        assert_eq!(left(&file, table, work, 1), refused(1));
        assert_eq!(left(&file, table, work, 9), refused(1));
    }
    for (file, number) in refused_files().iter().zip(REFUSED) {
        for iso in [0, u32::MAX] {
            assert_eq!(left(file, TABLE, WORK, iso), refused(number));
        }
    }
}
