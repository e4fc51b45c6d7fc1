//! The overlap of two P lines, from the words of request 04 and document 01.

use apart::areas::{check_areas, Known, TABLE, WORK};
use apart::cover::orthogonal;
use apart::generate::accepted;
use apart::generate::random::Random;
use apart::overlap::{compared, laid, overlap, overlap_rules, Overlapped};
use apart::tree::Pattern;
use apart::{check, Rules};

mod common;
use common::{lines, refused_files};

/// "File S (one line each, parted here by blanks)".
const S: &str = "T,0,0,0 T,1,0,0 T,2,1,1 P,0,0,0 P,2,0,0 P,3,0,0 P,1,0,0 P,1,1,0 \
P,4,1,3 P,4,1,4 P,4,2,3 I,1,1 C,1,2 C,2,1 I,2,2 C,5,6 L,4,0,3 C,7,7";

fn rules(words: &str) -> Rules {
    check(&lines(words)).expect("accepted")
}

/// Both orders, since "left against right" is right against left.
fn both(rules: &Rules, one: u32, two: u32, wanted: (bool, u32)) {
    assert_eq!(overlap_rules(rules, one, two), Ok(wanted), "{one} {two}");
    assert_eq!(overlap_rules(rules, two, one), Ok(wanted), "{two} {one}");
}

/// The P lines of S: unit, left, right, two variables, and pairs of these.
#[test]
fn the_patterns_of_document_01() {
    let s = rules(S);
    both(&s, 0, 0, (false, 1));
    both(&s, 1, 1, (false, 2));
    both(&s, 1, 2, (true, 1));
    both(&s, 3, 4, (false, 1));
    both(&s, 3, 5, (false, 1));
    both(&s, 5, 5, (false, 4));
    both(&s, 5, 6, (false, 4));
    both(&s, 5, 7, (true, 2));
}

/// Nodes of different shape that do not clash count once, and what follows them
/// is still compared.
#[test]
fn nodes_of_different_shape() {
    let s = rules(S);
    for (one, two) in [(0, 1), (0, 5), (1, 5), (2, 7)] {
        both(&s, one, two, (false, 1));
    }
    // 3 and 4: a unit, and a pair, before a left; 6: a left before a right. The P
    // lines from 8 on cover with these.
    let more = rules(
        "T,0,0,0 T,1,0,0 T,2,0,1 T,2,1,1 T,2,2,1 \
         P,0,0,0 P,2,0,0 P,3,0,0 P,4,0,1 P,4,3,1 P,4,3,2 P,4,1,2 P,4,0,2 \
         P,1,0,0 P,4,1,1 P,4,2,8 P,4,7,8 \
         I,2,2 C,3,3 C,7,7 I,3,3 C,6,6 C,9,9 C,10,10 I,4,4 C,4,4 C,5,5 C,11,11",
    );
    both(&more, 3, 4, (false, 4));
    both(&more, 3, 5, (true, 3));
    both(&more, 4, 6, (true, 3));
    both(&more, 4, 7, (true, 3));
    both(&more, 6, 7, (false, 4));
}

/// "nothing below a variable"; "stops at the first clash", "the clash included";
/// the first parts of pairs before the second.
#[test]
fn the_first_clash_ends_it() {
    // 3: left, right; 4: right, left; 5: left, left; 7: x, right; 8: left of left.
    // The P lines from 9 on cover with these.
    let more = rules(
        "T,0,0,0 T,1,0,0 T,2,1,1 T,1,1,0 \
         P,0,0,0 P,2,0,0 P,3,0,0 P,4,1,2 P,4,2,1 P,4,1,1 P,1,0,0 P,4,6,2 P,2,1,0 \
         P,4,2,2 P,4,6,1 P,2,2,0 \
         I,2,2 C,3,3 C,4,4 C,5,5 C,9,9 I,2,2 C,7,7 C,10,10 I,3,3 C,8,8 C,11,11 C,2,2",
    );
    both(&more, 3, 4, (true, 2));
    both(&more, 3, 5, (true, 4));
    both(&more, 5, 7, (true, 3));
    both(&more, 3, 7, (false, 4));
    both(&more, 8, 8, (false, 3));
    both(&more, 8, 1, (false, 2));
    both(&more, 8, 2, (true, 1));
}

/// All 127 nodes of a pattern laid on itself, each shared line as often as it is
/// reached.
#[test]
fn the_most_nodes() {
    let doubled = |letter: &str| {
        let lines = (0..6).map(|line| format!("{letter},{line},{line} "));
        lines.collect::<String>()
    };
    let (types, patterns) = (doubled("T,2"), doubled("P,4"));
    let words = format!("T,0,0,0 {types} P,0,0,0 {patterns} I,6,6 C,6,6");
    both(&rules(&words), 6, 6, (false, 127));
    both(&rules(&words), 6, 5, (false, 63));
}

/// 15 where one is absent, on either side.
#[test]
fn absent_lines() {
    let s = rules(S);
    for absent in [8, 256, 65_536, 65_537, 1 << 31, u32::MAX] {
        for (one, two) in [(0, absent), (absent, 0), (absent, absent)] {
            let refused = overlap_rules(&s, one, two).expect_err("absent");
            assert_eq!((refused.number, refused.line), (15, 0), "{one} {two}");
        }
    }
}

/// Refusals 1 to 15 give false and 0, Check's line, and leave the areas as Check
/// does.
#[test]
fn refusals() {
    let long = [TABLE, WORK];
    for (file, area) in [(0, [TABLE - 1, WORK]), (0, [TABLE, WORK - 1]), (2, long)] {
        let file = if file == 0 {
            lines(S)
        } else {
            vec![b'\n'; 4_097]
        };
        same_as_check(&file, area);
    }
    for file in refused_files() {
        same_as_check(&file, long);
    }
    let (mut table, mut work) = (vec![7; TABLE], vec![7; WORK]);
    let given = overlap(&Known::of(&lines(S)), &mut table, &mut work, 8, 0);
    let (number, line) = (15, 0);
    assert_eq!(given, refused(number, line));
    let (mut other, mut working) = (vec![7; TABLE], vec![7; WORK]);
    check_areas(&lines(S), &mut other, &mut working);
    assert_eq!((table, work), (other, working));
}

fn refused(number: u8, line: usize) -> Overlapped {
    Overlapped {
        number,
        line,
        clash: false,
        pairs: 0,
    }
}

fn same_as_check(file: &[u8], [tables, works]: [usize; 2]) {
    let (mut table, mut work) = (vec![7; tables], vec![7; works]);
    let given = overlap(&Known::of(file), &mut table, &mut work, 0, 0);
    let (mut other, mut working) = (vec![7; tables], vec![7; works]);
    let checked = check_areas(file, &mut other, &mut working);
    assert_ne!(given.number, 0);
    assert_eq!(given, refused(checked.number, checked.line));
    assert_eq!((table, work), (other, working));
}

/// What a walk of both trees at once compares, up to the first clash.
fn walked(one: &Pattern, two: &Pattern) -> (bool, usize) {
    let after = |(clash, pairs), next: &dyn Fn() -> (bool, usize)| match clash {
        true => (true, pairs),
        false => {
            let (clash, more) = next();
            (clash, pairs + more)
        }
    };
    match (one, two) {
        (Pattern::Left(_), Pattern::Right(_)) | (Pattern::Right(_), Pattern::Left(_)) => (true, 1),
        (Pattern::Empty, Pattern::Element(..)) | (Pattern::Element(..), Pattern::Empty) => {
            (true, 1)
        }
        (Pattern::Left(a), Pattern::Left(b)) | (Pattern::Right(a), Pattern::Right(b)) => {
            after((false, 1), &|| walked(a, b))
        }
        (Pattern::Pair(a, b), Pattern::Pair(c, d))
        | (Pattern::Element(a, b), Pattern::Element(c, d)) => {
            let first = after((false, 1), &|| walked(a, c));
            after(first, &|| walked(b, d))
        }
        _ => (false, 1),
    }
}

/// The lists agree with a walk of both trees; a clash is orthogonality; the
/// number is the same both ways, at least 1 and at most that of the smaller one's
/// nodes; without a clash all that is laid on each other is compared.
#[test]
fn laws() {
    let mut random = Random::new(4);
    let (mut clashes, mut none) = (0, 0);
    for _ in 0..300 {
        let rules = check(&accepted(&mut random)).expect("accepted");
        if rules.patterns.is_empty() {
            continue;
        }
        for _ in 0..30 {
            let [one, two] = [0; 2].map(|_| random.pick(&rules.patterns).clone());
            let pairs = compared(&one, &two).len();
            let clash = orthogonal(&one, &two);
            assert_eq!(walked(&one, &two), (clash, pairs));
            assert_eq!(compared(&two, &one).len(), pairs);
            assert!((1..=one.nodes().min(two.nodes())).contains(&pairs));
            if clash {
                clashes += 1;
            } else {
                none += 1;
                assert_eq!(pairs, laid(&one, &two).len());
            }
        }
    }
    assert!(clashes > 500 && none > 500, "{clashes} {none}");
}
