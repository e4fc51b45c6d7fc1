//! Request 14: sides of isos on lists. Covering by the matrix, the least value by
//! columns and all short values are held to each other.

use apart::areas::Known;
use apart::cover::{covers, orthogonal};
use apart::generate::random::Random;
use apart::generate::shape::{self, Sketch};
use apart::generate::shown::{self, Form, LETTERS as AROUND};
use apart::tree::{Pattern, Type, Value};
use apart::witness::{matches, refused_iso, witness, witness_of, written, Fault, Side};
use std::rc::Rc;

/// All values of at most so many letters are tried.
const LETTERS: usize = 13;

fn list(ty: &Rc<Type>) -> Rc<Type> {
    Rc::new(Type::List(Rc::clone(ty)))
}

/// A type that holds a list and has no too many short values.
fn some_type(random: &mut Random) -> Rc<Type> {
    let unit = Rc::new(Type::Unit);
    let two = Rc::new(Type::Sum(Rc::clone(&unit), Rc::clone(&unit)));
    let pool = [Rc::clone(&unit), two, list(&unit)];
    loop {
        let depth = 1 + random.below(3);
        let ty = shape::random_type(random, depth, &pool);
        if ty.holds_list() && written(&ty, LETTERS).len() < 3_000 {
            return ty;
        }
    }
}

fn some_cases(random: &mut Random, ty: &Rc<Type>) -> Vec<Sketch> {
    let mut cases = match random.below(3) {
        0 => shape::scattered(random, ty, 32),
        1 => (0..random.below(9))
            .map(|_| shape::one_case(random, ty, 40))
            .collect(),
        _ => shape::split(random, ty, 12, 10),
    };
    if random.chance(40) && !cases.is_empty() {
        cases.remove(random.below(cases.len()));
    }
    cases
}

fn least_short(side: &Side) -> Option<Vec<u8>> {
    let shows = |letters: &Vec<u8>| {
        let value = Value::read(letters, side.ty).expect("a value of the type");
        side.shown_by(&value)
    };
    let shown = written(side.ty, LETTERS).into_iter().filter(shows);
    shown.min_by_key(|letters| (letters.len(), letters.clone()))
}

/// What is found by columns shows the fault, and is what the short values give.
fn held(side: &Side) -> Option<Vec<u8>> {
    let least = side.by_columns();
    if let Some(letters) = &least {
        let value = Value::read(letters, side.ty).expect("a value of the type");
        assert!(side.shown_by(&value));
    }
    let short = least.clone().filter(|letters| letters.len() <= LETTERS);
    assert_eq!(short, least_short(side));
    least
}

#[test]
fn covering_and_least_values_of_lists() {
    let mut random = Random::with_lists(81);
    let (mut yes, mut no, mut long, mut twice) = (0, 0, 0, 0);
    for _ in 0..1_500 {
        let ty = some_type(&mut random);
        let cases = some_cases(&mut random, &ty);
        let patterns: Vec<_> = cases.iter().map(|case| case.pattern(&mut |_| 0)).collect();
        let patterns: Vec<&Pattern> = patterns.iter().map(|pattern| &**pattern).collect();
        let side = |fault| Side {
            fault,
            ty: &ty,
            patterns: patterns.clone(),
        };
        let gap = held(&side(Fault::Never));
        assert_eq!(covers(&ty, &patterns), gap.is_none());
        let both = held(&side(Fault::Twice));
        let apart = |(place, one): (usize, &&Pattern)| {
            patterns[..place].iter().all(|two| orthogonal(one, two))
        };
        assert_eq!(patterns.iter().enumerate().all(apart), both.is_none());
        *(if gap.is_none() { &mut yes } else { &mut no }) += 1;
        long += usize::from(gap.is_some_and(|letters| letters.len() > LETTERS));
        twice += usize::from(both.is_some());
    }
    println!("{yes} cover, {no} do not, {long} by a long value, {twice} overlap");
    assert!(yes > 100 && no > 100 && twice > 100);
}

/// The same of types without lists, by the ways that they have.
#[test]
fn columns_give_what_the_other_ways_do() {
    let mut random = Random::new(82);
    random.lists = false;
    let pool = [Rc::new(Type::Unit)];
    let (mut gaps, mut twice) = (0, 0);
    while gaps < 200 || twice < 200 {
        let ty = shape::random_type(&mut random, 5, &pool);
        let cases = some_cases(&mut random, &ty);
        let patterns: Vec<_> = cases.iter().map(|case| case.pattern(&mut |_| 0)).collect();
        for fault in [Fault::Never, Fault::Twice] {
            let side = Side {
                fault,
                ty: &ty,
                patterns: patterns.iter().map(|pattern| &**pattern).collect(),
            };
            let least = side.by_columns();
            assert_eq!(least, side.by_sets().map(|shown| shown.letters));
            if side.has_few_values() {
                assert_eq!(least, side.by_force());
            }
            let found = usize::from(least.is_some());
            *(if fault == Fault::Never {
                &mut gaps
            } else {
                &mut twice
            }) += found;
        }
    }
}

/// "value letters N and K": a value is read as it is written, and a pattern
/// matches it exactly when the two do not clash.
#[test]
fn values_of_lists() {
    let mut random = Random::with_lists(83);
    for _ in 0..200 {
        let ty = some_type(&mut random);
        let pattern = shape::one_case(&mut random, &ty, 40).pattern(&mut |_| 0);
        for letters in written(&ty, 9) {
            let value = Value::read(&letters, &ty).expect("a value of the type");
            assert_eq!(
                (value.length(), value.letters()),
                (letters.len(), letters.clone())
            );
            let clashes = orthogonal(&pattern, &as_pattern(&value));
            assert_eq!(matches(&pattern, &value), !clashes);
        }
    }
    let bits = list(&Rc::new(Type::Sum(
        Rc::new(Type::Unit),
        Rc::new(Type::Unit),
    )));
    for wrong in [
        "", "K", "KLU", "KN", "NN", "KUN", "KLUNN", "LUN", "KKLUN", "U",
    ] {
        assert!(Value::read(wrong.as_bytes(), &bits).is_none(), "{wrong}");
    }
}

fn as_pattern(value: &Value) -> Rc<Pattern> {
    Rc::new(match value {
        Value::Unit => Pattern::Unit,
        Value::Left(a) => Pattern::Left(as_pattern(a)),
        Value::Right(a) => Pattern::Right(as_pattern(a)),
        Value::Pair(a, b) => Pattern::Pair(as_pattern(a), as_pattern(b)),
        Value::List(elements) => {
            let end = Rc::new(Pattern::Empty);
            let before =
                |rest, element: &Rc<Value>| Rc::new(Pattern::Element(as_pattern(element), rest));
            return elements.iter().rev().fold(end, before);
        }
    })
}

/// Values around 127 letters that show a fault.
#[test]
fn values_of_many_letters() {
    let mut random = Random::with_lists(84);
    for number in (11..15).cycle().take(40) {
        for size in AROUND {
            let file = shown::file(&mut random, Form::Letters(size), number);
            let known = Known::with(&file, true);
            let refusal = *known.checked.as_ref().err().expect("refused");
            assert_eq!(refusal.number, number);
            let letters = witness_of(&file, refusal).expect("a value");
            assert_eq!(letters.len(), size);
            let iso = refused_iso(&file, refusal).expect("an iso");
            let side = Side::refused(&iso, number);
            let value = Value::read(&letters, side.ty).expect("of the type");
            assert!(side.shown_by(&value));
            let (mut table, mut work) = (vec![7; 20_480], vec![7; 65_536]);
            let given = witness(&known, &mut table, &mut work, &mut [0; 127]);
            let wanted = match size {
                128 => (24, 0, 0),
                _ => (number, refusal.line, size),
            };
            assert_eq!((given.number, given.line, given.length), wanted);
        }
    }
}
