//! Files whose fault is one of 11 to 14, by what the values are like that show
//! it.

use super::counted;
use super::plan::{self, closed_by_merge, open, permuted, Open};
use super::random::Random;
use super::scribe;
use super::shape::{longest_type, most_sides, one_case, products, random_type, scattered, Sketch};
use super::zoned;
use crate::check_with;
use crate::lines::{Clause, Iso, CLAUSES, LISTS, NODES};
use crate::reduce::turned;
use crate::tree::{Pattern, Type};
use std::rc::Rc;

#[derive(Debug, Clone, Copy, PartialEq, Eq)]
pub enum Form {
    /// One value of over a million shows the fault.
    One,
    /// Several do, now and then of one length.
    Several,
    /// The iso has 128 clauses.
    Full,
    /// The value has as many letters as there can be.
    Longest,
    /// Many clauses look into some of many sums, each into others.
    Sparse,
    /// The iso has no clauses.
    Bare,
    /// The values are lists.
    Lists,
    /// The value is of lists and has so many letters: over 127 it is 24.
    Letters(usize),
}

/// The letters around 127.
pub const LETTERS: [usize; 3] = [126, 127, 128];

/// The forms that a number can have: an iso without clauses is refused with 13,
/// and one whose sides are alike for its left one.
pub fn forms(number: u8) -> Vec<Form> {
    let mut forms = vec![Form::One, Form::Several, Form::Full, Form::Longest];
    match number {
        11 => forms.push(Form::Sparse),
        13 => forms.extend([Form::Sparse, Form::Bare]),
        _ => {}
    }
    if LISTS {
        forms.push(Form::Lists);
        forms.extend(LETTERS.map(Form::Letters));
    }
    forms
}

/// A file that is refused with the number, 11 to 14, in one of its forms; now and
/// then with an iso behind that one that is refused too.
pub fn file(random: &mut Random, form: Form, number: u8) -> Vec<u8> {
    let refused = |file: &Vec<u8>, lists: bool| {
        let checked = check_with(file, lists);
        checked.is_err_and(|refusal| refusal.number == number)
    };
    let lists = random.lists;
    loop {
        let mut isos = plan::isos(random);
        isos.truncate(random.below(3));
        let Some(iso) = iso(random, form, number) else {
            continue;
        };
        isos.push(iso);
        let file = Some(scribe::file(random, &isos)).filter(|file| refused(file, lists));
        if file.is_some() && random.chance(50) {
            isos.push(bare(random));
            let longer = Some(scribe::file(random, &isos)).filter(|file| refused(file, lists));
            if let Some(file) = longer {
                return file;
            }
        }
        if let Some(file) = file {
            return file;
        }
    }
}

fn iso(random: &mut Random, form: Form, number: u8) -> Option<Iso> {
    match (form, number) {
        (Form::One, 11..=13) if random.chance(70) => one_deep(random, number),
        (Form::One, _) => one_of_sum(random, number),
        (Form::Several, _) => {
            let ty = some_type(random);
            several(random, ty, number)
        }
        (Form::Lists, _) => {
            let ty = zoned::list(&zoned::small_type(random));
            several(random, ty, number)
        }
        (Form::Full, _) => {
            let iso = plan::wide(random);
            Some(spoiled(random, iso, number))
        }
        (Form::Longest, _) => longest(random, number),
        (Form::Sparse, _) => sparse(random, number),
        (Form::Bare, _) => Some(bare(random)),
        (Form::Letters(size), _) => Some(lettered(random, number, size)),
    }
}

/// A list of long elements beside a long value, of which the empty list and lists
/// of one element are matched, with two elements none, or some twice: the least
/// of these has so many letters.
fn lettered(random: &mut Random, number: u8, size: usize) -> Iso {
    let units = 24 + random.below(5);
    let a = products(random, 2 * units + 1);
    let b = of_letters(random, size - 4 * units - 6);
    let lists = zoned::list(&a);
    let whole = zoned::product(&lists, &b);
    let [x, y, t, z] = zoned::variables(random, &[]);
    let beside = |list: &Rc<Pattern>| zoned::pair(list, &z);
    let empty = zoned::empty();
    let one = beside(&zoned::element(&x, &empty));
    let two = beside(&zoned::element(&x, &zoned::element(&y, &empty)));
    let more = beside(&zoned::element(&x, &zoned::element(&y, &t)));
    let few = [beside(&empty), one];
    let side: Vec<Rc<Pattern>> = match overlaps(number) {
        true => few.into_iter().chain([two, more]).collect(),
        false => few.to_vec(),
    };
    match number {
        12 => tagged(random, &whole, &side),
        14 => {
            // A value, and before it nothing or an element.
            let some = Rc::new(Type::Sum(Rc::new(Type::Unit), a));
            let left = Rc::new(Pattern::Left(Rc::new(Pattern::Unit)));
            let right = Rc::new(Pattern::Right(Rc::clone(&x)));
            let lefts = [zoned::pair(&z, &left), zoned::pair(&z, &right)];
            let clauses = lefts.iter().zip(&side).map(|(one, two)| clause(one, two));
            zoned::iso(&zoned::product(&b, &some), &whole, clauses.collect())
        }
        _ => {
            let mut clauses: Vec<Clause> = side.iter().map(|one| clause(one, one)).collect();
            random.shuffle(&mut clauses);
            zoned::iso(&whole, &whole, clauses)
        }
    }
}

/// A type whose least value has so many letters.
fn of_letters(random: &mut Random, letters: usize) -> Rc<Type> {
    match letters {
        2 => plan::two(),
        _ if letters.is_multiple_of(2) => {
            let rest = products(random, letters - 3);
            zoned::product(&plan::two(), &rest)
        }
        _ => products(random, letters),
    }
}

/// The patterns on the right, and on the left each beside a value of its own.
fn tagged(random: &mut Random, ty: &Rc<Type>, side: &[Rc<Pattern>]) -> Iso {
    let tags = plan::wide_of(random, side.len());
    let lefts = tags.clauses.iter().map(|one| &one.left);
    let tagged = |(tag, one): (&Rc<Pattern>, &Rc<Pattern>)| clause(&zoned::pair(tag, one), one);
    let mut clauses: Vec<Clause> = lefts.zip(side).map(tagged).collect();
    random.shuffle(&mut clauses);
    zoned::iso(&zoned::product(&tags.from, ty), ty, clauses)
}

fn overlaps(number: u8) -> bool {
    number < 13
}

/// The iso whose left side has these cases, and whose right side stands; turned
/// where the right side is to be at fault.
fn sided(random: &mut Random, ty: Rc<Type>, cases: &[Sketch], number: u8) -> Option<Iso> {
    let clauses: Option<Vec<Open>> = cases.iter().map(|case| open(random, case)).collect();
    let clauses = clauses.filter(|clauses| !clauses.is_empty())?;
    let iso = closed_by_merge(random, ty, clauses);
    let left = matches!(number, 11 | 13);
    Some(if left { iso } else { turned(&iso) })
}

/// A sum of a type of over a million values and of types of one value. One of
/// these is left out, or any one value stands once more.
fn one_of_sum(random: &mut Random, number: u8) -> Option<Iso> {
    let many = counted::of(random, "2^20");
    let mut parts = vec![(Rc::clone(&many), Sketch::Hole(many))];
    for _ in 0..2 + random.below(4) {
        let nodes = 1 + 2 * random.below(5);
        let ty = products(random, nodes);
        let value = one_case(random, &ty, 0);
        parts.push((ty, value));
    }
    random.shuffle(&mut parts);
    let mut cases: Vec<Vec<Sketch>> = parts.iter().map(|part| vec![part.1.clone()]).collect();
    let mut types: Vec<Rc<Type>> = parts.into_iter().map(|part| part.0).collect();
    while types.len() > 1 {
        let place = random.below(types.len() - 1);
        let (b, rights) = (types.remove(place + 1), cases.remove(place + 1));
        let (a, lefts) = (Rc::clone(&types[place]), cases.remove(place));
        types[place] = Rc::new(Type::Sum(a, b));
        let lefts = lefts.into_iter().map(|case| Sketch::Left(Box::new(case)));
        let rights = rights.into_iter().map(|case| Sketch::Right(Box::new(case)));
        cases.insert(place, lefts.chain(rights).collect());
    }
    let (ty, mut cases) = (types.remove(0), cases.remove(0));
    if overlaps(number) {
        cases.push(one_case(random, &ty, 0));
    } else {
        let closed = |case: &Sketch| case.holes().is_empty();
        let gone = cases.iter().position(closed)?;
        cases.remove(gone);
    }
    random.shuffle(&mut cases);
    sided(random, ty, &cases, number)
}

/// Cases around one value of a type, one with the most left and right nodes
/// where `deep` says so: they cover all others, and the last one is that value.
pub(super) fn around(random: &mut Random, ty: &Rc<Type>, deep: bool) -> Vec<Sketch> {
    let left = |case: Sketch| Sketch::Left(Box::new(case));
    let right = |case: Sketch| Sketch::Right(Box::new(case));
    match &**ty {
        Type::Unit => vec![Sketch::Unit],
        Type::Sum(a, b) => {
            let (first, second) = (most_sides(a), most_sides(b));
            let even = !deep || first == second;
            if first > second && deep || even && random.chance(50) {
                let mut cases = vec![right(Sketch::Hole(Rc::clone(b)))];
                cases.extend(around(random, a, deep).into_iter().map(left));
                cases
            } else {
                let mut cases = vec![left(Sketch::Hole(Rc::clone(a)))];
                cases.extend(around(random, b, deep).into_iter().map(right));
                cases
            }
        }
        Type::Product(a, b) => {
            let flip = random.chance(50);
            let (one, two) = if flip { (b, a) } else { (a, b) };
            let (mut outer, inner) = (around(random, one, deep), around(random, two, deep));
            let value = outer.pop().expect("the value itself");
            let pair = |case: &Sketch, other: &Sketch| {
                let (case, other) = (Box::new(case.clone()), Box::new(other.clone()));
                if flip {
                    Sketch::Pair(other, case)
                } else {
                    Sketch::Pair(case, other)
                }
            };
            let hole = Sketch::Hole(Rc::clone(two));
            let whole = outer.iter().map(|case| pair(case, &hole));
            whole
                .chain(inner.iter().map(|case| pair(&value, case)))
                .collect()
        }
        Type::List(_) => {
            let mut cases = Sketch::Hole(Rc::clone(ty)).opened(random);
            cases.reverse();
            cases
        }
    }
}

/// One value among over a million, anywhere: left out, or matched once more.
fn one_deep(random: &mut Random, number: u8) -> Option<Iso> {
    let built = *random.pick(&["2^20", "2^24", "3^13", "2^4 (2^16)", "2^6 3^9"]);
    let ty = counted::of(random, built);
    let cases = around(random, &ty, false);
    let mut iso = permuted(random, &ty, &cases, &[])?;
    let value = |case: &Sketch| case.pattern(&mut |_| unreachable!("no holes"));
    let (last, other) = (value(cases.last()?), value(&one_case(random, &ty, 0)));
    match number {
        11 => iso.clauses.push(clause(&other, &last)),
        12 => {
            // The left side gets one value more, on its right.
            iso.from = Rc::new(Type::Sum(ty, Rc::new(Type::Unit)));
            for clause in &mut iso.clauses {
                clause.left = Rc::new(Pattern::Left(Rc::clone(&clause.left)));
            }
            let more = Rc::new(Pattern::Right(Rc::new(Pattern::Unit)));
            iso.clauses.push(clause(&more, &other));
        }
        _ => iso.clauses.retain(|clause| clause.left != last),
    }
    random.shuffle(&mut iso.clauses);
    Some(iso)
}

fn clause(left: &Rc<Pattern>, right: &Rc<Pattern>) -> Clause {
    Clause {
        line: 0,
        left: Rc::clone(left),
        right: Rc::clone(right),
        lets: Vec::new(),
    }
}

/// A type of some values of several lengths, or of one.
fn some_type(random: &mut Random) -> Rc<Type> {
    let unit = Rc::new(Type::Unit);
    let two = plan::two();
    let three = Rc::new(Type::Sum(Rc::clone(&unit), Rc::clone(&two)));
    let pool = [unit, two, three];
    let depth = 2 + random.below(4);
    random_type(random, depth, &pool)
}

/// Values left out, or cases that overlap, several of each.
fn several(random: &mut Random, ty: Rc<Type>, number: u8) -> Option<Iso> {
    let most = 2 + random.below(20);
    let mut cases = scattered(random, &ty, most);
    if overlaps(number) {
        let holes = random.below(80);
        cases.extend((0..1 + random.below(9)).map(|_| one_case(random, &ty, holes)));
    } else {
        cases.truncate(1 + random.below(cases.len().max(1)));
    }
    random.shuffle(&mut cases);
    cases.truncate(CLAUSES);
    sided(random, ty, &cases, number)
}

/// An iso of closed values: one side has some of them alone, each once or more,
/// or a type of more values.
pub(super) fn spoiled(random: &mut Random, mut iso: Iso, number: u8) -> Iso {
    let left = matches!(number, 11 | 13);
    let (ty, mut side): (&mut Rc<Type>, Vec<&mut Rc<Pattern>>) = if left {
        let side = iso.clauses.iter_mut().map(|clause| &mut clause.left);
        (&mut iso.from, side.collect())
    } else {
        let side = iso.clauses.iter_mut().map(|clause| &mut clause.right);
        (&mut iso.to, side.collect())
    };
    if overlaps(number) {
        let few = *random.pick(&[1, 3, 10, 30, side.len() - 1]);
        for place in few..side.len() {
            *side[place] = Rc::clone(side[random.below(few)]);
        }
        return iso;
    }
    let built = *random.pick(&["1", "3", "3", "2 3"]);
    let more = counted::of(random, built);
    let before = random.chance(50);
    let inner = Rc::clone(ty);
    *ty = Rc::new(if before {
        Type::Sum(more, inner)
    } else {
        Type::Sum(inner, more)
    });
    for pattern in side {
        let below = Rc::clone(pattern);
        *pattern = Rc::new(if before {
            Pattern::Right(below)
        } else {
            Pattern::Left(below)
        });
    }
    iso
}

/// A value of 127 letters; of 126 where another value has to be covered.
fn longest(random: &mut Random, number: u8) -> Option<Iso> {
    if overlaps(number) {
        let ty = longest_type(random);
        let holes = *random.pick(&[0, 2, 5]);
        let both = [one_case(random, &ty, 0), one_case(random, &ty, holes)];
        return sided(random, ty, &both, number);
    }
    if number == 13 {
        let (line, clauses) = (0, Vec::new());
        let [from, to] = [longest_type(random), longest_type(random)];
        return Some(Iso {
            line,
            from,
            to,
            clauses,
        });
    }
    let [unit, long] = [1, NODES - 2].map(|nodes| products(random, nodes));
    let case = Sketch::Left(Box::new(Sketch::Unit));
    sided(random, Rc::new(Type::Sum(unit, long)), &[case], number)
}

/// Cases of a product of sums, each of which looks into some of them; apart where
/// a gap is wanted. Both sides have the same.
fn sparse(random: &mut Random, number: u8) -> Option<Iso> {
    let (twos, threes) = (4 + random.below(12), random.below(4));
    let ty = counted::of(random, &format!("2^{twos} 3^{threes}"));
    let percent = *random.pick(&[15, 25, 40, 60]);
    let mut cases: Vec<Sketch> = Vec::new();
    for _ in 0..300 {
        let case = looking(random, &ty, percent);
        if overlaps(number) || cases.iter().all(|other| case.clashes(other)) {
            cases.push(case);
        }
    }
    cases.truncate(32 + random.below(CLAUSES - 31));
    permuted(random, &ty, &cases, &[])
}

/// A case that looks into so many of a hundred sums.
fn looking(random: &mut Random, ty: &Rc<Type>, percent: usize) -> Sketch {
    match &**ty {
        Type::Unit => Sketch::Unit,
        Type::Sum(..) if !random.chance(percent) => Sketch::Hole(Rc::clone(ty)),
        Type::Sum(a, _) if random.chance(50) => Sketch::Left(Box::new(looking(random, a, percent))),
        Type::Sum(_, b) => Sketch::Right(Box::new(looking(random, b, percent))),
        Type::Product(a, b) => {
            let one = looking(random, a, percent);
            Sketch::Pair(Box::new(one), Box::new(looking(random, b, percent)))
        }
        Type::List(_) if random.chance(percent) => one_case(random, ty, 50),
        Type::List(_) => Sketch::Hole(Rc::clone(ty)),
    }
}

fn bare(random: &mut Random) -> Iso {
    let many = counted::of(random, "2^2 3^20");
    let types = [some_type(random), many, longest_type(random)];
    let ty = |random: &mut Random| Rc::clone(random.pick(&types));
    Iso {
        line: 0,
        from: ty(random),
        to: ty(random),
        clauses: Vec::new(),
    }
}
