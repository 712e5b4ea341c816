//! Terms alike up to swaps, against the definition on trees: the same operator
//! over arguments alike in their order or, where it is marked, crosswise.

use separate::random::Random;
use separate::tables::{arity, Role, MARKED};
use separate::tree::{encode, Declaration, Expression, Form, Item, Loop, Source, Statement};
use separate::{line_of, Work};

/// f and h are marked, g is not; u and t have other arities.
const OPERATORS: [u8; 5] = [MARKED, 2, MARKED, 1, 3];

fn alike(one: &Expression, other: &Expression) -> bool {
    use Expression::Operator;
    match (one, other) {
        (Operator { number, arguments: one }, Operator { number: same, arguments: other })
            if number == same =>
        {
            one.iter().zip(other).all(|(one, other)| alike(one, other))
                || OPERATORS[*number] == MARKED
                    && alike(&one[0], &other[1])
                    && alike(&one[1], &other[0])
        }
        _ => one == other,
    }
}

/// The term and its parts.
fn parts<'a>(term: &'a Expression, found: &mut Vec<&'a Expression>) {
    found.push(term);
    if let Expression::Operator { arguments, .. } = term {
        arguments.iter().for_each(|argument| parts(argument, found));
    }
}

/// How many terms two terms and their parts are, and how many of them are not
/// alike to one before.
fn counts(both: [&Expression; 2]) -> [usize; 2] {
    let mut found = Vec::new();
    both.iter().for_each(|term| parts(term, &mut found));
    let (mut terms, mut classes) = (Vec::new(), Vec::new());
    for term in found {
        if !terms.contains(&term) {
            terms.push(term);
        }
        if !classes.iter().any(|&known| alike(known, term)) {
            classes.push(term);
        }
    }
    [terms.len(), classes.len()]
}

fn operator(number: usize, arguments: Vec<Expression>) -> Expression {
    Expression::Operator { number, arguments }
}

fn write(target: usize, value: Expression) -> Item {
    Item::Statement(Statement { target, subscripts: vec![Form::number(0, 0)], value })
}

fn program(items: Vec<Item>) -> Vec<u8> {
    let arrays = [Role::Out, Role::Inout].map(|role| Declaration { role, extents: vec![1] });
    let (operators, arrays) = (OPERATORS.to_vec(), arrays.to_vec());
    encode(&Source { version: None, operators, arrays, items }).bytes
}

fn line(work: &mut Work, left: &[u8], right: &[u8]) -> String {
    line_of(work.programs(left, right)).to_string()
}

fn expected(one: &Expression, other: &Expression) -> &'static str {
    if alike(one, other) {
        "equal 1"
    } else {
        "differs 0 0"
    }
}

/// All terms up to so many operators deep over two constants, of f, g and u.
fn all(depth: usize) -> Vec<Expression> {
    let mut terms = vec![Expression::Constant(0), Expression::Constant(1)];
    if depth > 0 {
        let below = all(depth - 1);
        for one in &below {
            terms.push(operator(3, vec![one.clone()]));
            for other in &below {
                let both = || vec![one.clone(), other.clone()];
                terms.extend((0..2).map(|number| operator(number, both())));
            }
        }
    }
    terms
}

#[test]
fn every_two_small_terms() {
    let terms = all(2);
    let programs: Vec<_> = terms.iter().map(|term| program(vec![write(0, term.clone())])).collect();
    let mut work = Work::default();
    let mut swapped = 0;
    for (one, left) in terms.iter().zip(&programs) {
        for (other, right) in terms.iter().zip(&programs) {
            assert_eq!(line(&mut work, left, right), expected(one, other), "{one:?}, {other:?}");
            swapped += usize::from(one != other && alike(one, other));
        }
    }
    assert!(swapped > 200, "{swapped}");
}

fn random_term(random: &mut Random, depth: usize) -> Expression {
    if depth == 0 || random.chance(15) {
        return Expression::Constant(random.below(2) as u32);
    }
    let number = *random.pick(&[0, 0, 0, 1, 2, 3, 4]);
    let argument = |_| random_term(random, depth - 1);
    operator(number, (0..arity(OPERATORS[number])).map(argument).collect())
}

/// Some operators' first two arguments change places, of marked ones or of any.
fn swapped(random: &mut Random, term: &Expression, any: bool) -> Expression {
    let Expression::Operator { number, arguments } = term else { return term.clone() };
    let mut arguments: Vec<_> =
        arguments.iter().map(|argument| swapped(random, argument, any)).collect();
    if random.chance(50) && arguments.len() > 1 && (any || OPERATORS[*number] == MARKED) {
        arguments.swap(0, 1);
    }
    operator(*number, arguments)
}

/// Random terms beside swapped ones.
fn pairs(seed: u64, count: usize, depth: usize) -> impl Iterator<Item = [Expression; 2]> {
    let mut random = Random::new(seed);
    (0..count).map(move |_| {
        let one = random_term(&mut random, depth);
        let any = random.chance(40);
        let other = swapped(&mut random, &one, any);
        [one, other]
    })
}

#[test]
fn random_terms_beside_swapped_ones() {
    let mut work = Work::default();
    let mut counts = [0; 2];
    for [one, other] in pairs(1, 6_000, 5) {
        let programs = [&one, &other].map(|term| program(vec![write(0, term.clone())]));
        let line = line(&mut work, &programs[0], &programs[1]);
        assert_eq!(line, expected(&one, &other), "{one:?}, {other:?}");
        counts[usize::from(alike(&one, &other))] += usize::from(one != other);
    }
    assert!(counts[0] > 500 && counts[1] > 1_500, "{counts:?}");
}

/// So many terms that are parts of no others: three in each round, a literal, u
/// over it and u over that.
fn others(count: usize) -> Vec<Item> {
    let subscripts = vec![Form::number(0, 1)];
    let literal = Expression::Literal(Form::index(0, 1));
    let value = operator(3, vec![operator(3, vec![literal])]);
    let body = vec![Item::Statement(Statement { target: 1, subscripts, value })];
    let [start, stop] = [1, count / 3].map(|number| Form::number(number as i32, 0));
    let mut items = vec![Item::Loop(Loop { start, stop, step: 1, body })];
    items.extend((0..count % 3).map(|more| write(1, Expression::Constant(9 + more as u32))));
    items
}

/// As many other terms as are missing are taken, and one more is too many.
#[test]
fn classes_are_what_is_counted() {
    let mut work = Work::default();
    let mut fewer = 0;
    for [one, other] in pairs(2, 300, 4) {
        let [terms, classes] = counts([&one, &other]);
        fewer += usize::from(classes < terms);
        let right = program(vec![write(0, other.clone())]);
        let left = |count: usize| {
            let mut items = others(count);
            items.push(write(0, one.clone()));
            program(items)
        };
        let full = line(&mut work, &left(4_096 - classes), &right);
        assert!(!full.starts_with("refused"), "{full}: {one:?}, {other:?}");
        let over = line(&mut work, &left(4_097 - classes), &right);
        assert_eq!(over, "refused both 24 0", "{one:?}, {other:?}");
    }
    assert!(fewer > 100, "{fewer}");
}
