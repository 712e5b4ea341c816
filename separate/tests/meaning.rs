//! Replies against values: another way to compare two lists, without a store
//! of terms. Values are made from those of the parts by meanings in which each
//! marked operator gives the same for both orders of its arguments. One
//! meaning keeps terms apart unless they are alike up to swaps.

use std::collections::{HashMap, HashSet};

use separate::limits::LIST_WORDS;
use separate::list::{code, decode, List, Record};
use separate::random::{ListPairs, Pairs, Parts, Random};
use separate::tables::{arity, Role, MARKED};
use separate::{unroll, Reply, Side, Work};

type Value = u128;

/// Contents and a meaning, random ones for another seed, over so many values.
struct Meaning {
    seed: Value,
    values: Value,
}

/// So many values that no two terms meet by chance.
const APART: Meaning = Meaning { seed: 0, values: Value::MAX };

impl Meaning {
    fn scramble(&self, parts: &[Value]) -> Value {
        let mut value: Value = 0x1234_5678_9ABC_DEF0_0FED_CBA9_8765_4321 ^ self.seed;
        for part in parts {
            value ^= part.wrapping_add(value << 7);
            value = value.wrapping_mul(0xDEAD_BEEF_0000_0001_9E37_79B9_7F4A_7C15);
            value ^= value >> 61;
        }
        value % self.values
    }

    /// The same for both orders where the operator is marked.
    fn operator(&self, number: u32, operator: u8, mut arguments: Vec<Value>) -> Value {
        if operator == MARKED {
            arguments.sort();
        }
        self.scramble(&[vec![2, number.into()], arguments].concat())
    }

    /// The first element in which the lists leave different values.
    fn difference(&self, left: &List, right: &List, mask: u16) -> Option<(usize, usize)> {
        let one = Outcome::of(self, left, Side::Left);
        let other = Outcome::of(self, right, Side::Right);
        elements(left, mask).find(|&(array, cell)| {
            let element = (array as u32, cell as u32);
            one.held(element) != other.held(element)
        })
    }
}

/// What a list leaves on its side, and every value met.
struct Outcome<'a> {
    meaning: &'a Meaning,
    list: &'a List<'a>,
    side: Side,
    written: HashMap<(u32, u32), Value>,
    met: HashSet<Value>,
}

impl<'a> Outcome<'a> {
    fn of(meaning: &'a Meaning, list: &'a List<'a>, side: Side) -> Outcome<'a> {
        let (written, met) = (HashMap::new(), HashSet::new());
        let mut outcome = Outcome { meaning, list, side, written, met };
        for (&[_, array, cell], expression) in list.updates() {
            let mut records = expression.iter();
            let value = outcome.value(&mut records);
            assert!(records.next().is_none());
            outcome.written.insert((array, cell), value);
        }
        outcome
    }

    /// In and inout arrays start alike on both sides, all others do not.
    fn start(&self, (array, cell): (u32, u32)) -> Value {
        let own = match self.list.tables.arrays()[array as usize].role {
            Role::In | Role::Inout => 0,
            Role::Out | Role::Local => 1 + self.side as Value,
        };
        self.meaning.scramble(&[1, own, array.into(), cell.into()])
    }

    fn held(&self, element: (u32, u32)) -> Value {
        self.written.get(&element).copied().unwrap_or_else(|| self.start(element))
    }

    fn value(&mut self, records: &mut std::slice::Iter<Record>) -> Value {
        let &[kind, first, second] = records.next().unwrap();
        let value = match kind {
            code::READ => self.held((first, second)),
            code::OPERATOR => {
                let operator = self.list.tables.operators()[first as usize];
                let arguments = (0..arity(operator)).map(|_| self.value(records)).collect();
                self.meaning.operator(first, operator, arguments)
            }
            _ => self.meaning.scramble(&[kind.into(), first.into()]),
        };
        self.met.insert(value);
        value
    }
}

/// The bits of the out arrays.
fn out_bits(list: &List) -> u16 {
    let arrays = list.tables.arrays().iter().enumerate();
    let outs = arrays.filter(|(_, declared)| declared.role == Role::Out);
    outs.fold(0, |mask, (array, _)| mask | 1 << array)
}

/// Those that are compared, in their order.
fn elements<'a>(list: &'a List, mask: u16) -> impl Iterator<Item = (usize, usize)> + 'a {
    let arrays = list.tables.arrays().iter().enumerate();
    let compared = arrays.filter(move |(array, declared)| {
        [Role::Out, Role::Inout].contains(&declared.role) && mask & (1 << array) != 0
    });
    compared.flat_map(|(array, declared)| (0..declared.cells()).map(move |cell| (array, cell)))
}

/// What two lists with the same tables should be answered.
fn expected(left: &List, right: &List, mask: u16) -> Reply {
    let one = Outcome::of(&APART, left, Side::Left);
    let other = Outcome::of(&APART, right, Side::Right);
    if one.met.union(&other.met).count() > 4_096 {
        return Reply::Refused { side: Side::Both, number: 24, place: 0 };
    }
    match APART.difference(left, right, mask) {
        Some((array, cell)) => Reply::Differs { array, cell },
        None => Reply::Equal { count: elements(left, mask).count() },
    }
}

/// Is the reply what values say? An "equal" also under meanings of few values.
fn check(reply: Reply, left: &List, right: &List, mask: u16) {
    assert_eq!(reply, expected(left, right, mask));
    if matches!(reply, Reply::Equal { .. }) {
        for (seed, values) in [(1, 2), (2, 2), (3, 3), (4, 17)] {
            assert_eq!(Meaning { seed, values }.difference(left, right, mask), None);
        }
    }
}

/// Equal, differs, refused with 24.
fn kind(reply: Reply) -> Option<usize> {
    match reply {
        Reply::Equal { .. } => Some(0),
        Reply::Differs { .. } => Some(1),
        Reply::Refused { number: 24, .. } => Some(2),
        Reply::Refused { .. } => None,
    }
}

/// Plain, so in the out arrays, and under all bits or any.
#[test]
fn random_pairs_are_answered_as_values_say() {
    let (mut work, mut random) = (Work::default(), Random::new(8));
    let mut counts = [0; 3];
    for input in Pairs::new(1_234).take(2_500) {
        let reply = work.input(&input);
        let Some(kind) = kind(reply) else { continue };
        let left = usize::from(u16::from_le_bytes([input[0], input[1]]));
        let lists = [&input[2..2 + left], &input[2 + left..]].map(|program| {
            let mut list = vec![0; LIST_WORDS];
            unroll(program, &mut list).unwrap();
            list
        });
        let [left, right] = [decode(&lists[0]).unwrap(), decode(&lists[1]).unwrap()];
        check(reply, &left, &right, out_bits(&left));
        let any = random.draw() as u16;
        let mask = *random.pick(&[0xFFFF, 0xFFFF, any]);
        check(work.input_masked(&input, mask), &left, &right, mask);
        counts[kind] += 1;
    }
    assert!(counts[0] > 500 && counts[1] > 500 && counts[2] > 10, "{counts:?}");
}

#[test]
fn random_lists_are_answered_as_values_say() {
    let mut work = Work::default();
    let mut counts = [0; 3];
    for pair in ListPairs::new(4_321).take(1_500) {
        let (left, right) = (pair.left.slice(), pair.right.slice());
        let reply = work.lists(&left, &right, pair.mask);
        let Some(kind) = kind(reply) else { continue };
        let (left, right) = (decode(&left).unwrap(), decode(&right).unwrap());
        check(reply, &left, &right, pair.mask);
        counts[kind] += 1;
    }
    assert!(counts[0] > 300 && counts[1] > 150 && counts[2] > 5, "{counts:?}");
}

/// What a list should be answered beside a new order of itself: 24 if it alone
/// has too many terms; no value differs, so an out element that is never
/// written does or none.
fn expected_of_itself(list: &List, mask: u16) -> Reply {
    if Outcome::of(&APART, list, Side::Left).met.len() > 4_096 {
        return Reply::Refused { side: Side::Both, number: 24, place: 0 };
    }
    let written: HashSet<_> = list.updates().map(|(update, _)| (update[1], update[2])).collect();
    let unwritten = |&(array, cell): &(usize, usize)| {
        list.tables.arrays()[array].role == Role::Out
            && !written.contains(&(array as u32, cell as u32))
    };
    match elements(list, mask).find(unwritten) {
        Some((array, cell)) => Reply::Differs { array, cell },
        None => Reply::Equal { count: elements(list, mask).count() },
    }
}

#[test]
fn a_list_beside_its_new_order() {
    let (mut work, mut random) = (Work::default(), Random::new(6));
    let mut counts = [0; 3];
    for pair in ListPairs::new(99).take(1_500) {
        let words = pair.left.slice();
        let Some(list) = decode(&words).filter(|_| words.len() >= LIST_WORDS) else { continue };
        let mut other = Parts::of(&list).reordered(&mut random).swapped(&mut random).words();
        other.resize(LIST_WORDS, 0);
        let mask = if random.chance(50) { 0xFFFF } else { pair.mask };
        let reply = work.lists(&words, &other, mask);
        assert_eq!(reply, expected_of_itself(&list, mask));
        counts[kind(reply).expect("no other refusal")] += 1;
    }
    assert!(counts[0] > 800 && counts[1] > 80 && counts[2] > 0, "{counts:?}");
}
