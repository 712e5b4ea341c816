//! Explanations: known pairs, corners, and random pairs against a run by hand.

mod common;
use common::{asm, l_with, place_of, L};
use separate::compare::ALL;
use separate::explain::Writer;
use separate::input::split;
use separate::limits::{CELL_WORDS, LIST_WORDS, TERM_WORDS};
use separate::random::{Pairs, Random};
use separate::tree::{Expression, Form, Item, Source, Statement};
use separate::{
    explain, line_of, line_of_explanation, origin_of, read_program, stretch, Chosen, Explanation,
    Origin, Reply, Side, Work,
};

const BOTH: [Chosen; 2] = [Chosen::Left, Chosen::Right];

fn line(left: &[u8], right: &[u8], mask: u16, chosen: Chosen) -> String {
    line_of_explanation(Work::default().explain(left, right, mask, chosen)).to_string()
}

/// The lines for the left and for the right.
fn lines(left: &[u8], right: &[u8]) -> [String; 2] {
    BOTH.map(|chosen| line(left, right, ALL, chosen))
}

#[test]
fn known_pairs() {
    let written = "written 1 0 22 32 0";
    for (right, lines_wanted) in [
        (l_with(&[(29, 1), (31, 0xFF)]), [written, written]),
        (l_with(&[(18, 0)]), ["written 1 1 22 32 1", "starting 1 1"]),
        (l_with(&[(16, 1)]), [written, "starting 1 0"]),
        (l_with(&[(16, 2)]), [written, "starting 1 0"]),
        (l_with(&[(28, 1)]), ["refused right 17 22"; 2]),
        (L.to_vec(), ["refused both 27 0"; 2]),
        (l_with(&[(16, 1), (18, 0), (20, 0xFF), (21, 0xFF)]), ["refused both 27 0"; 2]),
        (L[..33].to_vec(), ["refused right 3 33"; 2]),
    ] {
        assert_eq!(lines(&L, &right), lines_wanted);
    }
    // Backwards, and each cell from the other: the last round writes cell 0.
    let swapped = l_with(&[(16, 1), (18, 0), (20, 0xFF), (21, 0xFF), (29, 1), (31, 0xFF)]);
    assert_eq!(lines(&swapped, &L), [written, written]);
    assert_eq!(lines(&l_with(&[(20, 0)]), &[]), ["refused left 11 20"; 2]);
    assert_eq!(lines(&l_with(&[(18, 2)]), &L), ["refused left 16 22"; 2]);
    assert_eq!(stretch(&L, &[], Chosen::Left, 22, 32), [1, 1, 0, 0, 1, 0x10, 0, 0, 0, 1]);
}

#[test]
fn refusals_of_the_pair_stay_as_they_are() {
    let arrays = asm("array A out [2]");
    assert_eq!(lines(&L, &arrays), ["refused both 22 0"; 2]);
    let operators = asm("op f/1 array A in [2] array B out [2]");
    assert_eq!(lines(&L, &operators), ["refused both 23 0"; 2]);
    let many = |shift: i32| {
        asm(&format!(
            "op f/1 array A out [1]
            for i = 1 to 1024 {{ A[0] = f(i + {shift}) }} for i = 1 to 1024 {{ A[0] = f(-1*i) }}"
        ))
    };
    assert_eq!(lines(&many(0), &many(2_000)), ["refused both 24 0"; 2]);
}

#[test]
fn the_last_of_many_writes() {
    let left = asm(
        "array A in [3] array B inout [4]
        B[2] = const 1
        for i = 5 to 3 step -1 { for j = 0 to i - 4 { if j - 1 >= 0 { B[2] = A[0] } } B[3] = A[i - 3] }
        B[2] = const 9",
    );
    let right = asm("array A in [3] array B inout [4] array T local [7]
        for i = 5 to 3 step -1 { B[3] = A[i - 3] }
        for i = -3 to -1 { for j = 9 to 7 step -2 { B[2] = A[2] } }");
    let last = place_of(&left, &[1, 1, 2, 0, 0x13, 9, 0, 0, 0]);
    let inner = right.len() - 3 - 12;
    assert_eq!(line(&left, &right, ALL, Chosen::Left), format!("written 1 2 {last} {}", last + 9));
    let wanted = format!("written 1 2 {inner} {} -1 7", inner + 12);
    assert_eq!(line(&left, &right, ALL, Chosen::Right), wanted);
    // Guards give no values, and a write in an earlier round does not count.
    let shorter = [&left[..last], &[0]].concat();
    let within = line(&shorter, &right, ALL, Chosen::Left);
    assert!(within.ends_with(" 5 1"), "{within}");
}

#[test]
fn eight_loops_and_none() {
    let loops: String = (0..8).map(|k| format!("for i{k} = {} to {} {{ ", -k, 1 - k)).collect();
    let left = asm(&format!("array A out [1] {loops} A[0] = i0 {}", "} ".repeat(8)));
    let right = asm("array A out [1] A[0] = 7");
    let [deep, flat] = lines(&left, &right);
    assert!(deep.ends_with(" 1 0 -1 -2 -3 -4 -5 -6"), "{deep}");
    assert_eq!(flat, format!("written 0 0 {} {}", right.len() - 8, right.len() - 1));
}

/// Another mask, another element; and none at all.
#[test]
fn masks() {
    let left = asm("array A out [1] array B inout [2] A[0] = const 1 B[1] = const 1");
    let right = asm("array A out [1] array B inout [2] A[0] = const 2 B[1] = B[0]");
    let element = |mask| match Work::default().explain(&left, &right, mask, Chosen::Right) {
        Explanation::Written { array, cell, writer } => Some((array, cell, writer.from)),
        _ => None,
    };
    let first = right.len() - 1 - 9 - 8;
    assert_eq!(element(ALL), Some((0, 0, first)));
    assert_eq!(element(1), Some((0, 0, first)));
    assert_eq!(element(0xFFFE), Some((1, 1, first + 9)));
    for mask in [0, 4, 0xFFFC] {
        assert_eq!(line(&left, &right, mask, Chosen::Left), "refused both 27 0");
    }
}

/// `A[0] = A[0]` writes the element, though with what it held.
#[test]
fn a_write_of_the_starting_content_is_a_write() {
    let same = asm("array A inout [1] A[0] = A[0]");
    let other = asm("array A inout [1] A[0] = const 3");
    let [one, _] = lines(&same, &other);
    assert_eq!(one, "written 0 0 11 19");
    assert_eq!(lines(&same, &asm("array A inout [1]")), ["refused both 27 0"; 2]);
}

#[test]
fn stretches() {
    let (left, right) = (b"abc", b"defgh");
    let part = |chosen, from, to| stretch(left, right, chosen, from, to);
    assert_eq!(part(Chosen::Left, 0, 3), b"abc");
    assert_eq!(part(Chosen::Right, 1, 5), b"efgh");
    assert_eq!(part(Chosen::Right, 5, 5), b"");
    for (from, to) in [(2, 1), (0, 4), (4, 4), (3, usize::MAX), (usize::MAX, usize::MAX), (0, 0)] {
        let empty = part(Chosen::Left, from, to);
        assert_eq!((empty.len(), empty.as_ptr()), (0, left.as_ptr()), "{from} {to}");
    }
    // No copy: the part lies where the program's bytes lie.
    assert_eq!(part(Chosen::Right, 2, 4).as_ptr(), right[2..].as_ptr());
}

#[test]
fn sides_by_number() {
    assert_eq!(Chosen::from_number(0), Chosen::Left);
    for number in [1, 2, 255, usize::MAX] {
        assert_eq!(Chosen::from_number(number), Chosen::Right);
    }
}

const GARBAGE: u32 = 0xABCD_EF01;
const ENOUGH: [usize; 4] = [LIST_WORDS, LIST_WORDS, CELL_WORDS, TERM_WORDS];

/// Explains over memory of garbage, and gives what the memory holds then.
fn explained(
    pair: [&[u8]; 2],
    mask: u16,
    chosen: Chosen,
    lengths: [usize; 4],
) -> (Explanation, [Vec<u32>; 4]) {
    let mut memory = lengths.map(|length| vec![GARBAGE; length]);
    let [left_list, right_list, cells, terms] = &mut memory;
    let explanation = explain(pair[0], pair[1], mask, chosen, left_list, right_list, cells, terms);
    (explanation, memory)
}

#[test]
fn short_memory_comes_before_all() {
    for slice in 0..4 {
        let mut lengths = ENOUGH;
        lengths[slice] -= 1;
        for right in [&L[..], &L[..3], &l_with(&[(18, 0)])] {
            let (explanation, memory) = explained([&L, right], ALL, Chosen::Left, lengths);
            let refused = Explanation::Refused { side: Side::Both, number: 25, place: 0 };
            assert_eq!(explanation, refused);
            assert!(memory.iter().flatten().all(|&word| word == GARBAGE));
        }
    }
}

#[test]
fn memory_is_zeros_afterwards() {
    let longer = ENOUGH.map(|length| length + 77);
    for right in [&L[..], &L[..3], &l_with(&[(18, 0)]), &l_with(&[(18, 2)])] {
        for (lengths, chosen) in [(ENOUGH, Chosen::Left), (longer, Chosen::Right)] {
            let (_, memory) = explained([&L, right], ALL, chosen, lengths);
            assert!(memory.iter().flatten().all(|&word| word == 0));
        }
    }
}

#[test]
fn origins() {
    let mut list = vec![7; LIST_WORDS + 1];
    let mut origin = |program: &[u8], array, cell| {
        list.fill(7);
        let origin = origin_of(program, array, cell, &mut list);
        assert!(list.iter().all(|&word| word == 0));
        origin
    };
    let writer =
        |index| Writer { from: 22, to: 32, count: 1, indices: [index, 0, 0, 0, 0, 0, 0, 0] };
    assert_eq!(origin(&L, 1, 0), Origin::Written(writer(0)));
    assert_eq!(origin(&L, 1, 1), Origin::Written(writer(1)));
    let most = usize::MAX;
    for (array, cell) in [(0, 0), (0, 1), (1, 2), (2, 0), (16, 0), (1, most), (most, 0)] {
        assert_eq!(origin(&L, array, cell), Origin::Starting);
    }
    let refused = |number, place| Origin::Refused { side: Side::Left, number, place };
    assert_eq!(origin(&L[..33], 1, 0), refused(3, 33));
    assert_eq!(origin(&l_with(&[(18, 2)]), 1, 0), refused(16, 22));
    let mut short = vec![7; LIST_WORDS - 1];
    let refused = Origin::Refused { side: Side::Both, number: 25, place: 0 };
    assert_eq!(origin_of(&L[..3], 1, 0, &mut short), refused);
    assert!(short.iter().all(|&word| word == 7));
}

/// A run of the program's tree, which notes each write: where the statement
/// stands among the statements, and the indices.
struct Trace<'a> {
    source: &'a Source,
    writes: Vec<(usize, usize, usize, Vec<i32>)>,
}

fn value(form: &Form, indices: &[i32]) -> i32 {
    let products = form.coefficients.iter().zip(indices).map(|(factor, index)| factor * index);
    form.constant + products.sum::<i32>()
}

fn statements(items: &[Item]) -> usize {
    let count = |item: &Item| match item {
        Item::Statement(_) => 1,
        Item::Loop(item) => statements(&item.body),
        Item::Guard(item) => statements(&item.body),
    };
    items.iter().map(count).sum()
}

impl Trace<'_> {
    /// `number` is that of the first statement of the items.
    fn items(&mut self, items: &[Item], mut number: usize, indices: &mut Vec<i32>) {
        for item in items {
            match item {
                Item::Statement(Statement { target, subscripts, .. }) => {
                    let extents = &self.source.arrays[*target].extents;
                    let cell = subscripts.iter().zip(extents).fold(0, |cell, (form, &extent)| {
                        cell * i32::from(extent) + value(form, indices)
                    });
                    self.writes.push((*target, cell as usize, number, indices.clone()));
                }
                Item::Loop(item) => {
                    let (stop, mut index) =
                        (value(&item.stop, indices), value(&item.start, indices));
                    while (item.step > 0 && index <= stop) || (item.step < 0 && index >= stop) {
                        indices.push(index);
                        self.items(&item.body, number, indices);
                        indices.pop();
                        index += item.step;
                    }
                }
                Item::Guard(item) if value(&item.form, indices) >= 0 => {
                    self.items(&item.body, number, indices);
                }
                Item::Guard(_) => {}
            }
            number += statements(std::slice::from_ref(item));
        }
    }
}

/// Bytes of an expression within so many loops.
fn width(expression: &Expression, loops: usize) -> usize {
    let form = 2 + loops;
    match expression {
        Expression::Read { subscripts, .. } => 2 + subscripts.len() * form,
        Expression::Operator { arguments, .. } => {
            2 + arguments.iter().map(|argument| width(argument, loops)).sum::<usize>()
        }
        Expression::Literal(_) => 1 + form,
        Expression::Constant(_) => 5,
    }
}

/// The bytes and loops of each statement in the order of the file; `at` is where
/// the items begin, and what it becomes is where they end.
fn ranges(items: &[Item], loops: usize, at: &mut usize, found: &mut Vec<(usize, usize, usize)>) {
    let form = 2 + loops;
    for item in items {
        let from = *at;
        match item {
            Item::Statement(Statement { subscripts, value, .. }) => {
                *at += 2 + subscripts.len() * form + width(value, loops);
                found.push((from, *at, loops));
            }
            Item::Loop(item) => {
                *at += 1 + 2 * form + 2;
                ranges(&item.body, loops + 1, at, found);
            }
            Item::Guard(item) => {
                *at += 1 + form;
                ranges(&item.body, loops, at, found);
            }
        }
    }
    *at += 1;
}

/// What the tree says of a cell: the statement's bytes and the indices.
fn last_write(program: &[u8], array: usize, cell: usize) -> (usize, Option<Writer>) {
    let source = Source::of(&read_program(program).unwrap());
    let mut trace = Trace { source: &source, writes: Vec::new() };
    trace.items(&source.items, 0, &mut Vec::new());
    let header = 5 + 1 + source.operators.len() + 1;
    let tables = source.arrays.iter().map(|array| 2 + 2 * array.extents.len()).sum::<usize>();
    let (mut at, mut found) = (header + tables, Vec::new());
    ranges(&source.items, 0, &mut at, &mut found);
    assert_eq!(at, program.len());
    let writes: Vec<_> =
        trace.writes.iter().filter(|write| (write.0, write.1) == (array, cell)).collect();
    let writer = writes.last().map(|(_, _, number, values)| {
        let (from, to, count) = found[*number];
        assert_eq!(count, values.len());
        let index = |k: usize| values.get(k).map_or(0, |&index| index as i16);
        Writer { from, to, count, indices: std::array::from_fn(index) }
    });
    (writes.len(), writer)
}

#[test]
fn random_pairs_are_explained_as_their_trees_say() {
    let (mut work, mut random) = (Work::default(), Random::new(77));
    let (mut written, mut starting, mut again) = (0, 0, 0);
    for input in Pairs::new(4_711).take(4_000) {
        let (left, right) = split(&input).unwrap_or((&input, &[]));
        let mask = if random.chance(60) { ALL } else { random.draw() as u16 };
        let reply = work.programs_masked(left, right, mask);
        for chosen in BOTH {
            let explanation = work.explain(left, right, mask, chosen);
            let program = chosen.of(left, right);
            let (array, cell) = match reply {
                Reply::Refused { side, number, place } => {
                    assert_eq!(explanation, Explanation::Refused { side, number, place });
                    continue;
                }
                Reply::Equal { .. } => {
                    assert_eq!(line_of_explanation(explanation).to_string(), "refused both 27 0");
                    continue;
                }
                Reply::Differs { array, cell } => (array, cell),
            };
            let mut list = vec![1; LIST_WORDS];
            let origin = origin_of(program, array, cell, &mut list);
            let (writes, writer) = last_write(program, array, cell);
            again += usize::from(writes > 1);
            match (explanation, writer) {
                (Explanation::Written { array: a, cell: e, writer }, Some(wanted)) => {
                    assert_eq!((a, e, writer), (array, cell, wanted), "{}", line_of(reply));
                    let part = stretch(left, right, chosen, writer.from, writer.to);
                    assert_eq!((part[0], part.len()), (1, writer.to - writer.from));
                    assert_eq!(origin, Origin::Written(writer));
                    written += 1;
                }
                (Explanation::Starting { array: a, cell: e }, None) => {
                    assert_eq!((a, e), (array, cell));
                    assert_eq!(origin, Origin::Starting);
                    starting += 1;
                }
                other => panic!("{other:?}"),
            }
        }
    }
    assert!(written > 800 && starting > 30 && again > 80, "{written} {starting} {again}");
}
