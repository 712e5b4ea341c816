//! Known pairs through the wrapper, and memory of any length.

use std::collections::BTreeSet;
use std::error::Error;

use tengmua::{
    check_list, compare_lists, compare_plain, compare_programs, explain, unroll, write_file,
    Chosen, Explanation, Refusal, Reply, Side, Work, ALL, CELL_WORDS, FILE_BYTES, LIST_WORDS,
    TERM_WORDS,
};

const SHORT: Refusal = Refusal { side: Side::Both, question: 25, place: 0 };

macro_rules! example {
    ($name:literal) => {
        include_bytes!(concat!("../../../examples/", $name, ".alp"))
    };
}

#[test]
fn examples_have_their_lines() {
    let mut work = Work::default();
    let mut line = |left: &[u8], right: &[u8]| work.programs(left, right, ALL).to_string();
    assert_eq!(line(example!("jacobi"), example!("jacobi-tiled")), "equal 32");
    assert_eq!(line(example!("jacobi"), example!("jacobi-wrong-skew")), "differs 0 2");
    assert_eq!(line(example!("copy"), example!("outside")), "refused right 16 22");
    assert_eq!(line(example!("blur-marked"), example!("blur-swapped")), "equal 400");
    assert_eq!(line(example!("blur-marked"), example!("blur-regrouped")), "differs 1 0");
    assert_eq!(line(example!("blur-marked"), example!("blur")), "refused both 23 0");
}

/// Both versions meet; a third is refused, and so is a mark in the first.
#[test]
fn versions_of_a_file() {
    let mut work = Work::default();
    let mut line = |left: &[u8], right: &[u8]| work.programs(left, right, ALL).to_string();
    let with = |program: &[u8], version| [&program[..3], &[version], &program[4..]].concat();
    let copy = example!("copy");
    assert_eq!(line(copy, &with(copy, 2)), "equal 2");
    assert_eq!(line(&with(copy, 3), copy), "refused left 5 3");
    let (unmarked, marked) = (example!("blur"), example!("blur-marked"));
    assert_eq!((unmarked[3], marked[3], marked[6]), (1, 2, 0x82));
    assert_eq!(line(&with(unmarked, 2), unmarked), "equal 400");
    assert_eq!(line(unmarked, &with(marked, 1)), "refused right 6 6");
}

/// A list has its operators' marks, and no version.
#[test]
fn marks_of_a_list() {
    let mut work = Work::default();
    let [mut left, mut right] = [vec![7; LIST_WORDS], vec![9; LIST_WORDS]];
    assert_eq!(unroll(example!("blur-marked"), &mut left), Ok(400));
    assert_eq!(unroll(example!("blur-swapped"), &mut right), Ok(400));
    assert_eq!([left[1], right[1]], [0x82; 2]);
    assert_eq!(work.lists(&left, &right, ALL), Reply::Equal(400));
    // The first updates alone, of 17 nodes each: all of them have too many terms without the mark. The other elements are unwritten.
    for list in [&mut left, &mut right] {
        list[98 + 3 * 18..].fill(0);
    }
    assert_eq!(work.lists(&left, &right, ALL), Reply::Differs(1, 1));
    right[1] = 2;
    let other_marks = Refusal { side: Side::Both, question: 23, place: 0 };
    assert_eq!(work.lists(&left, &right, ALL), Reply::Refused(other_marks));
    left[1] = 2;
    assert_eq!(work.lists(&left, &right, ALL), Reply::Differs(1, 0));
    left[1] = 0x83;
    let no_list = Refusal { side: Side::Left, question: 26, place: 0 };
    assert_eq!(check_list(&left), Err(no_list));
}

#[test]
fn the_mask_chooses_arrays() {
    let mut work = Work::default();
    // Array 0 differs first at cell 2; array 1 alone has its own first difference, and no array has none.
    let mut reply = |mask| work.programs(example!("jacobi"), example!("jacobi-wrong-skew"), mask);
    assert_eq!(reply(1), Reply::Differs(0, 2));
    assert!(matches!(reply(2), Reply::Differs(1, _)));
    assert_eq!(reply(0), Reply::Equal(0));
}

const IN: u8 = 0;
const OUT: u8 = 1;
const INOUT: u8 = 2;
const LOCAL: u8 = 3;

/// A statement of `program`: code and target, a form, a constant.
const STATEMENT: usize = 2 + 2 + 5;

/// Arrays of one dimension, each a role and an extent; and statements that write a constant: array, cell and name.
fn program(arrays: &[[u8; 2]], writes: &[[u8; 3]]) -> Vec<u8> {
    let mut bytes = b"ALP\x01\0\0".to_vec();
    bytes.push(arrays.len() as u8);
    bytes.extend(arrays.iter().flat_map(|&[role, extent]| [role, 1, extent, 0]));
    bytes.extend(
        writes.iter().flat_map(|&[array, cell, name]| [1, array, cell, 0, 19, name, 0, 0, 0]),
    );
    bytes.push(0);
    bytes
}

/// Every role; the out arrays have inout arrays before them and between them.
const MIXED: [[u8; 2]; 6] = [[INOUT, 3], [OUT, 1], [IN, 4], [INOUT, 5], [OUT, 2], [LOCAL, 6]];

/// All elements of the out arrays.
const WRITES: [[u8; 3]; 3] = [[1, 0, 7], [4, 0, 7], [4, 1, 7]];

fn mixed(more: &[[u8; 3]]) -> Vec<u8> {
    program(&MIXED, &[&WRITES, more].concat())
}

/// What is left in inout and local arrays does not count; the number is that of the elements of all out arrays.
#[test]
fn plain_compares_out_arrays_alone() {
    let mut work = Work::default();
    let (left, right) = (mixed(&[]), mixed(&[[0, 2, 7], [3, 1, 7], [5, 0, 7]]));
    assert_eq!(work.plain(&left, &right), Reply::Equal(1 + 2));
    assert_eq!(work.programs(&left, &right, ALL), Reply::Differs(0, 2));
    assert_eq!(work.programs(&left, &right, !1), Reply::Differs(3, 1));
    assert_eq!(work.plain(&left, &left), Reply::Equal(1 + 2));
    assert_eq!(work.programs(&left, &left, ALL), Reply::Equal(3 + 1 + 5 + 2));
}

/// Nothing is compared, whatever is written.
#[test]
fn plain_without_out_arrays_is_equal() {
    let mut work = Work::default();
    let arrays = [[INOUT, 3], [IN, 4]];
    let (left, right) = (program(&arrays, &[[0, 1, 7]]), program(&arrays, &[]));
    assert_eq!(work.plain(&left, &right), Reply::Equal(0));
    assert_eq!(work.programs(&left, &right, ALL), Reply::Differs(0, 1));
    assert_eq!(work.plain(example!("jacobi"), example!("jacobi-wrong-skew")), Reply::Equal(0));
}

/// The first element of an out array, though inout elements before it differ. Under the bit of its array alone both sides explain it.
#[test]
fn a_plain_difference_is_explained_under_its_array() {
    let mut work = Work::default();
    let (left, right) = (mixed(&[[0, 2, 7]]), mixed(&[[4, 1, 8], [3, 0, 7]]));
    assert_eq!(work.plain(&left, &right), Reply::Differs(4, 1));
    assert_eq!(work.programs(&left, &right, ALL), Reply::Differs(0, 2));
    let statements = left.len() - 1 - 4 * STATEMENT;
    let line = |from: usize| format!("written 4 1 {from} {}", from + STATEMENT);
    let lines = BOTH.map(|chosen| work.explain(&left, &right, 1 << 4, chosen).to_string());
    assert_eq!(lines, [line(statements + 2 * STATEMENT), line(statements + 3 * STATEMENT)]);
}

/// An out element that either side leaves unwritten differs.
#[test]
fn plain_sees_unwritten_output() {
    let mut work = Work::default();
    let (whole, part) = (mixed(&[]), program(&MIXED, &WRITES[..2]));
    for (left, right) in [(&whole, &part), (&part, &whole), (&part, &part)] {
        assert_eq!(work.plain(left, right), Reply::Differs(4, 1));
    }
}

/// A refusal does not depend on what is compared.
#[test]
fn plain_refuses_what_a_mask_refuses() {
    let mut work = Work::default();
    let mut line = |left: &[u8], right: &[u8]| {
        let reply = work.plain(left, right);
        assert_eq!(reply, work.programs(left, right, ALL));
        reply.to_string()
    };
    let copy = example!("copy");
    assert_eq!(line(example!("outside"), copy), "refused left 16 22");
    assert_eq!(line(copy, example!("outside")), "refused right 16 22");
    assert_eq!(line(&[], &[]), "refused left 3 0");
    assert_eq!(line(copy, &[]), "refused right 3 0");
    assert_eq!(line(&[0; 16_385], copy), "refused left 2 0");
    assert_eq!(line(example!("blur-marked"), example!("blur")), "refused both 23 0");
    // Inout arrays are alike too, though they are not compared.
    let [one, other] = [[[INOUT, 3], [OUT, 1]], [[INOUT, 2], [OUT, 1]]];
    let writes = [[1, 0, 7]];
    assert_eq!(line(&program(&one, &writes), &program(&other, &writes)), "refused both 22 0");
}

const BOTH: [Chosen; 2] = [Chosen::Left, Chosen::Right];

/// Jacobi's second variant runs ahead: the copy back that wrote the element is explained on each side.
#[test]
fn a_difference_is_explained() {
    let mut work = Work::default();
    let (left, right) = (example!("jacobi"), example!("jacobi-wrong-skew"));
    for (chosen, program) in BOTH.into_iter().zip([&left[..], right]) {
        let Explanation::Written(written) = work.explain(left, right, ALL, chosen) else {
            panic!("both sides write A[2]");
        };
        assert_eq!((written.array, written.cell, written.bytes[0]), (0, 2, 1));
        // The program's own bytes, and no copy of them.
        assert_eq!(written.bytes.as_ptr(), program[written.from..].as_ptr());
        assert_eq!(written.indices().len(), written.count);
    }
    let line = |chosen| Work::default().explain(left, right, ALL, chosen).to_string();
    assert_eq!(BOTH.map(line), ["written 0 2 78 90 1 2", "written 0 2 112 124 5 1"]);
}

#[test]
fn starting_content_and_refusals() {
    let mut work = Work::default();
    let copy: &[u8] = example!("copy");
    let mut shorter = copy.to_vec();
    shorter[18] = 0;
    let starting = Explanation::Starting { array: 1, cell: 1 };
    assert_eq!(work.explain(copy, &shorter, ALL, Chosen::Right), starting);
    assert_eq!(work.explain(&shorter, copy, ALL, Chosen::Left), starting);
    let mut line = |left: &[u8], right: &[u8], mask| {
        BOTH.map(|chosen| work.explain(left, right, mask, chosen).to_string())
    };
    assert_eq!(line(copy, &shorter, ALL), ["written 1 1 22 32 1", "starting 1 1"]);
    assert_eq!(line(copy, &shorter, 1), ["refused both 27 0"; 2]);
    assert_eq!(line(copy, example!("copy-reversed"), ALL), ["refused both 27 0"; 2]);
    assert_eq!(line(copy, example!("outside"), ALL), ["refused right 16 22"; 2]);
    assert_eq!(line(&[], copy, ALL), ["refused left 3 0"; 2]);
}

/// An out element that neither side writes differs, unless the mask leaves its array out; an inout element starts alike.
#[test]
fn unwritten_output_differs() {
    let mut work = Work::default();
    let mut none = example!("copy").to_vec();
    // The loop's start is behind its end.
    none[16] = 2;
    assert_eq!(work.programs(&none, &none, ALL), Reply::Differs(1, 0));
    assert_eq!(work.programs(&none, &none, !2), Reply::Equal(0));
    let starting = Explanation::Starting { array: 1, cell: 0 };
    assert_eq!(BOTH.map(|chosen| work.explain(&none, &none, ALL, chosen)), [starting; 2]);
    let mut list = vec![7; LIST_WORDS];
    assert_eq!(unroll(&none, &mut list), Ok(0));
    assert_eq!(work.lists(&list, &list, ALL), Reply::Differs(1, 0));
    let mut inout = none;
    assert_eq!(std::mem::replace(&mut inout[11], 2), 1);
    assert_eq!(work.programs(&inout, &inout, ALL), Reply::Equal(2));
}

#[test]
fn a_list_is_unrolled_checked_and_compared() {
    let mut work = Work::default();
    let [mut left, mut right] = [vec![7; LIST_WORDS], vec![9; LIST_WORDS + 5]];
    assert_eq!(unroll(example!("blur"), &mut left), Ok(400));
    assert_eq!(unroll(example!("blur-tiled"), &mut right), Ok(400));
    assert_eq!(check_list(&left), Ok(()));
    assert_eq!(work.lists(&left, &right, ALL), Reply::Equal(400));
    left[98] = 2;
    let none = Refusal { side: Side::Left, question: 26, place: 0 };
    assert_eq!(check_list(&left), Err(none));
    assert_eq!(work.lists(&left, &right, ALL), Reply::Refused(none));
    let right_side = Refusal { side: Side::Right, ..none };
    assert_eq!(work.lists(&right, &left, ALL), Reply::Refused(right_side));
}

/// A file that is written unrolls to the same words. One byte less of output is refused, and nothing is touched.
#[test]
fn a_list_is_written_and_read_back() {
    for (program, updates, length) in
        [(&example!("copy")[..], 2, 32), (example!("jacobi-tiled"), 56, 998)]
    {
        let [mut list, mut again] = [vec![7; LIST_WORDS], vec![9; LIST_WORDS]];
        assert_eq!(unroll(program, &mut list), Ok(updates));
        let mut out = vec![0xEE; length + 3];
        assert_eq!(write_file(&list, &mut out), Ok(length));
        assert_eq!(out[length..], [0xEE; 3]);
        assert_eq!(unroll(&out[..length], &mut again), Ok(updates));
        assert_eq!(list, again);
        let mut short = vec![0xEE; length - 1];
        let long = Refusal { side: Side::Left, question: 29, place: 0 };
        assert_eq!(write_file(&list, &mut short), Err(long));
        assert_eq!(write_file(&list[1..], &mut short), Err(SHORT));
        assert_eq!(short, vec![0xEE; length - 1]);
        assert_eq!(write_file(&list, &mut []), Err(long));
    }
}

/// Version 2 where an operator is marked. 400 updates take more than 16,384 bytes, so all but one are taken out.
#[test]
fn a_written_file_keeps_the_marks() {
    let mut list = vec![0; LIST_WORDS];
    assert_eq!(unroll(example!("blur-marked"), &mut list), Ok(400));
    let mut out = vec![0; FILE_BYTES + 1];
    assert_eq!(write_file(&list, &mut out).map_err(|no| no.question), Err(29));
    list[98 + 3 * 18..].fill(0);
    let length = write_file(&list, &mut out).expect("one update fits");
    assert_eq!((out[3], out[6], out[length - 1]), (2, 0x82, 0));
    list[1] = 2;
    assert_eq!(write_file(&list, &mut out), Ok(length));
    assert_eq!((out[3], out[6]), (1, 2));
}

/// A literal of 16 bits is written; one of 17 is refused with 28 at its update.
#[test]
fn literals_of_a_written_list() {
    let mut list = vec![0; LIST_WORDS];
    list[17..21].copy_from_slice(&[1, 1, 1, 2]);
    let mut out = [0; 64];
    for (value, reply) in [(32767, Ok(26)), (32768, Err(1)), (-32768_i32, Ok(26)), (-32769, Err(1))]
    {
        list[98..110].copy_from_slice(&[1, 0, 0, 18, 0, 0, 1, 0, 1, 18, value as u32, 0]);
        let wide = |place| Refusal { side: Side::Left, question: 28, place };
        assert_eq!(write_file(&list, &mut out), reply.map_err(wide), "{value}");
    }
    list[100] = 2;
    let none = Refusal { side: Side::Left, question: 26, place: 0 };
    assert_eq!(write_file(&list, &mut out), Err(none));
}

/// A refusal goes through `?`, and says what was asked. The line of a reply stays the program's.
#[test]
fn a_refusal_is_an_error() {
    fn updates(program: &[u8]) -> Result<usize, Box<dyn Error>> {
        Ok(unroll(program, &mut vec![0; LIST_WORDS])?)
    }
    assert_eq!(updates(example!("copy")).expect("a list"), 2);
    let error = updates(example!("outside")).expect_err("a subscript outside");
    let asked = "Is each subscript inside its extent, the target's and the reads'?";
    assert_eq!(error.to_string(), format!("refused left at place 22, question 16: {asked}"));
    let refusal = error.downcast_ref::<Refusal>().expect("the refusal itself");
    assert_eq!(refusal.words(), Some(asked));
    assert_eq!(Reply::Refused(*refusal).to_string(), "refused left 16 22");
    assert_eq!(Explanation::Refused(*refusal).to_string(), "refused left 16 22");
}

/// Each question that can be asked has its words, each its own, on one line; 21 is retired.
#[test]
fn each_question_has_words() {
    let words = |question| Refusal { side: Side::Left, question, place: 0 }.words();
    let asked = (1..=29).filter(|&number| number != 21);
    let all: BTreeSet<_> = asked.map(|number| words(number).expect("words")).collect();
    assert_eq!(all.len(), 28);
    assert!(all.iter().all(|words| words.ends_with('?') && !words.contains('|')));
    assert_eq!([words(0), words(21), words(30)], [None; 3]);
    let unknown = Refusal { side: Side::Both, question: 30, place: 3 };
    assert_eq!(unknown.to_string(), "refused both at place 3, question 30: see docs/QUESTIONS.md");
}

/// 25 comes first, of each slice, and touches nothing.
#[test]
fn short_memory_is_refused_and_untouched() {
    let enough = [LIST_WORDS, LIST_WORDS, CELL_WORDS, TERM_WORDS];
    for short in 0..4 {
        let mut memory = enough.map(|words| vec![3; words]);
        memory[short].pop();
        let [a, b, c, d] = &mut memory;
        let reply = compare_programs(&[], &[], ALL, a, b, c, d);
        assert_eq!(reply, Reply::Refused(SHORT));
        assert_eq!(compare_plain(&[], &[], a, b, c, d), Reply::Refused(SHORT));
        assert_eq!(compare_lists(a, b, ALL, c, d), Reply::Refused(SHORT));
        let explanation = explain(&[], &[], ALL, Chosen::Left, a, b, c, d);
        assert_eq!(explanation, Explanation::Refused(SHORT));
        assert!(memory.iter().flatten().all(|&word| word == 3));
    }
    assert_eq!(unroll(&[], &mut []), Err(SHORT));
    assert_eq!(check_list(&[]), Err(SHORT));
    assert_eq!(write_file(&[], &mut []), Err(SHORT));
}

/// The header says that 128 KB of stack are enough; a thread that had too few would end the test with a fault.
#[test]
fn little_stack_is_enough() {
    let deep = deep();
    let mut other = deep.clone();
    // The constant's name, before the ends of eight loops and of the file.
    other[deep.len() - 13] += 1;
    let run = move || {
        let mut work = Work::default();
        let reply = work.programs(&deep, &deep, ALL);
        assert_eq!(work.plain(&deep, &deep), Reply::Equal(1));
        let mut list = vec![0; LIST_WORDS];
        assert_eq!(unroll(&deep, &mut list), Ok(1));
        assert_eq!(check_list(&list), Ok(()));
        assert_eq!(write_file(&list, &mut vec![0; FILE_BYTES]), Ok(13 + 4 + 12 * 2 + 5));
        assert_eq!(work.lists(&list, &list, ALL), Reply::Equal(1));
        let explanation = work.explain(&deep, &other, ALL, Chosen::Left);
        assert!(matches!(explanation, Explanation::Written(written) if written.count == 8));
        reply
    };
    let thread = std::thread::Builder::new().stack_size(128 << 10).spawn(run).expect("a thread");
    assert_eq!(thread.join().expect("an end"), Reply::Equal(1));
}

/// Eight loops and guards deep, with operators twelve deep.
fn deep() -> Vec<u8> {
    // One operator of arity 1; one out array of one dimension and extent 1.
    let mut bytes = b"ALP\x01\0\x01\x01\x01\x01\x01\x01\0".to_vec();
    for level in 0..8 {
        // A loop from 0 to 0: two forms of a constant and a coefficient for each enclosing loop, then the step.
        bytes.push(2);
        let form = vec![0; 2 + level];
        bytes.extend([&form[..], &form, &[1, 0]].concat());
    }
    bytes.extend([1, 0]);
    bytes.extend([0; 10]);
    bytes.extend([17, 0].repeat(12));
    bytes.extend([19, 7, 0, 0, 0]);
    bytes.extend([0; 9]);
    bytes
}
