//! Each limit: the greatest that passes and the least that does not.

mod common;
use common::{asm, line_all, line_all_of_texts, line_of_texts, refusal, refusal_of_text};
use separate::limits::LIST_WORDS;
use separate::read::read_program;
use separate::run::{run, Counts};

fn counts(text: &str) -> Counts {
    let program = read_program(&asm(text)).expect("read");
    run(&program, &mut vec![0; LIST_WORDS]).expect("run")
}

#[test]
fn cells() {
    let two = "array A in [1024] array B inout [1024]";
    assert_eq!(refusal_of_text(two), None);
    assert_eq!(line_all_of_texts(two, two), "equal 1024");
    let three = "array A in [1024] array B inout [1024] array C local [1]";
    // Mark, version, two counts, two arrays of four bytes.
    assert_eq!(refusal_of_text(three), Some((8, 15)));
    assert_eq!(refusal_of_text("array A out [2, 1024]"), None);
    assert_eq!(refusal_of_text("array A out [3, 683]"), Some((8, 7)));
}

fn nested(depth: usize, opening: impl Fn(usize) -> String) -> String {
    let mut text = "array A inout [2]\n".to_string();
    (0..depth).for_each(|level| text += &opening(level));
    text += "A[0] = A[1]";
    text += &"}".repeat(depth);
    text
}

#[test]
fn items_nest_8_deep() {
    let loops = |level: usize| format!("for x{level} = 0 to 0 {{");
    let guards = |_| "if 0 >= 0 {".to_string();
    let mixed = |level: usize| if level.is_multiple_of(2) { loops(level) } else { guards(level) };
    let first = 11;
    // A loop at level k: code, two forms of 2 + k bytes, step.
    let loop_bytes = |level: usize| 1 + 2 * (2 + level) + 2;
    assert_eq!(refusal_of_text(&nested(8, loops)), None);
    let ninth: usize = (0..8).map(loop_bytes).sum();
    assert_eq!(refusal_of_text(&nested(9, loops)), Some((12, first + ninth)));
    assert_eq!(refusal_of_text(&nested(8, guards)), None);
    assert_eq!(refusal_of_text(&nested(9, guards)), Some((12, first + 8 * 3)));
    assert_eq!(refusal_of_text(&nested(8, mixed)), None);
    let number = refusal_of_text(&nested(9, mixed)).map(|(number, _)| number);
    assert_eq!(number, Some(12));
}

#[test]
fn operators_nest_12_deep() {
    let deep = |levels: usize| {
        format!(
            "op f/4 array A out [1] A[0] = {}const 1{}",
            "f(".repeat(levels),
            ", 1, 2, 3)".repeat(levels)
        )
    };
    assert_eq!(refusal_of_text(&deep(12)), None);
    assert_eq!(line_of_texts(&deep(12), &deep(12)), "equal 1");
    assert_eq!(line_of_texts(&deep(12), &deep(11)), "differs 0 0");
    let program = asm(&deep(13));
    let code = common::place_of(&program, &[0x11, 0, 0x13]);
    assert_eq!(refusal(&program), Some((12, code)));
}

#[test]
fn rounds() {
    let rounds = |last| {
        format!(
            "array A inout [1]
            for i = 1 to 255 {{ for j = 1 to 256 {{ }} }}
            for k = 1 to {last} {{ }}"
        )
    };
    assert_eq!(counts(&rounds(1)).rounds, 65_536);
    assert_eq!(refusal_of_text(&rounds(1)), None);
    assert_eq!(line_all_of_texts(&rounds(1), &rounds(1)), "equal 1");
    let program = asm(&rounds(2));
    // The last loop: at top level, from 1 to 2 by 1.
    let code = common::place_of(&program, &[2, 1, 0, 2, 0, 1, 0, 0]);
    assert_eq!(refusal(&program), Some((18, code)));
    assert_eq!(refusal_of_text("array A in [1] for i = -32768 to 32767 { }"), None);
}

#[test]
fn updates() {
    let updates = |count| format!("array A out [1] for i = 1 to {count} {{ A[0] = i }}");
    assert_eq!(counts(&updates(2_048)).updates, 2_048);
    let program = asm(&updates(2_049));
    assert_eq!(refusal(&program), Some((19, common::place_of(&program, &[1, 0, 0, 0, 0]))));
}

#[test]
fn nodes() {
    // 15 nodes each in 546 updates make 8,190.
    let nodes = |more: &str| {
        format!(
            "op f/2 op g/1 array A out [1]
            for i = 1 to 546 {{
              A[0] = f(f(f(1, 2), f(3, 4)), f(f(5, 6), f(7, 8)))
            }}
            A[0] = {more}"
        )
    };
    assert_eq!(counts(&nodes("g(9)")).nodes, 8_192);
    assert_eq!(refusal_of_text(&nodes("g(9)")), None);
    let program = asm(&nodes("g(g(9))"));
    let statement = common::place_of(&program, &[1, 0, 0, 0, 0x11, 1]);
    assert_eq!(refusal(&program), Some((20, statement)));
}

#[test]
fn terms() {
    // 2,048 literals and as many terms over them.
    let full = "op f/1 array A out [1024] array B out [1024]
        for i = 0 to 1023 { A[i] = f(i)  B[i] = f(i + 1024) }";
    assert_eq!(line_of_texts(full, full), "equal 2048");
    // The same, but the last one is over another literal.
    let other = "op f/1 array A out [1024] array B out [1024]
        for i = 0 to 1023 { A[i] = f(i) }
        for i = 0 to 1022 { B[i] = f(i + 1024) }
        B[1023] = f(3000)";
    assert_eq!(line_of_texts(full, other), "refused both 24 0");
    assert_eq!(line_of_texts(other, full), "refused both 24 0");
    assert_eq!(line_of_texts(other, other), "equal 2048");
}

/// 2,048 literals, and as many sums of two of them: 4,096 terms.
fn sums(arity: &str, [far, near, last]: [&str; 3]) -> String {
    format!(
        "op add/{arity} array A out [1024] array B out [1024]
        for i = 0 to 1023 {{ A[i] = add({far}) }}
        for i = 0 to 1022 {{ B[i] = add({near}) }}
        B[1023] = add({last})"
    )
}

#[test]
fn alike_terms_count_once() {
    let marked = |sums_of: [&str; 3]| sums("2*", sums_of);
    let unmarked = |sums_of: [&str; 3]| sums("2", sums_of);
    let [base, swapped] =
        [["i, i + 1024", "i, i + 1", "0, 2"], ["i + 1024, i", "i + 1, i", "2, 0"]];
    // Both orders of each sum make 6,144 terms in 4,096 classes.
    assert_eq!(line_of_texts(&marked(base), &marked(swapped)), "equal 2048");
    let one_swapped = [base[0], base[1], swapped[2]];
    assert_eq!(line_of_texts(&marked(base), &marked(one_swapped)), "equal 2048");
    // One class more, in either order.
    for last in ["0, 3", "3, 0"] {
        let more = marked([swapped[0], swapped[1], last]);
        assert_eq!(line_of_texts(&marked(base), &more), "refused both 24 0");
        assert_eq!(line_of_texts(&more, &marked(base)), "refused both 24 0");
    }
    // Without the mark each order is a term of its own.
    assert_eq!(line_of_texts(&unmarked(base), &unmarked(base)), "equal 2048");
    assert_eq!(line_of_texts(&unmarked(base), &unmarked(one_swapped)), "refused both 24 0");
}

#[test]
fn program_bytes() {
    // Guards of four bytes each between the tables and the closing 00.
    let filled = |length: usize| {
        let mut bytes = b"ALP\x01\x00\x00\x01\x02\x01\x01\x00".to_vec();
        while bytes.len() + 4 < length {
            bytes.extend([3, 0, 0, 0]);
        }
        bytes.push(0);
        bytes
    };
    let longest = filled(16_384);
    assert_eq!(longest.len(), 16_384);
    assert_eq!(refusal(&longest), None);
    assert_eq!(line_all(&longest, &longest), "equal 1");
    let mut longer = longest.clone();
    longer.push(0);
    assert_eq!(refusal(&longer), Some((2, 0)));
    assert_eq!(line_all(&longest, &longer), "refused right 2 0");
    assert_eq!(line_all(&longer, &longest), "refused left 2 0");
}

#[test]
fn table_counts() {
    let operators = |count: usize| -> String {
        (0..count)
            .map(|number| format!("op f{number}/1 "))
            .chain(["array A in [1]".into()])
            .collect()
    };
    assert_eq!(refusal_of_text(&operators(16)), None);
    assert_eq!(refusal_of_text(&operators(17)), Some((6, 5)));
    let arrays = |count: usize| -> String {
        (0..count).map(|number| format!("array A{number} in [1] ")).collect()
    };
    assert_eq!(refusal_of_text(&arrays(16)), None);
    assert_eq!(refusal_of_text(&arrays(17)), Some((7, 6)));
    assert_eq!(refusal_of_text("op f/4 array A in [1024]"), None);
    assert_eq!(refusal_of_text("op f/5 array A in [1024]"), Some((6, 6)));
    assert_eq!(refusal_of_text("op f/4 array A in [1025]"), Some((7, 10)));
}

#[test]
fn bounds_of_16_bits() {
    let outer = |first, stop: &str| {
        format!(
            "array A in [1] for i = {first} to {first} {{ for j = {stop} to 0 step -32768 {{ }} }}"
        )
    };
    assert_eq!(refusal_of_text(&outer(0, "i + 32767")), None);
    assert_eq!(refusal_of_text(&outer(1, "i + 32767")), Some((15, 18)));
    assert_eq!(refusal_of_text(&outer(0, "-32768 - i")), None);
    assert_eq!(refusal_of_text(&outer(1, "-32768 - i")), Some((15, 18)));
}

/// The widest value that a form can have.
#[test]
fn the_widest_form() {
    let mut text = "array A out [1]\n".to_string();
    for level in 0..8 {
        text += &format!("for x{level} = -32768 to -32768 {{\n");
    }
    let form: Vec<_> = (0..8).map(|level| format!("- 128*x{level}")).collect();
    text += &format!("A[0] = {} + 32767\n{}", form.join(" "), "}".repeat(8));
    let list = common::list_of(&text);
    assert_eq!(list[98..104], [1, 0, 0, 18, 8 * 128 * 32_768 + 32_767, 0]);
}
