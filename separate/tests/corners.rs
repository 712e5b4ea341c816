//! The corners that decide replies, one test or more for each.

mod common;
use common::{
    asm, l_with, line, line_all_of_texts, line_masked, line_of_texts, place_of, refusal,
    refusal_of_text, L,
};

// One field: first "is it all there", then its own questions in order.

#[test]
fn target_is_asked_3_then_10_then_13() {
    assert_eq!(refusal(&L[..23]), Some((3, 23)));
    // Array 2 is declared nowhere, so it has no role to be asked for.
    assert_eq!(refusal(&l_with(&[(23, 2), (11, 0)])), Some((10, 23)));
    assert_eq!(refusal(&l_with(&[(23, 0)])), Some((13, 23)));
    // 13 comes before anything behind the array number.
    assert_eq!(refusal(&l_with(&[(23, 0)])[..24]), Some((13, 23)));
}

#[test]
fn a_code_is_asked_3_then_9_then_12() {
    let mut program = asm(&format!("array A in [1] {}", "if 0 >= 0 {".repeat(8) + &"}".repeat(8)));
    let ninth = 11 + 8 * 3;
    assert_eq!(refusal(&program[..ninth]), Some((3, ninth)));
    for (code, number) in [(0x04, 9), (0x10, 9), (0x02, 12), (0x03, 12)] {
        program[ninth] = code;
        assert_eq!(refusal(&program), Some((number, ninth)));
    }
    // A statement is no deeper for being in eight guards.
    program[ninth] = 0x01;
    assert_eq!(refusal(&program), Some((13, ninth + 1)));
}

#[test]
fn an_operator_code_is_asked_9_then_12() {
    let unary = "f(".repeat(12) + "7" + &")".repeat(12);
    let mut program = asm(&format!("op f/1 array A out [1] A[0] = {unary}"));
    let leaf = 12 + 4 + 12 * 2;
    assert_eq!(program[leaf], 0x12);
    for (code, number) in [(0x01, 9), (0x14, 9), (0x11, 12)] {
        program[leaf] = code;
        assert_eq!(refusal(&program), Some((number, leaf)));
    }
}

#[test]
fn the_mark_is_one_field() {
    assert_eq!(refusal(b""), Some((3, 0)));
    assert_eq!(refusal(b"A"), Some((3, 0)));
    assert_eq!(refusal(b"?L"), Some((3, 0)));
    assert_eq!(refusal(b"?LP"), Some((4, 0)));
    assert_eq!(refusal(b"ALP"), Some((3, 3)));
    assert_eq!(refusal(b"ALP\x02"), Some((3, 3)));
}

/// The version is a number of two bytes, both of which count.
#[test]
fn versions_1_and_2_alone() {
    for version in [0u16, 3, 4, 0x82, 0x0100, 0x0101, 0x0102, 0x0200, 0x0201, 0x8001, 0xFFFF] {
        let [low, high] = version.to_le_bytes();
        assert_eq!(refusal(&l_with(&[(3, low), (4, high)])), Some((5, 3)), "{version:#x}");
    }
    assert_eq!(refusal(&l_with(&[(3, 2)])), None);
}

/// Two operators: the byte of the first, then of the second.
#[test]
fn an_operator_is_asked_6_at_its_byte() {
    let mut program = asm("op f/2 op g/2 array A in [1]");
    for (version, byte) in (1..=2).flat_map(|version| (0..=255).map(move |byte| (version, byte))) {
        let allowed = (1..=4).contains(&byte) || (version == 2 && byte == 0x82);
        program[3] = version;
        for place in [6, 7] {
            program[place] = byte;
            let expected = (!allowed).then_some((6, place));
            assert_eq!(refusal(&program), expected, "{byte:#x} in version {version}");
            program[place] = 2;
        }
    }
    // 5 comes first, and a mark is no count.
    program[3..8].copy_from_slice(&[3, 0, 2, 0x82, 0]);
    assert_eq!(refusal(&program), Some((5, 3)));
    program[3..6].copy_from_slice(&[2, 0, 0x82]);
    assert_eq!(refusal(&program), Some((6, 5)));
}

#[test]
fn a_marked_operator_has_two_arguments() {
    let mut program = asm("op f/2* array A in [2] array B out [1] B[0] = f(A[0], A[1])");
    assert_eq!(refusal(&program), None);
    assert_eq!(refusal(&program[..program.len() - 1]), Some((3, program.len() - 1)));
    // The second read becomes the end: an argument is missing.
    let second = place_of(&program, &[0x10, 0, 1, 0]);
    program[second] = 0;
    assert_eq!(refusal(&program), Some((9, second)));
}

#[test]
fn coefficients_are_fields_one_by_one() {
    let text = "array A out [1] for i = 0 to 0 { for j = 0 to 0 { A[5*i + 6*j] = 1 } }";
    let program = asm(text);
    let first = place_of(&program, &[5, 6]);
    assert_eq!(refusal(&program[..first]), Some((3, first)));
    assert_eq!(refusal(&program[..first + 1]), Some((3, first + 1)));
    assert_eq!(refusal(&program[..first - 1]), Some((3, first - 2)));
}

// 8 is asked after the last extent of an array, at its role byte; 14 at the
// first byte behind the closing 00.

#[test]
fn cells_are_asked_after_the_last_extent() {
    let mut program = asm("array A in [1024, 1024, 7] array B in [1]");
    // The third extent's own question comes first.
    assert_eq!(refusal(&program), Some((8, 7)));
    assert_eq!(refusal(&program[..14]), Some((3, 13)));
    program[13] = 0;
    assert_eq!(refusal(&program), Some((7, 13)));
    program[13] = 7;
    // And before the next array's.
    program[15] = 99;
    assert_eq!(refusal(&program), Some((8, 7)));
    assert_eq!(refusal(&program[..15]), Some((8, 7)));
}

#[test]
fn the_end_is_asked_behind_the_closing_00() {
    let program = asm("array A in [1]");
    assert_eq!(refusal(&program), None);
    assert_eq!(refusal(&[&program[..], &[1]].concat()), Some((14, program.len())));
    // Before anything is run: this one would be refused with 17.
    let program = asm("array A out [1] A[0] = A[0]");
    assert_eq!(refusal(&[&program[..], &[0]].concat()), Some((14, program.len())));
}

// An operator 13 deep is 12 at its code byte, before its number is read; a
// loop or guard 9 deep likewise.

#[test]
fn nesting_is_asked_before_what_follows_the_code() {
    let unary = "f(".repeat(13) + "7" + &")".repeat(13);
    let program = asm(&format!("op f/1 array A out [1] A[0] = {unary}"));
    let code = 12 + 4 + 12 * 2;
    assert_eq!(refusal(&program[..code + 1]), Some((12, code)));
    assert_eq!(refusal(&program[..code]), Some((3, code)));
    let mut undeclared = program.clone();
    undeclared[code + 1] = 9;
    assert_eq!(refusal(&undeclared), Some((12, code)));
    let guards = asm(&format!("array A in [1] {}", "if 0 >= 0 {".repeat(9) + &"}".repeat(9)));
    assert_eq!(refusal(&guards[..11 + 8 * 3 + 1]), Some((12, 11 + 8 * 3)));
}

#[test]
fn nesting_counts_what_is_open_only() {
    let guards = "if 0 >= 0 {".repeat(8) + &"}".repeat(8);
    assert_eq!(refusal_of_text(&format!("array A in [1] {guards} {guards} {guards}")), None);
    let unary = "f(".repeat(11) + "7" + &")".repeat(11);
    let text = format!("op f/1 op g/2 array A out [1] A[0] = g({unary}, {unary})");
    assert_eq!(refusal_of_text(&text), None);
}

// In a statement: 19, then 20, then every subscript (16), then 17.

/// As many updates as there may be, then a statement.
fn after_2048_updates(statement: &str) -> String {
    format!(
        "op f/3 array A out [1] array B out [2]
        for i = 1 to 2048 {{ A[0] = f(1, 2, 3) }} {statement}"
    )
}

#[test]
fn updates_before_nodes_and_subscripts() {
    for statement in ["A[0] = 1", "A[7] = 1", "A[0] = f(1, 2, 3)", "A[0] = B[7]", "A[0] = B[0]"] {
        let program = asm(&after_2048_updates(statement));
        assert_eq!(refusal(&program).map(|(number, _)| number), Some(19), "{statement}");
    }
}

#[test]
fn nodes_before_subscripts() {
    for statement in [
        "A[0] = f(f(1, 2, 3), 2, 3)",
        "A[7] = f(f(1, 2, 3), 2, 3)",
        "A[0] = f(f(B[0], B[9], 1), 2, 3)",
    ] {
        let text = format!(
            "op f/3 array A out [1] array B out [2]
            for i = 1 to 2047 {{ A[0] = f(1, 2, 3) }} {statement}"
        );
        assert_eq!(refusal_of_text(&text).map(|(number, _)| number), Some(20), "{statement}");
    }
}

#[test]
fn every_subscript_before_any_unwritten_read() {
    let number = |statement: &str| {
        let text = format!("op f/2 array A in [2] array B out [2] {statement}");
        refusal_of_text(&text).map(|(number, _)| number)
    };
    assert_eq!(number("B[0] = f(B[0], A[1])"), Some(17));
    assert_eq!(number("B[0] = f(B[0], A[2])"), Some(16));
    assert_eq!(number("B[0] = f(A[2], B[0])"), Some(16));
    assert_eq!(number("B[2] = f(B[0], A[1])"), Some(16));
    assert_eq!(number("B[0] = f(B[1], B[2])"), Some(16));
}

// Start and end are worked out once, both before 15 is asked; indices run in
// wider arithmetic.

#[test]
fn bounds_are_asked_even_if_there_is_no_round() {
    let inner = |bounds: &str| {
        let text = format!("array A in [1] for i = 1 to 1 {{ for j = {bounds} {{ }} }}");
        refusal_of_text(&text)
    };
    assert_eq!(inner("5 to -32768 - i"), Some((15, 18)));
    assert_eq!(inner("32767 + i to 0"), Some((15, 18)));
    assert_eq!(inner("32767 + i to -32768 - i"), Some((15, 18)));
    assert_eq!(inner("32766 + i to i - 32768 step -32767"), None);
}

#[test]
fn the_step_beyond_16_bits_ends_the_loop() {
    let rounds = |bounds: &str| {
        let text = format!("array A inout [4] for i = {bounds} {{ A[0] = i }}");
        let list = common::list_of(&text);
        list[98..]
            .chunks(6)
            .take_while(|update| update[0] == 1)
            .map(|update| update[4] as i32)
            .collect::<Vec<_>>()
    };
    assert_eq!(rounds("32767 to 32767"), [32_767]);
    assert_eq!(rounds("32766 to 32767 step 2"), [32_766]);
    assert_eq!(rounds("1 to 32767 step 32767"), [1]);
    assert_eq!(rounds("-32768 to 32767 step 32767"), [-32_768, -1, 32_766]);
    assert_eq!(rounds("-32768 to -32768 step -1"), [-32_768]);
    assert_eq!(rounds("32767 to -32768 step -32768"), [32_767, -1]);
    assert_eq!(rounds("0 to -32768 step -32768"), [0, -32_768]);
    assert_eq!(rounds("3 to 2"), []);
    assert_eq!(rounds("2 to 3 step -1"), []);
    assert_eq!(rounds("2 to 3 step 5"), [2]);
}

#[test]
fn coefficients_and_steps_below_zero_are_negative() {
    let list = common::list_of(
        "array A out [1] for i = 3 to 1 step -2 { for j = -2*i to -2*i { A[0] = -128*i + 127*j } }",
    );
    let literals: Vec<_> = [102, 108].map(|at| list[at] as i32).into();
    assert_eq!(literals, [-128 * 3 - 127 * 6, -128 - 127 * 2]);
}

#[test]
fn a_guard_runs_from_0_on() {
    let text = |form: &str| {
        format!("array A inout [1] for i = -1 to 1 {{ if {form} >= 0 {{ A[0] = i }} }}")
    };
    let updates = |form: &str| {
        let list = common::list_of(&text(form));
        list[98..].chunks(6).filter(|update| update[0] == 1).count()
    };
    assert_eq!((updates("i"), updates("-i"), updates("i - 1"), updates("i - 2")), (2, 2, 1, 0));
}

// 18 is asked before the body of each round, of every loop together.

#[test]
fn rounds_are_asked_before_the_body() {
    let text = "array A inout [1] for i = -32768 to 32767 { } for i = 5 to 5 { A[9] = 1 }";
    assert_eq!(refusal_of_text(text), Some((18, 19)));
    let text = "array A inout [1] for i = -32768 to 32766 { } for i = 5 to 5 { A[9] = 1 }";
    assert_eq!(refusal_of_text(text), Some((16, 26)));
}

#[test]
fn the_loop_whose_round_is_one_too_many_is_named() {
    // The inner loop would begin round 65,537 in the outer loop's second.
    let text = "array A in [1] for i = 1 to 2 { for j = -32768 to 32766 { } }";
    assert_eq!(refusal_of_text(text), Some((18, 11)));
    let text = "array A in [1] for i = 1 to 2 { for j = -32768 to 32765 { } }";
    assert_eq!(refusal_of_text(text), Some((18, 18)));
}

// The cell read is the value at that moment.

#[test]
fn no_swap() {
    let text = |items: &str| format!("array A inout [2] array T local [1] {items}");
    let copies = text("A[0] = A[1] A[1] = A[0]");
    let swap = text("T[0] = A[0] A[0] = A[1] A[1] = T[0]");
    assert_eq!(line_all_of_texts(&copies, &swap), "differs 0 1");
    assert_eq!(line_all_of_texts(&copies, &text("A[0] = A[1]")), "equal 2");
    assert_eq!(line_all_of_texts(&swap, &text("")), "differs 0 0");
}

#[test]
fn a_value_read_before_it_is_overwritten_stays() {
    let head = "array A in [2] array B out [1] array T local [1]";
    let kept = format!("{head} T[0] = A[0] B[0] = T[0] T[0] = A[1]");
    let direct = format!("{head} B[0] = A[0]");
    assert_eq!(line_of_texts(&kept, &direct), "equal 1");
}

// 24 counts different terms among all values written on both sides, locals
// too, and their parts; a compared cell that is never written adds none.

/// 4,094 terms: 2,047 literals under an operator each.
fn terms_4094(more: &str) -> String {
    format!(
        "op f/1 array A inout [2] array T local [2]
        for i = 1 to 2047 {{ T[0] = f(i) }} {more}"
    )
}

#[test]
fn terms_of_locals_and_of_values_overwritten_count() {
    let none = line_all_of_texts(&terms_4094(""), &terms_4094(""));
    assert_eq!(none, "equal 2");
    assert_eq!(line_all_of_texts(&terms_4094("T[1] = const 1"), &terms_4094("")), "equal 2");
    // One constant on each side: 4,096 terms, and 4,097 if a third comes.
    assert_eq!(
        line_all_of_texts(&terms_4094("T[1] = const 1"), &terms_4094("T[1] = const 2")),
        "equal 2"
    );
    let shared = "op f/1 array A inout [2] array T local [2]";
    let two = format!("{shared} T[1] = const 1 T[1] = const 2");
    assert_eq!(line_all_of_texts(&terms_4094(""), &two), "equal 2");
    let three = format!("{shared} T[1] = const 1 T[1] = const 2 T[1] = const 3");
    assert_eq!(line_all_of_texts(&terms_4094(""), &three), "refused both 24 0");
    assert_eq!(line_all_of_texts(&three, &terms_4094("")), "refused both 24 0");
}

#[test]
fn starting_cells_count_when_they_are_parts() {
    let shared = "op f/1 array A inout [2] array T local [2]";
    let two = format!("{shared} T[0] = A[0] T[0] = A[1]");
    assert_eq!(line_all_of_texts(&terms_4094(""), &two), "equal 2");
    let three = format!("{shared} T[0] = f(A[0]) T[0] = A[1]");
    assert_eq!(line_all_of_texts(&terms_4094(""), &three), "refused both 24 0");
    // Literals known already add nothing, whatever cell they go to.
    let known = format!("{shared} T[0] = f(17) T[0] = A[1] A[0] = A[0]");
    assert_eq!(line_all_of_texts(&terms_4094(""), &known), "equal 2");
}

#[test]
fn equal_terms_of_both_sides_count_once() {
    let text = terms_4094("T[1] = const 8 T[1] = T[0]");
    assert_eq!(refusal_of_text(&text), Some((19, place_of(&asm(&text), &[1, 1, 1, 0, 0x10]))));
    let text = terms_4094("A[0] = const 8");
    assert_eq!(line_all_of_texts(&text, &text), "equal 2");
}

#[test]
fn unwritten_beside_written() {
    let head = "op f/1 array A inout [2] array B inout [1]";
    let text = |items: &str| format!("{head} {items}");
    assert_eq!(line_all_of_texts(&text("A[0] = A[0]"), &text("")), "equal 3");
    assert_eq!(line_all_of_texts(&text(""), &text("A[1] = A[1]")), "equal 3");
    assert_eq!(line_all_of_texts(&text("A[1] = A[0]"), &text("")), "differs 0 1");
    assert_eq!(line_all_of_texts(&text(""), &text("B[0] = A[0]")), "differs 1 0");
    assert_eq!(line_all_of_texts(&text("A[1] = f(A[1])"), &text("")), "differs 0 1");
    // There and back again.
    let around = "A[0] = A[1] A[1] = A[0] A[0] = 5";
    assert_eq!(line_all_of_texts(&text(around), &text("A[0] = 5")), "equal 3");
    // Read on one side, untouched on the other.
    let read = "B[0] = A[0]";
    assert_eq!(line_all_of_texts(&text(read), &text("A[0] = A[0] B[0] = A[0]")), "equal 3");
}

// 22 and 23 are asked of tables, before any term is made; bits of the mask for
// arrays that are in, local or not there mean nothing.

#[test]
fn tables_before_terms() {
    let many = terms_4094("T[1] = const 1");
    let others = many.replace("f(i)", "f(i + 9999)");
    assert_eq!(line_of_texts(&many, &others), "refused both 24 0");
    let arrays = others.replace("inout [2]", "inout [3]");
    assert_eq!(line_of_texts(&many, &arrays), "refused both 22 0");
    let operators = others.replace("op f/1", "op f/1 op g/2");
    assert_eq!(line_of_texts(&many, &operators), "refused both 23 1");
    let both = arrays.replace("op f/1", "op f/1 op g/2");
    assert_eq!(line_of_texts(&many, &both), "refused both 22 0");
}

/// The same arity is not enough: 23 compares the marks too.
#[test]
fn marks_on_one_side() {
    let text = |f: &str, g: &str| format!("op f/{f} op g/{g} array A in [2] array B inout [1]");
    let (none, first) = (text("2", "2"), text("2*", "2"));
    let (second, both) = (text("2", "2*"), text("2*", "2*"));
    for (left, right, operator) in
        [(&none, &first, 0), (&first, &second, 0), (&second, &none, 1), (&both, &first, 1)]
    {
        let line = format!("refused both 23 {operator}");
        assert_eq!(line_all_of_texts(left, right), line);
        assert_eq!(line_all_of_texts(right, left), line);
    }
    assert_eq!(line_all_of_texts(&first, &text("2*", "1")), "refused both 23 1");
    // The version is no part of the tables.
    assert_eq!(line_all_of_texts(&none, &format!("version 2 {none}")), "equal 1");
    assert_eq!(line_all_of_texts(&format!("version 2 {both}"), &both), "equal 1");
}

#[test]
fn masks() {
    let head = "array A in [5] array B out [3] array C inout [4] array D local [2]";
    let left = asm(&format!("{head} B[0] = 0 B[1] = 1 B[2] = 0 C[2] = 2 D[0] = 3"));
    let right = asm(&format!("{head} B[0] = 0 B[1] = 7 B[2] = 0 C[2] = 8 D[0] = 9"));
    let line = line_masked;
    assert_eq!(line(&left, &right, 0xFFFF), "differs 1 1");
    assert_eq!(line(&left, &right, 0b0010), "differs 1 1");
    assert_eq!(line(&left, &right, 0b0100), "differs 2 2");
    assert_eq!(line(&left, &right, 0b0110), "differs 1 1");
    for nothing in [0, 0b0001, 0b1000, 0b1001, 0xFFF9, 0x8000] {
        assert_eq!(line(&left, &right, nothing), "equal 0");
        assert_eq!(line(&left, &right, nothing | 0b0100), "differs 2 2");
        assert_eq!(line(&left, &left, nothing), "equal 0");
        assert_eq!(line(&left, &left, nothing | 0b0010), "equal 3");
        assert_eq!(line(&left, &left, nothing | 0b0100), "equal 4");
        assert_eq!(line(&left, &left, nothing | 0b0110), "equal 7");
    }
}

// Compared elements go by array number, then cell number; the count is the sum
// of the sizes.

#[test]
fn the_first_difference_is_named() {
    let head = "array A inout [2, 3] array B in [4] array C inout [2, 2, 2]";
    let text = |items: &str| format!("{head} {items}");
    let all = "C[1, 1, 1] = 1 C[0, 1, 0] = 1 A[1, 2] = 1 A[1, 0] = 1";
    assert_eq!(line_all_of_texts(&text(all), &text("")), "differs 0 3");
    assert_eq!(line_all_of_texts(&text("C[1, 1, 1] = 1 A[1, 2] = 1"), &text("")), "differs 0 5");
    assert_eq!(line_all_of_texts(&text("C[1, 1, 1] = 1 C[1, 0, 1] = 1"), &text("")), "differs 2 5");
    assert_eq!(line_all_of_texts(&text("C[1, 1, 1] = 1"), &text("")), "differs 2 7");
    assert_eq!(line_all_of_texts(&text(all), &text(all)), "equal 14");
}

#[test]
fn last_subscript_fastest() {
    let list =
        common::list_of("array A out [2, 3, 4] A[1, 2, 3] = 0 A[0, 1, 0] = 0 A[1, 0, 1] = 0");
    assert_eq!([list[100], list[106], list[112]], [23, 4, 13]);
}

// The left side is asked 2 to 20 whole before the right is looked at.

#[test]
fn the_left_side_comes_first() {
    let unwritten = asm("array A out [1] A[0] = A[0]");
    assert_eq!(line(&unwritten, b""), "refused left 17 11");
    assert_eq!(line(&unwritten, b"XYZ"), "refused left 17 11");
    assert_eq!(line(&unwritten, &[0; 20_000]), "refused left 17 11");
    assert_eq!(line(&L, b"XYZ"), "refused right 4 0");
    assert_eq!(line(b"", &unwritten), "refused left 3 0");
    assert_eq!(line(b"", b"XYZ"), "refused left 3 0");
    let rounds = asm("array A in [1] for i = -32768 to 32767 { } for i = 1 to 1 { }");
    assert_eq!(line(&rounds, &L[..9]), "refused left 18 19");
    assert_eq!(line(&L, &rounds), "refused right 18 19");
}

// Where a hurried builder goes astray.

#[test]
fn operators_have_no_laws() {
    let head = "op f/2 op g/2 array A in [2] array B out [1]";
    let text = |value: &str| format!("{head} B[0] = {value}");
    let base = text("f(A[0], A[1])");
    assert_eq!(line_of_texts(&base, &text("f(A[1], A[0])")), "differs 1 0");
    assert_eq!(line_of_texts(&base, &text("g(A[0], A[1])")), "differs 1 0");
    assert_eq!(line_of_texts(&text("f(f(1, 2), 3)"), &text("f(1, f(2, 3))")), "differs 1 0");
    assert_eq!(line_of_texts(&base, &base), "equal 1");
}

/// f and h are marked, g is not. Each pair with whether it is alike.
#[test]
fn marked_operators_have_one_law() {
    let head = "op f/2* op g/2 op h/2* array A in [4] array B out [1]";
    let text = |value: &str| format!("{head} B[0] = {value}");
    for (left, right, alike) in [
        ("f(A[0], A[1])", "f(A[1], A[0])", true),
        ("g(A[0], A[1])", "g(A[1], A[0])", false),
        ("f(A[0], A[1])", "h(A[0], A[1])", false),
        ("f(A[0], A[1])", "h(A[1], A[0])", false),
        ("f(A[0], A[0])", "f(A[0], A[1])", false),
        ("f(A[0], 1)", "f(1, A[0])", true),
        ("f(const 0, 0)", "f(0, const 0)", true),
        // At any depth, below and above operators without a mark.
        ("f(f(A[0], A[1]), A[2])", "f(A[2], f(A[1], A[0]))", true),
        ("f(f(A[0], A[1]), f(A[2], A[3]))", "f(f(A[3], A[2]), f(A[0], A[1]))", true),
        ("g(f(A[0], A[1]), A[2])", "g(f(A[1], A[0]), A[2])", true),
        ("g(f(A[0], A[1]), A[2])", "g(A[2], f(A[0], A[1]))", false),
        ("f(g(A[0], A[1]), A[2])", "f(A[2], g(A[0], A[1]))", true),
        ("f(g(A[0], A[1]), A[2])", "f(A[2], g(A[1], A[0]))", false),
        ("h(f(A[0], A[1]), A[2])", "h(A[2], f(A[1], A[0]))", true),
        // Nothing is regrouped.
        ("f(f(A[0], A[1]), A[2])", "f(A[0], f(A[1], A[2]))", false),
        ("f(f(A[0], A[1]), A[2])", "f(f(A[0], A[2]), A[1])", false),
        ("f(f(A[0], A[1]), f(A[2], A[3]))", "f(f(A[0], A[2]), f(A[1], A[3]))", false),
        ("f(A[0], f(A[0], A[1]))", "f(A[1], f(A[0], A[0]))", false),
    ] {
        let expected = if alike { "equal 1" } else { "differs 1 0" };
        assert_eq!(line_of_texts(&text(left), &text(right)), expected, "{left}, {right}");
        assert_eq!(line_of_texts(&text(right), &text(left)), expected, "{right}, {left}");
    }
}

/// What is swapped are values: the parts went through cells first.
#[test]
fn swaps_are_seen_through_cells() {
    let head = "op f/2* array A inout [3] array B out [1] array T local [2]";
    let text = |items: &str| format!("{head} {items}");
    let direct = text("B[0] = f(f(A[0], A[1]), A[2])");
    let through = text("T[1] = A[2] T[0] = f(A[1], A[0]) A[2] = A[2] B[0] = f(T[1], T[0])");
    assert_eq!(line_all_of_texts(&direct, &through), "equal 4");
    let late = text("T[0] = f(A[1], A[0]) A[2] = A[1] B[0] = f(A[2], T[0]) A[2] = A[1]");
    assert_eq!(line_all_of_texts(&direct, &late), "differs 0 2");
}

#[test]
fn literals_constants_and_cells_are_different_kinds() {
    let text = |value: &str| format!("array A in [9] array B out [1] B[0] = {value}");
    let values = ["5", "const 5", "A[5]", "-5", "const 4294967291"];
    for left in values {
        for right in values {
            let expected = if left == right { "equal 1" } else { "differs 1 0" };
            assert_eq!(line_of_texts(&text(left), &text(right)), expected, "{left}, {right}");
        }
    }
}

#[test]
fn locals_are_private() {
    let left = "array A in [2] array B out [2] array T local [1] array U local [1]
        T[0] = A[0] U[0] = A[1] B[0] = T[0] B[1] = U[0]";
    let right = "array A in [2] array B out [2] array T local [1] array U local [1]
        T[0] = A[1] U[0] = A[0] B[0] = U[0] B[1] = T[0]";
    assert_eq!(line_of_texts(left, right), "equal 2");
    assert_eq!(
        line_of_texts(left, "array A in [2] array B out [2] B[0] = A[0] B[1] = A[1]"),
        "equal 2"
    );
}

#[test]
fn shared_arrays_correspond_by_number() {
    let left = "array A in [2] array B in [2] array C out [1] C[0] = A[0]";
    let right = "array A in [2] array B in [2] array C out [1] C[0] = B[0]";
    assert_eq!(line_of_texts(left, right), "differs 2 0");
}

/// Terms share parts, so one that would be large when written out is small.
#[test]
fn shared_parts_stay_small() {
    let text = "op f/2 array A inout [1] for i = 1 to 2000 { A[0] = f(A[0], A[0]) }";
    assert_eq!(line_all_of_texts(text, text), "equal 1");
    let other = text.replace("2000", "1999");
    assert_eq!(line_all_of_texts(text, &other), "differs 0 0");
}

/// Every argument position holds an operator at some depth, so that as many
/// finished arguments wait as can.
#[test]
fn widest_expressions() {
    let deep = |levels: usize, first: bool| {
        let (open, close) = if first { ("f(", ", 1, 2, 3)") } else { ("f(1, 2, 3, ", ")") };
        format!("op f/4 array A out [1] A[0] = {}9{}", open.repeat(levels), close.repeat(levels))
    };
    assert_eq!(line_of_texts(&deep(12, true), &deep(12, true)), "equal 1");
    assert_eq!(line_of_texts(&deep(12, false), &deep(12, false)), "equal 1");
    assert_eq!(line_of_texts(&deep(12, true), &deep(12, false)), "differs 0 0");
}
