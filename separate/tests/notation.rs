//! The text notation: both ways, and its errors.

mod common;
use common::{asm, L};
use separate::notation::{
    assemble, disassemble, disassemble_with_names, disassemble_with_places, names, parse, places,
    print, statements, Name, Position, Spelled,
};
use separate::random::Pairs;
use separate::read::read_program;
use separate::tree::{encode, Source};
use separate::Refusal;

#[test]
fn program_l() {
    let text = "array A in [2] array B out [2] for i = 0 to 1 step 1 { B[i] = A[i] }";
    assert_eq!(asm(text), L);
    let expected = "array A in [2]
array B out [2]
for i = 0 to 1 step 1 {
  B[i] = A[i]
}
";
    assert_eq!(disassemble(&L).as_deref(), Ok(expected));
}

#[test]
fn everything_at_once() {
    let text = "op f0/2
op f1/1
array A in [2, 3, 4]
array B inout [1024]
array C local [7]
C[0] = const 4294967295
for i = -32768 to 32767 step -32768 {
  if -128*i + 127 >= 0 {
    for j = i + 1 to 2*i - 3 step 2 {
      B[i - j + 5] = f0(f1(A[i, -j, 0]), 2*i - j - 32768)
      B[0] = i
    }
  }
  B[0] = -i
}
";
    assert_eq!(disassemble(&asm(text)).as_deref(), Ok(text));
}

/// Each head with the version and the operators it stands for.
#[test]
fn marks_and_versions() {
    for (head, version, operators) in [
        ("op f0/2\n", 1, &[2][..]),
        ("op f0/2*\n", 2, &[0x82]),
        ("op f0/1\nop f1/2*\nop f2/2\n", 2, &[1, 0x82, 2]),
        ("version 2\n", 2, &[]),
        ("version 2\nop f0/2\n", 2, &[2]),
    ] {
        let text = format!("{head}array A in [1]\n");
        let bytes = asm(&text);
        assert_eq!(bytes[3..6], [version, 0, operators.len() as u8], "{head}");
        assert_eq!(bytes[6..6 + operators.len()], *operators, "{head}");
        assert_eq!(disassemble(&bytes).as_deref(), Ok(text.as_str()));
    }
    // Said though it is so anyway.
    let rest = "op f/2* array A in [1]";
    assert_eq!(asm(&format!("version 2 {rest}")), asm(rest));
    assert_eq!(asm("version 1 array A in [1]"), asm("array A in [1]"));
    assert_eq!(asm("op f / 2 * array A in [1]"), asm(rest));
}

/// The word has its meaning only before everything else, with a number behind it.
#[test]
fn version_is_no_reserved_word() {
    let text = |name: &str| {
        format!(
            "op {name}0/1 array {name} out [3]
            for {name}1 = 0 to 2 {{ {name}[{name}1] = {name}0({name}1) }}"
        )
    };
    assert_eq!(asm(&text("version")), asm(&text("A")));
    assert_eq!(asm(&format!("# 1\n\nversion 0x2 {}", text("version")))[3..5], [2, 0]);
    assert_eq!(error("version[0] = 1"), (1, 1, "array 'version' is not declared".to_string()));
}

/// Neither a version nor a statement.
#[test]
fn a_version_out_of_place() {
    let message = "'version NUMBER' stands once, before all declarations";
    check_errors(
        "",
        &[
            (1, 1, "version", message),
            (1, 1, "version two", message),
            (1, 1, "version = 2", message),
            (1, 11, "version 2 version 1 array A in [1]", message),
            (2, 1, "version 2\nversion\n", message),
            (1, 16, "array A in [1] version 2", message),
            (2, 3, "op f/2*\n  version 2\narray A in [1]", message),
            (2, 1, "array A out [1] A[0] = 1\nversion 2", message),
            (1, 34, "array A out [1] for i = 0 to 1 { version 2 }", message),
            (1, 16, "array A in [1] version[0] = 1", "array 'version' is not declared"),
            (1, 24, "array A out [1] A[0] = version[0]", "array 'version' is not declared"),
            (1, 31, "array version out [1] version 2", "expected '[', found 2"),
        ],
    );
}

#[test]
fn the_readme_example() {
    let readme = include_str!("../README.md");
    let (_, notation) = readme.split_once("## Notation\n\n").unwrap();
    let text: Vec<_> = notation.lines().take_while(|line| line.starts_with("    ")).collect();
    assert!(text.len() > 10);
    let bytes = asm(&text.join("\n"));
    let again = disassemble(&bytes).unwrap();
    assert_eq!(asm(&again), bytes);
    assert!(again.contains("C[i, j + 1] = f1(C[i, j + 1], 2*i - j + 1, -3)"), "{again}");
}

const NEST: &str = "op f/2* op g/1 array A in [4] array B out [4]
    for x = 0 to 3 { B[x] = f(A[x], const 7) for y = 0 to x { B[y] = g(B[x]) } }";

#[test]
fn given_names() {
    let bytes = asm(NEST);
    let expected = "op add/2*
op neg/1
array a_1 in [4]
array version out [4]
for i = 0 to 3 step 1 {
  version[i] = add(a_1[i], const 7)
  for j = 0 to i step 1 {
    version[j] = neg(version[i])
  }
}
";
    let named = disassemble_with_names(&bytes, &["add", "neg", "a_1", "version"]);
    assert_eq!(named.as_deref(), Ok(expected));
    assert_eq!(asm(expected), bytes);
    // Those of `dis` give its text.
    assert_eq!(
        disassemble_with_names(&bytes, &["f0", "f1", "A", "B"]),
        Ok(disassemble(&bytes).unwrap())
    );
    // Words of the notation that are not reserved.
    let named = disassemble_with_names(&bytes, &["version", "in", "_", "inout"]).unwrap();
    assert_eq!(asm(&named), bytes);
}

/// Indices get names that are not given.
#[test]
fn given_names_and_indices() {
    let bytes = asm(NEST);
    for (names, loops) in [
        (["i", "f", "A", "B"], ["for j = ", "for k = "]),
        (["f", "j", "A", "B"], ["for i = ", "for k = "]),
        (["f", "g", "k", "i"], ["for j = ", "for l = "]),
        (["f", "g", "I", "i0"], ["for i = ", "for j = "]),
    ] {
        let text = disassemble_with_names(&bytes, &names).unwrap();
        assert!(loops.iter().all(|head| text.contains(head)), "{text}");
        assert_eq!(asm(&text), bytes);
    }
    // Eight loops, and all of their letters given.
    let loops: String = (0..8).map(|k| format!("for x{k} = 0 to 0 {{ ")).collect();
    let arrays: String = (0..8).map(|k| format!("array A{k} out [1] ")).collect();
    let bytes = asm(&format!("{arrays}{loops}A0[x7 + x0] = x3{}", "}".repeat(8)));
    let names = ["i", "j", "k", "l", "m", "n", "o", "p"];
    let text = disassemble_with_names(&bytes, &names).unwrap();
    assert!(text.contains("i[i0 + i7] = i3"), "{text}");
    assert_eq!(asm(&text), bytes);
    let text = disassemble_with_names(&bytes, &["i", "j", "i0", "l", "m", "n", "o", "i3"]).unwrap();
    assert!(text.contains("i[k + i7] = i2"), "{text}");
    assert_eq!(asm(&text), bytes);
}

/// Random programs of any nesting, with names that indices would have too.
#[test]
fn random_programs_with_given_names() {
    let letters = ["j", "p", "i0", "f0", "A", "i", "_", "m", "k", "B"];
    let more: Vec<_> = (0..30).map(|number| format!("x{number}")).collect();
    let names: Vec<_> = letters.into_iter().chain(more.iter().map(String::as_str)).collect();
    let mut texts = 0;
    for input in Pairs::new(12).take(300) {
        let Ok((program, _)) = separate::input::split(&input) else { continue };
        let Ok(read) = read_program(program) else { continue };
        let count = read.tables.operators().len() + read.tables.arrays().len();
        let text = disassemble_with_names(program, &names[..count]).unwrap();
        assert_eq!(asm(&text), program, "{text}");
        texts += 1;
    }
    assert!(texts > 150);
}

/// What `asm` would refuse, and a wrong number of names.
#[test]
fn names_that_are_not_taken() {
    let bytes = asm(NEST);
    let letters = "that is an ASCII letter or '_', then ASCII letters, digits and '_'";
    let no_name = |name: &str| format!("{name:?} is no name: {letters}");
    for (names, message) in [
        (vec![], "0 names given for 2 operators and 2 arrays".to_string()),
        (vec!["f", "g", "A"], "3 names given for 2 operators and 2 arrays".to_string()),
        (vec!["f", "g", "A", "B", "C"], "5 names given for 2 operators and 2 arrays".to_string()),
        (vec!["f", "f", "A", "B"], "'f' is given twice".to_string()),
        (vec!["f", "g", "A", "A"], "'A' is given twice".to_string()),
        (vec!["f", "g", "A", "g"], "'g' is given twice".to_string()),
        (vec!["f", "for", "A", "B"], "'for' is reserved: it names nothing".to_string()),
        (vec!["f", "g", "A", "const"], "'const' is reserved: it names nothing".to_string()),
        (vec!["", "g", "A", "B"], no_name("")),
        (vec!["f", "2", "A", "B"], no_name("2")),
        (vec!["f", "2g", "A", "B"], no_name("2g")),
        (vec!["f", "g", "A ", "B"], no_name("A ")),
        (vec!["f", "g", " A", "B"], no_name(" A")),
        (vec!["f", "g", "A#", "B"], no_name("A#")),
        (vec!["f", "g", "A", "B\n"], no_name("B\n")),
        (vec!["f", "g", "A", "größe"], no_name("größe")),
        (vec!["f/2", "g", "A", "B"], no_name("f/2")),
    ] {
        assert_eq!(disassemble_with_names(&bytes, &names), Err(message), "{names:?}");
    }
    assert_eq!(disassemble_with_names(&L[..33], &["A", "B"]), Err("refused 3 33".to_string()));
}

#[test]
fn a_literal_and_a_constant() {
    let text = "op f0/3 array A in [2] array B out [2]
        for i = 0 to 1 step 1 { B[i] = f0(A[i], 3, const 7) }";
    let again = disassemble(&asm(text)).unwrap();
    assert!(again.contains("B[i] = f0(A[i], 3, const 7)"), "{again}");
}

#[test]
fn forms_may_be_written_in_any_order() {
    let with = |form: &str| {
        asm(&format!("array A out [9] for i = 0 to 1 {{ for k = 0 to 1 {{ A[0] = {form} }} }}"))
    };
    let base = with("2*i - k + 1");
    for form in ["1 - k + 2*i", "i + 1 - k + i", "-k + 4*i - 2*i + 3 - 2", "2 * i-k+1"] {
        assert_eq!(with(form), base, "{form}");
    }
    assert_ne!(with("2*k - i + 1"), base);
}

#[test]
fn random_programs_go_both_ways() {
    let mut readable = 0;
    for input in Pairs::new(77).take(1_500) {
        let left = usize::from(u16::from_le_bytes([
            *input.first().unwrap_or(&0),
            *input.get(1).unwrap_or(&0),
        ]));
        let Some((left, right)) = input.get(2..).and_then(|rest| rest.split_at_checked(left))
        else {
            continue;
        };
        for program in [left, right] {
            let Ok(text) = disassemble(program) else { continue };
            assert_eq!(assemble(&text).as_deref(), Ok(program), "{text}");
            readable += 1;
        }
    }
    assert!(readable > 1_500, "{readable}");
}

#[test]
fn trees_go_both_ways() {
    let text = "op f0/1\narray A inout [3]\nfor i = 0 to 2 step 1 {\n  A[i] = f0(A[-i + 2])\n}\n";
    let source = parse(text).unwrap();
    assert_eq!(print(&source), text);
    let bytes = encode(&source).bytes;
    assert_eq!(Source::of(&read_program(&bytes).unwrap()), source);
}

fn error(text: &str) -> (usize, usize, String) {
    let error = assemble(text).expect_err("an error");
    (error.at.line, error.at.column, error.message)
}

const JOINED: &str = "values are joined by declared operators alone, as in f(A[0], 1); \
                      + and - stand in sums of numbers and indices";
const SUM: &str = "a sum has numbers and indices alone, and values are joined by declared \
                   operators, as in f(A[0], 1)";
const PRODUCT: &str = "a product is NUMBER*INDEX, as 2*i: the number first, and no other factor";

/// Each text with the line and column of its error, and the message.
fn check_errors(head: &str, cases: &[(usize, usize, &str, &str)]) {
    for &(line, column, wrong, message) in cases {
        assert_eq!(
            error(&format!("{head}{wrong}")),
            (line, column, message.to_string()),
            "{wrong:?}"
        );
    }
}

#[test]
fn errors_of_declarations() {
    check_errors(
        "op f/2\narray A in [2]\n",
        &[
            (3, 1, "? ", "'?' is no sign of the notation and begins no name or number"),
            (3, 6, "op g/256", "the arity 256 is outside 0 to 255 (1 to 4 are allowed)"),
            (3, 6, "op g/-1", "the arity -1 is outside 0 to 255 (1 to 4 are allowed)"),
            (3, 6, "op g/x", "expected a number, the arity, found 'x'"),
            (
                3,
                7,
                "op g/3*",
                "'*' behind the arity 3: two arguments may swap, op g/2*, and no others",
            ),
            (
                3,
                8,
                "op g/0 *",
                "'*' behind the arity 0: two arguments may swap, op g/2*, and no others",
            ),
            (3, 5, "op g*/2", "expected '/', found '*'"),
            (3, 8, "op g/2**", "expected a statement, 'for' or 'if', found '*'"),
            (
                3,
                6,
                "op g/0x82",
                "the arity 130 has no byte: 82 hex is that of an operator whose two arguments may \
                 swap, op g/2*",
            ),
            (3, 5, "op g(2)", "expected '/', found '('"),
            (3, 4, "op step/1", "'step' is reserved: it names nothing"),
            (3, 4, "op f/1", "'f' already names an operator"),
            (3, 4, "op A/1", "'A' already names an array"),
            (3, 4, "op 7/1", "expected a name, found 7"),
            (3, 9, "array C with [1]", "expected 'in', 'out', 'inout' or 'local', found 'with'"),
            (3, 7, "array A in [1]", "'A' already names an array"),
            (3, 12, "array C in 4", "expected '[', found 4"),
            (3, 13, "array C in []", "expected a number, the extent, found ']'"),
            (
                3,
                13,
                "array C in [65536]",
                "the extent 65536 is outside 0 to 65535 (1 to 1024 are allowed)",
            ),
            (3, 15, "array C in [4 5]", "expected ',' or ']', found 5"),
            (
                3,
                13,
                "array C in [99999999999]",
                "the number 99999999999 is beyond 4294967295, the largest there is",
            ),
            (3, 6, "op g/0x1G", "'0x1G' is neither a number (12, 0x1F) nor a name"),
            (3, 6, "op g/0x", "'0x' is neither a number (12, 0x1F) nor a name"),
            (4, 1, "op g/1\n}", "this '}' closes nothing"),
            (4, 1, "op g/1\n12 = 3", "expected a statement, 'for' or 'if', found 12"),
        ],
    );
    check_errors(
        "",
        &[
            (
                1,
                9,
                "version 65536",
                "the version 65536 is outside 0 to 65535 (1 and 2 are allowed)",
            ),
            (2, 1, "version\n-1", "the version -1 is outside 0 to 65535 (1 and 2 are allowed)"),
            (1, 11, "version - x", "expected a number, the version, found 'x'"),
        ],
    );
    let many: String = (0..256).map(|number| format!("op f{number}/1\n")).collect();
    let message = "256 operators: their count is outside 0 to 255 (up to 16 are allowed)";
    assert_eq!(error(&many), (256, 1, message.to_string()));
    let many: String = (0..256).map(|number| format!("array A{number} in [1]\n")).collect();
    let message = "256 arrays: their count is outside 0 to 255 (up to 16 are allowed)";
    assert_eq!(error(&many), (256, 1, message.to_string()));
    let many = format!("array A in [1{}]", ", 1".repeat(255));
    let message = "256 dimensions: outside 0 to 255 (1 to 3 are allowed)";
    assert_eq!(error(&many), (1, 7, message.to_string()));
}

#[test]
fn errors_of_items() {
    check_errors(
        "op f/2\narray A in [2]\narray B out [2]\n",
        &[
            (4, 1, "C[0] = 1", "array 'C' is not declared"),
            (4, 1, "f[0] = 1", "'f' is an operator: it is applied as f(..)"),
            (5, 1, "for i = 0 to 1 {\ni = 2 }", "'i' is an index, not an array"),
            (4, 1, "B[0, 1] = 2", "2 subscripts for 'B', which has 1 dimension"),
            (4, 3, "B = 2", "expected '[', found '='"),
            (4, 3, "B[] = 2", "expected a number or an index, found ']'"),
            (4, 5, "B[0 = 2", "expected ',' or ']', found '='"),
            (4, 6, "B[0] 2", "expected '=', found 2"),
            (4, 3, "B[i] = 2", "'i' is no index: no loop encloses this"),
            (
                4,
                14,
                "for i = 0 to i { }",
                "the start and end of the loop over 'i' do not see 'i' itself",
            ),
            (5, 5, "for i = 0 to 1 {\nfor i = 0 to 1 { } }", "'i' already names an index"),
            (4, 5, "for A = 0 to 1 { }", "'A' already names an array"),
            (4, 5, "for to = 0 to 1 { }", "'to' is reserved: it names nothing"),
            (4, 7, "for i 0 to 1 { }", "expected '=', found 0"),
            (4, 9, "for i = to 1 { }", "expected a number or an index, found 'to'"),
            (4, 11, "for i = 0 1 { }", "expected 'to', found 1"),
            (4, 16, "for i = 0 to 1 by 2 { }", "expected 'step' or '{', found 'by'"),
            (4, 21, "for i = 0 to 1 step 40000 { }", "the step 40000 is outside -32768 to 32767"),
            (4, 21, "for i = 0 to 1 step -32769 { }", "the step -32769 is outside -32768 to 32767"),
            (4, 21, "for i = 0 to 1 step x { }", "expected a number, the step, found 'x'"),
            (4, 23, "for i = 0 to 1 step 2 B[i] = 1", "expected '{', found 'B'"),
            (4, 9, "if 1 >= 1 { }", "expected 0 (a condition is written FORM >= 0), found 1"),
            (4, 6, "if 1 > 0 { }", "'>' is no sign: a condition is written FORM >= 0"),
            (4, 6, "if 1 = 0 { }", "expected '>=', found '='"),
            (5, 1, "for i = 0 to 1 {\n\n", "the '{' of line 4, column 16 is not closed"),
            (4, 18, "for i = 0 to 1 { 3 }", "expected a statement, 'for', 'if' or '}', found 3"),
            (4, 10, "B[0] = 1 }", "this '}' closes nothing"),
            (
                4,
                9,
                "B[0] = 1; B[1] = 2",
                "';' is no sign: statements follow each other without one",
            ),
            (
                5,
                1,
                "B[0] = 1\narray C in [1]",
                "a declaration behind an item: all declarations come first",
            ),
        ],
    );
}

#[test]
fn errors_of_expressions() {
    let head = "op f/2\narray A in [2]\narray B out [2]\n";
    let joined = |sign: char| format!("'{sign}' behind a value: {JOINED}");
    let is = |name: &str, kind: &str| format!("'{name}' is {kind}: {SUM}");
    let found =
        |token: &str| format!("expected a read, an operator, 'const' or a literal, found {token}");
    for (column, wrong, message) in [
        (8, "C[0]", "array 'C' is not declared".to_string()),
        (8, "g(1, 2)", "operator 'g' is not declared".to_string()),
        (8, "A(1)", "'A' is an array: it is read as A[..]".to_string()),
        (8, "f[1]", "'f' is an operator: it is applied as f(..)".to_string()),
        (8, "f(1)", "1 argument for 'f', whose arity is 2".to_string()),
        (8, "f(1, 2, 3)", "3 arguments for 'f', whose arity is 2".to_string()),
        (12, "f(1 2)", "expected ',' or ')', found 2".to_string()),
        (10, "f()", found("')'")),
        (8, "(1)", found("'('")),
        (8, "", found("'}'")),
        (13, "A[0] + 1", joined('+')),
        (15, "f(A[0] - 1, 2)", joined('-')),
        (16, "f(1, 2) * 3", joined('*')),
        (13, "A[0] / 2", joined('/')),
        (16, "const 7 + 1", joined('+')),
        (12, "1 + A[0]", is("A", "an array")),
        (12, "1 + f(1, 2)", is("f", "an operator")),
        (9, "-A[0]", is("A", "an array")),
        (10, "A[A[0]]", is("A", "an array")),
        (9, "i*2", PRODUCT.to_string()),
        (9, "i*i", PRODUCT.to_string()),
        (11, "2*i*3", PRODUCT.to_string()),
        (10, "2*3", "expected an index, found 3".to_string()),
        (12, "1 + + 2", "expected a number or an index, found '+'".to_string()),
        (9, "i/2", "'/' in a sum: there is no division".to_string()),
        (8, "k", "'k' is no index here: they are i".to_string()),
        (8, "40000", "the constant 40000 is outside -32768 to 32767".to_string()),
        (8, "i - 32769", "the constant -32769 is outside -32768 to 32767".to_string()),
        (8, "128*i", "the coefficient 128 of i is outside -128 to 127".to_string()),
        (8, "-128*i - i", "the coefficient -129 of i is outside -128 to 127".to_string()),
        (14, "const -1", "the name -1 is outside 0 to 4294967295".to_string()),
        (14, "const x", "expected a number, the name, found 'x'".to_string()),
        (8, "12x", "'12x' is neither a number (12, 0x1F) nor a name".to_string()),
    ] {
        let text = format!("{head}for i = 0 to 1 {{\nB[i] = {wrong}\n}}");
        let line = if wrong.is_empty() { 6 } else { 5 };
        let column = if wrong.is_empty() { 1 } else { column };
        assert_eq!(error(&text), (line, column, message), "{wrong:?}");
    }
}

/// Each stands at the start, between words, in a comment and at the end.
#[test]
fn characters_that_may_not_stand() {
    let allowed = "may not stand in a text, comments included: allowed are blank, tab, LF, CR LF \
                   and visible characters";
    // Control characters, blanks, line ends of other systems, signs without width, other orders.
    for character in "\0\u{1}\u{8}\u{b}\u{c}\r\u{e}\u{1b}\u{1c}\u{1f}\u{7f}\u{80}\u{85}\u{9f}\u{a0}\
         \u{ad}\u{61c}\u{115f}\u{1160}\u{1680}\u{180e}\u{2000}\u{2003}\u{200a}\u{200b}\u{200c}\u{200d}\
         \u{200e}\u{200f}\u{2028}\u{2029}\u{202a}\u{202e}\u{202f}\u{205f}\u{2060}\u{2064}\u{2066}\
         \u{2069}\u{206f}\u{2800}\u{3000}\u{3164}\u{feff}\u{ffa0}\u{fff9}\u{1343f}\u{1d173}\u{e0001}\
         \u{e007f}"
        .chars()
    {
        let what = if character == '\r' { ", a CR without LF behind it," } else { "" };
        let sign = format!("U+{:04X}", u32::from(character));
        let mark = if character == '\u{feff}' { ", a byte order mark," } else { what };
        for (line, column, what, text) in [
            (1, 1, mark, format!("{character}array A in [2]")),
            (2, 1, what, format!("\r\n{character}array A in [2]")),
            (2, 6, what, format!("op f/1\narray{character}A in [2]")),
            (1, 19, what, format!("array A in [2] # \u{e9}{character}A[0] = 1\n? ")),
            (3, 3, what, format!("array A in [2]\n\n #{character}")),
        ] {
            let message = format!("{sign}{what} {allowed}");
            assert_eq!(error(&text), (line, column, message), "{text:?}");
        }
    }
    assert_eq!(error("array A in [2]\r\r\n").1, 15);
    let bare = "array A in [2] array B out [2] B[0] = A[0]";
    for other in [
        "\tarray A in [2]\r\narray B\tout [2]\r\n\r\nB[0] = A[0]\t",
        "array A in [2] array B out [2] # \u{e9} e\u{301} \u{6f22} \u{26a0}\u{fe0f} \u{1f600}\r\n B[0] = A[0]",
    ] {
        assert_eq!(asm(other), asm(bare), "{other:?}");
    }
}

/// Letters that look like others, and digits of other scripts.
#[test]
fn names_and_numbers_are_ascii() {
    for (line, column, wrong, sign) in [
        (1, 7, "array \u{391} in [2]", "'\u{391}' (U+0391)"),
        (1, 8, "array R\u{435}d in [2]", "'\u{435}' (U+0435)"),
        (2, 1, "array A in [2]\n\u{e9}[0] = 1", "'\u{e9}' (U+00E9)"),
        (1, 13, "array A in [\u{ff12}]", "'\u{ff12}' (U+FF12)"),
        (1, 15, "array A in [2]\u{ff03} comment", "'\u{ff03}' (U+FF03)"),
    ] {
        let message = format!(
            "{sign} may stand in comments alone: names are of ASCII letters, digits and '_'"
        );
        assert_eq!(error(wrong), (line, column, message), "{wrong:?}");
    }
}

#[test]
fn leading_zeros() {
    let head = "array A out [16]\n";
    for (column, wrong, number, right) in [
        (3, "A[007] = 1", "007", "7"),
        (3, "A[00] = 1", "00", "0"),
        (9, "A[0] = -01", "01", "1"),
        (8, "A[0] = 000", "000", "0"),
        (14, "A[0] = const 010", "010", "10"),
        (8, "A[0] = 00000000000000000000001", "00000000000000000000001", "1"),
        (27, "for i = 0 to 1 step 1 { A[01*i] = 1 }", "01", "1"),
        (9, "if 1 >= 00 { }", "00", "0"),
    ] {
        let message = format!("the number {number} has a leading zero: write {right}");
        assert_eq!(error(&format!("{head}{wrong}")), (2, column, message), "{wrong:?}");
    }
    let same = asm(&format!("{head}A[10] = const 0 A[0] = 0"));
    assert_eq!(asm(&format!("{head}A[0x0A] = const 0x00 A[0x0000] = 0x0")), same);
}

#[test]
fn deep_nesting_is_an_error_and_no_crash() {
    let head = "op f/1\narray A out [1]\n";
    for (open, close) in [("f(", ")"), ("if 0 >= 0 { ", "}")] {
        let (begin, end) = if close == ")" { ("A[0] = ", "1") } else { ("", "A[0] = 1") };
        let text =
            |deep: usize| format!("{head}{begin}{}{end}{}", open.repeat(deep), close.repeat(deep));
        assert!(assemble(&text(300)).is_ok());
        let (line, _, message) = error(&text(100_000));
        assert_eq!(
            (line, message.as_str()),
            (3, "nested more than 500 deep (8 and 12 are allowed)")
        );
    }
}

/// Every field of a program that `dis` wrote stands where its place says.
fn check_places(text: &str, bytes: &[u8]) {
    let lines: Vec<_> = text.lines().collect();
    let rows = places(text).unwrap();
    assert_eq!(rows.len(), encode(&parse(text).unwrap()).fields.len());
    for row in rows {
        let line = lines.get(row.at.line - 1).copied().unwrap_or("");
        let rest = line.get(row.at.column - 1..).unwrap_or("");
        let byte = bytes[row.place];
        let (kind, name) = row.what.split_once(' ').unwrap_or((&row.what, ""));
        let ok = match kind {
            "statement" => byte == 1 && rest.contains(" = "),
            "loop" => byte == 2 && rest.starts_with("for "),
            "guard" => byte == 3 && rest.starts_with("if "),
            "end" => byte == 0 && (rest == "}" || rest.is_empty()),
            "step" => line[..row.at.column - 1].ends_with("step "),
            "operator" | "array" if name == "count" => true,
            "version" => byte == 2 && rest == "2",
            "role" | "arity" | "target" | "array" => rest.starts_with(name),
            "operator" if name.is_empty() => byte == 0x11 && rest.starts_with('f'),
            "operator" => rest.starts_with(name),
            "dimensions" => rest.starts_with('['),
            "extent" => {
                u16::from_le_bytes([byte, bytes[row.place + 1]]).to_string() == {
                    rest.split([',', ']']).next().unwrap()
                }
            }
            "read" => byte == 0x10 && rest.starts_with(|c: char| c.is_ascii_uppercase()),
            "literal" => byte == 0x12,
            "constant" => byte == 0x13 && rest.starts_with("const "),
            _ => false,
        };
        assert!(ok, "{row:?} in {line:?}");
    }
}

#[test]
fn places_of_random_programs() {
    let mut checked = 0;
    for input in Pairs::new(78).take(600) {
        let Some(program) = input.get(2..) else { continue };
        let length = usize::from(u16::from_le_bytes([input[0], input[1]]));
        let Some(program) = program.get(..length) else { continue };
        let Ok(text) = disassemble(program) else { continue };
        check_places(&text, program);
        let with = disassemble_with_places(program).unwrap();
        assert_eq!(asm(&with), program);
        let bare: Vec<_> = with.lines().map(|line| line.split("  # at ").next().unwrap()).collect();
        let (last, bare) = bare.split_last().unwrap();
        assert_eq!(*last, format!("# end at {}", program.len() - 1));
        assert!(text.lines().eq(bare.iter().copied()));
        checked += 1;
    }
    assert!(checked > 400, "{checked}");
}

#[test]
fn places_of_program_l() {
    let expected = "array A in [2]  # at 7
array B out [2]  # at 11
for i = 0 to 1 step 1 {  # at 15
  B[i] = A[i]  # at 22
}  # at 32
# end at 33
";
    assert_eq!(disassemble_with_places(&L).as_deref(), Ok(expected));
    let second = common::l_with(&[(3, 2)]);
    let expected = format!("version 2  # at 3\n{expected}");
    assert_eq!(disassemble_with_places(&second), Ok(expected));
    let text = "array A in [2]\n\narray B out [2]\nfor i = 0 to 1 {\n  B[i] =\n    A[i]\n}\n";
    let rows: Vec<_> = places(text).unwrap();
    let row = |place: usize| {
        let row = rows.iter().rfind(|row| row.place <= place).unwrap();
        (row.at.line, row.at.column, row.what.as_str())
    };
    assert_eq!(row(11), (3, 7, "role B"));
    assert_eq!(row(15), (4, 1, "loop"));
    assert_eq!(row(20), (4, 16, "step"));
    assert_eq!(row(22), (5, 3, "statement"));
    assert_eq!(row(23), (5, 3, "target B"));
    assert_eq!(row(27), (6, 5, "read"));
    assert_eq!(row(32), (7, 1, "end"));
}

#[test]
fn places_of_counts() {
    let many: String = (0..17).map(|number| format!("op f{number}/1\n")).collect();
    let rows = places(&(many + "array A out [1]\n")).unwrap();
    assert_eq!((rows[0].place, rows[0].at.line, rows[0].what.as_str()), (5, 17, "operator count"));
    let rows = places("# first\nversion 9\nop f/1\nop g/2*\narray A out [1]\n").unwrap();
    let row = |number: usize| (rows[number].place, rows[number].at, rows[number].what.as_str());
    let at = |line, column| Position { line, column };
    assert_eq!(row(0), (3, at(2, 9), "version"));
    assert_eq!(row(1), (5, at(4, 1), "operator count"));
    assert_eq!(row(3), (7, at(4, 4), "arity g"));
    let rows = places("op f/1\n\nfor i = 0 to 1 { }").unwrap();
    assert_eq!((rows[2].place, rows[2].at.line, rows[2].what.as_str()), (7, 3, "array count"));
}

#[test]
fn names_of_declarations() {
    let text = "# first\nversion 2 array Blue in [4, 2]\n op mul/2* op add/3\narray T local [1]
array Out out [4] array _s1 inout [1] op zero/0\nT[0] = 1";
    let name = |Name { word, number, name, kind, at }| {
        format!("{word} {number} {name} {kind} {}.{}", at.line, at.column)
    };
    let rows: Vec<_> = names(text).unwrap().into_iter().map(name).collect();
    let expected = [
        "op 0 mul /2* 3.5",
        "op 1 add /3 3.15",
        "op 2 zero /0 5.42",
        "array 0 Blue in 2.17",
        "array 1 T local 4.7",
        "array 2 Out out 5.7",
        "array 3 _s1 inout 5.25",
    ];
    assert_eq!(rows, expected);
    assert_eq!(names(""), Ok(Vec::new()));
    let many: String = (0..255).map(|number| format!("array A{number} in [1, 2]\n")).collect();
    let rows = names(&many).unwrap();
    assert_eq!((rows.len(), rows[254].number, rows[254].name.as_str()), (255, 254, "A254"));
}

#[test]
fn statements_as_they_are_written() {
    let text = "array B in [2] # B[0] = 1
array A out [2]
for j = 0 to 1 { if j >= 0 {
  for i = 0 to 0 {
    A  [ j
      ] =\t# the target
   B[i]A[j]=0x0A } }
  A[-j + 1] = const 7 }\r
A[0]\r\n= A[ 1 ]";
    let row = |from, to, indices: &str, text: &str| Spelled {
        from,
        to,
        indices: indices.split_whitespace().map(str::to_string).collect(),
        text: text.to_string(),
    };
    let expected = [
        row(35, 47, "j i", "A [ j ] = B[i]"),
        row(47, 58, "j i", "A[j]=0x0A"),
        row(60, 70, "j", "A[-j + 1] = const 7"),
        row(71, 79, "", "A[0] = A[ 1 ]"),
    ];
    assert_eq!(statements(text).unwrap(), expected);
    assert_eq!(statements("array A in [1] for i = 0 to 1 { }"), Ok(Vec::new()));
}

/// As `dis --places` has them: each on a line of its own, up to the place of the next line.
#[test]
fn statements_of_random_programs() {
    let mut checked = 0;
    for input in Pairs::new(79).take(600) {
        let Some(program) = input.get(2..) else { continue };
        let length = usize::from(u16::from_le_bytes([input[0], input[1]]));
        let Some(program) = program.get(..length) else { continue };
        let Ok(text) = disassemble_with_places(program) else { continue };
        let lines: Vec<_> = text.lines().map(|line| line.split_once(" at ").unwrap()).collect();
        let mut around = Vec::new();
        let mut expected = Vec::new();
        for (line, next) in lines.iter().zip(&lines[1..]) {
            let words = line.0.trim_start().trim_end_matches(['#', ' ']);
            match words.split(' ').collect::<Vec<_>>()[..] {
                ["for", index, ..] => around.push(Some(index.to_string())),
                ["if", ..] => around.push(None),
                ["}"] => drop(around.pop()),
                ["version" | "op" | "array", ..] => {}
                _ => expected.push(Spelled {
                    from: line.1.parse().unwrap(),
                    to: next.1.parse().unwrap(),
                    indices: around.iter().flatten().cloned().collect(),
                    text: words.to_string(),
                }),
            }
        }
        assert_eq!(statements(&text).unwrap(), expected, "{text}");
        checked += expected.len();
    }
    assert!(checked > 2_000, "{checked}");
}

#[test]
fn programs_that_are_refused_can_be_written() {
    assert_eq!(
        common::refusal_of_text("array A out [1] for i = 0 to 1 step 0 { }"),
        Some((11, 16))
    );
    assert_eq!(common::refusal_of_text("array A in [1] A[0] = 1"), Some((13, 12)));
    assert_eq!(common::refusal_of_text(""), Some((7, 6)));
    assert_eq!(common::refusal_of_text("version 1 op f/2 op g/2* array A in [1]"), Some((6, 7)));
    assert_eq!(common::refusal_of_text("version 3 array A in [1]"), Some((5, 3)));
    assert_eq!(common::refusal_of_text("version 0 op f/5 array A in [1]"), Some((5, 3)));
}

#[test]
fn refused_programs_have_no_text() {
    assert_eq!(disassemble(&L[..30]), Err(Refusal { number: 3, place: 29 }));
    // Only reading counts: this one is refused when run.
    let unwritten = asm("array A out [1] A[0] = A[0]");
    assert!(disassemble(&unwritten).is_ok());
}
