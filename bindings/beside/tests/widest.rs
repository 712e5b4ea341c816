//! Forms as large as a file can make them, wherever a form stands.

use separate::limits::LIST_WORDS;
use separate::notation::assemble;

/// `inside` within loops x0, x1 and so on, each of one round, at these indices.
fn nest_at(indices: &[i32], inside: &str) -> Vec<u8> {
    let head = |(k, index): (usize, &i32)| format!("for x{k} = {index} to {index} {{ ");
    let heads: String = indices.iter().enumerate().map(head).collect();
    let ends = "}".repeat(indices.len());
    assemble(&format!("array A out [1] {heads}{inside}{ends}")).expect("a program")
}

/// The same with one index for all loops.
fn nest(loops: usize, index: i32, inside: &str) -> Vec<u8> {
    nest_at(&vec![index; loops], inside)
}

/// Constant and products with the coefficient -128.
fn form(loops: usize, constant: i32) -> String {
    let products: String = (0..loops).map(|k| format!(" - 128*x{k}")).collect();
    format!("{constant}{products}")
}

/// The updates of the list, or question and place; from both programs, which agree in each word.
fn unrolled(program: &[u8]) -> Result<Vec<u32>, (u8, usize)> {
    let (mut ours, mut theirs) = (vec![7; LIST_WORDS], vec![9; LIST_WORDS]);
    let answer = tengmua::unroll(program, &mut ours).map_err(|no| (no.question, no.place));
    let other = separate::unroll(program, &mut theirs).map_err(|no| (no.number, no.place));
    assert_eq!(answer.err(), other.err());
    assert_eq!(ours, theirs);
    answer.map(|count| ours[98..98 + 6 * count].to_vec())
}

const LOWEST: (i32, i32) = (32_767, -32_768); // index and constant
const HIGHEST: (i32, i32) = (-32_768, 32_767);

#[test]
fn literals() {
    for (ends, value) in [(HIGHEST, 33_587_199_i32), (LOWEST, -33_586_176)] {
        let program = nest(8, ends.0, &format!("A[0] = {}", form(8, ends.1)));
        assert_eq!(unrolled(&program), Ok(vec![1, 0, 0, 18, value as u32, 0]));
    }
}

#[test]
fn guards() {
    for (ends, passed) in [(HIGHEST, 1), (LOWEST, 0)] {
        let program = nest(7, ends.0, &format!("if {} >= 0 {{ A[0] = 1 }}", form(7, ends.1)));
        assert_eq!(unrolled(&program), Ok([1, 0, 0, 18, 1, 0].repeat(passed)));
    }
}

#[test]
fn subscripts_starts_and_ends() {
    for ends in [HIGHEST, LOWEST] {
        let eight = |text: String| unrolled(&nest(8, ends.0, &text)).expect_err("refused").0;
        assert_eq!(eight(format!("A[{}] = 1", form(8, ends.1))), 16);
        let seven = |text: String| unrolled(&nest(7, ends.0, &text)).expect_err("refused").0;
        assert_eq!(seven(format!("for y = {} to 0 {{ }}", form(7, ends.1))), 15);
        assert_eq!(seven(format!("for y = 0 to {} {{ }}", form(7, ends.1))), 15);
    }
}

/// The lowest or the highest number, by the bits of `mask`.
fn corners(mask: u32, lowest: i32, highest: i32) -> [i32; 8] {
    std::array::from_fn(|k| if mask >> k & 1 == 0 { lowest } else { highest })
}

/// Every choice of lowest and highest constants, coefficients and index values: the sums go up and down on their way, and are held
/// against sums of 64 bits.
#[test]
fn every_corner() {
    for chosen in 0..1 << 17 {
        let coefficients = corners(chosen, -128, 127);
        let indices = corners(chosen >> 8, -32_768, 32_767);
        let constant = corners(chosen >> 16, -32_768, 32_767)[0];
        let products: String =
            coefficients.iter().enumerate().map(|(k, c)| format!(" {c:+}*x{k}")).collect();
        let sum = coefficients.iter().zip(&indices).map(|(&c, &i)| i64::from(c) * i64::from(i));
        let value = i64::from(constant) + sum.sum::<i64>();
        let program = nest_at(&indices, &format!("A[0] = {constant}{products}"));
        assert_eq!(unrolled(&program), Ok(vec![1, 0, 0, 18, value as u32, 0]));
    }
}
