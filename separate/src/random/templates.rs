//! Programs of known shapes with random sizes: common loop nests, and programs
//! at or near the limits.

use super::programs::mark_some;
use super::Random;
use crate::notation::parse;
use crate::tree::Source;

fn source(text: &str) -> Source {
    parse(text).unwrap_or_else(|error| panic!("{error} in\n{text}"))
}

/// A loop nest as programs have them, of some tens or hundreds of updates.
pub fn nest(random: &mut Random) -> Source {
    let (n, m) = (random.between(3, 8), random.between(3, 8));
    let text = match random.below(7) {
        0 => jacobi(random.between(6, 16), random.between(1, 3)),
        1 => product(n, m, random.between(2, 6)),
        2 => running_sum(n * 2),
        3 => transposed_triangle(n),
        4 => stencil(n, m),
        5 => with_local(n * 2),
        _ => copy_backwards(n, m),
    };
    marked(&text, random)
}

fn marked(text: &str, random: &mut Random) -> Source {
    let mut source = source(text);
    mark_some(&mut source.operators, random);
    source
}

fn jacobi(points: i32, steps: i32) -> String {
    let (points, last) = (points, points - 2);
    format!(
        "op add/2 op mul/2 array A inout [{points}] array B out [{points}]
        for t = 1 to {steps} {{
          for i = 1 to {last} {{
            B[i] = mul(const 33333, add(add(A[i - 1], A[i]), A[i + 1]))
          }}
          for i = 1 to {last} {{ A[i] = B[i] }}
        }}"
    )
}

fn product(n: i32, m: i32, k: i32) -> String {
    let (rows, columns, inner) = (n - 1, m - 1, k - 1);
    format!(
        "op fma/3 array A in [{n}, {k}] array B in [{k}, {m}] array C inout [{n}, {m}]
        for i = 0 to {rows} {{ for j = 0 to {columns} {{ for k = 0 to {inner} {{
          C[i, j] = fma(A[i, k], B[k, j], C[i, j])
        }} }} }}"
    )
}

fn running_sum(n: i32) -> String {
    let last = n - 1;
    format!(
        "op add/2 array A in [{n}] array S out [{n}]
        S[0] = A[0]
        for i = 1 to {last} {{ S[i] = add(S[i - 1], A[i]) }}"
    )
}

fn transposed_triangle(n: i32) -> String {
    let last = n - 1;
    format!(
        "array A in [{n}, {n}] array B inout [{n}, {n}]
        for i = 0 to {last} {{ for j = 0 to i {{ B[i, j] = A[j, i] }} }}"
    )
}

fn stencil(n: i32, m: i32) -> String {
    let (rows, columns) = (n - 2, m - 2);
    format!(
        "op mean/4 array A inout [{n}, {m}]
        for i = 1 to {rows} {{ for j = 1 to {columns} {{
          A[i, j] = mean(A[i - 1, j], A[i, j - 1], A[i, j + 1], A[i + 1, j])
        }} }}"
    )
}

fn with_local(n: i32) -> String {
    let last = n - 1;
    format!(
        "op f/2 op g/1 array A inout [{n}] array T local [{n}]
        for i = 0 to {last} {{ T[i] = f(A[i], i) }}
        for i = {last} to 0 step -1 {{ A[i] = g(T[{last} - i]) }}"
    )
}

fn copy_backwards(n: i32, m: i32) -> String {
    let (rows, columns) = (n - 1, m - 1);
    format!(
        "array A in [{n}, {m}] array B out [{n}, {m}]
        for i = {rows} to 0 step -1 {{ for j = {columns} to 0 step -1 {{
          if i - j >= 0 {{ B[i, j] = A[i, j] }}
          if j - i - 1 >= 0 {{ B[i, j] = A[i, {columns} - j] }}
        }} }}"
    )
}

/// A program near one of the limits.
pub fn large(random: &mut Random) -> Source {
    let text = match random.below(7) {
        0 => many_rounds(random),
        1 => many_updates(random.between(1_000, 1_024), random.between(950, 1_024)),
        2 => many_nodes(random.between(2_000, 2_048)),
        3 => product(12, 12, random.between(9, 12)),
        4 => many_statements(random),
        5 => many_sums("out", random.between(1_000, 1_023), random.chance(50), THREE),
        _ => many_terms("out", random.between(1_000, 1_024), 0, 0),
    };
    marked(&text, random)
}

/// At most 65,536 rounds, of which few do anything.
fn many_rounds(random: &mut Random) -> String {
    let fewer = (random.between(230, 254), random.between(1, 256));
    let (outer, more) = if random.chance(30) { (255, 1) } else { fewer };
    format!(
        "op f/2 array A inout [64]
        for i = 1 to {outer} {{ for j = 1 to 256 {{
          if i - {outer} + 7 >= 0 {{ if j - 249 >= 0 {{
            A[-8*i + j + {shift}] = f(A[j - 249], i)
          }} }}
        }} }}
        for i = 1 to {more} {{ }}",
        shift = 8 * outer - 249,
    )
}

fn many_updates(first: i32, second: i32) -> String {
    let (first, second) = (first - 1, second.min(first) - 1);
    format!(
        "op f/2 array A inout [32, 32] array B out [1024]
        for i = 0 to {first} {{ B[i] = f(A[31, 0], i) }}
        for i = 0 to {second} {{ B[{second} - i] = B[i] }}"
    )
}

/// Four nodes for each update.
fn many_nodes(updates: i32) -> String {
    let last = updates - 1;
    format!(
        "op f/3 array A inout [64, 32]
        for i = 0 to 63 {{ for j = 0 to 31 {{ if {last} - 32*i - j >= 0 {{
          A[i, j] = f(A[i, j], A[63 - i, 31 - j], const 9)
        }} }} }}"
    )
}

/// A long file: one statement after another.
fn many_statements(random: &mut Random) -> String {
    let mut text = "op f/2 op g/1 array A inout [40]\n".to_string();
    for _ in 0..random.between(700, 1_020) {
        let [target, one, other] = [0; 3].map(|_| random.below(40));
        text += &format!("A[{target}] = f(A[{one}], g(A[{other}]))\n");
    }
    text
}

/// Twice `first` literals and a term for each, and a few terms more; a shift
/// makes them other literals. With 1,024 and nothing more: 4,096 terms. A and B
/// have the role, and elements that nothing writes.
fn many_terms(role: &str, first: i32, more: i32, shift: i32) -> String {
    let last = first - 1;
    let mut text = format!(
        "op f/1 array A {role} [1023] array B {role} [1024] array C out [1]
        for i = 0 to {last} {{ C[0] = f(i + {shift}) }}
        for i = 0 to {last} {{ B[i] = f(i + {}) }}
        ",
        shift + 1024,
    );
    for name in 0..more {
        text += &format!("A[0] = const {name}\n");
    }
    text
}

/// Three terms more than `many_sums` has, whichever way it swaps.
const THREE: &str = "A[0] = add(const 0, const 1)";

/// Twice so many sums of two literals each, which may swap. With 1,023 of them
/// 2,047 literals and 2,046 sums; the same the other way round adds none. A and
/// B as in `many_terms`.
fn many_sums(role: &str, sums: i32, swapped: bool, more: &str) -> String {
    let last = sums - 1;
    let [far, near] =
        if swapped { ["i + 1024, i", "i + 1, i"] } else { ["i, i + 1024", "i, i + 1"] };
    format!(
        "op add/2* array A {role} [1023] array B {role} [1024] array C out [1]
        for i = 0 to {last} {{ C[0] = add({far}) }}
        for i = 0 to {last} {{ B[i] = add({near}) }}
        {more}"
    )
}

/// Two programs that have 4,096 terms up to swaps, and with both orders more.
/// They are equal if the role is inout, and leave elements unwritten if it is
/// out.
pub fn as_many_terms_as_can_be(random: &mut Random, role: &str) -> (Source, Source) {
    let left = many_sums(role, 1_023, random.chance(50), THREE);
    let right = many_sums(role, 1_023, random.chance(50), "A[0] = add(const 1, const 0)");
    (source(&left), source(&right))
}

/// Two programs with too many terms together; each side alone may have enough.
pub fn too_many_terms(random: &mut Random) -> (Source, Source) {
    let other = random.between(1, 20_000);
    let role = *random.pick(&["out", "inout"]);
    let (left, right) = match random.below(4) {
        // 4,097 up to swaps, the last of them on the right.
        3 => {
            let last = *random.pick(&["A[1] = const 2", "A[1] = add(const 1, const 1)"]);
            let (one, other) = (random.chance(50), random.chance(50));
            let more = format!("{THREE} {last}");
            let right = many_sums(role, random.between(1, 1_023), other, &more);
            (many_sums(role, 1_023, one, THREE), right)
        }
        0 => (many_terms(role, 1_023, 5, 0), many_terms(role, 1_023, 0, 0)),
        1 => {
            let few = random.between(1, 30);
            (many_terms(role, 1_024, 0, 0), many_terms(role, few, 0, other))
        }
        _ => {
            let right = many_terms(role, random.between(530, 1_024), 0, other + 1_500);
            (many_terms(role, 1_022, 0, 0), right)
        }
    };
    let pair = (source(&left), source(&right));
    if random.chance(50) {
        (pair.1, pair.0)
    } else {
        pair
    }
}
