//! The pairs that are timed: programs in the notation of `separate`, and those of the growth tables. They are compared with all bits of
//! the mask, since some have inout arrays and no out array.

use separate::limits::PROGRAM_BYTES;
use separate::notation::assemble;
use separate::random::Pairs;
use separate::{Reply, Work};
use tengmua::{Chosen, ALL};

/// Two programs that are compared.
pub struct Pair {
    pub left: Vec<u8>,
    pub right: Vec<u8>,
}

/// A name for the table, and the pairs whose times are added up.
pub struct Workload {
    pub name: String,
    pub pairs: Vec<Pair>,
}

fn bytes(text: &str) -> Vec<u8> {
    assemble(text).unwrap_or_else(|error| panic!("{error} in\n{text}"))
}

fn workload(name: &str, left: &str, right: &str) -> Workload {
    let pair = Pair { left: bytes(left), right: bytes(right) };
    Workload { name: name.to_string(), pairs: vec![pair] }
}

macro_rules! example {
    ($name:literal) => {
        include_str!(concat!("../../../examples/", $name, ".txt"))
    };
}

/// Every workload of the table, in its order.
pub fn all(seed: u64) -> Vec<Workload> {
    let mut workloads = single();
    workloads.push(mixed(1_000, seed));
    workloads
}

/// Those of one pair.
pub fn single() -> Vec<Workload> {
    texts().iter().map(|(name, left, right)| workload(name, left, right)).collect()
}

fn texts() -> [(&'static str, String, String); 6] {
    [
        ("Jacobi 16x2, skewed", example!("jacobi").into(), example!("jacobi-tiled").into()),
        ("Jacobi 128x7, skewed", jacobi(128, 7), jacobi_skewed(128, 7)),
        ("blur 22x22, in 4x4 tiles", example!("blur").into(), example!("blur-tiled").into()),
        ("product 11x11x11, ijk and kij", product("ijk"), product("kij")),
        ("65,536 rounds, nested and flat", ROUNDS_NESTED.into(), ROUNDS_FLAT.into()),
        ("4,096 terms, last first", terms(1_024, false), terms(1_024, true)),
    ]
}

/// Programs whose lists are written, with their names: three of the longest files, as their updates are of other kinds, and a full
/// list, which has no file, since a node takes two bytes or more.
pub fn written() -> [(&'static str, Vec<u8>); 4] {
    let deep = format!("{}i{}", "f(".repeat(12), ")".repeat(12));
    [
        (
            "2,048 updates, 14,348 bytes",
            "array A out [1024] for i = 0 to 1 { for j = 0 to 1023 { A[j] = i } }".to_string(),
        ),
        (
            "629 updates in three dimensions, 16,379 bytes",
            "op f/2 array A in [16, 8, 8] array B inout [16, 8, 8]
            for i = 0 to 15 { for j = 0 to 7 { for k = 0 to 7 { if 628 - 64*i - 8*j - k >= 0 {
              B[i, j, k] = f(A[i, 7 - j, k], B[i, j, 7 - k])
            } } } }"
                .to_string(),
        ),
        (
            "6,864 nodes, 12 deep, 16,381 bytes",
            format!("op f/1 array A out [1024] for i = 0 to 527 {{ A[i] = {deep} }}"),
        ),
        (
            "full list: 2,048 updates, 8,192 nodes, refused with 29",
            "op f/3 array A out [1024]
            for i = 0 to 1 { for j = 0 to 1023 { A[j] = f(i, j, 7) } }"
                .to_string(),
        ),
    ]
    .map(|(name, text)| (name, bytes(&text)))
}

/// Pairs that differ, and the program whose explanation is timed.
pub struct Explained {
    pub workload: Workload,
    pub chosen: Chosen,
}

/// What is changed in the right program of each single pair, in their order: so that no pair gets too many terms.
const CHANGES: [(&str, &str); 6] = [
    ("const 33333", "const 33334"),
    ("= B[c - 2*t - 1]", "= A[c - 2*t - 1]"),
    ("B[y, x] =", "B[x, y] ="),
    ("fma(A[i, k], B[k, j]", "fma(B[k, j], A[i, k]"),
    ("array A inout [1]", "array A inout [1] A[0] = const 1"),
    ("f(i + 1024)", "f(i + 1023)"),
];

/// The single pairs, each with a change on the right; random pairs that differ; and the worst that there is to explain:
/// rounds without updates, which only the run goes through, beside nearly nothing.
pub fn explained(seed: u64) -> Vec<Explained> {
    let mut workloads: Vec<_> = texts()
        .iter()
        .zip(CHANGES)
        .map(|((name, left, right), (from, to))| workload(name, left, &right.replace(from, to)))
        .collect();
    workloads.push(differing(1_000, seed));
    let nothing = "array A inout [1]";
    workloads.push(workload("65,536 rounds beside none", nothing, &rounds_and_update()));
    let explained = |workload| Explained { workload, chosen: Chosen::Right };
    workloads.into_iter().map(explained).collect()
}

fn rounds_and_update() -> String {
    format!("{ROUNDS_NESTED} A[0] = const 1")
}

/// Random pairs, of which those that differ in some out or inout array are taken.
fn differing(count: usize, seed: u64) -> Workload {
    let mut work = Work::default();
    let mut differ = |pair: &Pair| {
        let reply = work.programs_masked(&pair.left, &pair.right, ALL);
        matches!(reply, Reply::Differs { .. })
    };
    let pairs = Pairs::new(seed).filter_map(|input| split(&input)).filter(|pair| differ(pair));
    Workload { name: format!("{count} mixed pairs"), pairs: pairs.take(count).collect() }
}

/// Both arrays are inout: the points at the ends are not written.
fn jacobi(points: i32, steps: i32) -> String {
    format!(
        "op add/2 op mul/2 array A inout [{points}] array B inout [{points}]
        for t = 1 to {steps} {{
          for i = 1 to {last} {{ B[i] = mul(const 33333, add(add(A[i - 1], A[i]), A[i + 1])) }}
          for i = 1 to {last} {{ A[i] = B[i] }}
        }}",
        last = points - 2,
    )
}

/// The same in waves: point i of time t at c = i + 2t, the copy back one behind.
fn jacobi_skewed(points: i32, steps: i32) -> String {
    format!(
        "op add/2 op mul/2 array A inout [{points}] array B inout [{points}]
        for c = 1 to {end} {{ for t = 0 to {last_step} {{
          if c - 2*t - 1 >= 0 {{ if {last} - c + 2*t >= 0 {{
            B[c - 2*t] =
              mul(const 33333, add(add(A[c - 2*t - 1], A[c - 2*t]), A[c - 2*t + 1]))
          }} }}
          if c - 2*t - 2 >= 0 {{ if {points} - 1 - c + 2*t >= 0 {{
            A[c - 2*t - 1] = B[c - 2*t - 1]
          }} }}
        }} }}",
        end = points - 1 + 2 * (steps - 1),
        last_step = steps - 1,
        last = points - 2,
    )
}

fn product(order: &str) -> String {
    let loops: String = order.chars().map(|index| format!("for {index} = 0 to 10 {{ ")).collect();
    format!(
        "op fma/3 array A in [11, 11] array B in [11, 11] array C inout [11, 11]
        {loops} C[i, j] = fma(A[i, k], B[k, j], C[i, j]) }} }} }}"
    )
}

const ROUNDS_NESTED: &str = "array A inout [1] for i = 1 to 256 { for j = 1 to 255 { } }";
const ROUNDS_FLAT: &str =
    "array A inout [1] for i = 0 to 32767 { } for i = 0 to -32767 step -1 { }";

/// Four terms for each of `count`: two literals, and an operator over each.
fn terms(count: i32, backwards: bool) -> String {
    let last = count - 1;
    let range = if backwards { format!("{last} to 0 step -1") } else { format!("0 to {last}") };
    format!(
        "op f/1 array B out [{count}] array C out [{count}]
        for i = {range} {{ B[i] = f(i) }}
        for i = {range} {{ C[i] = f(i + 1024) }}"
    )
}

/// Random pairs, as the differential test has them; what is badly framed is left out.
fn mixed(count: usize, seed: u64) -> Workload {
    let pairs = Pairs::new(seed).filter_map(|input| split(&input)).take(count);
    Workload { name: format!("{count} mixed pairs"), pairs: pairs.collect() }
}

/// As many mixed pairs without those that have a program too long for a batch, which would end it.
pub fn batched(count: usize, seed: u64) -> Workload {
    let fits = |pair: &Pair| pair.left.len().max(pair.right.len()) <= PROGRAM_BYTES;
    let pairs = Pairs::new(seed).filter_map(|input| split(&input)).filter(fits).take(count);
    Workload { name: format!("{count} mixed pairs"), pairs: pairs.collect() }
}

/// The pairs as the program `batch` reads them.
pub fn batch_of(pairs: &[Pair]) -> Vec<u8> {
    let length = |program: &[u8]| u16::try_from(program.len()).expect("16 bits").to_le_bytes();
    let bytes =
        |Pair { left, right }: &Pair| [&length(left)[..], &length(right), left, right].concat();
    pairs.iter().flat_map(bytes).collect()
}

/// The two programs of a framed input.
pub fn split(input: &[u8]) -> Option<Pair> {
    let (length, rest) = input.split_first_chunk()?;
    let (left, right) = rest.split_at_checked(u16::from_le_bytes(*length) as usize)?;
    Some(Pair { left: left.to_vec(), right: right.to_vec() })
}

/// A quantity that grows, and the pair for each of its sizes.
pub struct Growth {
    pub name: &'static str,
    pub sizes: Vec<(usize, Pair)>,
}

fn doubling(from: usize, to: usize) -> impl Iterator<Item = usize> {
    std::iter::successors(Some(from), |size| Some(size * 2)).take_while(move |&size| size <= to)
}

fn growth(name: &'static str, from: usize, to: usize, text: impl Fn(usize) -> String) -> Growth {
    let both = |size| (size, Pair { left: bytes(&text(size)), right: bytes(&text(size)) });
    Growth { name, sizes: doubling(from, to).map(both).collect() }
}

pub fn growths() -> Vec<Growth> {
    vec![
        growth("updates", 64, 2_048, |n| {
            format!("array A in [1] array B out [1] for i = 1 to {n} {{ B[0] = A[0] }}")
        }),
        growth("nodes", 256, 8_192, |n| {
            let rounds = n / 16;
            format!(
                "op f/4 op g/3 array A in [4] array B out [1]
                for i = 1 to {rounds} {{
                  B[0] = f(f(A[0], A[1], A[2], A[3]), f(A[0], A[0], A[1], A[1]),
                    g(A[1], A[2], A[3]), A[2])
                }}"
            )
        }),
        growth("rounds", 2_048, 65_536, |n| {
            let (one, other) = (n / 2 - 1, n / 2 - 1);
            format!("array A inout [1] for i = 0 to {one} {{ }} for i = 0 to {other} {{ }}")
        }),
        growth("terms", 128, 4_096, |n| terms(n as i32 / 4, false)),
    ]
}
