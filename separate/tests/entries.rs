//! Single entries: known values, and what random records reach.

mod common;
use std::collections::BTreeMap;

use common::L;
use separate::entries::line;
use separate::random::Records;

const MOST: usize = usize::MAX;

fn record(entry: u8, arguments: [usize; 6], lent: &[u8]) -> Vec<u8> {
    let arguments = arguments.map(|argument| (argument as u64).to_le_bytes());
    [&[entry], arguments.as_flattened(), lent].concat()
}

fn call(entry: u8, arguments: &[usize], lent: &[u8]) -> String {
    let argument = |k: usize| arguments.get(k).copied().unwrap_or(0);
    line(&record(entry, std::array::from_fn(argument), lent))
}

/// The tables of program L: an in and an out array of two elements.
fn l_row() -> [usize; 115] {
    let mut row = [0; 115];
    for (at, number) in [(17, 2), (19, 1), (34, 1), (35, 1), (50, 2), (53, 2), (99, 2), (100, 4)] {
        row[at] = number;
    }
    row
}

fn text(numbers: &[usize]) -> String {
    numbers.iter().map(|number| format!(" {number}")).collect()
}

#[test]
fn single_fields() {
    assert_eq!(call(1, &[0, 0], b""), "1 1");
    assert_eq!(call(1, &[MOST, 1], b"abc"), "1 0");
    assert_eq!(call(2, &[0x22, 1], b""), "2 290");
    assert_eq!(call(3, &[255], b""), "3 -1");
    assert_eq!(call(4, &[0x8000], b""), "4 -32768");
    assert_eq!(call(5, &[2], b"abc"), "5 1 99 3");
    assert_eq!(call(6, &[MOST], b"abc"), format!("6 0 3 {MOST}"));
    assert_eq!(call(7, &[0, 97], b"abc"), "7 0 10 0");
    assert_eq!(call(8, &[1], &[1, 0, 0]), "8 0 11 1");
    assert_eq!(call(8, &[0], &[0xFE, 0xFF]), "8 1 -2 2");
    assert_eq!(call(9, &[0, 2], b"ALP"), "9 1 5262401 3");
    assert_eq!(call(24, &[MOST], b"ALP"), format!("24 {MOST}"));
    assert_eq!(call(25, &[2], b"ALP"), "25 1");
    assert_eq!(call(25, &[MOST], b"ALP"), "25 0");
    assert_eq!(call(26, &[1], &[0, 0xFF, 0x7F]), "26 1 32767 3");
    assert_eq!(call(26, &[1], &[0, 0]), "26 0 3 1");
}

#[test]
fn parts_of_program_l() {
    let row = l_row();
    let bytes: Vec<_> = row.iter().flat_map(|&number| (number as u64).to_le_bytes()).collect();
    let lent = [&bytes[..], &L].concat();
    assert_eq!(call(14, &[2], &lent), "14 1");
    assert_eq!(call(13, &[MOST], &lent), "13 3");
    assert_eq!(call(18, &[27, 1], &lent), "18 1 1 32");
    assert_eq!(call(18, &[27, 8], &lent), "18 0 3 34");
    assert_eq!(call(18, &[27, 9], &lent), "18 0 12 27");
    assert_eq!(call(19, &[15, 8, 0], &lent), "19 1 34");
    assert_eq!(call(19, &[15, 0, 0], &lent), "19 0 12 15");
    for [left, loops] in [[9, 0], [8, 1], [3, 6], [8, 8], [MOST, 1]] {
        assert_eq!(call(19, &[15, left, loops], &lent), "19 0 12 15");
    }
    assert_eq!(call(19, &[33, 3, 5], &lent), "19 1 34");
    assert_eq!(call(20, &[24, 1], &L), "20 1 27 0 1 0 0 0 0 0 0 0");
    assert_eq!(call(20, &[33, 9], &L), "20 0 12 33 0 0 0 0 0 0 0 0 0");
    assert_eq!(call(21, &[16, 0, 2], &L), "21 1 20");
    assert_eq!(call(21, &[16, 8, MOST], &L), "21 0 3 34");
    assert_eq!(call(21, &[16, 8, 0], &L), "21 1 16");
    assert_eq!(call(21, &[16, 9, 0], &L), "21 0 12 16");
    assert_eq!(call(21, &[16, MOST, MOST], &L), "21 0 12 16");
    assert_eq!(call(22, &[], &L), format!("22 1 15{}", text(&row)));
    assert_eq!(call(22, &[], &L[..14]), format!("22 0 3 13{}", text(&[0; 115])));
    let long = [&L[..], &[0; 16_385 - 34]].concat();
    assert_eq!(call(22, &[], &long[1..]), format!("22 0 4 0{}", text(&[0; 115])));
    assert_eq!(call(22, &[], &long), format!("22 0 2 0{}", text(&[0; 115])));
    assert_eq!(call(23, &[], &L), "23 1");
    assert_eq!(call(23, &[], &L[..33]), "23 0 3 33");
}

/// A marked operator has two arguments, whatever file the tables are of; other numbers that end
/// alike are arities.
#[test]
fn marked_operators() {
    let mut row = l_row();
    row[..6].copy_from_slice(&[5, 2, 0x82, 0x182, 0x8000_0082, 0x83]);
    row[6] = 0x82;
    let bytes: Vec<_> = row.iter().flat_map(|&number| (number as u64).to_le_bytes()).collect();
    let leaf = [0x13, 0, 0, 0, 0];
    let lent = |leaves: usize| [&bytes[..], &[0x11, 1], &leaf.repeat(leaves)].concat();
    for (number, arity) in [(0, 2usize), (1, 2), (2, 0x182), (3, 0x8000_0082), (4, 0x83), (5, 0)] {
        assert_eq!(call(12, &[number], &bytes), format!("12 {arity}"));
    }
    let mut narrow = row;
    narrow[3] = 0x82;
    narrow[4] = 0x82;
    assert_eq!(call(17, &[], &bytes), format!("17{}", text(&narrow)));
    assert_eq!(call(18, &[0, 0], &lent(2)), "18 1 3 12");
    assert_eq!(call(18, &[0, 0], &lent(1)), "18 0 3 7");
    let program = common::asm("op f/1 op g/2* array A in [2] array B out [2]");
    let mut row = l_row();
    row[..3].copy_from_slice(&[2, 1, 0x82]);
    assert_eq!(call(22, &[], &program), format!("22 1 17{}", text(&row)));
    let first = [&program[..3], &[1], &program[4..]].concat();
    assert_eq!(call(22, &[], &first), format!("22 0 6 7{}", text(&[0; 115])));
    assert_eq!(call(23, &[], &program), "23 1");
    assert_eq!(call(23, &[], &first), "23 0 6 7");
}

/// Steps of a script: a code, and seven words.
fn script(steps: &[(u8, [u32; 7])]) -> Vec<u8> {
    let step = |(code, words): &(u8, [u32; 7])| {
        [vec![*code], words.iter().flat_map(|word| word.to_le_bytes()).collect()].concat()
    };
    steps.iter().flat_map(step).collect()
}

/// Zeros behind these words, up to 32,768.
fn sum(words: &[u32]) -> u32 {
    let add = |sum: u32, word: u32| sum.wrapping_mul(3).wrapping_add(word);
    (0..32_768).fold(0, |sum, k| add(sum, words.get(k).copied().unwrap_or(0)))
}

#[test]
fn the_store() {
    // The first two have the mix 0, so both go to bucket 0.
    let first = 0u32.wrapping_sub(19);
    let steps = script(&[
        (1, [9, 19, first, 0, 0, 0, 0]),
        (3, [9, 16, 0u32.wrapping_sub(16), 0, 0, 0, 0]),
        (1, [9, 19, first, 0, 0, 0, 0]),
        (5, [2, 0u32.wrapping_sub(16), 0, 0, 0, 0, 0]),
        (5, [1, 0u32.wrapping_sub(16), 0, 0, 0, 0, 0]),
        (5, [4_097, 0, 0, 0, 0, 0, 0]),
    ]);
    let words = [19, first, 0, 0, 0, 0, 0, 2, 16, 0u32.wrapping_sub(16), 0, 0, 0, 0, 1];
    let line = format!("30 1 1 1 2 2 1 2 1 1 1 1 0 1 0 {}", sum(&words));
    assert_eq!(call(30, &[32_768], &steps), line);
    let full = [2, 4].map(|code| [4_096, 4_097].map(|count| (code, [count, 19, 0, 0, 0, 0, 0])));
    let refused = script(&[full.as_flattened(), &[(5, [1, 0, 0, 0, 0, 0, 0])]].concat());
    assert_eq!(call(30, &[32_768], &refused), "30 0 24 0 24 4097 24 4097 24 1 0 0");
    assert_eq!(call(30, &[32_767], &refused), "30 0 25 0 25 4097 25 4097 25 0 25 0");
}

/// The link of the only term names itself: the walk ends, and a term is stored.
#[test]
fn a_chain_that_goes_round() {
    let first = 0u32.wrapping_sub(19);
    let stored = [0, 0, 0, 0, 0, 0, 1, 1];
    let lent =
        [&stored.map(u32::to_le_bytes).concat()[..], &script(&[(2, [1, 19, first, 0, 0, 0, 0])])];
    let words = [0, 0, 0, 0, 0, 0, 1, 2, 19, first, 0, 0, 0, 0, 1];
    let line = format!("30 1 2 2 {}", sum(&words));
    assert_eq!(call(30, &[32_768, 8, 33_000], &lent.concat()), line);
}

#[test]
fn pairs_and_lines() {
    let lent = [&[7, 0, 0, 0][..], &L, &L].concat();
    let enough = [34, 32_768, 33_000, 4_096, 32_768, 1];
    assert_eq!(call(31, &enough, &lent), "31 0 2 0 0 0 0");
    let short = [34, 2, 1, 0, 33_000, 0];
    assert_eq!(call(31, &short, &lent[4..]), "31 2 2 25 0 0 0 0 0");
    assert_eq!(call(32, &[0, 32_768, 32_768, 4_096, 32_768], b""), "32 2 3 1 0 0 0 0 0");
    let equal = b"equal 2\n".map(usize::from);
    assert_eq!(call(33, &[3, 2], b""), format!("33 8{}{}", text(&equal), text(&[0; 152])));
}

/// Program L beside one that writes cell 0 alone, under all bits.
fn lent_to_explain(side: u8) -> Vec<u8> {
    let mut right = L;
    right[18] = 0;
    [&[7, 0, 0, 0, 0xFF, 0xFF, side][..], &L, &right].concat()
}

#[test]
fn explanations() {
    let enough = [34, 32_768, 33_000, 4_096, 32_768, 1];
    let written = "34 0 0 0 0 1 1 22 32 1 1 0 0 0 0 0 0 0 0 0 0 0";
    assert_eq!(call(34, &enough, &lent_to_explain(0)), written);
    let starting = "34 1 0 0 0 1 1 0 0 0 0 0 0 0 0 0 0 0 0 0 0 0";
    for side in [1, 2, 255] {
        assert_eq!(call(34, &enough, &lent_to_explain(side)), starting);
    }
    let mut lent = lent_to_explain(0);
    lent[4] = 0xFD;
    let nothing = "34 2 2 27 0 0 0 0 0 0 0 0 0 0 0 0 0 0 0 0 0 0";
    assert_eq!(call(34, &enough, &lent), nothing);
    // Words 7, and 7 * 3 + 7; the others have none.
    let short = call(34, &[34, 1, 2, 0, 0, 1], &lent);
    assert_eq!(short, "34 2 2 25 0 0 0 0 0 0 0 0 0 0 0 0 0 0 7 28 0 0");
    for unfit in [[69, 0, 0, 0, 0, 1], [0, 33_001, 0, 0, 0, 1], [0, 0, 0, 0, 0, 19]] {
        assert_eq!(call(34, &unfit, &lent), "34 -");
    }
    assert_eq!(call(34, &[], &[0, 0]), "34 -");
    assert_eq!(call(34, &[], &[0, 0, 0]), "34 2 2 25 0 0 0 0 0 0 0 0 0 0 0 0 0 0 0 0 0 0");
}

/// The same pair, framed.
#[test]
fn explanations_of_framed_input() {
    let enough = [0, 32_768, 33_000, 4_096, 32_768, 0];
    let mut right = L;
    right[18] = 0;
    let lent = |side: u8| [&[side, 34, 0][..], &L, &right].concat();
    let written = "38 0 0 0 0 1 1 22 32 1 1 0 0 0 0 0 0 0 0 0 0 0";
    assert_eq!(call(38, &enough, &lent(0)), written);
    let starting = "38 1 0 0 0 1 1 0 0 0 0 0 0 0 0 0 0 0 0 0 0 0";
    assert_eq!(call(38, &enough, &lent(9)), starting);
    let refused = |refusal: &str| format!("38 2 {refusal} 0 0 0 0 0 0 0 0 0 0 0 0 0 0 0 0 0");
    assert_eq!(call(38, &enough, &[0]), refused("3 1 0"));
    assert_eq!(call(38, &enough, &[1, 34, 0, 9]), refused("3 1 0"));
    assert_eq!(call(38, &enough, &[1, 1, 64]), refused("0 2 0"));
    assert_eq!(call(38, &[], &lent(0)), refused("2 25 0"));
    assert_eq!(call(38, &enough, b""), "38 -");
}

/// An inout array before an out array, which both differ.
fn lent_under(mask: u16, head: &[u8]) -> Vec<u8> {
    let text = |items: &str| common::asm(&format!("array A inout [2] array B out [1] {items}"));
    let (left, right) = (text("B[0] = 1 A[1] = 4"), text("B[0] = 2"));
    [&[7, 0, 0, 0], &mask.to_le_bytes()[..], head, &common::frame(&left, &right)].concat()
}

#[test]
fn framed_input_under_a_mask() {
    let enough = [0, 32_768, 33_000, 4_096, 32_768, 1];
    for (mask, numbers) in
        [(0xFFFF, "1 0 1"), (1, "1 0 1"), (2, "1 1 0"), (0xFFFE, "1 1 0"), (0, "0 0"), (4, "0 0")]
    {
        let line = call(43, &enough, &lent_under(mask, &[]));
        assert_eq!(line, format!("43 {numbers} 0 0 0 0"), "{mask:#x}");
    }
    // The plain entry names the out element.
    assert_eq!(call(32, &enough[..5], &lent_under(0, &[])[6..]), "32 1 1 0 0 0 0 0");
    let lent = lent_under(0xFFFF, &[]);
    assert_eq!(call(43, &enough, &lent[..4]), "43 -");
    assert_eq!(call(43, &enough, &lent[..5]), "43 -");
    assert_eq!(call(43, &enough, &lent[..6]), "43 2 3 1 0 0 0 0 0");
    assert_eq!(call(43, &enough, &lent[..7]), "43 2 3 1 0 0 0 0 0");
    assert_eq!(call(43, &[0, 1, 2, 0, 0, 1], &lent), "43 2 2 25 0 7 28 0 0");
    assert_eq!(call(43, &[0, 33_001, 0, 0, 0, 1], &lent), "43 -");
}

#[test]
fn explanations_of_framed_input_under_a_mask() {
    let enough = [0, 32_768, 33_000, 4_096, 32_768, 1];
    let written = |array, cell, from, to| {
        format!("44 0 0 0 0 {array} {cell} {from} {to} 0 0 0 0 0 0 0 0 0 0 0 0 0")
    };
    for mask in [0xFFFF, 1] {
        assert_eq!(call(44, &enough, &lent_under(mask, &[0])), written(0, 1, 22, 29));
        let starting = "44 1 0 0 0 0 1 0 0 0 0 0 0 0 0 0 0 0 0 0 0 0";
        for side in [1, 2, 255] {
            assert_eq!(call(44, &enough, &lent_under(mask, &[side])), starting);
        }
    }
    for side in [0, 1] {
        assert_eq!(call(44, &enough, &lent_under(2, &[side])), written(1, 0, 15, 22));
        let lent = [&[side], &lent_under(0, &[])[6..]].concat();
        let plain = call(38, &enough[..5], &lent);
        assert_eq!(plain.replacen("38", "44", 1), written(1, 0, 15, 22));
    }
    let refused = |refusal: &str| format!("44 2 {refusal} 0 0 0 0 0 0 0 0 0 0 0 0 0");
    assert_eq!(call(44, &enough, &lent_under(4, &[0])), refused("2 27 0") + " 0 0 0 0");
    let lent = lent_under(0xFFFF, &[1]);
    for length in [4, 5, 6] {
        assert_eq!(call(44, &enough, &lent[..length]), "44 -");
    }
    assert_eq!(call(44, &enough, &lent[..7]), refused("3 1 0") + " 0 0 0 0");
    assert_eq!(call(44, &[0, 1, 2, 0, 0, 1], &lent), refused("2 25 0") + " 7 28 0 0");
    assert_eq!(call(44, &[0, 0, 0, 0, 0, 99], &lent), "44 -");
}

#[test]
fn stretches_and_origins() {
    assert_eq!(call(35, &[3, 0, 1, 3], b"abcde"), format!("35 2 {}", 3 * 98 + 99));
    assert_eq!(call(35, &[3, 7, 1, 2], b"abcde"), "35 1 101");
    assert_eq!(call(35, &[3, 0, 2, 1], b"abcde"), "35 0 0");
    assert_eq!(call(35, &[3, 1, 1, MOST], b"abcde"), "35 0 0");
    assert_eq!(call(35, &[6, 1, 1, 1], b"abcde"), "35 -");
    let lent = [&[7, 0, 0, 0][..], &L].concat();
    let call = |arguments: &[usize]| call(36, arguments, &lent);
    assert_eq!(call(&[1, 1, 32_768, 0, 0, 1]), "36 0 0 0 0 22 32 1 1 0 0 0 0 0 0 0 0");
    assert_eq!(call(&[1, MOST, 33_000, 0, 0, 1]), "36 1 0 0 0 0 0 0 0 0 0 0 0 0 0 0 0");
    assert_eq!(call(&[1, 1, 2, 0, 0, 1]), "36 2 2 25 0 0 0 0 0 0 0 0 0 0 0 0 28");
    assert_eq!(call(&[1, 1, 32_768, 0, 0, 0]), "36 2 0 4 0 0 0 0 0 0 0 0 0 0 0 0 0");
    assert_eq!(call(&[1, 1, 33_001, 0, 0, 1]), "36 -");
    assert_eq!(call(&[1, 1, 0, 0, 0, 10]), "36 -");
}

/// The line of a record as text, its length before it.
fn printed(line: &str) -> (usize, String) {
    let mut numbers = line.split(' ').skip(1).map(|number| number.parse::<usize>().unwrap());
    let length = numbers.next().unwrap();
    let bytes: Vec<_> = numbers.map(|byte| byte as u8).collect();
    assert_eq!(bytes.len(), 160);
    assert!(bytes[length..].iter().all(|&byte| byte == 0));
    (length, String::from_utf8(bytes[..length].to_vec()).unwrap())
}

#[test]
fn lines_of_explanations() {
    let indices = [0, 0, 0xFB, 0xFF, 0, 0x80, 9];
    let line = |arguments: &[usize]| printed(&call(37, arguments, &indices)).1;
    assert_eq!(line(&[0, 1, 0, 22, 33, 2]), "written 1 0 22 33 0 -5\n");
    // The fourth value is not there as a whole.
    let all = "written 1 0 22 33 0 -5 -32768 0 0 0 0 0\n";
    assert_eq!(line(&[3, 1, 0, 22, 33, 8]), all);
    assert_eq!(line(&[3, 1, 0, 22, 33, MOST]), all);
    assert_eq!(line(&[1, MOST, 3, 22, 33, 2]), format!("starting {MOST} 3\n"));
    assert_eq!(line(&[5, 6, 256 + 27, 4, 33, 2]), "refused both 27 4\n");
    let longest = call(37, &[0, MOST, MOST, MOST, MOST, 8], &[0, 0x80].repeat(8));
    assert_eq!(printed(&longest).0, 8 + 4 * 20 + 3 + 8 * 7 + 1);
}

#[test]
fn lengths_of_a_pair() {
    for (lent, numbers) in [
        (&[][..], "0"),
        (&[0], "1 2 3 1 0"),
        (&[0xFF; 2], "1 2 3 1 0"),
        (&[0xFF; 3], "1 2 3 1 0"),
        (&[0xFF; 4], "1 2 0 2 0"),
        (&[1, 64, 0, 0], "1 2 0 2 0"),
        (&[0, 64, 1, 64, 9], "1 2 1 2 0"),
        (&[0, 64, 0, 64], "2 16384 16384"),
        (&[0, 0, 0, 0, 9], "2 0 0"),
        (&[2, 1, 4, 3, 9, 9], "2 258 772"),
    ] {
        assert_eq!(call(39, &[], lent), format!("39 {numbers}"));
    }
}

/// Program L beside itself, with these lengths and behind a word of memory.
fn lent_pair(left: usize, right: usize, bytes: &[u8]) -> Vec<u8> {
    let lengths = [left, right].map(|length| (length as u64).to_le_bytes());
    [&[7, 0, 0, 0][..], lengths.as_flattened(), bytes].concat()
}

#[test]
fn one_pair_of_many() {
    let enough = [0, 32_768, 33_000, 4_096, 32_768, 1];
    let both = [L, L].concat();
    let more = [&both[..], b"more"].concat();
    let long = [0; 33_000];
    for (left, right, bytes, numbers) in [
        (34, 34, &both[..], "0 2 0"),
        (34, 34, &more, "0 2 0"),
        (34, 33, &both, "2 1 3 33 0"),
        (33, 35, &both, "2 0 3 33 0"),
        (0, 0, &both, "2 0 3 0 0"),
        (34, 35, &both, "2 3 1 0 1"),
        (69, 0, &both, "2 3 1 0 1"),
        (34, 34, &[], "2 3 1 0 1"),
        (0, 1, &[], "2 3 1 0 1"),
        (MOST, 1, &both, "2 3 1 0 1"),
        (1, MOST, &both, "2 3 1 0 1"),
        (34, MOST - 33, &both, "2 3 1 0 1"),
        (MOST, MOST, &both, "2 3 1 0 1"),
        (16_385, 0, &both, "2 3 1 0 1"),
        (16_385, 0, &long, "2 0 2 0 0"),
        (16_384, 16_385, &long, "2 0 4 0 0"),
        (16_384, 16_617, &long, "2 3 1 0 1"),
    ] {
        let line = call(40, &enough, &lent_pair(left, right, bytes));
        assert_eq!(line, format!("40 {numbers} 0 0 0 0"), "{left} {right} {}", bytes.len());
    }
    // 25 comes first, and says too whether the pair is cut. Words 7, and 7 * 3 + 7.
    let short = [0, 1, 2, 0, 33_000, 0];
    let sums = |last: usize| format!("40 2 2 25 0 {last} 0 0 0 0");
    assert_eq!(call(40, &short, &lent_pair(34, 34, &both)[4..]), sums(0));
    assert_eq!(call(40, &short, &lent_pair(34, 35, &both)[4..]), sums(1));
    let line = call(40, &[0, 1, 2, 0, 0, 1], &lent_pair(MOST, 1, &both));
    assert_eq!(line, "40 2 2 25 0 1 7 28 0 0");
    assert_eq!(call(40, &[0, 33_001], &lent_pair(34, 34, &both)), "40 -");
    assert_eq!(call(40, &[], &[0; 15]), "40 -");
    assert_eq!(call(40, &[], &[0; 16]), "40 2 2 25 0 0 0 0 0 0");
}

#[test]
fn totals_and_their_line() {
    let n = |number: usize| (number as u64).to_le_bytes();
    assert_eq!(call(41, &[9, 1, 2, 3, 4, 0], &n(5)), "41 10 2 2 3 9");
    assert_eq!(call(41, &[9, 1, 2, 3, 4, 4], &n(5)), "41 10 1 3 3 4");
    assert_eq!(call(41, &[9, 1, 2, 3, 4, MOST - 1], &n(5)), "41 10 1 2 4 4");
    let most = format!("41 {MOST} {MOST} {MOST} {MOST} {MOST}");
    for kind in 0..3 {
        assert_eq!(call(41, &[MOST, MOST, MOST, MOST, MOST, kind], &n(MOST)), most);
    }
    assert_eq!(call(41, &[0, 0, 0, 0, 5], &n(MOST - 4)), format!("41 1 1 0 0 {MOST}"));
    assert_eq!(call(41, &[0, 0, 0, 0, 5], &n(MOST)[..7]), "41 1 1 0 0 5");
    let line = |arguments: &[usize]| printed(&call(42, arguments, b""));
    let text = "pairs 6 equal 1 differs 2 refused 3 elements 40\n";
    assert_eq!(line(&[6, 1, 2, 3, 40, 9]), (48, text.to_string()));
    assert_eq!(line(&[MOST; 5]).0, 142);
}

#[test]
fn records_that_do_not_fit() {
    assert_eq!(line(&[]), "-");
    assert_eq!(line(&[5; 48]), "-");
    assert_eq!(call(0, &[], b""), "0 -");
    assert_eq!(call(10, &[], &[0; 919]), "10 -");
    assert_eq!(call(30, &[33_001], b""), "30 -");
    assert_eq!(call(31, &[1], b""), "31 -");
    assert_eq!(call(200, &[], b""), "200 -");
}

/// Counts by the first number of an answer, and of a "no" also its question.
#[test]
fn every_entry_is_reached_with_and_without_a_no() {
    let mut counts = BTreeMap::new();
    for record in Records::new(3).take(30_000) {
        let line = line(&record);
        let words: Vec<_> = line.split(' ').collect();
        let shown = if words.get(1) == Some(&"0") { 3 } else { 2 };
        *counts.entry(words[..shown.min(words.len())].join(" ")).or_insert(0usize) += 1;
    }
    let count = |kind: &str| counts.get(kind).copied().unwrap_or(0);
    for entry in [5, 6, 7, 8, 9, 18, 19, 20, 21, 22, 23, 26, 30] {
        assert!(count(&format!("{entry} 1")) >= 100, "{entry} in {counts:?}");
    }
    let noes = ["7 0 10", "8 0 11", "18 0 10", "18 0 12", "19 0 13", "20 0 12", "23 0 9"];
    let all = ["1 0", "1 1", "30 0 25", "31 1", "31 2", "32 1", "32 2", "34 0 0", "34 2"];
    let all = all.into_iter().chain(["34 -", "35 -", "36 0 0", "36 1", "36 2", "-"]);
    let all = all.chain(["38 0 0", "38 1", "38 2", "38 -", "43 0 0", "43 1", "43 2", "43 -"]);
    let all = all.chain(["44 0 0", "44 1", "44 2", "44 -"]);
    for kind in noes.into_iter().chain(all) {
        assert!(count(kind) >= 5, "{kind} in {counts:?}");
    }
}

/// The kind of a record of many pairs: what it asks, and what comes of it.
fn kind_of_many(record: &[u8]) -> Option<String> {
    let line = line(record);
    let words: Vec<_> = line.split(' ').collect();
    match (words[0], words.get(1..)?) {
        ("39", ["1", reply @ ..]) => Some(format!("39 no {}", reply.join(" "))),
        ("39", [kind, ..]) => Some(format!("39 {kind}")),
        ("40", ["2", side, number, _, last, ..]) => Some(format!("40 {side} {number} {last}")),
        ("40", [kind, ..]) => Some(format!("40 {kind}")),
        ("41", after) => {
            let kind = u64::from_le_bytes(record[41..49].try_into().unwrap()) % 3;
            let full = after.iter().any(|&total| total == MOST.to_string());
            Some(format!("41 {kind} {}", if full { "full" } else { "not full" }))
        }
        ("42", [length, ..]) => {
            Some(format!("42 {}0 to {0}9", length.parse::<usize>().unwrap() / 10))
        }
        _ => None,
    }
}

#[test]
fn records_of_many_pairs_reach_everything() {
    let mut counts = BTreeMap::new();
    for kind in Records::new(5).take(80_000).filter_map(|record| kind_of_many(&record)) {
        *counts.entry(kind).or_insert(0usize) += 1;
    }
    let count = |kind: &str| counts.get(kind).copied().unwrap_or(0);
    for kind in ["39 0", "39 2", "39 no 2 0 2 0", "39 no 2 1 2 0", "39 no 2 3 1 0", "40 0", "40 1"]
    {
        assert!(count(kind) >= 100, "{kind} in {counts:?}");
    }
    for kind in ["40 3 1 1", "40 2 25 0", "40 2 25 1", "40 0 3 0", "40 -"] {
        assert!(count(kind) >= 30, "{kind} in {counts:?}");
    }
    for kind in ["40 0 2 0", "40 1 2 0", "40 1 3 0", "40 0 16 0", "40 2 22 0", "40 2 24 0"] {
        assert!(count(kind) >= 5, "{kind} in {counts:?}");
    }
    for kind in 0..3 {
        for full in ["full", "not full"] {
            assert!(count(&format!("41 {kind} {full}")) >= 50, "{kind} {full} in {counts:?}");
        }
    }
    for tens in 5..=14 {
        assert!(count(&format!("42 {tens}0 to {tens}9")) >= 3, "{tens} in {counts:?}");
    }
}

/// An operator of the tables that a record lends.
fn lent_operator(record: &[u8], number: usize) -> Option<u64> {
    let word = |k: usize| record.get(49 + 8 * k..)?.first_chunk().map(|&b| u64::from_le_bytes(b));
    (number < word(0)?.min(16) as usize).then(|| word(1 + number))?
}

/// Marks, and what is a mark but for some bits, reach each entry that looks at operators.
#[test]
fn tables_of_records_have_marks() {
    let (mut arities, mut nested, mut near, mut read) = (0, 0, 0, 0);
    for record in Records::new(4).take(30_000) {
        let line = line(&record);
        let argument = record.get(1..).and_then(|rest| rest.first_chunk());
        let argument = argument.map_or(MOST, |&argument| usize::from_le_bytes(argument));
        match record.first() {
            Some(12) if lent_operator(&record, argument) == Some(0x82) => {
                assert_eq!(line, "12 2");
                arities += 1;
            }
            Some(12) => {
                let operator = lent_operator(&record, argument);
                let bits = [0x80, 0x83, 0x182, 0x8200, 0x1_0000_0082];
                near += usize::from(operator.is_some_and(|operator| bits.contains(&operator)));
            }
            Some(18 | 19) => {
                let marked = (0..16).any(|k| lent_operator(&record, k) == Some(0x82));
                nested += usize::from(marked && line[2..].starts_with(" 1 "));
            }
            Some(22) => read += usize::from(line.starts_with("22 1 ") && line.contains(" 130 ")),
            _ => {}
        }
    }
    assert!(
        arities > 50 && nested > 200 && near > 5 && read > 20,
        "{arities} {nested} {near} {read}"
    );
}

#[test]
fn a_seed_fixes_the_records() {
    let first: Vec<_> = Records::new(9).take(100).collect();
    assert_eq!(first, Records::new(9).take(100).collect::<Vec<_>>());
    assert_ne!(first, Records::new(10).take(100).collect::<Vec<_>>());
}
