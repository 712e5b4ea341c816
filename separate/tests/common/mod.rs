//! What several tests use. Each test file uses only some of it.
#![allow(dead_code)]

use separate::compare::ALL;
use separate::limits::LIST_WORDS;
use separate::{line_of, notation, unroll, Refusal, Work};

/// The example of docs/FORMAT.md, called L.
pub const L: [u8; 34] = [
    0x41, 0x4C, 0x50, 0x01, 0x00, 0x00, 0x02, 0x00, 0x01, 0x02, 0x00, 0x01, 0x01, 0x02, 0x00, 0x02,
    0x00, 0x00, 0x01, 0x00, 0x01, 0x00, 0x01, 0x01, 0x00, 0x00, 0x01, 0x10, 0x00, 0x00, 0x00, 0x01,
    0x00, 0x00,
];

/// L with some bytes set.
pub fn l_with(changes: &[(usize, u8)]) -> Vec<u8> {
    let mut bytes = L.to_vec();
    for &(at, byte) in changes {
        bytes[at] = byte;
    }
    bytes
}

pub fn frame(left: &[u8], right: &[u8]) -> Vec<u8> {
    [&(left.len() as u16).to_le_bytes(), left, right].concat()
}

/// The line for a framed input.
pub fn line_for(input: &[u8]) -> String {
    line_of(Work::default().input(input)).to_string()
}

/// The line for two programs, in their out arrays.
pub fn line(left: &[u8], right: &[u8]) -> String {
    let framed = line_for(&frame(left, right));
    let direct = line_of(Work::default().programs(left, right)).to_string();
    assert_eq!(framed, direct);
    framed
}

/// The line for two programs under a mask.
pub fn line_masked(left: &[u8], right: &[u8], mask: u16) -> String {
    let framed = line_of(Work::default().input_masked(&frame(left, right), mask)).to_string();
    let direct = line_of(Work::default().programs_masked(left, right, mask)).to_string();
    assert_eq!(framed, direct);
    framed
}

/// The line for two programs, in their out and inout arrays.
pub fn line_all(left: &[u8], right: &[u8]) -> String {
    line_masked(left, right, ALL)
}

pub fn asm(text: &str) -> Vec<u8> {
    notation::assemble(text).unwrap_or_else(|error| panic!("{error} in\n{text}"))
}

/// The line for two programs in the notation, in their out arrays.
pub fn line_of_texts(left: &str, right: &str) -> String {
    line(&asm(left), &asm(right))
}

/// The same in their out and inout arrays.
pub fn line_all_of_texts(left: &str, right: &str) -> String {
    line_all(&asm(left), &asm(right))
}

/// Number and place of the refusal of one program.
pub fn refusal(program: &[u8]) -> Option<(u8, usize)> {
    let mut list = vec![0; LIST_WORDS];
    unroll(program, &mut list).err().map(|Refusal { number, place }| (number, place))
}

pub fn refusal_of_text(text: &str) -> Option<(u8, usize)> {
    refusal(&asm(text))
}

/// The list of an accepted program, zeros after it included.
pub fn list_of(text: &str) -> Vec<u32> {
    let mut list = vec![0; LIST_WORDS];
    unroll(&asm(text), &mut list).expect("accepted");
    list
}

/// The place where the bytes stand, which they do once.
pub fn place_of(program: &[u8], bytes: &[u8]) -> usize {
    let mut found = program.windows(bytes.len()).enumerate().filter(|(_, window)| *window == bytes);
    let place = found.next().expect("the bytes are there").0;
    assert!(found.next().is_none(), "the bytes stand twice");
    place
}
