//! The calls themselves. A slice goes over as its pointer and its length; Rust's borrows see to it that none which is written
//! overlaps another, which is all that the library asks.

use crate::{Chosen, Explanation, Refusal, Reply, Side, Written, LOOPS};

/// Four numbers, as `bindings/c/tengmua.h` says.
#[repr(C)]
pub struct Numbers {
    kind: usize,
    first: usize,
    second: usize,
    third: usize,
}

/// Seventeen numbers, as the header says.
#[repr(C)]
pub struct Explained {
    kind: usize,
    side: usize,
    question: usize,
    place: usize,
    array: usize,
    cell: usize,
    from: usize,
    to: usize,
    count: usize,
    indices: [i16; LOOPS],
}

extern "C" {
    fn tengmua_compare_programs(
        left: *const u8,
        left_length: usize,
        right: *const u8,
        right_length: usize,
        mask: u16,
        left_list: *mut u32,
        left_list_length: usize,
        right_list: *mut u32,
        right_list_length: usize,
        cells: *mut u32,
        cells_length: usize,
        terms: *mut u32,
        terms_length: usize,
    ) -> Numbers;

    fn tengmua_compare_plain(
        left: *const u8,
        left_length: usize,
        right: *const u8,
        right_length: usize,
        left_list: *mut u32,
        left_list_length: usize,
        right_list: *mut u32,
        right_list_length: usize,
        cells: *mut u32,
        cells_length: usize,
        terms: *mut u32,
        terms_length: usize,
    ) -> Numbers;

    fn tengmua_compare_lists(
        left: *const u32,
        left_length: usize,
        right: *const u32,
        right_length: usize,
        mask: u16,
        cells: *mut u32,
        cells_length: usize,
        terms: *mut u32,
        terms_length: usize,
    ) -> Numbers;

    fn tengmua_unroll(
        program: *const u8,
        program_length: usize,
        list: *mut u32,
        list_length: usize,
    ) -> Numbers;

    fn tengmua_check_list(list: *const u32, list_length: usize) -> Numbers;

    fn tengmua_write_file(
        list: *const u32,
        list_length: usize,
        out: *mut u8,
        out_length: usize,
    ) -> Numbers;

    fn tengmua_explain(
        left: *const u8,
        left_length: usize,
        right: *const u8,
        right_length: usize,
        mask: u16,
        side: usize,
        left_list: *mut u32,
        left_list_length: usize,
        right_list: *mut u32,
        right_list_length: usize,
        cells: *mut u32,
        cells_length: usize,
        terms: *mut u32,
        terms_length: usize,
    ) -> Explained;
}

fn side(number: usize) -> Side {
    match number {
        0 => Side::Left,
        1 => Side::Right,
        2 => Side::Both,
        3 => Side::Input,
        number => unreachable!("the library has no side {number}"),
    }
}

impl Numbers {
    fn refusal(&self) -> Refusal {
        // The library's question is a byte (`Reply::Refused` in crates/comparer).
        Refusal { side: side(self.first), question: self.second as u8, place: self.third }
    }

    pub fn reply(&self) -> Reply {
        match self.kind {
            0 => Reply::Equal(self.first),
            1 => Reply::Differs(self.first, self.second),
            2 => Reply::Refused(self.refusal()),
            kind => unreachable!("the library has no kind {kind}"),
        }
    }

    /// The answer where there is nothing to differ.
    pub fn counted(&self) -> Result<usize, Refusal> {
        match self.reply() {
            Reply::Equal(count) => Ok(count),
            Reply::Refused(refusal) => Err(refusal),
            Reply::Differs(..) => unreachable!("one program or list does not differ"),
        }
    }
}

impl Explained {
    /// Of the program that was chosen. That the library leaves the numbers which a kind does not have at 0 is asked too: a test
    /// that compares explanations then compares all seventeen.
    pub fn explanation(self, program: &[u8]) -> Explanation<'_> {
        let Explained { kind, question, place, array, cell, from, to, count, indices, .. } = self;
        let refusal = [self.side, question, place];
        let beyond = &indices[count..];
        match kind {
            0 => {
                assert_eq!((refusal, beyond), ([0; 3], &[0; LOOPS][count..]));
                let bytes = &program[from..to];
                Explanation::Written(Written { array, cell, from, bytes, count, indices })
            }
            1 => {
                assert_eq!((refusal, [from, to, count], indices), ([0; 3], [0; 3], [0; LOOPS]));
                Explanation::Starting { array, cell }
            }
            2 => {
                assert_eq!(([array, cell, from, to, count], indices), ([0; 5], [0; LOOPS]));
                Explanation::Refused(Refusal {
                    side: side(self.side),
                    question: question as u8,
                    place,
                })
            }
            kind => unreachable!("the library has no kind {kind}"),
        }
    }
}

pub fn compare_programs(left: &[u8], right: &[u8], mask: u16, work: [&mut [u32]; 4]) -> Numbers {
    let [left_list, right_list, cells, terms] = work;
    // SAFETY: each pointer and length are a slice's; those that are written are borrowed alone.
    unsafe {
        tengmua_compare_programs(
            left.as_ptr(),
            left.len(),
            right.as_ptr(),
            right.len(),
            mask,
            left_list.as_mut_ptr(),
            left_list.len(),
            right_list.as_mut_ptr(),
            right_list.len(),
            cells.as_mut_ptr(),
            cells.len(),
            terms.as_mut_ptr(),
            terms.len(),
        )
    }
}

pub fn compare_plain(left: &[u8], right: &[u8], work: [&mut [u32]; 4]) -> Numbers {
    let [left_list, right_list, cells, terms] = work;
    // SAFETY: as above.
    unsafe {
        tengmua_compare_plain(
            left.as_ptr(),
            left.len(),
            right.as_ptr(),
            right.len(),
            left_list.as_mut_ptr(),
            left_list.len(),
            right_list.as_mut_ptr(),
            right_list.len(),
            cells.as_mut_ptr(),
            cells.len(),
            terms.as_mut_ptr(),
            terms.len(),
        )
    }
}

pub fn compare_lists(
    left: &[u32],
    right: &[u32],
    mask: u16,
    cells: &mut [u32],
    terms: &mut [u32],
) -> Numbers {
    // SAFETY: as above.
    unsafe {
        tengmua_compare_lists(
            left.as_ptr(),
            left.len(),
            right.as_ptr(),
            right.len(),
            mask,
            cells.as_mut_ptr(),
            cells.len(),
            terms.as_mut_ptr(),
            terms.len(),
        )
    }
}

pub fn unroll(program: &[u8], list: &mut [u32]) -> Numbers {
    // SAFETY: as above.
    unsafe { tengmua_unroll(program.as_ptr(), program.len(), list.as_mut_ptr(), list.len()) }
}

pub fn check_list(list: &[u32]) -> Numbers {
    // SAFETY: as above.
    unsafe { tengmua_check_list(list.as_ptr(), list.len()) }
}

pub fn write_file(list: &[u32], out: &mut [u8]) -> Numbers {
    // SAFETY: as above.
    unsafe { tengmua_write_file(list.as_ptr(), list.len(), out.as_mut_ptr(), out.len()) }
}

pub fn explain(
    left: &[u8],
    right: &[u8],
    mask: u16,
    chosen: Chosen,
    work: [&mut [u32]; 4],
) -> Explained {
    let [left_list, right_list, cells, terms] = work;
    let side = match chosen {
        Chosen::Left => 0,
        Chosen::Right => 1,
    };
    // SAFETY: as above.
    unsafe {
        tengmua_explain(
            left.as_ptr(),
            left.len(),
            right.as_ptr(),
            right.len(),
            mask,
            side,
            left_list.as_mut_ptr(),
            left_list.len(),
            right_list.as_mut_ptr(),
            right_list.len(),
            cells.as_mut_ptr(),
            cells.len(),
            terms.as_mut_ptr(),
            terms.len(),
        )
    }
}
