//! The separately written checker under C names, with the parameters and numbers of `bindings/c/tengmua.h`; and its random
//! programs and lists. For `bindings/c/fuzz.c` alone.

use std::slice::{from_raw_parts, from_raw_parts_mut};
use std::sync::Mutex;

use beside::same::{Checker, Separate};
use beside::workloads::split;
use separate::random::{Explanations, Lent, ListPairs, Pairs, Writes};
use tengmua::{Chosen, Explanation, Reply, Side, LOOPS};

#[repr(C)]
pub struct Numbers {
    kind: usize,
    first: usize,
    second: usize,
    third: usize,
}

/// Written out here a second time, so that a slip on the other side of the boundary shows.
fn numbers(reply: Reply) -> Numbers {
    let [kind, first, second, third] = match reply {
        Reply::Equal(count) => [0, count, 0, 0],
        Reply::Differs(array, cell) => [1, array, cell, 0],
        Reply::Refused(refusal) => {
            [2, side_number(refusal.side), usize::from(refusal.question), refusal.place]
        }
    };
    Numbers { kind, first, second, third }
}

fn side_number(side: Side) -> usize {
    match side {
        Side::Left => 0,
        Side::Right => 1,
        Side::Both => 2,
        Side::Input => 3,
    }
}

#[repr(C)]
#[derive(Default)]
pub struct Explained {
    kind: usize,
    side: usize,
    question: usize,
    place: usize,
    array: usize,
    cell: usize,
    from: usize,
    to: usize,
    count: usize,
    indices: [i16; LOOPS],
}

fn explained(explanation: Explanation) -> Explained {
    match explanation {
        Explanation::Written(written) => Explained {
            kind: 0,
            array: written.array,
            cell: written.cell,
            from: written.from,
            to: written.from + written.bytes.len(),
            count: written.count,
            indices: written.indices,
            ..Explained::default()
        },
        Explanation::Starting { array, cell } => {
            Explained { kind: 1, array, cell, ..Explained::default() }
        }
        Explanation::Refused(refusal) => Explained {
            kind: 2,
            side: side_number(refusal.side),
            question: usize::from(refusal.question),
            place: refusal.place,
            ..Explained::default()
        },
    }
}

/// # Safety
/// As `tengmua_compare_programs`.
#[no_mangle]
pub unsafe extern "C" fn twin_compare_programs(
    left: *const u8,
    left_length: usize,
    right: *const u8,
    right_length: usize,
    mask: u16,
    left_list: *mut u32,
    left_list_length: usize,
    right_list: *mut u32,
    right_list_length: usize,
    cells: *mut u32,
    cells_length: usize,
    terms: *mut u32,
    terms_length: usize,
) -> Numbers {
    let left = from_raw_parts(left, left_length);
    let right = from_raw_parts(right, right_length);
    let work = [
        from_raw_parts_mut(left_list, left_list_length),
        from_raw_parts_mut(right_list, right_list_length),
        from_raw_parts_mut(cells, cells_length),
        from_raw_parts_mut(terms, terms_length),
    ];
    numbers(Separate.programs(left, right, mask, work))
}

/// # Safety
/// As `tengmua_compare_plain`.
#[no_mangle]
pub unsafe extern "C" fn twin_compare_plain(
    left: *const u8,
    left_length: usize,
    right: *const u8,
    right_length: usize,
    left_list: *mut u32,
    left_list_length: usize,
    right_list: *mut u32,
    right_list_length: usize,
    cells: *mut u32,
    cells_length: usize,
    terms: *mut u32,
    terms_length: usize,
) -> Numbers {
    let left = from_raw_parts(left, left_length);
    let right = from_raw_parts(right, right_length);
    let work = [
        from_raw_parts_mut(left_list, left_list_length),
        from_raw_parts_mut(right_list, right_list_length),
        from_raw_parts_mut(cells, cells_length),
        from_raw_parts_mut(terms, terms_length),
    ];
    numbers(Separate.plain(left, right, work))
}

/// # Safety
/// As `tengmua_compare_lists`.
#[no_mangle]
pub unsafe extern "C" fn twin_compare_lists(
    left: *const u32,
    left_length: usize,
    right: *const u32,
    right_length: usize,
    mask: u16,
    cells: *mut u32,
    cells_length: usize,
    terms: *mut u32,
    terms_length: usize,
) -> Numbers {
    let left = from_raw_parts(left, left_length);
    let right = from_raw_parts(right, right_length);
    let work = [from_raw_parts_mut(cells, cells_length), from_raw_parts_mut(terms, terms_length)];
    numbers(Separate.lists(left, right, mask, work))
}

/// # Safety
/// As `tengmua_unroll`.
#[no_mangle]
pub unsafe extern "C" fn twin_unroll(
    program: *const u8,
    program_length: usize,
    list: *mut u32,
    list_length: usize,
) -> Numbers {
    let program = from_raw_parts(program, program_length);
    numbers(Separate.unroll(program, from_raw_parts_mut(list, list_length)))
}

/// # Safety
/// As `tengmua_check_list`.
#[no_mangle]
pub unsafe extern "C" fn twin_check_list(list: *const u32, list_length: usize) -> Numbers {
    numbers(Separate.check(from_raw_parts(list, list_length)))
}

/// # Safety
/// As `tengmua_write_file`.
#[no_mangle]
pub unsafe extern "C" fn twin_write_file(
    list: *const u32,
    list_length: usize,
    out: *mut u8,
    out_length: usize,
) -> Numbers {
    let list = from_raw_parts(list, list_length);
    numbers(Separate.write(list, from_raw_parts_mut(out, out_length)))
}

/// # Safety
/// As `tengmua_explain`.
#[no_mangle]
pub unsafe extern "C" fn twin_explain(
    left: *const u8,
    left_length: usize,
    right: *const u8,
    right_length: usize,
    mask: u16,
    side: usize,
    left_list: *mut u32,
    left_list_length: usize,
    right_list: *mut u32,
    right_list_length: usize,
    cells: *mut u32,
    cells_length: usize,
    terms: *mut u32,
    terms_length: usize,
) -> Explained {
    let left = from_raw_parts(left, left_length);
    let right = from_raw_parts(right, right_length);
    let chosen = if side == 0 { Chosen::Left } else { Chosen::Right };
    let work = [
        from_raw_parts_mut(left_list, left_list_length),
        from_raw_parts_mut(right_list, right_list_length),
        from_raw_parts_mut(cells, cells_length),
        from_raw_parts_mut(terms, terms_length),
    ];
    explained(Separate.explain(left, right, mask, chosen, work))
}

/// Random pairs of programs, of lists, and of programs that mostly differ; and lists to be written.
struct Sources {
    pairs: Pairs,
    lists: ListPairs,
    explanations: Explanations,
    writes: Writes,
}

static SOURCES: Mutex<Option<Sources>> = Mutex::new(None);

#[no_mangle]
pub extern "C" fn twin_seed(seed: u64) {
    *SOURCES.lock().expect("one thread") = Some(Sources {
        pairs: Pairs::new(seed),
        lists: ListPairs::new(seed),
        explanations: Explanations::new(seed),
        writes: Writes::new(seed),
    });
}

/// Copies what fits and gives its length.
unsafe fn copy<T: Copy>(from: &[T], to: *mut T, room: usize) -> usize {
    let length = from.len().min(room);
    from_raw_parts_mut(to, room)[..length].copy_from_slice(&from[..length]);
    length
}

/// The next two programs, which are mostly valid and often equal; their lengths come back through `lengths`.
///
/// # Safety
/// Both have room for so many bytes, `lengths` for two numbers, and `twin_seed` was called.
#[no_mangle]
pub unsafe extern "C" fn twin_programs(
    left: *mut u8,
    right: *mut u8,
    room: usize,
    lengths: *mut usize,
) {
    let mut sources = SOURCES.lock().expect("one thread");
    let pairs = &mut sources.as_mut().expect("seeded").pairs;
    let pair = pairs.find_map(|input| split(&input)).expect("endless");
    let lengths = from_raw_parts_mut(lengths, 2);
    lengths[0] = copy(&pair.left, left, room);
    lengths[1] = copy(&pair.right, right, room);
}

/// The next two programs that have something to explain in most cases.
///
/// # Safety
/// As `twin_programs`.
#[no_mangle]
pub unsafe extern "C" fn twin_differing(
    left: *mut u8,
    right: *mut u8,
    room: usize,
    lengths: *mut usize,
) {
    let mut sources = SOURCES.lock().expect("one thread");
    let pair = sources.as_mut().expect("seeded").explanations.pair();
    let lengths = from_raw_parts_mut(lengths, 2);
    lengths[0] = copy(&pair.left, left, room);
    lengths[1] = copy(&pair.right, right, room);
}

/// The next two lists, without the zeros behind them.
///
/// # Safety
/// As `twin_programs`.
#[no_mangle]
pub unsafe extern "C" fn twin_lists(
    left: *mut u32,
    right: *mut u32,
    room: usize,
    lengths: *mut usize,
) {
    let mut sources = SOURCES.lock().expect("one thread");
    let pair = sources.as_mut().expect("seeded").lists.next().expect("endless");
    let lengths = from_raw_parts_mut(lengths, 2);
    lengths[0] = copy(&pair.left.words, left, room);
    lengths[1] = copy(&pair.right.words, right, room);
}

/// The next list to be written, with the zeros behind it, and what the output holds.
///
/// # Safety
/// There is room for so many words and bytes, in `lengths` for two numbers, and `twin_seed` was called.
#[no_mangle]
pub unsafe extern "C" fn twin_written(
    list: *mut u32,
    words: usize,
    out: *mut u8,
    bytes: usize,
    lengths: *mut usize,
) {
    let mut sources = SOURCES.lock().expect("one thread");
    let Lent { list: held_list, out: held } = sources.as_mut().expect("seeded").writes.lent();
    let lengths = from_raw_parts_mut(lengths, 2);
    lengths[0] = copy(&held_list, list, words);
    lengths[1] = copy(&held, out, bytes);
}
