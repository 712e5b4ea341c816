//! A list written as a file: its bytes, what it reads back as, and questions 28
//! and 29.

mod common;
use common::{asm, list_of, L};
use separate::limits::{LIST_WORDS, NODES, UPDATES};
use separate::list::{code, decode, Record, HEADER};
use separate::random::{ListPairs, Pairs};
use separate::read::{read_program, Item};
use separate::{input::split, line_of, unroll, write_file, Refusal, Side, Work};

/// The list of these tables and records, in the shortest slice.
fn list(head: &str, records: &[Record]) -> Vec<u32> {
    let mut list = list_of(head);
    let words = records.as_flattened();
    list[HEADER..HEADER + words.len()].copy_from_slice(words);
    list
}

/// The file, written to an output that is longer than any file.
fn file_of(list: &[u32]) -> Result<Vec<u8>, Refusal> {
    let mut out = vec![0xA5; 20_000];
    let length = write_file(list, &mut out).inspect_err(|_| assert_untouched(&out))?;
    assert_untouched(&out[length..]);
    out.truncate(length);
    Ok(out)
}

fn assert_untouched(out: &[u8]) {
    assert!(out.iter().all(|&byte| byte == 0xA5), "the output was touched");
}

fn refused(number: u8, place: usize) -> Result<Vec<u8>, Refusal> {
    Err(Refusal { number, place })
}

/// Is this the file: statements alone, the lowest version, and a list that is
/// the same again?
fn assert_of(list: &[u32], file: &[u8]) {
    let program = read_program(file).expect("the file is read");
    assert!(program.items.iter().all(|item| matches!(item, Item::Statement { .. })));
    let marked = program.tables.operators().contains(&0x82);
    assert_eq!(program.version, if marked { 2 } else { 1 });
    let mut again = vec![7; list.len()];
    assert_eq!(unroll(file, &mut again), Ok(program.items.len()));
    assert_eq!(again, list);
    assert_eq!(file_of(&again).as_deref(), Ok(file));
}

const BASE: &str = "op f/2 op g/1
    array A in [3] array B out [2, 2] array C inout [2] array T local [4]";

/// The bytes one by one, as docs/FORMAT.md has them.
#[test]
fn the_file_byte_for_byte() {
    let first = [[1, 3, 1], [17, 0, 0], [16, 0, 2], [18, u32::MAX, 0]];
    let others = [[1, 1, 2], [16, 3, 1], [1, 2, 0], [17, 1, 0], [19, 0x8000_0007, 0]];
    let list = list(BASE, &[&first[..], &others].concat());
    let mut file = b"ALP\x01\x00\x02\x02\x01\x04".to_vec();
    file.extend([0, 1, 3, 0, 1, 2, 2, 0, 2, 0, 2, 1, 2, 0, 3, 1, 4, 0]);
    file.extend([1, 3, 1, 0, 0x11, 0, 0x10, 0, 2, 0, 0x12, 0xFF, 0xFF]);
    file.extend([1, 1, 1, 0, 0, 0, 0x10, 3, 1, 0]);
    file.extend([1, 2, 0, 0, 0x11, 1, 0x13, 7, 0, 0, 0x80, 0]);
    assert_eq!(file_of(&list).as_deref(), Ok(&file[..]));
    assert_of(&list, &file);
}

/// A loop becomes its rounds, a guard what passes it.
#[test]
fn loops_and_guards_become_statements() {
    let straight = "array A in [2] array B out [2] B[0] = A[0] B[1] = A[1]";
    assert_eq!(file_of(&list_of("array A in [2] array B out [2]")).unwrap().len(), 16);
    let mut work = Work::default();
    assert_eq!(work.straight(&L).as_deref(), Ok(&asm(straight)[..]));
    let nest = "op f/2* array A in [3] array B inout [3, 4, 5] for i = 0 to 2 { if i - 1 >= 0 {
        for j = 3 to 2 step -1 { B[2 - i, j, 2*i] = f(A[i], 100*i - j) } } }";
    let straight = "op f/2* array A in [3] array B inout [3, 4, 5]
        B[1, 3, 2] = f(A[1], 97) B[1, 2, 2] = f(A[1], 98)
        B[0, 3, 4] = f(A[2], 197) B[0, 2, 4] = f(A[2], 198)";
    assert_eq!(work.straight(&asm(nest)).as_deref(), Ok(&asm(straight)[..]));
}

/// Version 2 is taken where an operator is marked, used or not, and nowhere else.
#[test]
fn the_lowest_version() {
    for (head, version) in [
        ("array A out [1]", 1),
        ("version 2 array A out [1]", 1),
        ("version 2 op f/2 op g/4 array A out [1]", 1),
        ("op f/2* array A out [1]", 2),
        ("op f/1 op g/2 op h/2* array A out [1]", 2),
    ] {
        let list = list_of(head);
        let file = file_of(&list).unwrap();
        assert_eq!(file[3..5], [version, 0], "{head}");
        assert_of(&list, &file);
    }
}

/// Every cell of arrays of one to three dimensions, some of them of extent 1.
#[test]
fn subscripts_of_every_cell() {
    for extents in ["1024", "1", "1, 1", "1, 1024", "1024, 1", "31, 33", "7, 9, 11", "1, 1, 5"] {
        let head = format!("array A inout [{extents}]");
        let cells = extents.split(", ").map(|extent| extent.parse::<u32>().unwrap()).product();
        for first in (0..cells).step_by(500) {
            let targets = first..cells.min(first + 500);
            let records = targets.flat_map(|cell| [[1, 0, cell], [16, 0, cells - 1 - cell]]);
            let list = list(&head, &records.collect::<Vec<_>>());
            assert_of(&list, &file_of(&list).unwrap());
        }
    }
}

/// A name is 32 bits of any kind.
#[test]
fn names_of_constants() {
    for name in [0, 1, 0x7FFF, 0x8000, 0xFFFF, 0x1_0000, 1 << 31, (1 << 31) + 1, u32::MAX] {
        let list = list("array A out [1]", &[[1, 0, 0], [19, name, 0]]);
        let file = file_of(&list).unwrap();
        assert_eq!(file[15..20], [&[0x13], &name.to_le_bytes()[..]].concat());
        assert_of(&list, &file);
    }
}

const TWO: &str = "op f/3 array A out [4]";

/// Updates whose literals are these, in the arguments of an operator.
fn updates_of(literals: &[[i32; 3]]) -> Vec<u32> {
    let update = |(cell, literals): (usize, &[i32; 3])| {
        let mut records = vec![[1, 0, cell as u32 % 4], [17, 0, 0]];
        records.extend(literals.map(|literal| [18, literal as u32, 0]));
        records
    };
    list(TWO, &literals.iter().enumerate().flat_map(update).collect::<Vec<_>>())
}

#[test]
fn literals_of_16_bits() {
    let list = updates_of(&[[-32_768, 32_767, 0], [-1, 1, -32_767]]);
    let file = file_of(&list).unwrap();
    assert_eq!(file[18..27], [0x12, 0, 0x80, 0x12, 0xFF, 0x7F, 0x12, 0, 0]);
    assert_of(&list, &file);
}

/// The place is the number of the first update that has a wide one.
#[test]
fn literals_that_are_wider() {
    let wide = [-32_769, 32_768, 65_535, 65_536, i32::MIN, i32::MAX, -65_536, 1 << 16 | 5];
    for literal in wide {
        for at in 0..3 {
            let mut own = [1, 2, 3];
            own[at] = literal;
            assert_eq!(file_of(&updates_of(&[own, [0; 3]])), refused(28, 0), "{literal}");
            assert_eq!(file_of(&updates_of(&[[0; 3], own])), refused(28, 1), "{literal}");
            assert_eq!(file_of(&updates_of(&[[0; 3], own, own])), refused(28, 1));
            assert_eq!(file_of(&updates_of(&[[0; 3], [9; 3], own, [7; 3]])), refused(28, 2));
        }
    }
    // A name of the same bits is none.
    let list = list(TWO, &[[1, 0, 0], [19, 32_768, 0]]);
    assert_of(&list, &file_of(&list).unwrap());
}

/// A list whose file has so many bytes: 12 but for statements of 7 and 9.
fn of_length(length: usize) -> Vec<u32> {
    let rest = length - 12;
    let literals = (0..9).find(|k| (rest - 7 * k).is_multiple_of(9)).expect("one of nine");
    let constants = (rest - 7 * literals) / 9;
    let leaf = |k: usize| if k < literals { [18, 0x7FFF, 0] } else { [19, k as u32, 0] };
    let updates = (0..literals + constants).flat_map(|k| [[1, 0, k as u32 % 1_024], leaf(k)]);
    list("array A out [1024]", &updates.collect::<Vec<_>>())
}

#[test]
fn the_longest_file() {
    for (length, out, answer) in [
        (16_384, 16_384, Ok(16_384)),
        (16_384, 20_000, Ok(16_384)),
        (16_384, 16_383, Err(29)),
        (16_385, 16_385, Err(29)),
        (16_385, 16_384, Err(29)),
        (16_385, 20_000, Err(29)),
        (16_383, 16_383, Ok(16_383)),
        (16_383, 16_384, Ok(16_383)),
    ] {
        let list = of_length(length);
        let mut out = vec![0xA5; out];
        let written = write_file(&list, &mut out);
        assert_eq!(written, answer.map_err(|number| Refusal { number, place: 0 }), "{length}");
        assert_untouched(&out[written.unwrap_or(0)..]);
        if let Ok(length) = written {
            assert_of(&list, &out[..length]);
        }
    }
}

/// As long as the file, longer, and each length that is too short.
#[test]
fn outputs_of_every_length() {
    let list = updates_of(&[[1, 2, 3], [-4, 5, 6]]);
    let file = file_of(&list).unwrap();
    for length in 0..file.len() + 20 {
        let mut out = vec![0xA5; length];
        let written = write_file(&list, &mut out);
        if length < file.len() {
            assert_eq!(written, Err(Refusal { number: 29, place: 0 }), "{length}");
            assert_untouched(&out);
        } else {
            assert_eq!(written, Ok(file.len()));
            assert_eq!(out[..file.len()], file);
            assert_untouched(&out[file.len()..]);
        }
    }
}

/// 28 comes before 29, also where the wide literal is in the last update.
#[test]
fn the_order_of_questions() {
    let mut list = of_length(16_385);
    let end = HEADER + 3 * decode(&list).unwrap().records.len();
    let updates = decode(&list).unwrap().updates().count();
    assert_eq!(file_of(&list), refused(29, 0));
    list[end - 3..end].copy_from_slice(&[18, 32_768, 0]);
    assert_eq!(file_of(&list), refused(28, updates - 1));
    let narrow = updates_of(&[[0; 3]]);
    let wide = updates_of(&[[0; 3], [0, 0, 40_000]]);
    for length in [0, 1, 20_000] {
        let out = || vec![0xA5; length];
        let no = |number, place| Err(Refusal { number, place });
        assert_eq!(write_file(&wide, &mut out()), no(28, 1));
        let mut damaged = wide.clone();
        damaged[LIST_WORDS - 1] = 1;
        assert_eq!(write_file(&damaged, &mut out()), no(26, 0));
        assert_eq!(write_file(&wide[..LIST_WORDS - 1], &mut out()), no(25, 0));
        assert_eq!(write_file(&damaged[..98], &mut out()), no(25, 0));
        assert_eq!(write_file(&[], &mut out()), no(25, 0));
        if length < 20_000 {
            assert_eq!(write_file(&narrow, &mut out()), no(29, 0));
        }
    }
}

/// The side of a refusal is that of an entry over one list.
#[test]
fn sides_of_refusals() {
    for (number, line) in [(25, "both 25"), (26, "left 26"), (28, "left 28"), (29, "left 29")] {
        let reply = Refusal { number, place: 3 }.reply(Side::Left);
        assert_eq!(line_of(reply).to_string(), format!("refused {line} 3"));
    }
}

/// A longer slice gives the same file.
#[test]
fn longer_slices() {
    let mut list = updates_of(&[[1, 2, 3]]);
    let file = file_of(&list);
    list.resize(LIST_WORDS + 1_000, 0);
    assert_eq!(file_of(&list), file);
    list[LIST_WORDS + 999] = 1;
    assert_eq!(file_of(&list), refused(26, 0));
}

/// As many updates as there may be have a file; as many nodes never have, since
/// each takes two bytes or more.
#[test]
fn full_lists() {
    let updates = (0..UPDATES).flat_map(|k| [[1, 0, k as u32], [18, 7, 0]]);
    let most = list("array A out [1024, 2]", &updates.collect::<Vec<_>>());
    assert_eq!(file_of(&most), refused(29, 0));
    let updates = (0..UPDATES).flat_map(|k| [[1, 0, k as u32 % 1_024], [18, 7, 0]]);
    let most = list("array A out [1024]", &updates.collect::<Vec<_>>());
    let file = file_of(&most).unwrap();
    assert_eq!(file.len(), 12 + 7 * UPDATES);
    assert_of(&most, &file);
    let leaf = [18, 7, 0];
    let update = |k| [[1, 0, k as u32 % 1_024], [17, 0, 0], leaf, leaf, leaf];
    let full =
        list("op f/3 array A out [1024]", &(0..UPDATES).flat_map(update).collect::<Vec<_>>());
    let nodes = decode(&full).unwrap().records.iter().filter(|record| record[0] != code::UPDATE);
    assert_eq!(nodes.count(), NODES);
    assert_eq!(file_of(&full), refused(29, 0));
}

/// Operators twelve deep, and a list without updates.
#[test]
fn deep_and_empty() {
    let mut records = vec![[1, 0, 0]];
    records.extend([[17, 0, 0]; 12]);
    records.extend([[19, 3, 0]; 37]);
    let deep = list("op f/4 array A out [1]", &records);
    assert_of(&deep, &file_of(&deep).unwrap());
    let empty = list_of("op f/4 array A in [1024, 1, 2]");
    let file = file_of(&empty).unwrap();
    assert_eq!(file, asm("op f/4 array A in [1024, 1, 2]"));
    assert_of(&empty, &file);
}

/// Lists that programs have and such that none need have, accepted or not.
#[test]
fn random_lists() {
    let [mut files, mut wide, mut long, mut damaged] = [0; 4];
    for pair in ListPairs::new(8).take(600) {
        let list = pair.right.slice();
        if list.len() < LIST_WORDS {
            assert_eq!(file_of(&list), refused(25, 0));
            continue;
        }
        match file_of(&list) {
            Ok(file) => {
                assert_of(&list, &file);
                files += 1;
            }
            Err(Refusal { number: 26, .. }) => {
                assert!(decode(&list).is_none());
                damaged += 1;
            }
            Err(Refusal { number: 28, place }) => {
                assert_eq!(Some(place), first_wide(&list));
                wide += 1;
            }
            Err(no) => {
                assert_eq!((no.number, first_wide(&list)), (29, None));
                long += 1;
            }
        }
    }
    assert!(files > 200 && damaged > 50 && wide > 10 && long > 5);
}

/// The first update with a literal of more than 16 bits.
fn first_wide(words: &[u32]) -> Option<usize> {
    let is_wide = |record: &Record| {
        let value = i64::from(record[1] as i32);
        record[0] == code::LITERAL && !(-32_768..=32_767).contains(&value)
    };
    let list = decode(words).expect("accepted");
    list.updates().position(|(_, expression)| expression.iter().any(is_wide))
}

/// The straight file of a program leaves the same list.
#[test]
fn random_programs() {
    let mut work = Work::default();
    let mut files = 0;
    for input in Pairs::new(9).take(400) {
        let Ok((program, _)) = split(&input) else { continue };
        let list = work.unroll(program).map(<[u32]>::to_vec);
        let file = work.straight(program);
        match (list, file) {
            (Ok(list), Ok(file)) => {
                assert_of(&list, &file);
                assert_eq!(work.straight(&file).as_ref(), Ok(&file));
                files += 1;
            }
            (Ok(list), Err(no)) => assert_eq!(Err(no), file_of(&list)),
            (Err(no), file) => assert_eq!(file, Err(no)),
        }
    }
    assert!(files > 200);
}
