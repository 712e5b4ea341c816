//! Update lists: layout, question 26, comparison and new orders.

mod common;
use common::{asm, list_of};
use separate::limits::LIST_WORDS;
use separate::list::decode;
use separate::random::{ListPairs, Parts, Random};
use separate::{check_list, line_of, unroll, Refusal, Work};

const BASE: &str = "op f/2 op g/1
    array A in [3] array B out [2, 2] array C inout [2] array T local [4]
    T[1] = f(A[2], -1)
    B[1, 0] = T[1]
    C[0] = g(f(C[0], const 7))";

fn slice(words: &[u32]) -> Vec<u32> {
    let mut slice = words.to_vec();
    slice.resize(slice.len().max(LIST_WORDS), 0);
    slice
}

fn accepted(words: &[u32]) -> bool {
    match check_list(words) {
        Ok(()) => true,
        Err(refusal) => {
            assert_eq!(refusal, Refusal { number: 26, place: 0 });
            false
        }
    }
}

/// The list with one word set to another.
fn with_word(list: &[u32], at: usize, word: u32) -> Vec<u32> {
    let mut words = list.to_vec();
    assert_ne!(words[at], word, "no change at {at}");
    words[at] = word;
    words
}

/// BASE's list with one word set.
fn accepted_with(at: usize, word: u32) -> bool {
    accepted(&with_word(&list_of(BASE), at, word))
}

#[test]
fn the_layout_word_for_word() {
    let mut expected = vec![2, 2, 1];
    expected.resize(17, 0);
    expected.push(4);
    expected.extend([0, 1, 3, 0, 0]);
    expected.extend([1, 2, 2, 2, 0]);
    expected.extend([2, 1, 2, 0, 0]);
    expected.extend([3, 1, 4, 0, 0]);
    expected.resize(98, 0);
    expected.extend([1, 3, 1, 17, 0, 0, 16, 0, 2, 18, u32::MAX, 0]);
    expected.extend([1, 1, 2, 16, 3, 1]);
    expected.extend([1, 2, 0, 17, 1, 0, 17, 0, 0, 16, 2, 0, 19, 7, 0]);
    assert_eq!(list_of(BASE), slice(&expected));
    assert!(accepted(&slice(&expected)));
}

#[test]
fn unroll_counts_updates_and_fills_the_whole_slice() {
    let mut list = vec![5; LIST_WORDS + 100];
    assert_eq!(unroll(&asm(BASE), &mut list), Ok(3));
    assert_eq!(list[..LIST_WORDS], list_of(BASE));
    assert!(list[LIST_WORDS..].iter().all(|&word| word == 0));
    assert_eq!(unroll(&asm("array A in [1]"), &mut list), Ok(0));
}

#[test]
fn header_words() {
    // Counts, arities, roles, dimension counts, extents out of range.
    for (at, word) in [(0, 17), (1, 0), (1, 5), (2, u32::MAX), (17, 0), (17, 17)] {
        assert!(!accepted_with(at, word), "{word} at {at}");
    }
    // f has two arguments, so it may be marked, and g may not; a mark is the whole word.
    assert!(accepted_with(1, 130) && !accepted_with(2, 130) && !accepted_with(0, 130));
    for word in [128, 129, 131, 132, 0x42, 0x182, 0x8200, 0x1_0002, 0x8000_0082, 0x8200_0000] {
        assert!(!accepted_with(1, word), "{word:#x}");
    }
    for (at, word) in [(18, 4), (19, 0), (19, 4), (20, 0), (20, 1_025), (20, u32::MAX)] {
        assert!(!accepted_with(at, word), "{word} at {at}");
    }
    // Fewer operators or arrays leave words that are unused and not zero.
    assert!(!accepted_with(0, 1) && !accepted_with(0, 3) && !accepted_with(17, 3));
    assert!(!accepted_with(17, 5));
    // Unused words.
    for at in [3, 16, 21, 22, 27, 31, 32, 36, 37, 38, 97] {
        assert!(!accepted_with(at, 1), "unused word {at}");
    }
    // A second dimension of 1 for A changes no cell.
    let mut words = list_of(BASE);
    words[19] = 2;
    assert!(!accepted(&words));
    words[21] = 1;
    assert!(accepted(&words));
    // Local not last; in array written; T's cells all there.
    assert!(!accepted_with(18, 3));
    assert!(!accepted_with(33, 0));
    assert!(accepted_with(20, 1_024) && accepted_with(20, 3 + 1));
    assert!(!accepted_with(20, 2), "A[2] is read");
}

#[test]
fn cells_of_a_list() {
    // 2,048 cells and one more: B and C and T hold 10.
    let mut words = list_of(BASE);
    words[19] = 2;
    words[20] = 1_019;
    words[21] = 2;
    assert!(accepted(&words));
    words[20] = 1_020;
    assert!(!accepted(&words));
}

#[test]
fn record_words() {
    // Codes.
    for code in [0, 2, 16, 17, 18, 19, 20, u32::MAX] {
        assert!(!accepted_with(98, code), "update code {code}");
    }
    for (at, codes) in [(101, [0, 1, 16, 18]), (104, [0, 1, 17, 20]), (107, [0, 1, 16, 17])] {
        for code in codes {
            assert!(!accepted_with(at, code), "code {code} at {at}");
        }
    }
    // -1 as a constant is a constant.
    assert!(accepted_with(107, 19));
    // Targets: undeclared, in, outside; another cell than the one read later.
    assert!(!accepted_with(99, 4) && !accepted_with(99, 0) && !accepted_with(100, 4));
    assert!(!accepted_with(100, 0), "T[1] is read and then not written");
    assert!(accepted_with(112, 3));
    assert!(!accepted_with(112, 4));
    // Operators: undeclared, the other arity, a third word.
    assert!(!accepted_with(102, 2) && !accepted_with(102, 1) && !accepted_with(103, 1));
    // Reads: undeclared, outside, unwritten.
    assert!(!accepted_with(105, 4) && !accepted_with(106, 3));
    assert!(!accepted_with(105, 1) && !accepted_with(105, 3));
    assert!(!accepted_with(115, 0) && !accepted_with(115, 2));
    assert!(accepted_with(115 - 1, 2), "C[1] may be read");
    // Literals and constants: any value, no third word.
    for value in [0, 1, 0x7FFF_FFFF, 0x8000_0000] {
        assert!(accepted_with(108, value));
    }
    assert!(!accepted_with(109, 1));
    assert!(accepted_with(129, 0) && accepted_with(129, u32::MAX) && !accepted_with(130, 1));
}

#[test]
fn zeros_to_the_end() {
    let used = 98 + 33;
    for at in [used, used + 1, used + 2, used + 3, used + 300, 30_817, 30_818, LIST_WORDS - 1] {
        assert!(!accepted_with(at, 1), "word {at}");
        assert!(!accepted_with(at, u32::MAX), "word {at}");
    }
    let mut longer = list_of(BASE);
    longer.resize(LIST_WORDS + 5, 0);
    assert!(accepted(&longer));
    for at in LIST_WORDS..LIST_WORDS + 5 {
        longer[at] = 7;
        assert!(!accepted(&longer));
        longer[at] = 0;
    }
}

#[test]
fn a_list_that_ends_within_an_update_is_refused() {
    let base = list_of(BASE);
    // By whole records: a literal cut after its code is the literal 0.
    for end in (98..=131).step_by(3) {
        let expected = [98, 110, 116, 131].contains(&end);
        assert_eq!(accepted(&slice(&base[..end])), expected, "cut to {end}");
    }
}

#[test]
fn records_up_to_the_end_of_the_slice_are_refused() {
    // Far too many updates, so that the walk would leave the slice.
    let mut words = list_of("array A out [1]")[..98].to_vec();
    while words.len() + 6 <= LIST_WORDS {
        words.extend([1, 0, 0, 18, 3, 0]);
    }
    assert!(!accepted(&slice(&words)));
    words.extend([1, 0, 0, 17]);
    assert!(!accepted(&words));
}

fn list_with_updates(head: &str, updates: &[&[u32]]) -> Vec<u32> {
    let mut words = list_of(head)[..98].to_vec();
    updates.iter().for_each(|update| words.extend(*update));
    slice(&words)
}

#[test]
fn limits_of_a_list() {
    let short: &[u32] = &[1, 0, 0, 18, 3, 0];
    let head = "op f/1 op g/3 array A out [1]";
    assert!(accepted(&list_with_updates(head, &vec![short; 2_048])));
    assert!(!accepted(&list_with_updates(head, &vec![short; 2_049])));
    let four: &[u32] = &[1, 0, 0, 17, 1, 0, 18, 0, 0, 18, 0, 0, 18, 0, 0];
    assert!(accepted(&list_with_updates(head, &vec![four; 2_048])));
    let five: &[u32] = &[1, 0, 0, 17, 1, 0, 18, 0, 0, 18, 0, 0, 17, 0, 0, 18, 0, 0];
    let mut updates = vec![four; 2_047];
    updates.push(five);
    assert!(!accepted(&list_with_updates(head, &updates)));
    updates[0] = short;
    assert!(accepted(&list_with_updates(head, &updates)));
    let deep = |levels: usize| {
        let mut update = vec![1, 0, 0];
        update.extend([17, 0, 0].repeat(levels));
        update.extend([19, 1, 0]);
        update
    };
    assert!(accepted(&list_with_updates(head, &[&deep(12)])));
    assert!(!accepted(&list_with_updates(head, &[&deep(13)])));
}

#[test]
fn an_update_does_not_write_before_it_reads() {
    let head = "array A out [2] array T local [2]";
    assert!(!accepted(&list_with_updates(head, &[&[1, 0, 0, 16, 0, 0]])));
    assert!(accepted(&list_with_updates(head, &[&[1, 0, 0, 18, 0, 0], &[1, 0, 0, 16, 0, 0]])));
    assert!(!accepted(&list_with_updates(head, &[&[1, 0, 0, 16, 1, 0], &[1, 1, 0, 18, 0, 0]])));
}

/// Question 26 in another way: take the words apart with recursion and no care
/// for speed, and see whether laying them out again gives the same words.
mod slow {
    pub fn accepted(words: &[u32]) -> bool {
        let Some(tables) = tables(words) else { return false };
        let mut at = 98;
        let (mut updates, mut nodes) = (0, 0);
        let mut written = std::collections::HashSet::new();
        while words.get(at).is_some_and(|&word| word != 0) {
            let [1, array, cell] = words[at..(at + 3).min(words.len())] else { return false };
            let Some(&(role, size)) = tables.arrays.get(array as usize) else { return false };
            if role == 0 || cell as usize >= size {
                return false;
            }
            let Some(next) = node(words, at + 3, &tables, &written, 0, &mut nodes) else {
                return false;
            };
            updates += 1;
            written.insert((array, cell));
            at = next;
        }
        updates <= 2_048 && nodes <= 8_192 && words[at.min(words.len())..].iter().all(|&w| w == 0)
    }

    struct Tables {
        arities: Vec<u32>,
        /// Role and cells.
        arrays: Vec<(u32, usize)>,
    }

    fn tables(words: &[u32]) -> Option<Tables> {
        let operators = words[0] as usize;
        let arrays = words[17] as usize;
        if operators > 16 || !(1..=16).contains(&arrays) {
            return None;
        }
        let arity = |&word: &u32| if word == 130 { 2 } else { word };
        let arities = words[1..1 + operators].iter().map(arity).collect();
        let mut ok = words[1..1 + operators].iter().all(|word| [1, 2, 3, 4, 130].contains(word));
        ok &= words[1 + operators..17].iter().all(|&word| word == 0);
        ok &= words[18 + 5 * arrays..98].iter().all(|&word| word == 0);
        let mut found: Vec<(u32, usize)> = Vec::new();
        for record in words[18..18 + 5 * arrays].chunks(5) {
            let dimensions = record[1] as usize;
            ok &= record[0] <= 3 && (1..=3).contains(&dimensions);
            ok &= record[0] == 3 || found.iter().all(|&(role, _)| role != 3);
            let dimensions = dimensions.clamp(1, 3);
            let (used, unused) = record[2..].split_at(dimensions);
            ok &= used.iter().all(|extent| (1..=1_024).contains(extent));
            ok &= unused.iter().all(|&word| word == 0);
            if !ok {
                return None;
            }
            found.push((record[0], used.iter().map(|&extent| extent as usize).product()));
        }
        let cells: usize = found.iter().map(|&(_, cells)| cells).sum();
        (ok && cells <= 2_048).then_some(Tables { arities, arrays: found })
    }

    fn node(
        words: &[u32],
        at: usize,
        tables: &Tables,
        written: &std::collections::HashSet<(u32, u32)>,
        nesting: usize,
        nodes: &mut usize,
    ) -> Option<usize> {
        let &[code, first, second] = words.get(at..at + 3)? else { return None };
        *nodes += 1;
        match code {
            16 => {
                let &(role, size) = tables.arrays.get(first as usize)?;
                let readable = role == 0 || role == 2 || written.contains(&(first, second));
                (readable && (second as usize) < size).then_some(at + 3)
            }
            17 => {
                let arity = *tables.arities.get(first as usize)?;
                if second != 0 || nesting == 12 {
                    return None;
                }
                let mut next = at + 3;
                for _ in 0..arity {
                    next = node(words, next, tables, written, nesting + 1, nodes)?;
                }
                Some(next)
            }
            18 | 19 => (second == 0).then_some(at + 3),
            _ => None,
        }
    }
}

#[test]
fn random_lists_are_accepted_as_the_slow_way_says() {
    let mut counts = [0; 2];
    for pair in ListPairs::new(11).take(2_000) {
        for list in [pair.left, pair.right] {
            let words = list.slice();
            if words.len() < LIST_WORDS {
                assert_eq!(check_list(&words), Err(Refusal { number: 25, place: 0 }));
                continue;
            }
            let slow = slow::accepted(&words);
            assert_eq!(accepted(&words), slow);
            counts[usize::from(slow)] += 1;
        }
    }
    assert!(counts[0] > 400 && counts[1] > 1_000, "{counts:?}");
}

#[test]
fn every_single_word_of_a_list_as_the_slow_way_says() {
    let base = list_of(BASE);
    for at in 0..140 {
        let others = [128, 129, 130, 131, 0x182, 0x8000_0082, 1_024, 1_025, u32::MAX];
        for word in (0..24).chain(others).chain([base[at].wrapping_sub(1)]) {
            let mut words = base.clone();
            words[at] = word;
            assert_eq!(accepted(&words), slow::accepted(&words), "{word} at {at}");
        }
    }
}

fn line_of_lists(left: &[u32], right: &[u32], mask: u16) -> String {
    line_of(Work::default().lists(left, right, mask)).to_string()
}

#[test]
fn lists_are_compared_as_their_programs_are() {
    // Inout, so that what B[1, 0] leaves unwritten is no difference.
    let left = BASE.replace("B out", "B inout");
    let rights = [
        left.clone(),
        BASE.to_string(),
        left.replace("-1", "-2"),
        left.replace("T[1] = f", "T[0] = g(1) T[1] = f"),
        left.replace("g(f(", "f(g(")
            .replace("), const", ", const")
            .replace("C[0], const 7)", "C[0]), const 7"),
        left.replace("C[0] = ", "C[1] = "),
        left.replace("A in [3]", "A in [4]"),
        left.replace("op g/1", "op g/1 op h/1"),
    ];
    for right in rights {
        let lists = line_of_lists(&list_of(&left), &list_of(&right), 0xFFFF);
        assert_eq!(lists, common::line_all_of_texts(&left, &right), "{right}");
    }
}

#[test]
fn marks_of_lists() {
    let head = "op f/2* op g/2 array A in [2] array B out [1]";
    let update = |operator, one, other| [1, 1, 0, 17, operator, 0, 16, 0, one, 16, 0, other];
    let list = |operator, one, other| list_with_updates(head, &[&update(operator, one, other)]);
    assert_eq!(list(0, 0, 1)[..3], [2, 130, 2]);
    assert_eq!(line_of_lists(&list(0, 0, 1), &list(0, 1, 0), 2), "equal 1");
    assert_eq!(line_of_lists(&list(1, 0, 1), &list(1, 1, 0), 2), "differs 1 0");
    assert_eq!(line_of_lists(&list(0, 0, 1), &list(0, 1, 1), 2), "differs 1 0");
    let mut unmarked = list(0, 0, 1);
    unmarked[1] = 2;
    assert_eq!(line_of_lists(&list(0, 0, 1), &unmarked, 0), "refused both 23 0");
    assert_eq!(line_of_lists(&unmarked, &list(0, 0, 1), 0), "refused both 23 0");
    assert_eq!(line_of_lists(&unmarked, &unmarked, 2), "equal 1");
}

#[test]
fn refusals_of_lists() {
    let base = list_of(BASE);
    let mut wrong = base.clone();
    wrong[98] = 9;
    let short = &base[..LIST_WORDS - 1];
    assert_eq!(line_of_lists(&base, &base, 0xFFFF), "differs 1 0");
    assert_eq!(line_of_lists(&base, &base, 0xFFFD), "equal 2");
    assert_eq!(line_of_lists(&wrong, &base, 0), "refused left 26 0");
    assert_eq!(line_of_lists(&base, &wrong, 0), "refused right 26 0");
    assert_eq!(line_of_lists(&wrong, &wrong, 0), "refused left 26 0");
    assert_eq!(line_of_lists(short, &wrong, 0), "refused both 25 0");
    assert_eq!(line_of_lists(&wrong, short, 0), "refused both 25 0");
    // 26 of the right before 22 of the pair.
    let mut wrong_table = wrong.clone();
    wrong_table[20] = 4;
    assert_eq!(line_of_lists(&base, &wrong_table, 0), "refused right 26 0");
    let mut other_table = base.clone();
    other_table[20] = 4;
    assert_eq!(line_of_lists(&base, &other_table, 0), "refused both 22 0");
}

#[test]
fn a_literal_of_32_bits_is_its_own_term() {
    let head = "array A out [1]";
    let list = |value| list_with_updates(head, &[&[1, 0, 0, 18, value, 0]]);
    assert_eq!(line_of_lists(&list(u32::MAX), &list(u32::MAX), 1), "equal 1");
    assert_eq!(line_of_lists(&list(u32::MAX), &list(0x7FFF_FFFF), 1), "differs 0 0");
}

/// Do two updates conflict: does one write what the other reads or writes?
fn conflict(one: &[[u32; 3]], other: &[[u32; 3]]) -> bool {
    let touches = |update: &[[u32; 3]], cell: &[u32]| {
        update.iter().any(|record| [1, 16].contains(&record[0]) && record[1..] == *cell)
    };
    touches(one, &other[0][1..]) || touches(other, &one[0][1..])
}

/// The orders of some numbers.
fn permutations(count: usize) -> Vec<Vec<usize>> {
    if count == 0 {
        return vec![Vec::new()];
    }
    let shorter = permutations(count - 1);
    let longer = shorter.iter().flat_map(|order| {
        (0..count).map(|at| {
            let mut order = order.clone();
            order.insert(at, count - 1);
            order
        })
    });
    longer.collect()
}

/// A new order is equal to its list; but not if B has one element more, which
/// no update writes, unless the mask leaves B out.
fn equal_where_written(new: &[u32], list: &[u32]) {
    assert_eq!(line_of_lists(new, list, 0xFFFF), "equal 3");
    let [new, list] = [new, list].map(|list| with_word(list, 25, 2));
    assert_eq!(line_of_lists(&new, &list, 0xFFFF), "differs 1 1");
    assert_eq!(line_of_lists(&new, &list, 0xFFFD), "equal 2");
}

#[test]
fn every_permitted_order_gives_the_same_reply() {
    let text = "op f/2 array A in [2] array B out [1] array C inout [2] array T local [1]
        T[0] = f(A[0], C[1])
        B[0] = T[0]
        C[1] = f(B[0], 3)
        T[0] = A[1]
        C[0] = f(T[0], C[0])";
    let list = list_of(text);
    let others = [
        text.to_string(),
        text.replace(", 3)", ", 4)"),
        text.replace("B[0] = T[0]", "B[0] = A[0]"),
    ];
    let base = Parts::of(&decode(&list).unwrap());
    let mut permitted = 0;
    let mut changed = 0;
    for order in permutations(5) {
        let updates: Vec<_> = order.iter().map(|&update| base.updates[update].clone()).collect();
        let in_order = |(one, other): (usize, usize)| {
            order[one] < order[other] || !conflict(&updates[one], &updates[other])
        };
        let kept = (0..5).all(|other| (0..other).all(|one| in_order((one, other))));
        let words = slice(&Parts { tables: base.tables.clone(), updates: updates.clone() }.words());
        for other in &others {
            let other = list_of(other);
            let before = line_of_lists(&list, &other, 0xFFFF);
            let after = line_of_lists(&words, &other, 0xFFFF);
            if kept {
                assert_eq!(before, after);
                equal_where_written(&words, &list);
            } else if before != after {
                changed += 1;
            }
        }
        permitted += usize::from(kept);
    }
    assert!(permitted > 1, "{permitted}");
    assert!(changed > 100, "other orders are found out: {changed}");
}

/// New orders of the updates, and other orders of arguments that may swap.
#[test]
fn random_permitted_orders_give_the_same_reply() {
    let mut random = Random::new(5);
    let mut work = Work::default();
    let mut tried = 0;
    for pair in ListPairs::new(3).take(600) {
        let (left, right) = (pair.left.slice(), pair.right.slice());
        if check_list(&left).is_err() || right.len() < LIST_WORDS {
            continue;
        }
        let parts = Parts::of(&decode(&left).unwrap());
        let parts = parts.reordered(&mut random).swapped(&mut random);
        let mut words = parts.words();
        words.resize(left.len(), 0);
        assert_eq!(check_list(&words), Ok(()));
        let before = work.lists(&left, &right, pair.mask);
        assert_eq!(work.lists(&words, &right, pair.mask), before);
        tried += usize::from(words != left);
    }
    assert!(tried > 150, "{tried} new orders");
}

#[test]
fn reordering_keeps_conflicts_in_order() {
    let mut random = Random::new(8);
    for pair in ListPairs::new(21).take(200) {
        let words = pair.left.slice();
        let Some(list) = decode(&words).filter(|list| list.records.len() < 150) else { continue };
        // Literals are made to tell updates apart that are alike.
        let mut parts = Parts::of(&list);
        let number = |parts: &Parts, update: &[[u32; 3]]| {
            parts.updates.iter().position(|other| other == update).unwrap()
        };
        for (at, update) in parts.updates.iter_mut().enumerate() {
            update.push([18, at as u32, 0]);
        }
        let new = parts.reordered(&mut random);
        assert_eq!(new.updates.len(), parts.updates.len());
        let order: Vec<_> = new.updates.iter().map(|update| number(&parts, update)).collect();
        for later in 0..order.len() {
            for earlier in 0..later {
                let (one, other) = (&new.updates[earlier], &new.updates[later]);
                assert!(order[earlier] < order[later] || !conflict(one, other));
            }
        }
    }
}
