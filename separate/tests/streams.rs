//! Random streams: what they hold, and that a seed fixes them.

use std::collections::BTreeMap;

use separate::compare::ALL;
use separate::entries;
use separate::list::{decode, List, Record};
use separate::random::{unwritten, Explanations, ListPairs, Masked, Pairs};
use separate::stream::{inputs, lists, write_input, write_lists, Cut};
use separate::tables::{Role, MARKED};
use separate::{line_of, Reply, Side, Work};

/// A reply without its numbers, but with side and question of a refusal.
fn kind(reply: Reply) -> String {
    let line = line_of(reply).to_string();
    match reply {
        Reply::Refused { .. } => line.rsplit_once(' ').unwrap().0.to_string(),
        _ => line.split_once(' ').unwrap().0.to_string(),
    }
}

/// How often each kind was replied.
fn histogram(replies: impl Iterator<Item = Reply>) -> BTreeMap<String, usize> {
    let mut counts = BTreeMap::new();
    replies.for_each(|reply| *counts.entry(kind(reply)).or_insert(0) += 1);
    counts
}

/// Each of these kinds was counted at least so often.
fn assert_counts(counts: &BTreeMap<String, usize>, wanted: &[(&str, usize)]) {
    for &(kind, least) in wanted {
        let count = counts.get(kind).copied().unwrap_or(0);
        assert!(count >= least, "{kind}: {count}, not {least}, in {counts:?}");
    }
}

#[test]
fn two_thousand_pairs_cover_everything() {
    for seed in [1, 2] {
        let mut work = Work::default();
        let counts = histogram(Pairs::new(seed).take(2_000).map(|input| work.input(&input)));
        let count = |kind: &str| counts.get(kind).copied().unwrap_or(0);
        assert!(count("equal") >= 450 && count("differs") >= 450, "{counts:?}");
        assert!(count("refused input 1") >= 10, "{counts:?}");
        for number in 2..=20 {
            let left = count(&format!("refused left {number}"));
            let right = count(&format!("refused right {number}"));
            assert!(left >= 3 && right >= 3 && left + right >= 12, "{number} in {counts:?}");
        }
        for number in 22..=24 {
            assert!(count(&format!("refused both {number}")) >= 10, "{number} in {counts:?}");
        }
        assert!(counts.keys().all(|kind| !kind.ends_with(" 25")));
    }
}

/// What a record lends to an explanation.
struct Lent<'a> {
    /// None where the comparison is plain.
    mask: Option<u16>,
    side: u8,
    left: &'a [u8],
    right: &'a [u8],
}

/// Of `explain` (34), `explain_input` (38) or `explain_input_masked` (44).
fn lent(record: &[u8]) -> Lent<'_> {
    let number = |k: usize| {
        let bytes = &record[1 + 8 * k..][..8];
        u64::from_le_bytes(bytes.try_into().unwrap()) as usize
    };
    let rest = &record[49 + 4 * number(5)..];
    let (mask, rest) = match record[0] {
        38 => (None, rest),
        _ => (Some(u16::from_le_bytes([rest[0], rest[1]])), &rest[2..]),
    };
    let (left, right) = match record[0] {
        34 => rest[1..].split_at(number(0)),
        _ => separate::input::split(&rest[1..]).unwrap_or((&[], &[])),
    };
    Lent { mask, side: rest[0], left, right }
}

/// How often a program writes an element.
fn writes(program: &[u8], array: u32, cell: u32) -> usize {
    let mut list = vec![0; separate::limits::LIST_WORDS];
    separate::unroll(program, &mut list).unwrap();
    let list = separate::list::decode(&list).unwrap();
    list.updates().filter(|(update, _)| update[1..] == [array, cell]).count()
}

#[test]
fn three_thousand_explanations_cover_everything() {
    let mut counts = BTreeMap::new();
    let mut count = |kind: String| *counts.entry(kind).or_insert(0usize) += 1;
    for record in Explanations::new(1).take(3_000) {
        let line = entries::line(&record);
        let numbers: Vec<i64> =
            line.split(' ').map(|number| number.parse().expect("every record fits")).collect();
        let Lent { mask, side, left, right } = lent(&record);
        let masked = match mask {
            None => "plain",
            Some(0xFFFF) => "all",
            Some(_) => "masked",
        };
        count(format!("{} {}", record[0], ["written", "starting", "refused"][numbers[1] as usize]));
        match numbers[1] {
            0 => {
                count(format!("written {side} {masked}"));
                count(format!("depth {}", numbers[9]));
                let program = if side == 0 { left } else { right };
                let again = writes(program, numbers[5] as u32, numbers[6] as u32);
                count(if again > 1 { "again" } else { "once" }.to_string());
                if numbers[10..18].iter().any(|&index| index < 0) {
                    count("negative".to_string());
                }
            }
            1 => count(format!("starting {side} {masked}")),
            _ => count(format!("refused {}", numbers[3])),
        }
    }
    let mut wanted: Vec<_> = (0..=8).map(|depth| (format!("depth {depth}"), 20)).collect();
    for side in 0..2 {
        for (masked, written, starting) in
            [("all", 100, 30), ("masked", 100, 30), ("plain", 20, 10)]
        {
            wanted.push((format!("written {side} {masked}"), written));
            wanted.push((format!("starting {side} {masked}"), starting));
        }
    }
    for entry in [34, 38, 44] {
        wanted
            .extend(["written", "starting", "refused"].map(|kind| (format!("{entry} {kind}"), 20)));
    }
    wanted.extend([("again".to_string(), 300), ("negative".to_string(), 100)]);
    wanted.extend([25, 27].map(|number| (format!("refused {number}"), 20)));
    wanted.extend([3, 9, 16, 22, 24].map(|number| (format!("refused {number}"), 1)));
    for (kind, least) in wanted {
        assert!(counts.get(&kind).is_some_and(|&count| count >= least), "{kind} in {counts:?}");
    }
}

#[test]
fn a_seed_fixes_the_stream() {
    let first: Vec<_> = Pairs::new(9).take(50).collect();
    assert_eq!(first, Pairs::new(9).take(50).collect::<Vec<_>>());
    assert_ne!(first, Pairs::new(10).take(50).collect::<Vec<_>>());
    let lists: Vec<_> = ListPairs::new(9).take(20).collect();
    assert_eq!(lists, ListPairs::new(9).take(20).collect::<Vec<_>>());
    let explanations: Vec<_> = Explanations::new(9).take(50).collect();
    assert_eq!(explanations, Explanations::new(9).take(50).collect::<Vec<_>>());
    assert_ne!(explanations, Explanations::new(10).take(50).collect::<Vec<_>>());
}

#[test]
fn some_pairs_are_large() {
    let mut work = Work::default();
    let (mut rounds, mut updates, mut nodes, mut bytes) = (0, 0, 0, 0);
    let mut list = vec![0; separate::limits::LIST_WORDS];
    for input in Pairs::new(1).take(4_000) {
        if !matches!(work.input(&input), Reply::Equal { .. } | Reply::Differs { .. }) {
            continue;
        }
        let left = usize::from(u16::from_le_bytes([input[0], input[1]]));
        for program in [&input[2..2 + left], &input[2 + left..]] {
            let program = separate::read_program(program).unwrap();
            let counts = separate::run::run(&program, &mut list).unwrap();
            rounds = rounds.max(counts.rounds);
            updates = updates.max(counts.updates);
            nodes = nodes.max(counts.nodes);
        }
        bytes = bytes.max(left);
    }
    assert!(rounds > 60_000, "{rounds}");
    assert!(updates > 1_900, "{updates}");
    assert!(nodes > 7_500, "{nodes}");
    assert!(bytes > 10_000, "{bytes}");
}

/// The program with its marks taken away.
fn unmarked(program: &[u8]) -> Vec<u8> {
    let mut program = program.to_vec();
    let operators = usize::from(program[5]);
    program[6..6 + operators].iter_mut().filter(|own| **own == MARKED).for_each(|own| *own = 2);
    program
}

#[test]
fn marks_and_versions_in_four_thousand_pairs() {
    let mut work = Work::default();
    let mut counts = BTreeMap::new();
    let mut count = |kind: String| *counts.entry(kind).or_insert(0usize) += 1;
    for input in Pairs::new(1).take(4_000) {
        let reply = work.input(&input);
        if matches!(reply, Reply::Refused { number: ..22, .. }) {
            continue;
        }
        let (left, right) = separate::input::split(&input).unwrap();
        if left[3] != right[3] {
            count(format!("{}, two versions", kind(reply)));
        }
        let without = work.programs(&unmarked(left), &unmarked(right));
        if without != reply {
            count(format!("{}, without marks {}", kind(reply), kind(without)));
        }
    }
    assert_counts(
        &counts,
        &[
            ("equal, two versions", 50),
            ("differs, two versions", 20),
            ("equal, without marks differs", 80),
            ("equal, without marks refused both 24", 5),
            ("refused both 23, without marks equal", 8),
        ],
    );
}

#[test]
fn two_thousand_list_pairs_cover_everything() {
    let mut work = Work::default();
    let replies = ListPairs::new(1)
        .take(2_000)
        .map(|pair| work.lists(&pair.left.slice(), &pair.right.slice(), pair.mask));
    let counts = histogram(replies);
    assert_counts(
        &counts,
        &[
            ("equal", 400),
            ("differs", 200),
            ("refused left 26", 100),
            ("refused right 26", 100),
            ("refused both 22", 15),
            ("refused both 23", 10),
            ("refused both 24", 10),
            ("refused both 25", 40),
        ],
    );
    assert_eq!(counts.len(), 8, "{counts:?}");
}

/// Counts by the reply without marks, where it is another.
#[test]
fn marks_in_four_thousand_list_pairs() {
    let mut work = Work::default();
    let mut counts = BTreeMap::new();
    for pair in ListPairs::new(2).take(4_000) {
        let lists = [pair.left.slice(), pair.right.slice()];
        let [left, right] = &lists;
        let reply = work.lists(left, right, pair.mask);
        if matches!(reply, Reply::Refused { number: 25 | 26, .. }) {
            continue;
        }
        let [left, right] = lists.map(|mut list| {
            list[1..17].iter_mut().filter(|word| **word == 130).for_each(|word| *word = 2);
            list
        });
        let without = work.lists(&left, &right, pair.mask);
        if without != reply {
            let kinds = format!("{}, without marks {}", kind(reply), kind(without));
            *counts.entry(kinds).or_insert(0usize) += 1;
        }
    }
    assert_counts(
        &counts,
        &[
            ("equal, without marks differs", 80),
            ("equal, without marks refused both 24", 5),
            ("refused both 23, without marks equal", 8),
        ],
    );
}

#[test]
fn streams_are_read_as_they_are_written() {
    let pairs: Vec<_> = Pairs::new(4).take(100).collect();
    let mut stream = Vec::new();
    pairs.iter().for_each(|input| write_input(&mut stream, input).unwrap());
    let read: Vec<_> = inputs(&stream).map(|input| input.unwrap().to_vec()).collect();
    assert_eq!(read, pairs);
    let list_pairs: Vec<_> = ListPairs::new(4).take(30).collect();
    let mut stream = Vec::new();
    list_pairs.iter().for_each(|pair| write_lists(&mut stream, pair).unwrap());
    let read: Vec<_> = lists(&stream).map(|pair| pair.unwrap()).collect();
    assert_eq!(read, list_pairs);
}

#[test]
fn a_cut_stream_is_seen() {
    let stream = [3, 0, 0, 0, 7, 7, 7, 2, 0, 0, 0, 9];
    let read: Vec<_> = inputs(&stream).collect();
    assert_eq!(read, [Ok(&[7, 7, 7][..]), Err(Cut)]);
    assert_eq!(inputs(&stream[..9]).last(), Some(Err(Cut)));
    assert_eq!(inputs(&[]).next(), None);
    // More words stored than the slice has.
    let stream = [0, 0, 0, 0, 0, 0, 1, 0, 0, 0, 5, 0, 0, 0];
    assert_eq!(lists(&stream).collect::<Vec<_>>(), [Err(Cut)]);
}

/// Which sides leave the element unwritten, and the role of its array.
fn unwritten_on([left, right]: [&List; 2], array: usize, cell: usize) -> String {
    let element = [array as u32, cell as u32];
    let writes = |list: &List| list.updates().any(|(update, _)| update[1..] == element);
    let sides = match [writes(left), writes(right)] {
        [true, true] => "neither",
        [true, false] => "the right",
        [false, true] => "the left",
        [false, false] => "both",
    };
    format!("{:?}, unwritten on {sides}", left.tables.arrays()[array].role)
}

/// Is there an array of the role that no update of either side writes?
fn is_untouched(lists: [&List; 2], wanted: Role) -> bool {
    let written = |array| {
        lists.iter().any(|list| list.updates().any(|(update, _)| update[1] as usize == array))
    };
    let arrays = lists[0].tables.shared().iter().enumerate();
    arrays.filter(|(_, declared)| declared.role == wanted).any(|(array, _)| !written(array))
}

fn has_out(list: &List) -> bool {
    list.tables.arrays().iter().any(|array| array.role == Role::Out)
}

#[test]
fn unwritten_elements_in_four_thousand_pairs() {
    let mut work = Work::default();
    let mut counts = BTreeMap::new();
    let mut count = |kind: &str| *counts.entry(kind.to_string()).or_insert(0usize) += 1;
    for input in Pairs::new(1).take(4_000) {
        let (reply, all) = (work.input(&input), work.input_masked(&input, ALL));
        if matches!(reply, Reply::Refused { .. }) {
            continue;
        }
        let (left, right) = separate::input::split(&input).unwrap();
        let words = [left, right].map(|program| work.unroll(program).unwrap().to_vec());
        let [one, other] = [decode(&words[0]).unwrap(), decode(&words[1]).unwrap()];
        if let Reply::Differs { array, cell } = reply {
            count(&unwritten_on([&one, &other], array, cell));
            count(if left == right { "differs, itself" } else { "differs, another" });
        }
        if let Reply::Differs { array, cell } = all {
            if all != reply {
                count(&format!("all: {}", unwritten_on([&one, &other], array, cell)));
            }
            continue;
        }
        count(if has_out(&one) { "equal, out arrays" } else { "equal, no out array" });
        if is_untouched([&one, &other], Role::Inout) {
            count("equal, an inout array that neither writes");
        }
    }
    assert_counts(
        &counts,
        &[
            ("Out, unwritten on neither", 450),
            ("Out, unwritten on the left", 80),
            ("Out, unwritten on the right", 200),
            ("Out, unwritten on both", 140),
            ("differs, itself", 30),
            ("all: Inout, unwritten on neither", 180),
            ("all: Inout, unwritten on the left", 10),
            ("all: Inout, unwritten on the right", 30),
            ("equal, an inout array that neither writes", 250),
        ],
    );
    assert!(counts["equal, out arrays"] > 9 * counts["equal, no out array"], "{counts:?}");
}

/// How the plain reply and the one under all bits differ, where neither refuses.
fn roles_of(list: &List, plain: Reply, all: Reply) -> String {
    let has = |role| list.tables.arrays().iter().any(|array| array.role == role);
    match (plain, all) {
        (Reply::Equal { count: 0 }, _) if !has(Role::Out) => {
            let inout = if has(Role::Inout) { "inout alone" } else { "neither out nor inout" };
            format!("{inout}, all {}", kind(all))
        }
        (Reply::Equal { .. }, all) => format!("out, equal, all {}", kind(all)),
        (_, Reply::Differs { .. }) if plain == all => "out, differs, all the same".to_string(),
        (_, all) => format!("out, differs, all {} elsewhere", kind(all)),
    }
}

#[test]
fn out_and_inout_arrays_in_random_pairs() {
    let mut work = Work::default();
    for seed in 1..=4 {
        let mut counts = BTreeMap::new();
        let mut count = |kind: String| *counts.entry(kind).or_insert(0usize) += 1;
        for input in Pairs::new(seed).take(4_000) {
            let plain = work.input(&input);
            let all = work.input_masked(&input, ALL);
            if let Reply::Refused { .. } = plain {
                assert_eq!(all, plain);
                continue;
            }
            let (left, _) = separate::input::split(&input).unwrap();
            let words = work.unroll(left).unwrap().to_vec();
            let list = decode(&words).unwrap();
            count(format!("plain {}", kind(plain)));
            count(roles_of(&list, plain, all));
            let roles = [Role::In, Role::Out, Role::Inout, Role::Local];
            let arrays = list.tables.arrays();
            if roles.iter().all(|&role| arrays.iter().any(|array| array.role == role)) {
                count(format!("all four roles, {}", kind(plain)));
            }
        }
        for kind in ["equal", "differs"] {
            let of_kind = counts[&format!("plain {kind}")];
            assert!((1_080..=1_320).contains(&of_kind), "{kind} in {counts:?}");
        }
        assert_counts(
            &counts,
            &[
                ("inout alone, all equal", 25),
                ("inout alone, all differs", 35),
                ("neither out nor inout, all equal", 1),
                ("out, equal, all equal", 850),
                ("out, equal, all differs", 50),
                ("out, differs, all the same", 900),
                ("out, differs, all differs elsewhere", 100),
                ("all four roles, equal", 90),
                ("all four roles, differs", 90),
            ],
        );
    }
}

/// Are all out elements written, or are those that are not left out?
fn state(list: &List, mask: u16) -> &'static str {
    let missing = unwritten(list);
    let left_out = missing.iter().all(|(array, _)| mask >> array & 1 == 0);
    match (missing.is_empty(), left_out) {
        (true, _) if has_out(list) => "all written",
        (true, _) => "no out array",
        (false, true) => "what is unwritten left out",
        (false, false) => "something unwritten",
    }
}

/// Has the right list the left's updates in another order, or with swapped
/// arguments, and the same values, whatever is unwritten?
fn is_new_order(work: &mut Work, [left, right]: [&[u32]; 2], mask: u16) -> bool {
    let [one, other] = [left, right].map(all_inout);
    let same_values = matches!(work.lists(&one, &other, mask), Reply::Equal { .. });
    same_values && all_scattered(left) == all_scattered(right)
}

/// A list beside itself or a new order of itself, and any two that differ.
#[test]
fn unwritten_elements_in_four_thousand_list_pairs() {
    let mut work = Work::default();
    let mut counts = BTreeMap::new();
    let mut count = |kind: String| *counts.entry(kind).or_insert(0usize) += 1;
    for pair in ListPairs::new(1).take(4_000) {
        let (left, right) = (pair.left.slice(), pair.right.slice());
        let reply = work.lists(&left, &right, pair.mask);
        if matches!(reply, Reply::Refused { .. }) {
            continue;
        }
        let [one, other] = [decode(&left).unwrap(), decode(&right).unwrap()];
        if let Reply::Differs { array, cell } = reply {
            count(unwritten_on([&one, &other], array, cell));
        }
        let beside = match left == right {
            true => "itself",
            false if is_new_order(&mut work, [&left, &right], pair.mask) => "a new order",
            false => continue,
        };
        let (reply, state) = (kind(reply), state(&one, pair.mask));
        assert_eq!(reply == "differs", state == "something unwritten", "{beside}");
        count(format!("{reply}, {beside}, {state}"));
    }
    assert_counts(
        &counts,
        &[
            ("Out, unwritten on neither", 180),
            ("Out, unwritten on the left", 30),
            ("Out, unwritten on the right", 30),
            ("Out, unwritten on both", 90),
            ("differs, itself, something unwritten", 10),
            ("differs, a new order, something unwritten", 45),
            ("equal, itself, what is unwritten left out", 20),
            ("equal, a new order, what is unwritten left out", 75),
            ("equal, itself, all written", 70),
            ("equal, a new order, all written", 400),
        ],
    );
}

/// The right side is looked at only when the left has no refusal.
#[test]
fn right_refusals_have_an_accepted_left() {
    let mut work = Work::default();
    let mut seen = 0;
    for input in Pairs::new(6).take(600) {
        if let Reply::Refused { side: Side::Right, .. } = work.input(&input) {
            let left = usize::from(u16::from_le_bytes([input[0], input[1]]));
            assert_eq!(work.refusal(&input[2..2 + left]), None);
            seen += 1;
        }
    }
    assert!(seen > 60, "{seen}");
}

/// The program of a pair that its reply refuses, with question and place.
fn refused_program(input: &[u8], reply: Reply) -> Option<(&[u8], u8, usize)> {
    let Reply::Refused { side, number, place } = reply else { return None };
    let (left, right) = separate::input::split(input).ok()?;
    match side {
        Side::Left => Some((left, number, place)),
        Side::Right => Some((right, number, place)),
        _ => None,
    }
}

/// A program of version 2 without a mark.
fn needs_no_mark(program: &[u8]) -> bool {
    program[3..5] == [2, 0] && !program[6..][..usize::from(program[5])].contains(&MARKED)
}

/// A mark in version 1 that version 2 would not have either stands for an operator of another arity.
#[test]
fn refused_versions_and_marks_in_four_thousand_pairs() {
    let mut work = Work::default();
    let mut counts = BTreeMap::new();
    let mut count = |kind: &str| *counts.entry(kind.to_string()).or_insert(0usize) += 1;
    for input in Pairs::new(1).take(4_000) {
        let reply = work.input(&input);
        let Some((program, number, place)) = refused_program(&input, reply) else { continue };
        match (number, program.get(place)) {
            (5, Some(1 | 2)) => count("no version but for the second byte"),
            (5, _) if program[place + 1] == 0 => count("no version but for the first byte"),
            (6, Some(&MARKED)) if program[3] == 1 => {
                let mut second = program.to_vec();
                second[3] = 2;
                let is_read = separate::read_program(&second).is_ok();
                count(if is_read { "a mark in version 1" } else { "a mark for another arity" });
            }
            (7.., Some(&MARKED)) => count("a mark's byte elsewhere"),
            (7..=20, _) if needs_no_mark(program) => count("refused in version 2 without marks"),
            _ => {}
        }
    }
    assert_counts(
        &counts,
        &[
            ("no version but for the first byte", 12),
            ("no version but for the second byte", 10),
            ("a mark in version 1", 3),
            ("a mark for another arity", 3),
            ("a mark's byte elsewhere", 6),
            ("refused in version 2 without marks", 40),
        ],
    );
}

#[test]
fn version_2_without_marks_in_two_thousand_pairs() {
    let mut work = Work::default();
    let mut counts = BTreeMap::new();
    for input in Pairs::new(1).take(2_000) {
        let reply = work.input(&input);
        if matches!(reply, Reply::Refused { number: ..22, .. }) {
            continue;
        }
        let (left, right) = separate::input::split(&input).unwrap();
        let sides = usize::from(needs_no_mark(left)) + usize::from(needs_no_mark(right));
        *counts.entry(format!("{}, on {sides}", kind(reply))).or_insert(0) += 1;
    }
    for kind in ["equal", "differs"] {
        let [one, both] = [1, 2].map(|sides| format!("{kind}, on {sides}"));
        assert_counts(&counts, &[(&one, 12), (&both, 15)]);
    }
}

/// Words that are a mark's but for some bits.
#[test]
fn near_marks_in_eight_thousand_list_pairs() {
    let mut work = Work::default();
    let mut counts = BTreeMap::new();
    for pair in ListPairs::new(1).take(8_000) {
        let (left, right) = (pair.left.slice(), pair.right.slice());
        let list = match work.lists(&left, &right, pair.mask) {
            Reply::Refused { side: Side::Left, number: 26, .. } => &left,
            Reply::Refused { side: Side::Right, number: 26, .. } => &right,
            _ => continue,
        };
        let operators = list[0].min(16) as usize;
        for word in &list[1..=operators] {
            *counts.entry(format!("{word:x}")).or_insert(0) += 1;
        }
    }
    let near = ["80", "83", "42", "182", "8200", "10082", "80000082"];
    assert_counts(&counts, &near.map(|word| (word, 4)));
}

/// The operators of the nests, by the arrays that they alone have.
#[test]
fn marks_in_a_thousand_explanations() {
    let mut counts = BTreeMap::new();
    for record in Explanations::new(1).take(1_000) {
        let Lent { left, right, .. } = lent(&record);
        for program in [left, right] {
            let [_, _, _, version, 0, 1, operator, 3 | 4, 0, 1, 8, 0, 1 | 2, 1, 40, 0, ..] =
                program
            else {
                continue;
            };
            *counts.entry(format!("{operator:02x} in version {version}")).or_insert(0) += 1;
        }
    }
    assert_counts(&counts, &[("02 in version 1", 300), ("82 in version 2", 300)]);
}

/// Which sides leave the element unwritten that differs; or, where nothing
/// does, that a mask leaves out what both leave unwritten.
#[test]
fn unwritten_elements_in_three_thousand_explanations() {
    let mut work = Work::default();
    let mut counts = BTreeMap::new();
    let mut explanations = Explanations::new(1);
    for _ in 0..3_000 {
        let Masked { left, right, mask } = explanations.pair();
        let reply = work.programs_masked(&left, &right, mask);
        if matches!(reply, Reply::Refused { .. }) {
            continue;
        }
        let words = [left, right].map(|program| work.unroll(&program).unwrap().to_vec());
        let [left, right] = [decode(&words[0]).unwrap(), decode(&words[1]).unwrap()];
        let kind = match reply {
            Reply::Differs { array, cell } => unwritten_on([&left, &right], array, cell),
            _ if unwritten(&left).is_empty() => continue,
            _ => "equal, what is unwritten left out".to_string(),
        };
        *counts.entry(kind).or_insert(0) += 1;
    }
    assert_counts(
        &counts,
        &[
            ("Out, unwritten on neither", 350),
            ("Out, unwritten on the left", 180),
            ("Out, unwritten on the right", 180),
            ("Out, unwritten on both", 270),
            ("Inout, unwritten on neither", 300),
            ("Inout, unwritten on the left", 170),
            ("Inout, unwritten on the right", 170),
            ("equal, what is unwritten left out", 40),
        ],
    );
}

/// The list with a mark on each operator of two arguments.
fn all_marked(list: &[u32]) -> Vec<u32> {
    let mut list = list.to_vec();
    list[1..17].iter_mut().filter(|word| **word == 2).for_each(|word| *word = u32::from(MARKED));
    list
}

/// The updates of a list, each with the nodes of its expression in no order.
fn scattered(list: &[u32]) -> Vec<Vec<Record>> {
    let scatter = |(update, expression): (&Record, &[Record])| {
        let mut records = expression.to_vec();
        records.sort();
        records.insert(0, *update);
        records
    };
    decode(list).unwrap().updates().map(scatter).collect()
}

/// The same, but the updates are in no order either.
fn all_scattered(list: &[u32]) -> Vec<Vec<Record>> {
    let mut updates = scattered(list);
    updates.sort();
    updates
}

/// The list with inout for out, so that what both sides leave unwritten is no difference.
fn all_inout(list: &[u32]) -> Vec<u32> {
    let mut list = list.to_vec();
    list[18..98].iter_mut().step_by(5).filter(|role| **role == 1).for_each(|role| *role = 2);
    list
}

/// What two lists that differ differ in, if it is the order of two arguments, or the grouping alone:
/// with operators of at most two arguments, nothing else that differs in a value keeps all nodes.
fn difference(
    work: &mut Work,
    lists: [&[u32]; 2],
    mask: u16,
    nodes: fn(&[u32]) -> Vec<Vec<Record>>,
) -> Option<String> {
    let [left, right] = &lists.map(all_inout);
    if matches!(work.lists(left, right, mask), Reply::Equal { .. }) {
        return None;
    }
    let marks = match [2, u32::from(MARKED)].map(|word| left[1..17].contains(&word)) {
        [_, false] => "none marked",
        [true, true] => "some marked",
        [false, true] => "all marked",
    };
    if matches!(work.lists(&all_marked(left), &all_marked(right), mask), Reply::Equal { .. }) {
        return Some(format!("arguments, {marks}"));
    }
    let few = |&word: &u32| matches!(word, 0..=2 | 130);
    let regrouped = left[1..17].iter().all(few) && nodes(left) == nodes(right);
    regrouped.then(|| format!("grouping, {marks}"))
}

#[test]
fn orders_and_groupings_in_six_thousand_pairs() {
    let mut work = Work::default();
    let mut counts = BTreeMap::new();
    for input in Pairs::new(1).take(6_000) {
        if !matches!(work.input(&input), Reply::Differs { .. }) {
            continue;
        }
        let (left, right) = separate::input::split(&input).unwrap();
        let [left, right] = [left, right].map(|program| work.unroll(program).unwrap().to_vec());
        if let Some(kind) = difference(&mut work, [&left, &right], ALL, scattered) {
            *counts.entry(kind).or_insert(0) += 1;
        }
    }
    assert_counts(
        &counts,
        &[
            ("arguments, some marked", 5),
            ("arguments, none marked", 30),
            ("grouping, all marked", 9),
            ("grouping, none marked", 12),
        ],
    );
}

#[test]
fn orders_and_groupings_in_eight_thousand_list_pairs() {
    let mut work = Work::default();
    let mut counts = BTreeMap::new();
    for pair in ListPairs::new(1).take(8_000) {
        let (left, right) = (pair.left.slice(), pair.right.slice());
        if !matches!(work.lists(&left, &right, pair.mask), Reply::Differs { .. }) {
            continue;
        }
        if let Some(kind) = difference(&mut work, [&left, &right], pair.mask, all_scattered) {
            *counts.entry(kind).or_insert(0) += 1;
        }
    }
    assert_counts(
        &counts,
        &[
            ("arguments, some marked", 4),
            ("arguments, none marked", 30),
            ("grouping, all marked", 3),
            ("grouping, none marked", 3),
        ],
    );
}
