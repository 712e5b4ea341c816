//! Lent memory: 25 first and nothing touched, zeros after anything else.

mod common;
use common::{asm, frame, L};
use separate::limits::{CELL_WORDS, LIST_WORDS, TERM_WORDS};
use separate::{
    check_list, compare_input, compare_input_masked, compare_lists, compare_programs,
    compare_programs_masked, explain_input, explain_input_masked, line_of, line_of_explanation,
    unroll, Chosen, Explanation, Refusal, Reply, Side,
};

const SHORT: Reply = Reply::Refused { side: Side::Both, number: 25, place: 0 };

/// Memory full of something, of four lengths.
struct Lent([Vec<u32>; 4]);

impl Lent {
    fn of(lengths: [usize; 4]) -> Lent {
        Lent(lengths.map(|length| {
            (0..length as u32).map(|word| word.wrapping_mul(2_654_435_761) | 1).collect()
        }))
    }

    /// Calls with the four slices: left list, right list, cells, terms.
    fn call<T>(
        &mut self,
        entry: impl FnOnce(&mut [u32], &mut [u32], &mut [u32], &mut [u32]) -> T,
    ) -> T {
        let [left, right, cells, terms] = &mut self.0;
        entry(left, right, cells, terms)
    }

    fn is_zero(&self) -> bool {
        self.0.iter().flatten().all(|&word| word == 0)
    }

    fn is_untouched(&self) -> bool {
        self.0 == Lent::of(self.lengths()).0
    }

    fn lengths(&self) -> [usize; 4] {
        [0, 1, 2, 3].map(|slice| self.0[slice].len())
    }
}

const ENOUGH: [usize; 4] = [LIST_WORDS, LIST_WORDS, CELL_WORDS, TERM_WORDS];
const MORE: [usize; 4] = [LIST_WORDS + 7, LIST_WORDS + 1, CELL_WORDS + 100, TERM_WORDS + 5];

fn programs() -> Vec<(Vec<u8>, Vec<u8>, &'static str)> {
    let terms = asm("op f/2 array A inout [1] for i = 1 to 2048 { A[0] = f(A[0], i) }");
    let text = "array A in [2] array B out [2] for i = 0 to 1 { B[i] = A[1 - i] }";
    let unwritten = asm("array A out [1] A[0] = 1 A[0] = A[0] for i = 0 to 1 { A[i] = 2 }");
    vec![
        (L.to_vec(), L.to_vec(), "equal 2"),
        (L.to_vec(), asm(text), "differs 1 0"),
        (L[..9].to_vec(), L.to_vec(), "refused left 3 9"),
        (L.to_vec(), unwritten.clone(), "refused right 16 33"),
        (unwritten, L.to_vec(), "refused left 16 33"),
        (L.to_vec(), b"ALX".to_vec(), "refused right 4 0"),
        (L.to_vec(), asm("array A out [1]"), "refused both 22 0"),
        (asm("op f/1 array A out [1]"), asm("op f/2 array A out [1]"), "refused both 23 0"),
        (
            asm("op f/2* array A in [3] array B out [1] B[0] = f(f(A[1], A[2]), A[0])"),
            asm("op f/2* array A in [3] array B out [1] B[0] = f(A[0], f(A[2], A[1]))"),
            "equal 1",
        ),
        (terms.clone(), terms, "refused both 24 0"),
        (L.to_vec(), vec![0; 16_385], "refused right 2 0"),
    ]
}

#[test]
fn programs_leave_zeros() {
    for lengths in [ENOUGH, MORE] {
        for (left, right, line) in programs() {
            let mut lent = Lent::of(lengths);
            let reply = lent.call(|a, b, c, d| compare_programs(&left, &right, a, b, c, d));
            assert_eq!(line_of(reply).to_string(), line);
            assert!(lent.is_zero(), "{line}");
            let mut lent = Lent::of(lengths);
            let masked =
                lent.call(|a, b, c, d| compare_programs_masked(&left, &right, 0xFFFF, a, b, c, d));
            assert_eq!(masked, reply);
            assert!(lent.is_zero(), "{line}");
            let mut lent = Lent::of(lengths);
            let input = frame(&left, &right);
            assert_eq!(lent.call(|a, b, c, d| compare_input(&input, a, b, c, d)), reply);
            assert!(lent.is_zero(), "{line}");
            let mut lent = Lent::of(lengths);
            let masked = lent.call(|a, b, c, d| compare_input_masked(&input, 0xFFFF, a, b, c, d));
            assert_eq!(masked, reply);
            assert!(lent.is_zero(), "{line}");
        }
    }
}

#[test]
fn explanations_leave_zeros() {
    for (left, right, line) in programs() {
        let input = frame(&left, &right);
        let kind = if line.starts_with("equal") { "refused both 27 0" } else { line };
        let kind = kind.replace("differs", "written");
        for chosen in [Chosen::Left, Chosen::Right] {
            let mut lent = Lent::of(MORE);
            let plain = lent.call(|a, b, c, d| explain_input(&input, chosen, a, b, c, d));
            assert!(lent.is_zero(), "{line}");
            let mut lent = Lent::of(MORE);
            let masked =
                lent.call(|a, b, c, d| explain_input_masked(&input, 0xFFFF, chosen, a, b, c, d));
            assert!(lent.is_zero(), "{line}");
            assert_eq!(masked, plain);
            let explained = line_of_explanation(plain).to_string();
            assert!(explained.starts_with(&kind), "{explained}, {line}");
        }
    }
}

#[test]
fn a_bad_frame_leaves_zeros() {
    for input in [&[][..], &[1], &[5, 0, 1], &[0xFF, 0xFF]] {
        let mut lent = Lent::of(MORE);
        let reply = lent.call(|a, b, c, d| compare_input(input, a, b, c, d));
        assert!(lent.is_zero());
        let mut lent = Lent::of(MORE);
        assert_eq!(lent.call(|a, b, c, d| compare_input_masked(input, 5, a, b, c, d)), reply);
        assert!(lent.is_zero());
        let Reply::Refused { side, number, place } = reply else { panic!("{reply:?}") };
        let refused = Explanation::Refused { side, number, place };
        let mut lent = Lent::of(MORE);
        let explained = lent.call(|a, b, c, d| explain_input(input, Chosen::Left, a, b, c, d));
        assert_eq!(explained, refused);
        assert!(lent.is_zero());
        let mut lent = Lent::of(MORE);
        let explained =
            lent.call(|a, b, c, d| explain_input_masked(input, 5, Chosen::Right, a, b, c, d));
        assert_eq!(explained, refused);
        assert!(lent.is_zero());
    }
}

#[test]
fn short_memory_is_asked_first_and_not_touched() {
    for slice in 0..4 {
        for length in [0, 1, ENOUGH[slice] - 1] {
            let mut lengths = ENOUGH;
            lengths[slice] = length;
            for (left, right, _) in programs() {
                let input = frame(&left, &right);
                let mut lent = Lent::of(lengths);
                let reply = lent.call(|a, b, c, d| compare_programs(&left, &right, a, b, c, d));
                assert_eq!(reply, SHORT);
                let reply =
                    lent.call(|a, b, c, d| compare_programs_masked(&left, &right, 0, a, b, c, d));
                assert_eq!(reply, SHORT);
                assert_eq!(lent.call(|a, b, c, d| compare_input(&input, a, b, c, d)), SHORT);
                assert_eq!(lent.call(|a, b, c, d| compare_input(&[], a, b, c, d)), SHORT);
                let reply = lent.call(|a, b, c, d| compare_input_masked(&input, 0, a, b, c, d));
                assert_eq!(reply, SHORT);
                let refused = Explanation::Refused { side: Side::Both, number: 25, place: 0 };
                let explained =
                    lent.call(|a, b, c, d| explain_input(&input, Chosen::Left, a, b, c, d));
                assert_eq!(explained, refused);
                let explained = lent
                    .call(|a, b, c, d| explain_input_masked(&input, 3, Chosen::Left, a, b, c, d));
                assert_eq!(explained, refused);
                assert_eq!(lent.call(|a, b, c, d| compare_lists(a, b, 9, c, d)), SHORT);
                assert!(lent.is_untouched());
            }
        }
    }
}

#[test]
fn lists_leave_zeros_in_work_memory_and_are_only_read() {
    let lists: Vec<_> = programs()
        .into_iter()
        .map(|(left, right, line)| {
            let unrolled = |program: &[u8]| {
                let mut list = vec![0; LIST_WORDS];
                unroll(program, &mut list).map(|_| list)
            };
            (unrolled(&left), unrolled(&right), line)
        })
        .collect();
    let mut compared = 0;
    for (left, right, line) in lists {
        let (Ok(mut left), Ok(right)) = (left, right) else { continue };
        let mut lent = Lent::of(MORE);
        let reply =
            lent.call(|_, _, cells, terms| compare_lists(&left, &right, 0xFFFF, cells, terms));
        assert_eq!(line_of(reply).to_string(), line);
        assert!(lent.0[2..].iter().flatten().all(|&word| word == 0), "{line}");
        left[5] = 77;
        let mut lent = Lent::of(ENOUGH);
        let reply =
            lent.call(|_, _, cells, terms| compare_lists(&right, &left, 0xFFFF, cells, terms));
        assert_eq!(line_of(reply).to_string(), "refused right 26 0");
        assert!(lent.0[2..].iter().flatten().all(|&word| word == 0), "{line}");
        compared += 1;
    }
    assert_eq!(compared, 6);
}

#[test]
fn unroll_leaves_zeros_when_it_refuses() {
    let too_late = asm("array A out [2] for i = 0 to 2 { A[i] = i }");
    for (program, refusal) in [
        (&L[..33], Refusal { number: 3, place: 33 }),
        (&too_late, Refusal { number: 16, place: 18 }),
        (&[0; 16_385], Refusal { number: 2, place: 0 }),
    ] {
        for length in [LIST_WORDS, LIST_WORDS + 77] {
            let mut list = vec![0xABCD; length];
            assert_eq!(unroll(program, &mut list), Err(refusal));
            assert!(list.iter().all(|&word| word == 0));
        }
    }
}

#[test]
fn short_lists_are_asked_first() {
    let short = Refusal { number: 25, place: 0 };
    for length in [0, 1, 98, LIST_WORDS - 1] {
        let mut list = vec![3; length];
        assert_eq!(unroll(&L, &mut list), Err(short));
        assert_eq!(unroll(b"", &mut list), Err(short));
        assert!(list.iter().all(|&word| word == 3));
        assert_eq!(check_list(&list), Err(short));
    }
    assert_eq!(check_list(&vec![3; LIST_WORDS]), Err(Refusal { number: 26, place: 0 }));
    // An entry over one program or list calls it left; memory is no side's.
    assert_eq!(short.reply(Side::Left), SHORT);
}
