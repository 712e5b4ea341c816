//! The pairs that are timed are what their names say.

use beside::workloads::{all, explained, growths, written, Explained, Pair};
use separate::list::{code, decode};
use separate::{limits::LIST_WORDS, notation::assemble};
use tengmua::{Explanation, Refusal, Reply, Side, Work, ALL, FILE_BYTES};

fn list_of(program: &[u8]) -> Vec<u32> {
    let mut list = vec![0; LIST_WORDS];
    tengmua::unroll(program, &mut list).expect("accepted");
    list
}

#[test]
fn each_single_pair_is_equal() {
    let mut work = Work::default();
    let mut sizes = Vec::new();
    for workload in all(1).iter().filter(|workload| workload.pairs.len() == 1) {
        let Pair { left, right } = &workload.pairs[0];
        assert!(matches!(work.programs(left, right, ALL), Reply::Equal(_)), "{}", workload.name);
        assert_ne!(left, right, "{}", workload.name);
        sizes.push(decode(&list_of(left)).expect("a list").updates().count());
    }
    assert_eq!(sizes, [56, 1_764, 400, 1_331, 0, 2_048]);
}

/// Each differs; of one pair the chosen program wrote the element, and in the worst it is the one with the rounds.
#[test]
fn each_explained_pair_differs() {
    let mut work = Work::default();
    let workloads = explained(1);
    for Explained { workload, chosen } in &workloads {
        for Pair { left, right } in &workload.pairs {
            let explanation = work.explain(left, right, ALL, *chosen);
            let written = matches!(explanation, Explanation::Written(_));
            assert!(written || workload.pairs.len() > 1, "{}: {explanation}", workload.name);
            assert!(!matches!(explanation, Explanation::Refused(_)), "{}", workload.name);
        }
    }
    let sizes: Vec<_> = workloads.iter().map(|explained| explained.workload.pairs.len()).collect();
    assert_eq!(sizes, [1, 1, 1, 1, 1, 1, 1_000, 1]);
}

/// A comparison that ended at a difference would be timed in part.
#[test]
fn each_growth_is_equal() {
    let mut work = Work::default();
    for (size, Pair { left, right }) in growths().into_iter().flat_map(|growth| growth.sizes) {
        let reply = work.programs(&left, &right, ALL);
        assert!(matches!(reply, Reply::Equal(_)), "size {size}: {reply}");
    }
}

#[test]
fn each_growth_has_its_sizes() {
    for growth in growths() {
        for (size, Pair { left, .. }) in growth.sizes {
            let list = list_of(&left);
            let list = decode(&list).expect("a list");
            let updates = list.updates().count();
            let nodes = list.records.len() - updates;
            match growth.name {
                "updates" => assert_eq!(updates, size),
                "nodes" => assert_eq!(nodes, size),
                "terms" => assert_eq!(different_leaves(list.records) * 2, size),
                name => assert_eq!((name, updates), ("rounds", 0)),
            }
        }
    }
}

/// Each literal stands under an operator of its own, so there are twice as many terms.
fn different_leaves(records: &[[u32; 3]]) -> usize {
    let literals = records.iter().filter(|record| record[0] == code::LITERAL);
    literals.map(|record| record[1]).collect::<std::collections::BTreeSet<_>>().len()
}

/// The updates and nodes of each list that is written, and the length of its file.
#[test]
fn each_written_list_has_its_sizes() {
    let long = Refusal { side: Side::Left, question: 29, place: 0 };
    let sizes = written().map(|(_, program)| {
        let words = list_of(&program);
        let list = decode(&words).expect("a list");
        let updates = list.updates().count();
        let length = tengmua::write_file(&words, &mut [0; FILE_BYTES]);
        (updates, list.records.len() - updates, length)
    });
    let expected = [
        (2_048, 2_048, Ok(14_348)),
        (629, 1_887, Ok(16_379)),
        (528, 6_864, Ok(16_381)),
        (2_048, 8_192, Err(long)),
    ];
    assert_eq!(sizes, expected);
}

/// Of the other workloads these have a row of files.
#[test]
fn some_workloads_have_files() {
    let has_file = |program: &[u8]| {
        let mut list = vec![0; LIST_WORDS];
        tengmua::unroll(program, &mut list).is_ok()
            && tengmua::write_file(&list, &mut [0; FILE_BYTES]).is_ok()
    };
    let workloads = all(1);
    let some = workloads.iter().filter(|workload| {
        workload.pairs.iter().any(|pair| has_file(&pair.left) && has_file(&pair.right))
    });
    let names: Vec<_> = some.map(|workload| workload.name.as_str()).collect();
    let wanted = ["Jacobi 16x2, skewed", "65,536 rounds, nested and flat", "1000 mixed pairs"];
    assert_eq!(names, wanted);
}

/// One round or one term more than the largest pairs have is refused.
#[test]
fn the_largest_are_at_their_limits() {
    let question = |text: &str| {
        let program = assemble(text).expect("a program");
        match Work::default().programs(&program, &program, ALL) {
            Reply::Refused(Refusal { question, .. }) => question,
            reply => panic!("{reply}"),
        }
    };
    let rounds = "array A out [1] for i = 1 to 256 { for j = 1 to 255 { } } for i = 1 to 1 { }";
    assert_eq!(question(rounds), 18);
    let terms = "op f/1 array B out [1024] array C out [1024]
        for i = 0 to 1023 { B[i] = f(i) } for i = 0 to 1023 { C[i] = f(f(i + 1024)) }";
    assert_eq!(question(terms), 24);
}
