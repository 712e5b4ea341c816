//! bench [SECONDS [SEED]]: times of the proved checker and of the separately written one, as tab-separated lines
//! `workload entry ours theirs ratio` and `growth quantity size ours theirs ratio`, in nanoseconds; and `explain workload` with
//! three numbers of ours, then of the other: an explanation, the comparison alone, and their ratio. SECONDS is the budget for
//! two times, taken by turns.

use std::hint::black_box;
use std::time::Duration;

use beside::same::{Checker, Ours, Separate};
use beside::time::{best, Times};
use beside::workloads::{all, explained, growths, written, Explained, Pair, Workload};
use separate::limits::{CELL_WORDS, LIST_WORDS, PROGRAM_BYTES, TERM_WORDS};
use tengmua::{Reply, Work, ALL};

/// Memory for one checker: both have their own of the same lengths, zeros before the first call and after each.
struct Memory {
    left: Vec<u32>,
    right: Vec<u32>,
    cells: Vec<u32>,
    terms: Vec<u32>,
}

impl Memory {
    fn new() -> Memory {
        let [left, right, cells, terms] =
            [LIST_WORDS, LIST_WORDS, CELL_WORDS, TERM_WORDS].map(|words| vec![0; words]);
        Memory { left, right, cells, terms }
    }
}

/// Keeps the compiler from leaving out a call whose answer nobody wants.
fn done<T>(answer: T) {
    black_box(answer);
}

struct Bench {
    budget: Duration,
    ours: Memory,
    theirs: Memory,
}

impl Bench {
    fn programs(&mut self, pairs: &[Pair]) -> Times {
        let (ours, theirs) = (&mut self.ours, &mut self.theirs);
        best(
            self.budget,
            || {
                for Pair { left, right } in pairs {
                    let Memory { left: a, right: b, cells, terms } = ours;
                    done(tengmua::compare_programs(left, right, ALL, a, b, cells, terms));
                }
            },
            || {
                for Pair { left, right } in pairs {
                    let Memory { left: a, right: b, cells, terms } = theirs;
                    done(separate::compare_programs_masked(left, right, ALL, a, b, cells, terms));
                }
            },
        )
    }

    /// How long one checker explains, and how long it compares the same pairs. `Times` calls the second `theirs`.
    fn explain(
        &mut self,
        checker: &impl Checker,
        Explained { workload, chosen }: &Explained,
    ) -> Times {
        let (one, other) = (&mut self.ours, &mut self.theirs);
        best(
            self.budget,
            || {
                for Pair { left, right } in &workload.pairs {
                    let Memory { left: a, right: b, cells, terms } = &mut *one;
                    done(checker.explain(left, right, ALL, *chosen, [a, b, cells, terms]));
                }
            },
            || {
                for Pair { left, right } in &workload.pairs {
                    let Memory { left: a, right: b, cells, terms } = &mut *other;
                    done(checker.programs(left, right, ALL, [a, b, cells, terms]));
                }
            },
        )
    }

    fn unroll(&mut self, programs: &[&[u8]]) -> Times {
        let (ours, theirs) = (&mut self.ours.left, &mut self.theirs.left);
        let times = best(
            self.budget,
            || programs.iter().for_each(|program| done(tengmua::unroll(program, ours))),
            || programs.iter().for_each(|program| done(separate::unroll(program, theirs))),
        );
        assert_eq!(ours, theirs, "the lists are the same");
        ours.fill(0);
        theirs.fill(0);
        times
    }

    fn check(&mut self, lists: &[Vec<u32>]) -> Times {
        best(
            self.budget,
            || lists.iter().for_each(|list| done(tengmua::check_list(list))),
            || lists.iter().for_each(|list| done(separate::check_list(list))),
        )
    }

    /// To outputs that are long enough for each file.
    fn write(&mut self, lists: &[Vec<u32>]) -> Times {
        let [mut ours, mut theirs] = [(); 2].map(|()| vec![0; PROGRAM_BYTES]);
        let times = best(
            self.budget,
            || lists.iter().for_each(|list| done(tengmua::write_file(list, &mut ours))),
            || lists.iter().for_each(|list| done(separate::write_file(list, &mut theirs))),
        );
        assert_eq!(ours, theirs, "the files are the same");
        times
    }

    fn lists(&mut self, lists: &[(Vec<u32>, Vec<u32>)]) -> Times {
        let (ours, theirs) = (&mut self.ours, &mut self.theirs);
        best(
            self.budget,
            || {
                for (left, right) in lists {
                    let Memory { cells, terms, .. } = &mut *ours;
                    done(tengmua::compare_lists(left, right, ALL, cells, terms));
                }
            },
            || {
                for (left, right) in lists {
                    let Memory { cells, terms, .. } = &mut *theirs;
                    done(separate::compare_lists(left, right, ALL, cells, terms));
                }
            },
        )
    }
}

fn line(words: &[&str], times: Times) {
    println!("{}\t{:.0}\t{:.0}\t{:.2}", words.join("\t"), times.ours, times.theirs, times.ratio());
}

fn list_of(program: &[u8]) -> Option<Vec<u32>> {
    let mut list = vec![0; LIST_WORDS];
    separate::unroll(program, &mut list).ok().map(|_| list)
}

/// The lists of the pairs that are not refused: those that the solvers are asked about too.
fn lists_of(pairs: &[Pair]) -> Vec<(Vec<u32>, Vec<u32>)> {
    let mut work = Work::default();
    let lists = pairs.iter().filter_map(|pair| list_of(&pair.left).zip(list_of(&pair.right)));
    lists.filter(|(left, right)| !is_refused(work.lists(left, right, ALL))).collect()
}

fn is_refused(reply: Reply) -> bool {
    matches!(reply, Reply::Refused(_))
}

fn table(bench: &mut Bench, Workload { name, pairs }: &Workload) {
    line(&[name, "compare_programs"], bench.programs(pairs));
    let programs: Vec<&[u8]> =
        pairs.iter().flat_map(|pair| [&pair.left[..], &pair.right[..]]).collect();
    line(&[name, "unroll"], bench.unroll(&programs));
    let lists = lists_of(pairs);
    line(&[name, "compare_lists"], bench.lists(&lists));
    let both: Vec<_> = lists.into_iter().flat_map(|(left, right)| [left, right]).collect();
    line(&[name, "check_list"], bench.check(&both));
    let files: Vec<_> = both.into_iter().filter(|list| has_file(list)).collect();
    if !files.is_empty() {
        line(&[name, "write_file"], bench.write(&files));
    }
}

fn has_file(list: &[u32]) -> bool {
    separate::write_file(list, &mut [0; PROGRAM_BYTES]).is_ok()
}

fn writes(bench: &mut Bench) {
    for (name, program) in written() {
        let list = list_of(&program).expect("a list");
        line(&[name, "write_file"], bench.write(&[list]));
    }
}

fn explanations(bench: &mut Bench, seed: u64) {
    for explained in explained(seed) {
        let times = [bench.explain(&Ours, &explained), bench.explain(&Separate, &explained)];
        let [ours, theirs] = times
            .map(|times| format!("{:.0}\t{:.0}\t{:.2}", times.ours, times.theirs, times.ratio()));
        println!("explain\t{}\t{ours}\t{theirs}", explained.workload.name);
    }
}

fn number<T: std::str::FromStr>(place: usize, default: T) -> T {
    match std::env::args().nth(place) {
        Some(word) => word.parse().unwrap_or_else(|_| panic!("'{word}' is no number")),
        None => default,
    }
}

fn main() {
    let budget = Duration::from_secs_f64(number(1, 0.3));
    let mut bench = Bench { budget, ours: Memory::new(), theirs: Memory::new() };
    let seed = number(2, 1);
    for workload in all(seed) {
        table(&mut bench, &workload);
    }
    writes(&mut bench);
    explanations(&mut bench, seed);
    for growth in growths() {
        for (size, pair) in growth.sizes {
            let times = bench.programs(&[pair]);
            line(&["growth", growth.name, &size.to_string()], times);
        }
    }
}
