//! differential PAIRS LISTS SEED: so many random program pairs, as many that mostly differ, and so many list pairs through the
//! static library and through the separately written checker; each program pair also through the plain comparison, and explained for
//! both sides; and as many lists as list pairs written as files. Work memory and outputs are full of garbage before each call. Then a
//! fifth as many batches of pairs, each as it is printed. Ends with status 1 at the first difference, whose inputs it saves
//! (difference.left, difference.right, difference.list, difference.out or difference.batch).

use std::collections::BTreeMap;
use std::process::ExitCode;

use beside::many::printed;
use beside::same::{Beside, Difference, Ours, Separate};
use beside::workloads::{split, Pair};
use separate::batch::{answer, pairs};
use separate::random::{Batches, Explanations, Lent, ListPairs, Masked, Pairs, Random, Writes};
use tengmua::{Chosen, Explanation, Refusal, Reply, Work, ALL};

/// A kind of answer: its question where it is refused, otherwise 0 and a word.
type Kind = (u8, &'static str);

fn kind_of(reply: Reply) -> Kind {
    match reply {
        Reply::Equal(_) => (0, "equal"),
        Reply::Differs(..) => (0, "differs"),
        Reply::Refused(Refusal { question, .. }) => (question, "refused"),
    }
}

/// An equal plain comparison in which nothing was compared is a kind of its own.
fn kind_of_plain(reply: Reply) -> Kind {
    match reply {
        Reply::Equal(0) => (0, "nothing compared"),
        reply => kind_of(reply),
    }
}

fn kind_of_explanation(explanation: Explanation) -> Kind {
    match explanation {
        Explanation::Written(_) => (0, "written"),
        Explanation::Starting { .. } => (0, "starting content"),
        Explanation::Refused(Refusal { question, .. }) => (question, "refused"),
    }
}

fn kind_of_written(reply: Reply) -> Kind {
    match reply {
        Reply::Equal(_) => (0, "file"),
        reply => kind_of(reply),
    }
}

/// Is this element explained? If memory is short (25), none is.
fn is_of(element: (usize, usize), explanation: Explanation) -> bool {
    match explanation {
        Explanation::Written(written) => (written.array, written.cell) == element,
        Explanation::Starting { array, cell } => (array, cell) == element,
        Explanation::Refused(Refusal { question, .. }) => question == 25,
    }
}

/// How often each kind of answer came.
#[derive(Default)]
struct Histogram(BTreeMap<Kind, usize>);

impl Histogram {
    fn add(&mut self, kind: Kind) {
        *self.0.entry(kind).or_insert(0) += 1;
    }

    /// The kinds of the replies, if there are as many as asked for.
    fn print(&self, entry: &str, asked: usize) -> Result<(), Difference> {
        let came: usize = self.0.values().sum();
        if came != asked {
            return Err(format!("{entry}: {came} replies of {asked}"));
        }
        let kinds = self.0.iter().map(|(&(question, kind), count)| match question {
            0 => format!("{kind} {count}"),
            _ => format!("{question}: {count}"),
        });
        println!("  {entry}: {}", kinds.collect::<Vec<_>>().join(", "));
        Ok(())
    }
}

struct Test {
    beside: Beside<Ours, Separate>,
    random: Random,
}

impl Test {
    fn mask(&mut self) -> u16 {
        match self.random.below(4) {
            0 | 1 => tengmua::ALL,
            2 => 1 << self.random.below(16),
            _ => self.random.draw() as u16,
        }
    }

    /// Pairs of valid, changed and damaged programs; each program is also unrolled alone, and each pair compared plainly and explained.
    fn programs(&mut self, count: usize, seed: u64) -> Result<(), Difference> {
        let (mut compared, mut unrolled) = (Histogram::default(), Histogram::default());
        let (mut plain, mut explained) = (Histogram::default(), Histogram::default());
        let pairs = Pairs::new(seed).map(|input| whole(&input));
        for (number, Pair { left, right }) in pairs.take(count).enumerate() {
            let mask = self.mask();
            let outcome = self.beside.programs(&left, &right, mask).and_then(|reply| {
                Ok([reply, self.beside.unroll(&left)?, self.beside.unroll(&right)?])
            });
            let [reply, one, other] = outcome.map_err(|difference| {
                save_pair(&left, &right);
                format!("pair {number}, mask {mask:#x}: {difference}")
            })?;
            compared.add(kind_of(reply));
            unrolled.add(kind_of(one));
            unrolled.add(kind_of(other));
            self.plain(&left, &right, number, &mut plain)?;
            self.explain(&left, &right, mask, number, &mut explained)?;
        }
        println!("{count} program pairs, seed {seed}: the same replies and memory");
        compared.print("compare_programs", count)?;
        plain.print("compare_plain", count)?;
        unrolled.print("unroll", 2 * count)?;
        explained.print("explain", 2 * count)
    }

    /// Pairs that have something to explain in most cases.
    fn explanations(&mut self, count: usize, seed: u64) -> Result<(), Difference> {
        let (mut plain, mut explained) = (Histogram::default(), Histogram::default());
        let mut pairs = Explanations::new(seed);
        for number in 0..count {
            let Masked { left, right, mask } = pairs.pair();
            self.plain(&left, &right, number, &mut plain)?;
            self.explain(&left, &right, mask, number, &mut explained)?;
        }
        println!("{count} program pairs that mostly differ, seed {seed}: the same explanations and memory");
        plain.print("compare_plain", count)?;
        explained.print("explain", 2 * count)
    }

    /// The plain comparison. Both sides explain its difference under the bit of its array.
    fn plain(
        &mut self,
        left: &[u8],
        right: &[u8],
        number: usize,
        compared: &mut Histogram,
    ) -> Result<(), Difference> {
        let outcome = self.beside.plain(left, right).and_then(|reply| {
            if let Reply::Differs(array, cell) = reply {
                self.same_element(left, right, array, cell)?;
            }
            Ok(reply)
        });
        let reply = outcome.map_err(|difference| {
            save_pair(left, right);
            format!("pair {number}, plain: {difference}")
        })?;
        compared.add(kind_of_plain(reply));
        Ok(())
    }

    fn same_element(
        &mut self,
        left: &[u8],
        right: &[u8],
        array: usize,
        cell: usize,
    ) -> Result<(), Difference> {
        for chosen in [Chosen::Left, Chosen::Right] {
            let explanation = self.beside.explain(left, right, 1 << array, chosen)?;
            if !is_of((array, cell), explanation) {
                return Err(format!("differs {array} {cell}, explained: {explanation}"));
            }
        }
        Ok(())
    }

    /// For both sides.
    fn explain(
        &mut self,
        left: &[u8],
        right: &[u8],
        mask: u16,
        number: usize,
        explained: &mut Histogram,
    ) -> Result<(), Difference> {
        for chosen in [Chosen::Left, Chosen::Right] {
            let outcome = self.beside.explain(left, right, mask, chosen);
            let explanation = outcome.map_err(|difference| {
                save_pair(left, right);
                format!("pair {number}, mask {mask:#x}, explained for {chosen:?}: {difference}")
            })?;
            explained.add(kind_of_explanation(explanation));
        }
        Ok(())
    }

    /// Lists beside new orders of theirs, changed, damaged, cut off, in slices long and short; each is also checked alone.
    fn lists(&mut self, count: usize, seed: u64) -> Result<(), Difference> {
        let (mut compared, mut checked) = (Histogram::default(), Histogram::default());
        for (number, pair) in ListPairs::new(seed).take(count).enumerate() {
            let (mut left, right) = (pair.left.slice(), pair.right.slice());
            if self.random.chance(10) {
                self.cut(&mut left, pair.left.words.len());
            }
            let outcome = self.beside.lists(&left, &right, pair.mask).and_then(|reply| {
                Ok([reply, self.beside.check(&left)?, self.beside.check(&right)?])
            });
            let [reply, one, other] = outcome.map_err(|difference| {
                save_pair(&bytes(&left), &bytes(&right));
                format!("list pair {number}, mask {:#x}: {difference}", pair.mask)
            })?;
            compared.add(kind_of(reply));
            checked.add(kind_of(one));
            checked.add(kind_of(other));
        }
        println!("{count} list pairs, seed {seed}: the same replies and memory");
        compared.print("compare_lists", count)?;
        checked.print("check_list", 2 * count)
    }

    /// Lists that have a file and lists that have none, for outputs of and around its length.
    fn writes(&mut self, count: usize, seed: u64) -> Result<(), Difference> {
        let mut written = Histogram::default();
        let mut lists = Writes::new(seed);
        for number in 0..count {
            let Lent { list, out } = lists.lent();
            let reply = self.beside.write(&list, &out).map_err(|difference| {
                save(&[("difference.list", &bytes(&list)), ("difference.out", &out)]);
                format!("list {number}, written: {difference}")
            })?;
            written.add(kind_of_written(reply));
        }
        println!("{count} lists to be written, seed {seed}: the same replies and outputs");
        written.print("write_file", count)
    }

    /// Zeros from some word of the list on: often between two updates, where a shorter list is left.
    fn cut(&mut self, list: &mut [u32], used: usize) {
        let mut ends: Vec<_> = (98..used).step_by(3).filter(|&at| list[at] == 1).collect();
        ends.extend([self.random.below(used + 1)]);
        let from = *self.random.pick(&ends);
        list[from..].fill(0);
    }
}

/// Batches of any framing: each whole pair through the library, and all that is printed beside what the other prints.
fn batches(count: usize, seed: u64) -> Result<(), Difference> {
    let mut work = Work::default();
    let (mut compared, mut whole) = (Histogram::default(), 0);
    for (number, batch) in Batches::new(seed).take(count).enumerate() {
        let ours = printed(&batch, |left, right| {
            let reply = work.programs(left, right, ALL);
            compared.add(kind_of(reply));
            reply
        });
        whole += pairs(&batch).filter(Result::is_ok).count();
        let mut theirs = Vec::new();
        answer(&batch[..], &mut theirs).expect("memory is read and written");
        if ours.as_bytes() != theirs {
            save(&[("difference.batch", &batch)]);
            let theirs = String::from_utf8_lossy(&theirs);
            return Err(format!("batch {number}: ours: {ours}; separate: {theirs}"));
        }
    }
    println!("{count} batches, seed {seed}: the same lines and totals");
    compared.print("compare_programs", whole)
}

/// The two programs of an input. One that is badly framed is a program as it stands, beside an empty one.
fn whole(input: &[u8]) -> Pair {
    split(input).unwrap_or_else(|| Pair { left: input.to_vec(), right: Vec::new() })
}

fn bytes(words: &[u32]) -> Vec<u8> {
    words.iter().flat_map(|word| word.to_le_bytes()).collect()
}

fn save_pair(left: &[u8], right: &[u8]) {
    save(&[("difference.left", left), ("difference.right", right)]);
}

fn save(files: &[(&str, &[u8])]) {
    for (name, bytes) in files {
        if let Err(error) = std::fs::write(name, bytes) {
            eprintln!("{name}: {error}");
        }
    }
}

fn main() -> ExitCode {
    let words = std::env::args().skip(1).map(|word| word.parse().ok());
    let Some(&[pairs, lists, seed]) = words.collect::<Option<Vec<u64>>>().as_deref() else {
        eprintln!("usage: differential PAIRS LISTS SEED");
        return ExitCode::from(2);
    };
    let mut test =
        Test { beside: Beside::new(Ours, Separate, seed), random: Random::new(seed ^ 0x5EED) };
    let outcome = test
        .programs(pairs as usize, seed)
        .and_then(|()| test.explanations(pairs as usize, seed))
        .and_then(|()| test.lists(lists as usize, seed))
        .and_then(|()| test.writes(lists as usize, seed))
        .and_then(|()| batches(pairs.div_ceil(5) as usize, seed));
    match outcome {
        Ok(()) => ExitCode::SUCCESS,
        Err(difference) => {
            println!("{difference}");
            ExitCode::FAILURE
        }
    }
}
