//! smt FOLDER [SEED]: writes each pair of the workloads that is not refused as two QF_UF queries, FOLDER/WORKLOAD-PAIR.named.smt2
//! (a constant and an equation for each update) and .inlined.smt2 (a definition for each). `unsat` is "equal" with all bits of the
//! mask: no contents and no meaning tell the unrolled programs apart in an out or inout array. An out element that a side does not
//! write is a constant of that side's own, so that some content tells it from what the other side has there. That the arguments of a
//! marked operator may swap is an equation for each of its applications: a meaning in which these hold can be changed elsewhere into
//! one that respects the marks, so the verdict is the same. The first line has the verdict that is expected and the workload's name.

use std::collections::BTreeSet;
use std::fmt::Write;
use std::path::Path;

use beside::workloads::{all, Pair};
use separate::limits::LIST_WORDS;
use separate::list::{code, decode, List, Record};
use separate::tables::{arity, Role, Tables, MARKED};
use tengmua::{Reply, Work, ALL};

/// One side's updates as text, and what each cell holds last.
struct Side {
    name: char,
    lines: String,
    count: usize,
    cells: Vec<Option<String>>,
}

/// What both sides share: declarations of leaves.
#[derive(Default)]
struct Leaves(BTreeSet<String>);

impl Leaves {
    fn leaf(&mut self, name: String) -> String {
        self.0.insert(name.clone());
        name
    }
}

struct Query {
    leaves: Leaves,
    /// An equation for each application of a marked operator.
    swaps: BTreeSet<String>,
    named: bool,
}

/// The constant for a cell that the side has not written: one of its own for an out cell, otherwise the one that both share. A
/// local cell is not read before it is written, and not compared.
fn start(side: &Side, tables: &Tables, array: u32, cell: u32) -> String {
    match tables.arrays()[array as usize].role {
        Role::Out => format!("s{}{array}_{cell}", side.name),
        _ => format!("s{array}_{cell}"),
    }
}

impl Query {
    fn held(&mut self, side: &Side, tables: &Tables, array: u32, cell: u32) -> String {
        let at = tables.first_cell(array as usize) + cell as usize;
        let written = side.cells[at].clone();
        written.unwrap_or_else(|| self.leaves.leaf(start(side, tables, array, cell)))
    }

    /// The expression that begins with the first of the records, which are used up.
    fn expression(&mut self, side: &Side, tables: &Tables, records: &mut &[Record]) -> String {
        let (&[first, second, third], rest) = records.split_first().expect("a whole expression");
        *records = rest;
        match first {
            code::READ => self.held(side, tables, second, third),
            code::LITERAL => self.leaves.leaf(format!("n{second}")),
            code::CONSTANT => self.leaves.leaf(format!("c{second}")),
            _ => {
                let operator = tables.operators()[second as usize];
                let arguments: Vec<_> =
                    (0..arity(operator)).map(|_| self.expression(side, tables, records)).collect();
                let text = format!("(f{second} {})", arguments.join(" "));
                if let (MARKED, [one, other]) = (operator, &arguments[..]) {
                    self.swaps.insert(format!("(assert (= {text} (f{second} {other} {one})))\n"));
                }
                text
            }
        }
    }

    fn side(&mut self, name: char, list: &List) -> Side {
        let cells = vec![None; separate::limits::CELLS];
        let mut side = Side { name, lines: String::new(), count: 0, cells };
        for (&[_, array, cell], mut expression) in list.updates() {
            let value = self.expression(&side, &list.tables, &mut expression);
            let name = format!("{}{}", side.name, side.count);
            side.lines += &match self.named {
                true => format!("(declare-const {name} S)\n(assert (= {name} {value}))\n"),
                false => format!("(define-fun {name} () S {value})\n"),
            };
            side.count += 1;
            side.cells[list.tables.first_cell(array as usize) + cell as usize] = Some(name);
        }
        side
    }

    /// "Some compared element is not the same."
    fn goal(&mut self, tables: &Tables, left: &Side, right: &Side) -> String {
        let mut text = String::from("(assert (or false");
        for (array, declared) in tables.shared().iter().enumerate() {
            let compared = matches!(declared.role, Role::Out | Role::Inout);
            for cell in (0..declared.cells()).filter(|_| compared) {
                let [one, other] =
                    [left, right].map(|side| self.held(side, tables, array as u32, cell as u32));
                if one != other {
                    write!(text, "\n  (not (= {one} {other}))").expect("a string takes all");
                }
            }
        }
        text + "))\n"
    }
}

fn query(left: &List, right: &List, named: bool) -> String {
    let mut query = Query { leaves: Leaves::default(), swaps: BTreeSet::new(), named };
    let (one, other) = (query.side('l', left), query.side('r', right));
    let goal = query.goal(&left.tables, &one, &other);
    let mut text = String::from("(set-logic QF_UF)\n(declare-sort S 0)\n");
    for (number, &operator) in left.tables.operators().iter().enumerate() {
        let sorts = vec!["S"; usize::from(arity(operator))].join(" ");
        text += &format!("(declare-fun f{number} ({sorts}) S)\n");
    }
    for leaf in &query.leaves.0 {
        text += &format!("(declare-const {leaf} S)\n");
    }
    text += &(one.lines + &other.lines);
    text.extend(query.swaps);
    text + &goal + "(check-sat)\n"
}

fn list_of(program: &[u8]) -> Option<Vec<u32>> {
    let mut list = vec![0; LIST_WORDS];
    tengmua::unroll(program, &mut list).ok().map(|_| list)
}

/// The queries of a pair with the verdict, unless it is refused.
fn queries(work: &mut Work, Pair { left, right }: &Pair) -> Option<(&'static str, [String; 2])> {
    let (left, right) = list_of(left).zip(list_of(right))?;
    let expected = match work.lists(&left, &right, ALL) {
        Reply::Equal(_) => "unsat",
        Reply::Differs(..) => "sat",
        Reply::Refused(_) => return None,
    };
    let (left, right) = (decode(&left)?, decode(&right)?);
    Some((expected, [true, false].map(|named| query(&left, &right, named))))
}

fn main() -> std::io::Result<()> {
    let words: Vec<String> = std::env::args().skip(1).collect();
    let folder = Path::new(words.first().expect("usage: smt FOLDER [SEED]"));
    let seed = words.get(1).map_or(1, |seed| seed.parse().expect("a number"));
    let mut work = Work::default();
    for (number, workload) in all(seed).iter().enumerate() {
        for (pair, programs) in workload.pairs.iter().enumerate() {
            let Some((expected, texts)) = queries(&mut work, programs) else { continue };
            for (way, text) in ["named", "inlined"].iter().zip(texts) {
                let file = folder.join(format!("{number}-{pair:03}.{way}.smt2"));
                std::fs::write(file, format!("; {expected} {}\n{text}", workload.name))?;
            }
        }
    }
    Ok(())
}
