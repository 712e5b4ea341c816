//! Out elements that nothing writes. Each of them is a difference, so programs
//! that are to be equal are completed. Programs without an out array get one, or
//! the plain comparison would have nothing to compare.

use super::programs::{Maker, Scope};
use super::rewrites::insert_array;
use super::Random;
use crate::list::{decode, List};
use crate::tables::Role;
use crate::tree::{encode, Declaration, Form, Item, Loop, Source, Statement};
use crate::work::Work;

/// The out elements that no update writes, by array and cell.
pub fn unwritten(list: &List) -> Vec<(usize, usize)> {
    let mut written = vec![false; list.tables.cells()];
    for ([_, array, cell], _) in list.updates() {
        written[list.tables.first_cell(*array as usize) + *cell as usize] = true;
    }
    let arrays = list.tables.arrays().iter().enumerate();
    let outs = arrays.filter(|(_, declared)| declared.role == Role::Out);
    let elements =
        outs.flat_map(|(array, declared)| (0..declared.cells()).map(move |cell| (array, cell)));
    elements.filter(|&(array, cell)| !written[list.tables.first_cell(array) + cell]).collect()
}

/// The same of a program; none where it is refused.
pub fn unwritten_by(source: &Source, work: &mut Work) -> Vec<(usize, usize)> {
    let list = work.unroll(&encode(source).bytes).ok().and_then(decode);
    list.map_or_else(Vec::new, |list| unwritten(&list))
}

/// The program with inout for out. What both sides leave unwritten is the same
/// then.
pub fn with_inout(source: &Source) -> Source {
    let mut source = source.clone();
    for array in &mut source.arrays {
        if array.role == Role::Out {
            array.role = Role::Inout;
        }
    }
    source
}

/// The program with no out element left unwritten: an array that has such ones
/// is filled first, or last and there alone, or becomes inout.
pub fn complete(source: &Source, random: &mut Random, work: &mut Work) -> Source {
    let missing = unwritten_by(source, work);
    let mut completed = source.clone();
    for (array, cells) in by_array(&missing) {
        match random.below(3) {
            0 => fill_first(&mut completed, array, random),
            1 => fill_last(&mut completed, array, &cells, random),
            _ => completed.arrays[array].role = Role::Inout,
        }
    }
    if is_accepted(&completed, work) {
        completed
    } else {
        with_inout(source)
    }
}

/// What has grown may have too many updates, nodes or bytes.
fn is_accepted(source: &Source, work: &mut Work) -> bool {
    source.fits() && work.refusal(&encode(source).bytes).is_none()
}

fn has(source: &Source, role: Role) -> bool {
    source.arrays.iter().any(|array| array.role == role)
}

/// The program with an out array: if it has none a new one, which takes what an
/// inout array holds at the end. As it is where a limit forbids that.
pub fn with_out(source: &Source, random: &mut Random, work: &mut Work) -> Source {
    if has(source, Role::Out) {
        return source.clone();
    }
    let inout = |&array: &usize| source.arrays[array].role == Role::Inout;
    let inouts: Vec<_> = (0..source.arrays.len()).filter(inout).collect();
    let copied = (!inouts.is_empty()).then(|| *random.pick(&inouts));
    let extents = copied.map_or(vec![3], |array| source.arrays[array].extents.clone());
    let shared = source.arrays.iter().filter(|array| array.role != Role::Local).count();
    let at = random.below(shared + 1);
    let mut more = source.clone();
    insert_array(&mut more, at, Declaration { role: Role::Out, extents });
    let mut maker = Maker::over(&more, random);
    let last = match copied {
        Some(array) => maker.copy(at, array + usize::from(array >= at)),
        None => maker.whole(at, 1),
    };
    more.items.push(last);
    if is_accepted(&more, work) {
        more
    } else {
        source.clone()
    }
}

/// The cells of each array that has any.
fn by_array(elements: &[(usize, usize)]) -> Vec<(usize, Vec<usize>)> {
    let chunks = elements.chunk_by(|one, other| one.0 == other.0);
    chunks.map(|chunk| (chunk[0].0, chunk.iter().map(|&(_, cell)| cell).collect())).collect()
}

fn fill_first(source: &mut Source, array: usize, random: &mut Random) {
    let filling = Maker::over(source, random).whole(array, 1);
    source.items.insert(0, filling);
}

/// Writes these cells behind all items, those next to each other in a row by
/// one loop.
fn fill_last(source: &mut Source, array: usize, cells: &[usize], random: &mut Random) {
    let row = usize::from(*source.arrays[array].extents.last().expect("one dimension at least"));
    let beside = |&one: &usize, &other: &usize| one + 1 == other && other % row != 0;
    for run in cells.chunk_by(beside) {
        let item = fill_run(source, array, run, random);
        source.items.push(item);
    }
}

fn fill_run(source: &Source, array: usize, run: &[usize], random: &mut Random) -> Item {
    let loops = usize::from(run.len() > 1);
    let mut subscripts = subscripts_of(&source.arrays[array].extents, run[0], loops);
    let last = subscripts.last_mut().expect("one dimension at least");
    let first = last.constant;
    let stop = first + run.len() as i32 - 1;
    if loops == 1 {
        *last = Form::index(0, 1);
    }
    let scope = Scope { ranges: vec![(first, stop); loops], rounds: run.len(), nesting: loops };
    let value = Maker::over(source, random).expression(&scope, 1);
    let statement = Item::Statement(Statement { target: array, subscripts, value });
    if loops == 0 {
        return statement;
    }
    let (start, stop) = (Form::number(first, 0), Form::number(stop, 0));
    Item::Loop(Loop { start, stop, step: 1, body: vec![statement] })
}

/// The subscripts of a cell as numbers, within so many loops.
fn subscripts_of(extents: &[u16], cell: usize, loops: usize) -> Vec<Form> {
    let mut rest = cell;
    let mut subscripts = Vec::new();
    for &extent in extents.iter().rev() {
        subscripts.insert(0, Form::number((rest % usize::from(extent)) as i32, loops));
        rest /= usize::from(extent);
    }
    subscripts
}

#[cfg(test)]
mod tests {
    use super::*;
    use crate::compare::ALL;
    use crate::notation::parse;
    use crate::random::programs::program;
    use crate::reply::Reply;

    #[test]
    fn elements_that_nothing_writes() {
        let text = "array A in [2] array B out [2, 3] array C inout [2] array D out [1]
            array E out [3] array T local [2]
            B[0, 1] = A[0] B[1, 2] = 1 if -1 >= 0 { D[0] = 1 } for i = 0 to 2 { E[i] = i }";
        let source = parse(text).unwrap();
        let missing = unwritten_by(&source, &mut Work::default());
        assert_eq!(missing, [(1, 0), (1, 2), (1, 3), (1, 4), (3, 0)]);
    }

    /// Two cells at the end of a row and two at the beginning of the next are
    /// two runs.
    #[test]
    fn filling_last_writes_what_is_missing_and_nothing_else() {
        let text = "array A out [2, 4, 2] for i = 0 to 1 { A[i, 1, 0] = i A[i, 3, i] = 2 }";
        let (mut source, mut work) = (parse(text).unwrap(), Work::default());
        let missing: Vec<_> =
            unwritten_by(&source, &mut work).into_iter().map(|(_, cell)| cell).collect();
        assert_eq!(missing, [0, 1, 3, 4, 5, 7, 8, 9, 11, 12, 13, 14]);
        fill_last(&mut source, 0, &missing, &mut Random::new(1));
        let list = work.unroll(&encode(&source).bytes).unwrap();
        let targets: Vec<_> =
            decode(list).unwrap().updates().map(|(update, _)| update[2]).skip(4).collect();
        assert_eq!(targets, missing.iter().map(|&cell| cell as u32).collect::<Vec<_>>());
        // One item for the rows (0, 1), (4, 5), (8, 9), (12, 13) and each other cell.
        assert_eq!(source.items.len(), 1 + 8);
    }

    /// Before the array that it takes its values from or behind it, and never
    /// behind a local.
    #[test]
    fn a_new_out_array_holds_what_an_inout_array_does() {
        let [inout, out] = ["array A inout [2, 3]", "array B out [2, 3]"];
        let items = "array T local [1] T[0] = 1 A[1, 2] = T[0]";
        let copy = "for i = 0 to 1 { for j = 0 to 2 { B[i, j] = A[i, j] } }";
        let [before, behind] = [[out, inout], [inout, out]]
            .map(|arrays| parse(&format!("{} {items} {copy}", arrays.join(" "))).unwrap());
        let source = parse(&format!("{inout} {items}")).unwrap();
        let (mut random, mut work, mut counts) = (Random::new(1), Work::default(), [0; 2]);
        for _ in 0..20 {
            let more = encode(&with_out(&source, &mut random, &mut work)).bytes;
            for (count, wanted) in counts.iter_mut().zip([&before, &behind]) {
                let reply = work.programs_masked(&more, &encode(wanted).bytes, ALL);
                *count += usize::from(reply == Reply::Equal { count: 12 });
            }
        }
        assert!(counts[0] > 3 && counts[1] > 3 && counts[0] + counts[1] == 20, "{counts:?}");
    }

    #[test]
    fn a_new_out_array_where_it_is_missing_and_fits() {
        let with_out = |text: &str| {
            let source = parse(text).unwrap();
            (source.clone(), with_out(&source, &mut Random::new(2), &mut Work::default()))
        };
        for text in ["array A inout [2] array B out [1]", "array A inout [1024, 2]"] {
            let (source, same) = with_out(text);
            assert_eq!(same, source);
        }
        // No inout array either: it is filled.
        let (_, filled) = with_out("array A in [2] array T local [1]");
        assert_eq!(filled.arrays.len(), 3);
        assert!(has(&filled, Role::Out));
        assert!(unwritten_by(&filled, &mut Work::default()).is_empty());
    }

    #[test]
    fn two_in_three_out_arrays_are_written_whole() {
        let (mut random, mut work) = (Random::new(4), Work::default());
        let (mut outs, mut lacking) = (0, 0);
        for _ in 0..1_000 {
            let source = program(&mut random, &mut work);
            outs += source.arrays.iter().filter(|array| array.role == Role::Out).count();
            lacking += by_array(&unwritten_by(&source, &mut work)).len();
        }
        let whole = outs - lacking;
        assert!(outs * 6 < whole * 10 && whole * 10 < outs * 7, "{whole} of {outs}");
    }

    /// In which ways programs are completed: filled first or last alone, or
    /// with inout for some out.
    #[test]
    fn completed_programs_equal_themselves() {
        let (mut random, mut work) = (Random::new(3), Work::default());
        let (mut first, mut last, mut inout) = (0, 0, 0);
        for _ in 0..1_000 {
            let source = program(&mut random, &mut work);
            let completed = complete(&source, &mut random, &mut work);
            let bytes = encode(&completed).bytes;
            assert!(matches!(work.programs_masked(&bytes, &bytes, ALL), Reply::Equal { .. }));
            let more = completed.items.len() > source.items.len();
            first += usize::from(more && completed.items.ends_with(&source.items));
            last += usize::from(more && completed.items.starts_with(&source.items));
            inout += usize::from(completed.arrays != source.arrays);
        }
        let counts = [first, last, inout];
        assert!(counts.iter().all(|&count| count > 50), "{counts:?}");
    }
}
