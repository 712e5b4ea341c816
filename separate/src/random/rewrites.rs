//! Rewrites of a program that keep what it computes.
//!
//! The safe ones always do, as long as no limit is met. The others do where
//! they break no dependence, which is left to a comparison to find out.

use super::Random;
use crate::read::SECOND_VERSION;
use crate::tables::{Role, MARKED};
use crate::tree::{
    each_form, each_node, each_statement, Declaration, Expression, Form, Guard, Item, Loop, Source,
    Statement,
};

pub type Rewrite = fn(&Source, &mut Random) -> Option<Source>;

pub const SAFE: [Rewrite; 18] = [
    tile,
    mirror,
    shift,
    shift_to_edge,
    split,
    peel_first,
    peel_last,
    unroll,
    normalize,
    widen,
    single_round,
    guard_always,
    dead_code,
    copy_to_itself,
    through_local,
    renumber_locals,
    swap_arguments,
    other_version,
];

pub const IF_INDEPENDENT: [Rewrite; 5] = [reverse, interchange, tile_both, distribute, swap];

/// Paths, by numbers in their lists, to the items that are wanted.
fn paths(items: &[Item], wanted: &dyn Fn(&Item) -> bool) -> Vec<Vec<usize>> {
    let mut found = Vec::new();
    for (number, item) in items.iter().enumerate() {
        if wanted(item) {
            found.push(vec![number]);
        }
        let body = match item {
            Item::Statement(_) => continue,
            Item::Loop(item) => &item.body,
            Item::Guard(item) => &item.body,
        };
        for mut path in paths(body, wanted) {
            path.insert(0, number);
            found.push(path);
        }
    }
    found
}

/// The list that holds the item at the end of the path, and the loops around.
fn holder<'a>(items: &'a mut Vec<Item>, path: &[usize]) -> (&'a mut Vec<Item>, usize) {
    let mut items = items;
    let mut loops = 0;
    for &number in &path[..path.len() - 1] {
        loops += usize::from(matches!(items[number], Item::Loop(_)));
        items = items[number].body_mut().expect("a path leads through bodies");
    }
    (items, loops)
}

/// Puts other items in the place of one of those wanted.
pub fn at_item(
    source: &Source,
    random: &mut Random,
    wanted: &dyn Fn(&Item) -> bool,
    rewrite: impl FnOnce(&Item, usize, &mut Random) -> Option<Vec<Item>>,
) -> Option<Source> {
    let mut source = source.clone();
    let paths = paths(&source.items, wanted);
    if paths.is_empty() {
        return None;
    }
    let path = random.pick(&paths);
    let (items, loops) = holder(&mut source.items, path);
    let number = path[path.len() - 1];
    let replacement = rewrite(&items[number], loops, random)?;
    items.splice(number..=number, replacement);
    source.fits().then_some(source)
}

/// Puts other items in the place of a loop, given the number of loops around.
fn at_loop(
    source: &Source,
    random: &mut Random,
    rewrite: impl FnOnce(&Loop, usize, &mut Random) -> Option<Vec<Item>>,
) -> Option<Source> {
    let is_loop = |item: &Item| matches!(item, Item::Loop(_));
    at_item(source, random, &is_loop, |item, loops, random| match item {
        Item::Loop(item) => rewrite(item, loops, random),
        _ => None,
    })
}

/// A loop whose bounds are numbers and that has a round.
struct Fixed {
    first: i32,
    step: i32,
    rounds: i32,
}

impl Fixed {
    fn of(item: &Loop) -> Option<Fixed> {
        let (first, stop) = (item.start.constant, item.stop.constant);
        let distance = (stop - first) * item.step.signum();
        let rounds = distance.div_euclid(item.step.abs()) + 1;
        let fixed = item.start.is_number() && item.stop.is_number() && rounds > 0;
        fixed.then_some(Fixed { first, step: item.step, rounds })
    }

    /// The index in this round, the first being 0.
    fn index(&self, round: i32) -> i32 {
        self.first + round * self.step
    }

    fn last(&self) -> i32 {
        self.index(self.rounds - 1)
    }
}

fn with_index(body: &[Item], change: &dyn Fn(&mut Form)) -> Vec<Item> {
    let mut body = body.to_vec();
    each_form(&mut body, &mut |_, form| change(form));
    body
}

/// The body for one value of the index, outside the loop.
fn body_at(item: &Loop, loops: usize, index: i32) -> Vec<Item> {
    let value = Form::number(index, loops);
    with_index(&item.body, &|form| form.substitute(loops, &value))
}

/// The body with the index put as a multiple of the index plus an offset.
fn body_with(item: &Loop, loops: usize, factor: i32, offset: i32) -> Vec<Item> {
    let offset = Form::number(offset, loops);
    with_index(&item.body, &|form| form.replace(loops, factor, &offset))
}

fn fixed_loop(loops: usize, start: i32, stop: i32, step: i32, body: Vec<Item>) -> Item {
    let (start, stop) = (Form::number(start, loops), Form::number(stop, loops));
    Item::Loop(Loop { start, stop, step, body })
}

/// One loop over tiles and one within a tile, guarded where the last tile may
/// be cut.
fn tile(source: &Source, random: &mut Random) -> Option<Source> {
    at_loop(source, random, |item, loops, random| {
        let size = random.between(2, 4);
        let mut body = with_index(&item.body, &|form| form.insert(loops));
        let whole = Fixed::of(item).is_some_and(|fixed| fixed.rounds % size == 0);
        if !whole {
            // Not beyond the end, in the direction of the step.
            let mut form = Form::number(0, loops + 2);
            form.add(item.step.signum(), &item.stop);
            form.add(-item.step.signum(), &Form::index(loops + 1, loops + 2));
            body = vec![Item::Guard(Guard { form, body })];
        }
        let start = Form::index(loops, loops + 1);
        let mut stop = start.clone();
        stop.constant = item.step * (size - 1);
        let within = Item::Loop(Loop { start, stop, step: item.step, body });
        let (start, stop) = (item.start.clone(), item.stop.clone());
        Some(vec![Item::Loop(Loop { start, stop, step: item.step * size, body: vec![within] })])
    })
}

/// The same order of rounds under an index that runs the other way.
fn mirror(source: &Source, random: &mut Random) -> Option<Source> {
    at_loop(source, random, |item, loops, _| {
        let fixed = Fixed::of(item)?;
        let body = body_with(item, loops, -1, fixed.first + fixed.last());
        Some(vec![fixed_loop(loops, fixed.last(), fixed.first, -fixed.step, body)])
    })
}

/// Other index values.
fn shift(source: &Source, random: &mut Random) -> Option<Source> {
    at_loop(source, random, |item, loops, random| {
        let by = random.between(-9, 9);
        let mut shifted = item.clone();
        shifted.start.constant += by;
        shifted.stop.constant += by;
        shifted.body = body_with(item, loops, 1, -by);
        Some(vec![Item::Loop(shifted)])
    })
}

/// The last index values there are: one step more would leave 16 bits.
fn shift_to_edge(source: &Source, random: &mut Random) -> Option<Source> {
    at_loop(source, random, |item, loops, _| {
        let fixed = Fixed::of(item)?;
        let edge = if fixed.step > 0 { 32_767 } else { -32_768 };
        let by = edge - fixed.last();
        let body = body_with(item, loops, 1, -by);
        Some(vec![fixed_loop(loops, fixed.first + by, edge, fixed.step, body)])
    })
}

/// Two loops, one for the rounds before some round and one for the rest.
fn split(source: &Source, random: &mut Random) -> Option<Source> {
    at_loop(source, random, |item, loops, random| {
        let fixed = Fixed::of(item)?;
        let before = random.between(0, fixed.rounds);
        let part = |from, to| {
            let (start, stop) = (fixed.index(from), fixed.index(to - 1));
            fixed_loop(loops, start, stop, fixed.step, item.body.clone())
        };
        Some(vec![part(0, before), part(before, fixed.rounds)])
    })
}

fn peel_first(source: &Source, random: &mut Random) -> Option<Source> {
    at_loop(source, random, |item, loops, _| {
        let fixed = Fixed::of(item)?;
        let mut items = body_at(item, loops, fixed.first);
        let body = item.body.clone();
        items.push(fixed_loop(loops, fixed.index(1), fixed.last(), fixed.step, body));
        Some(items)
    })
}

fn peel_last(source: &Source, random: &mut Random) -> Option<Source> {
    at_loop(source, random, |item, loops, _| {
        let fixed = Fixed::of(item)?;
        let stop = fixed.index(fixed.rounds - 2);
        let mut items = vec![fixed_loop(loops, fixed.first, stop, fixed.step, item.body.clone())];
        items.extend(body_at(item, loops, fixed.last()));
        Some(items)
    })
}

/// Several rounds in one, and the rounds left over after it.
fn unroll(source: &Source, random: &mut Random) -> Option<Source> {
    at_loop(source, random, |item, loops, random| {
        let fixed = Fixed::of(item)?;
        let times = random.between(2, 4);
        let whole = fixed.rounds / times;
        let mut items = Vec::new();
        if whole > 0 {
            let bodies = (0..times).flat_map(|time| body_with(item, loops, 1, time * fixed.step));
            let stop = fixed.index((whole - 1) * times);
            let step = fixed.step * times;
            items.push(fixed_loop(loops, fixed.first, stop, step, bodies.collect()));
        }
        for round in whole * times..fixed.rounds {
            items.extend(body_at(item, loops, fixed.index(round)));
        }
        Some(items)
    })
}

/// The index counts rounds from 0.
fn normalize(source: &Source, random: &mut Random) -> Option<Source> {
    at_loop(source, random, |item, loops, _| {
        let fixed = Fixed::of(item)?;
        let body = body_with(item, loops, fixed.step, fixed.first);
        Some(vec![fixed_loop(loops, 0, fixed.rounds - 1, 1, body)])
    })
}

/// More rounds, and guards that keep the new ones from doing anything.
fn widen(source: &Source, random: &mut Random) -> Option<Source> {
    at_loop(source, random, |item, loops, random| {
        let direction = item.step.signum();
        let mut wide = item.clone();
        wide.start.constant -= item.step * random.between(0, 2);
        wide.stop.constant += direction * random.between(0, 3);
        let index = Form::index(loops, loops + 1);
        let mut from_start = Form::number(0, loops + 1);
        from_start.add(direction, &index);
        from_start.add(-direction, &item.start);
        let mut to_stop = Form::number(0, loops + 1);
        to_stop.add(direction, &item.stop);
        to_stop.add(-direction, &index);
        let inner = Item::Guard(Guard { form: to_stop, body: item.body.clone() });
        wide.body = vec![Item::Guard(Guard { form: from_start, body: vec![inner] })];
        Some(vec![Item::Loop(wide)])
    })
}

/// Any item in a loop of one round.
fn single_round(source: &Source, random: &mut Random) -> Option<Source> {
    at_item(source, random, &|_| true, |item, loops, random| {
        let index = random.between(-300, 300);
        let mut body = vec![item.clone()];
        each_form(&mut body, &mut |_, form| form.insert(loops));
        let step = *random.pick(&[1, -1, 7, -32_768, 32_767]);
        Some(vec![fixed_loop(loops, index, index, step, body)])
    })
}

fn guard_always(source: &Source, random: &mut Random) -> Option<Source> {
    at_item(source, random, &|_| true, |item, loops, random| {
        let form = Form::number(*random.pick(&[0, 1, 32_767]), loops);
        Some(vec![Item::Guard(Guard { form, body: vec![item.clone()] })])
    })
}

/// Something that never runs, and so may even be wrong.
fn dead_code(source: &Source, random: &mut Random) -> Option<Source> {
    let targets = arrays_where(source, |array| array.role != Role::In);
    let target = *random.pick(&targets);
    let dimensions = source.arrays[target].extents.len();
    at_item(source, random, &|_| true, |item, loops, random| {
        let guarded = random.chance(50);
        let loops_there = if guarded { loops } else { loops + 1 };
        let subscripts = vec![Form::number(random.between(-2, 9), loops_there); dimensions];
        let value = Expression::Read { array: target, subscripts: subscripts.clone() };
        let body = vec![Item::Statement(Statement { target, subscripts, value })];
        let dead = if guarded {
            Item::Guard(Guard { form: Form::number(-1, loops), body })
        } else {
            fixed_loop(loops, 1, 0, 1, body)
        };
        Some(vec![dead, item.clone()])
    })
}

fn arrays_where(source: &Source, wanted: impl Fn(&Declaration) -> bool) -> Vec<usize> {
    let arrays = source.arrays.iter().enumerate();
    arrays.filter(|(_, array)| wanted(array)).map(|(number, _)| number).collect()
}

/// `A[0] = A[0]` on an inout array.
fn copy_to_itself(source: &Source, random: &mut Random) -> Option<Source> {
    let inouts = arrays_where(source, |array| array.role == Role::Inout);
    if inouts.is_empty() {
        return None;
    }
    let target = *random.pick(&inouts);
    let extents = &source.arrays[target].extents;
    at_item(source, random, &|_| true, |item, loops, random| {
        let subscript = |&extent: &u16| random.below(usize::from(extent)) as i32;
        let subscripts: Vec<_> =
            extents.iter().map(subscript).map(|number| Form::number(number, loops)).collect();
        let value = Expression::Read { array: target, subscripts: subscripts.clone() };
        let copy = Item::Statement(Statement { target, subscripts, value });
        Some(vec![copy, item.clone()])
    })
}

/// Part of a right side goes into a new local first.
fn through_local(source: &Source, random: &mut Random) -> Option<Source> {
    let mut source = source.clone();
    let local = source.arrays.len();
    source
        .arrays
        .push(Declaration { role: Role::Local, extents: vec![random.between(1, 3) as u16] });
    let is_statement = |item: &Item| matches!(item, Item::Statement(_));
    at_item(&source, random, &is_statement, |item, loops, random| {
        let Item::Statement(statement) = item else { return None };
        let mut statement = statement.clone();
        let mut count = 0;
        statement.value.each_node(&mut |_| count += 1);
        let chosen = random.below(count);
        let subscripts = vec![Form::number(0, loops)];
        let read = Expression::Read { array: local, subscripts: subscripts.clone() };
        let mut at = 0;
        let mut part = None;
        statement.value.each_node(&mut |node| {
            if at == chosen && part.is_none() {
                part = Some(std::mem::replace(node, read.clone()));
            }
            at += 1;
        });
        let first = Item::Statement(Statement { target: local, subscripts, value: part? });
        Some(vec![first, Item::Statement(statement)])
    })
}

/// Locals are private: any order of theirs will do.
fn renumber_locals(source: &Source, random: &mut Random) -> Option<Source> {
    let locals = arrays_where(source, |array| array.role == Role::Local);
    if locals.len() < 2 {
        return None;
    }
    let one = *random.pick(&locals);
    let other = *random.pick(&locals);
    let mut source = source.clone();
    source.arrays.swap(one, other);
    renumber_arrays(&mut source, &|array| match array {
        array if array == one => other,
        array if array == other => one,
        array => array,
    });
    Some(source)
}

fn renumber_arrays(source: &mut Source, number: &dyn Fn(usize) -> usize) {
    each_statement(&mut source.items, &mut |statement| statement.target = number(statement.target));
    each_node(&mut source.items, &mut |node| {
        if let Expression::Read { array, .. } = node {
            *array = number(*array);
        }
    });
}

/// One array more: those from its number on move up by one.
pub fn insert_array(source: &mut Source, at: usize, declared: Declaration) {
    source.arrays.insert(at, declared);
    renumber_arrays(source, &|array| array + usize::from(array >= at));
}

/// Arguments of marked operators change places, at any depth.
pub fn swap_arguments(source: &Source, random: &mut Random) -> Option<Source> {
    let mut source = source.clone();
    let operators = &source.operators;
    let mut swapped = false;
    each_node(&mut source.items, &mut |node| {
        let Expression::Operator { number, arguments } = node else { return };
        if operators[*number] == MARKED && random.chance(50) {
            arguments.swap(0, 1);
            swapped = true;
        }
    });
    swapped.then_some(source)
}

/// The other version, where no operator is marked.
fn other_version(source: &Source, _: &mut Random) -> Option<Source> {
    let version = if source.version.is_some() { None } else { Some(SECOND_VERSION) };
    (source.least_version() != SECOND_VERSION).then(|| Source { version, ..source.clone() })
}

/// The rounds the other way round.
fn reverse(source: &Source, random: &mut Random) -> Option<Source> {
    at_loop(source, random, |item, loops, _| {
        if item.step.abs() == 1 {
            let mut reversed = item.clone();
            std::mem::swap(&mut reversed.start, &mut reversed.stop);
            reversed.step = -item.step;
            return Some(vec![Item::Loop(reversed)]);
        }
        let fixed = Fixed::of(item)?;
        let body = item.body.clone();
        Some(vec![fixed_loop(loops, fixed.last(), fixed.first, -fixed.step, body)])
    })
}

/// The only item of a loop, if it is a loop whose bounds do not see the first.
fn nested(item: &Loop, loops: usize) -> Option<&Loop> {
    let [Item::Loop(inner)] = item.body.as_slice() else { return None };
    let free = |form: &Form| form.coefficients[loops] == 0;
    (free(&inner.start) && free(&inner.stop)).then_some(inner)
}

fn interchange(source: &Source, random: &mut Random) -> Option<Source> {
    at_loop(source, random, |item, loops, _| {
        let inner = nested(item, loops)?;
        let body = with_index(&inner.body, &|form| form.coefficients.swap(loops, loops + 1));
        let (mut start, mut stop) = (item.start.clone(), item.stop.clone());
        start.insert(loops);
        stop.insert(loops);
        let within = Item::Loop(Loop { start, stop, step: item.step, body });
        let (mut start, mut stop) = (inner.start.clone(), inner.stop.clone());
        start.coefficients.pop();
        stop.coefficients.pop();
        Some(vec![Item::Loop(Loop { start, stop, step: inner.step, body: vec![within] })])
    })
}

/// Rectangular tiles of two loops whose rounds the tiles divide.
fn tile_both(source: &Source, random: &mut Random) -> Option<Source> {
    at_loop(source, random, |item, loops, _| {
        let inner = nested(item, loops)?;
        let sizes = [tile_size(item)?, tile_size(inner)?];
        let body = with_index(&inner.body, &|form| {
            form.insert(loops);
            form.insert(loops);
        });
        let within = within_tile(loops + 1, loops + 3, inner.step, sizes[1], body);
        let within = within_tile(loops, loops + 2, item.step, sizes[0], vec![within]);
        let tiles = Loop { step: inner.step * sizes[1], body: vec![within], ..inner.clone() };
        let body = vec![Item::Loop(tiles)];
        Some(vec![Item::Loop(Loop { step: item.step * sizes[0], body, ..item.clone() })])
    })
}

fn tile_size(item: &Loop) -> Option<i32> {
    let rounds = Fixed::of(item)?.rounds;
    [2, 3, 5, 7].into_iter().find(|size| rounds % size == 0)
}

/// The loop within the tile that the index at `tile` begins.
fn within_tile(tile: usize, loops: usize, step: i32, size: i32, body: Vec<Item>) -> Item {
    let start = Form::index(tile, loops);
    let mut stop = start.clone();
    stop.constant = step * (size - 1);
    Item::Loop(Loop { start, stop, step, body })
}

/// One loop for the first items of the body and one for the others.
fn distribute(source: &Source, random: &mut Random) -> Option<Source> {
    at_loop(source, random, |item, _, random| {
        if item.body.len() < 2 {
            return None;
        }
        let (first, rest) = item.body.split_at(1 + random.below(item.body.len() - 1));
        let part = |body: &[Item]| Item::Loop(Loop { body: body.to_vec(), ..item.clone() });
        Some(vec![part(first), part(rest)])
    })
}

/// Two neighbours change places.
fn swap(source: &Source, random: &mut Random) -> Option<Source> {
    let mut source = source.clone();
    let paths = paths(&source.items, &|_| true);
    if paths.is_empty() {
        return None;
    }
    let path = random.pick(&paths);
    let (items, _) = holder(&mut source.items, path);
    let number = path[path.len() - 1];
    if number + 1 >= items.len() {
        return None;
    }
    items.swap(number, number + 1);
    Some(source)
}

#[cfg(test)]
mod tests {
    use super::*;
    use crate::compare::ALL;
    use crate::random::programs::program;
    use crate::random::templates;
    use crate::random::unwritten::with_inout;
    use crate::reply::Reply;
    use crate::tree::encode;
    use crate::work::Work;

    /// How often a rewrite applied, and how often the result was equal. A
    /// program that has grown beyond a limit counts as neither.
    fn tried(rewrite: Rewrite, seed: u64, times: usize) -> (usize, usize) {
        let (mut random, mut work) = (Random::new(seed), Work::default());
        let (mut applied, mut equal) = (0, 0);
        for round in 0..times {
            let source = match round % 5 {
                0 => templates::nest(&mut random),
                _ => program(&mut random, &mut work),
            };
            let Some(rewritten) = rewrite(&source, &mut random) else { continue };
            assert!(rewritten.fits());
            let [one, other] = [&source, &rewritten].map(|side| encode(&with_inout(side)).bytes);
            let reply = work.programs_masked(&one, &other, ALL);
            match reply {
                Reply::Equal { .. } => equal += 1,
                Reply::Refused { number: 18..=20 | 24, .. } => continue,
                _ => {}
            }
            applied += 1;
        }
        (applied, equal)
    }

    #[test]
    fn safe_rewrites_always_keep_the_values() {
        for (number, &rewrite) in SAFE.iter().enumerate() {
            let (applied, equal) = tried(rewrite, number as u64, 500);
            assert_eq!(applied, equal, "safe rewrite {number}");
            assert!(applied > 20, "safe rewrite {number} applied {applied} times");
        }
    }

    #[test]
    fn the_others_keep_them_sometimes() {
        for (number, &rewrite) in IF_INDEPENDENT.iter().enumerate() {
            let (applied, equal) = tried(rewrite, number as u64, 4_000);
            assert!(0 < equal && equal < applied, "rewrite {number}: {equal} of {applied}");
        }
    }
}
