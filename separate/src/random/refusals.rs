//! Programs that a given question refuses.

use super::changes::change_form;
use super::programs::program;
use super::{Random, ATTEMPTS};
use crate::limits::{CELLS, ITEM_NESTING, OPERATOR_NESTING, PROGRAM_BYTES};
use crate::tables::{arity, Role, MARKED};
use crate::tree::{
    each_node, each_statement, encode, nesting, Declaration, Encoded, Expression, Field, Form,
    Guard, Item, Loop, Source, Statement, Use,
};
use crate::work::Work;

/// The bytes of a program refused with this number, from 2 to 20.
pub fn refused(number: u8, random: &mut Random, work: &mut Work) -> Vec<u8> {
    let mut bytes = Vec::new();
    for _ in 0..ATTEMPTS {
        let source = program(random, work);
        bytes = attempt(number, source, random).unwrap_or(bytes);
        if work.refusal(&bytes) == Some(number) {
            break;
        }
    }
    bytes
}

fn attempt(number: u8, source: Source, random: &mut Random) -> Option<Vec<u8>> {
    match number {
        2 => Some(too_long(&source, random)),
        3 => Some(cut(&source, random)),
        4 => Some(other_bytes(&source, random, 0, 3)),
        5 => Some(wrong_version(source, random)),
        6 if random.chance(40) => out_of_range(&source, random, &[(Field::OperatorCount, 16)]),
        6 => wrong_operator(source, random),
        7 => array_table(source, random),
        8 => Some(too_many_cells(source, random)),
        9 => wrong_code(&source, random),
        10 => undeclared(&source, random),
        11 => no_step(&source, random),
        12 => too_deep(source, random),
        13 => in_target(source, random),
        14 => Some(not_ended(&source, random)),
        15 => Some(wide_bounds(source, random)),
        16 => subscript_outside(source, random),
        17 => unwritten_read(source, random),
        18 => Some(too_many_rounds(source, random)),
        19 => Some(too_many_updates(source, random)),
        20 => too_many_nodes(source, random),
        _ => panic!("no program is refused with {number}"),
    }
}

fn bytes_of(source: &Source) -> Vec<u8> {
    encode(source).bytes
}

fn too_long(source: &Source, random: &mut Random) -> Vec<u8> {
    let mut bytes = bytes_of(source);
    let length = PROGRAM_BYTES + 1 + if random.chance(50) { 0 } else { random.below(100) };
    bytes.resize(length, random.byte());
    bytes
}

fn cut(source: &Source, random: &mut Random) -> Vec<u8> {
    let mut bytes = bytes_of(source);
    bytes.truncate(random.below(bytes.len()));
    bytes
}

/// One or more of some bytes changed, each to anything else.
fn other_bytes(source: &Source, random: &mut Random, first: usize, count: usize) -> Vec<u8> {
    let mut bytes = bytes_of(source);
    for _ in 0..1 + random.below(count) {
        bytes[first + random.below(count)] = random.byte();
    }
    bytes
}

/// Sometimes wrong by one byte alone.
fn wrong_version(mut source: Source, random: &mut Random) -> Vec<u8> {
    let near = [0, 3, 4, 0x82, 0x100, 0x101, 0x102, 0x200, 0x201, 0x202, 0x8002];
    let near = *random.pick(&near);
    source.version = Some(if random.chance(70) { near } else { random.draw() as u16 });
    bytes_of(&source)
}

/// A byte that is no operator, or a mark in version 1.
fn wrong_operator(mut source: Source, random: &mut Random) -> Option<Vec<u8>> {
    let version = 1 + random.below(2) as u16;
    source.version = Some(version);
    let mut encoded = encode(&source);
    let (_, place) = place(&encoded, random, &[Field::Operator])?;
    let near = *random.pick(&[0, 5, 0x42, 0x80, 0x81, 0x83, 0x84, 0xC2, 0xFF]);
    encoded.bytes[place] = match random.below(10) {
        0..5 if version == 1 => MARKED,
        0..8 => near,
        _ => random.byte(),
    };
    Some(encoded.bytes)
}

/// Where a random field of one of these kinds begins.
fn place(encoded: &Encoded, random: &mut Random, wanted: &[Field]) -> Option<(Field, usize)> {
    let found: Vec<_> =
        encoded.fields.iter().filter(|(field, _)| wanted.contains(field)).copied().collect();
    (!found.is_empty()).then(|| *random.pick(&found))
}

/// A byte above the greatest that is allowed, or 0 where that is too few.
fn out_of_range(source: &Source, random: &mut Random, wanted: &[(Field, u8)]) -> Option<Vec<u8>> {
    let mut encoded = encode(source);
    let (field, most) = *random.pick(wanted);
    let (_, place) = place(&encoded, random, &[field])?;
    let above = if random.chance(40) { most + 1 } else { random.byte().max(most + 1) };
    encoded.bytes[place] = if random.chance(30) { 0 } else { above };
    Some(encoded.bytes)
}

fn array_table(mut source: Source, random: &mut Random) -> Option<Vec<u8>> {
    match random.below(5) {
        0..=2 => {
            let wanted = [(Field::ArrayCount, 16), (Field::Role, 3), (Field::DimensionCount, 3)];
            out_of_range(&source, random, &wanted)
        }
        3 => {
            let mut encoded = encode(&source);
            let (_, place) = place(&encoded, random, &[Field::Extent])?;
            let extent = *random.pick(&[0, 1_025, 1_026, 2_048, 0x8000, 0xFFFF]);
            encoded.bytes[place..place + 2].copy_from_slice(&u16::to_le_bytes(extent));
            Some(encoded.bytes)
        }
        _ => {
            let role = *random.pick(&[Role::In, Role::Out, Role::Inout]);
            source.arrays.insert(0, Declaration { role: Role::Local, extents: vec![1] });
            source.arrays.push(Declaration { role, extents: vec![2] });
            Some(bytes_of(&source))
        }
    }
}

/// Some array grows until the cells are too many, sometimes just so.
fn too_many_cells(mut source: Source, random: &mut Random) -> Vec<u8> {
    let number = random.below(source.arrays.len());
    let others = source.cells() - source.arrays[number].cells();
    let just = (CELLS + 1).saturating_sub(others);
    source.arrays[number].extents = match random.below(4) {
        0 => vec![1_024, 3],
        1 => vec![just.div_ceil(8) as u16, 2, 4],
        2 => vec![just.div_ceil(2) as u16, 2],
        _ => vec![1_024, 1_024, 1_024],
    };
    if random.chance(20) {
        let full = Declaration { role: Role::In, extents: vec![1_024] };
        source.arrays.splice(0..0, [full.clone(), full]);
    }
    bytes_of(&source)
}

fn wrong_code(source: &Source, random: &mut Random) -> Option<Vec<u8>> {
    let mut encoded = encode(source);
    let (_, place) = place(&encoded, random, &[Field::ItemCode, Field::NodeCode])?;
    let near = *random.pick(&[0x00, 0x01, 0x04, 0x0F, 0x10, 0x11, 0x13, 0x14]);
    encoded.bytes[place] = if random.chance(50) { near } else { random.byte() };
    Some(encoded.bytes)
}

fn undeclared(source: &Source, random: &mut Random) -> Option<Vec<u8>> {
    let mut encoded = encode(source);
    let wanted = [Field::Target, Field::ReadArray, Field::OperatorNumber];
    let (field, place) = place(&encoded, random, &wanted)?;
    let declared = match field {
        Field::OperatorNumber => source.operators.len(),
        _ => source.arrays.len(),
    };
    let more = if random.chance(50) { 0 } else { random.below(256 - declared) };
    encoded.bytes[place] = (declared + more) as u8;
    Some(encoded.bytes)
}

fn no_step(source: &Source, random: &mut Random) -> Option<Vec<u8>> {
    let mut encoded = encode(source);
    let (_, place) = place(&encoded, random, &[Field::Step])?;
    encoded.bytes[place..place + 2].fill(0);
    Some(encoded.bytes)
}

fn too_deep(mut source: Source, random: &mut Random) -> Option<Vec<u8>> {
    if random.chance(50) {
        let missing = ITEM_NESTING + 1 - nesting(&source.items);
        for _ in 0..missing + random.below(2) {
            wrap(&mut source, random);
        }
        return Some(bytes_of(&source));
    }
    let arity = usize::from(arity(*source.operators.first()?));
    let mut deep = Expression::Constant(5);
    for _ in 0..OPERATOR_NESTING + 1 + random.below(3) {
        let mut arguments = vec![Expression::Constant(6); arity];
        arguments[random.below(arity)] = deep;
        deep = Expression::Operator { number: 0, arguments };
    }
    put_somewhere(&mut source, random, deep);
    Some(bytes_of(&source))
}

/// Puts all items into a guard or a loop of one round.
fn wrap(source: &mut Source, random: &mut Random) {
    let mut body = std::mem::take(&mut source.items);
    let form = Form::number(random.between(0, 3), 0);
    let item = if random.chance(50) {
        Item::Guard(Guard { form, body })
    } else {
        crate::tree::each_form(&mut body, &mut |_, form| form.insert(0));
        Item::Loop(Loop { start: form.clone(), stop: form, step: 1, body })
    };
    source.items = vec![item];
}

/// Puts an expression without forms in the place of some node.
fn put_somewhere(source: &mut Source, random: &mut Random, expression: Expression) {
    let mut count = 0;
    each_node(&mut source.items, &mut |_| count += 1);
    let chosen = random.below(count);
    let mut at = 0;
    let mut expression = Some(expression);
    each_node(&mut source.items, &mut |node| {
        if at == chosen {
            if let Some(expression) = expression.take() {
                *node = expression;
            }
        }
        at += 1;
    });
}

fn in_target(mut source: Source, random: &mut Random) -> Option<Vec<u8>> {
    if random.chance(50) {
        // The same program, but an array that is written is now an in array.
        let mut targets = Vec::new();
        each_statement(&mut source.items, &mut |statement| targets.push(statement.target));
        let target = *random.pick(&targets);
        source.arrays[target].role = Role::In;
        return Some(bytes_of(&source));
    }
    let is_in = |&array: &usize| source.arrays[array].role == Role::In;
    let ins: Vec<_> = (0..source.arrays.len()).filter(is_in).collect();
    let mut encoded = encode(&source);
    let (_, place) = place(&encoded, random, &[Field::Target])?;
    encoded.bytes[place] = *ins.get(random.below(ins.len().max(1)))? as u8;
    Some(encoded.bytes)
}

fn not_ended(source: &Source, random: &mut Random) -> Vec<u8> {
    let mut bytes = bytes_of(source);
    let more = 1 + random.below(5);
    bytes.extend(if random.chance(50) { vec![0; more] } else { random.bytes(more) });
    bytes
}

/// Items go in front or behind, or between.
fn insert(source: &mut Source, random: &mut Random, items: Vec<Item>) {
    let at = random.below(source.items.len() + 1);
    source.items.splice(at..at, items);
}

fn fixed_loop(loops: usize, start: i32, stop: i32, step: i32, body: Vec<Item>) -> Item {
    let (start, stop) = (Form::number(start, loops), Form::number(stop, loops));
    Item::Loop(Loop { start, stop, step, body })
}

/// A bound that grows with an outer index beyond 16 bits, sometimes by one.
fn wide_bounds(mut source: Source, random: &mut Random) -> Vec<u8> {
    let high = random.chance(50);
    let edge = if high { 32_767 } else { -32_768 };
    let outward = if high { 1 } else { -1 };
    let coefficient = random.between(1, 127) * outward;
    let wide = Form { constant: edge, coefficients: vec![coefficient] };
    let narrow = Form::number(random.between(-9, 9), 1);
    let (start, stop) = if random.chance(50) { (wide, narrow) } else { (narrow, wide) };
    // Away from the loop's direction, so that the round before is empty.
    let step = if start.constant == edge { outward } else { -outward };
    let inner = Item::Loop(Loop { start, stop, step, body: Vec::new() });
    let first = random.between(-1, 1);
    let outer = fixed_loop(0, first, first + random.between(2, 9), 1, vec![inner]);
    insert(&mut source, random, vec![outer]);
    bytes_of(&source)
}

fn subscript_outside(mut source: Source, random: &mut Random) -> Option<Vec<u8>> {
    for _ in 0..1 + random.below(3) {
        if !change_form(&mut source, random, &[Use::Subscript]) {
            return None;
        }
    }
    source.fits().then(|| bytes_of(&source))
}

/// An item is missing, an inout array becomes out, or a local that nothing
/// writes is read.
fn unwritten_read(mut source: Source, random: &mut Random) -> Option<Vec<u8>> {
    match random.below(3) {
        0 => {
            let number = random.below(source.items.len());
            source.items.remove(number);
        }
        1 => {
            let inout = |array: &&mut Declaration| array.role == Role::Inout;
            source.arrays.iter_mut().find(inout)?.role = Role::Out;
        }
        _ => {
            let array = source.arrays.len();
            source.arrays.push(Declaration { role: Role::Local, extents: vec![4] });
            let subscripts = vec![Form::number(random.between(0, 3), 0)];
            let read = Expression::Read { array, subscripts: subscripts.clone() };
            // At top level, where a form has no coefficients.
            let target = random.below(source.arrays.len());
            if source.arrays[target].extents.len() != 1 {
                return None;
            }
            let subscripts = vec![Form::number(0, 0)];
            let statement = Item::Statement(Statement { target, subscripts, value: read });
            insert(&mut source, random, vec![statement]);
        }
    }
    source.fits().then(|| bytes_of(&source))
}

/// More than 65,536 rounds, few of which do anything.
fn too_many_rounds(mut source: Source, random: &mut Random) -> Vec<u8> {
    let items = match random.below(3) {
        0 => {
            vec![fixed_loop(0, -32_768, 32_767, 1, Vec::new()), fixed_loop(0, 5, 5, -1, Vec::new())]
        }
        1 => {
            let inner = fixed_loop(1, 256, 1, -1, Vec::new());
            let rounds = random.between(255, 300);
            vec![fixed_loop(0, 1, rounds, 1, vec![inner]), fixed_loop(0, 0, 1, 1, Vec::new())]
        }
        _ => {
            let innermost = fixed_loop(2, 0, 80, 2, Vec::new());
            let inner = fixed_loop(1, -40, 0, 1, vec![innermost]);
            vec![fixed_loop(0, 1_000, 0, -25, vec![inner])]
        }
    };
    insert(&mut source, random, items);
    bytes_of(&source)
}

/// An element at top level that can be written.
fn target(source: &Source, random: &mut Random, loops: usize) -> (usize, Vec<Form>) {
    let writable = |&array: &usize| source.arrays[array].role != Role::In;
    let targets: Vec<_> = (0..source.arrays.len()).filter(writable).collect();
    let target = *random.pick(&targets);
    (target, vec![Form::number(0, loops); source.arrays[target].extents.len()])
}

fn too_many_updates(mut source: Source, random: &mut Random) -> Vec<u8> {
    let (target, subscripts) = target(&source, random, 1);
    let value = Expression::Literal(Form::index(0, 1));
    let statement = Item::Statement(Statement { target, subscripts, value });
    let rounds = random.between(2_030, 2_060);
    insert(&mut source, random, vec![fixed_loop(0, 1, rounds, 1, vec![statement])]);
    bytes_of(&source)
}

/// Large right sides in a loop; needs an operator.
fn too_many_nodes(mut source: Source, random: &mut Random) -> Option<Vec<u8>> {
    let (target, subscripts) = target(&source, random, 1);
    let number = random.below(source.operators.len().max(1));
    let arity = arity(*source.operators.get(number)?);
    let mut value = Expression::Constant(random.draw() as u32);
    let mut nodes = 1;
    let mut levels = 0;
    while nodes < 40 && levels < OPERATOR_NESTING {
        value = Expression::Operator { number, arguments: vec![value; usize::from(arity)] };
        nodes = 1 + nodes * i32::from(arity);
        levels += 1;
    }
    let statement = Item::Statement(Statement { target, subscripts, value });
    let rounds = 8_192 / nodes + random.between(0, 2);
    insert(&mut source, random, vec![fixed_loop(0, 1, rounds, 1, vec![statement])]);
    source.fits().then(|| bytes_of(&source))
}
