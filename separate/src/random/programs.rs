//! Random programs that are read and run without a "no".

use super::{Random, ATTEMPTS};
use crate::limits::OPERATOR_NESTING;
use crate::read::SECOND_VERSION;
use crate::tables::{arity, Role, MARKED};
use crate::tree::{encode, Declaration, Expression, Form, Guard, Item, Loop, Source, Statement};
use crate::work::Work;

/// A small accepted program. Most tries are accepted at once.
pub fn program(random: &mut Random, work: &mut Work) -> Source {
    let mut source = attempt(random);
    for _ in 0..ATTEMPTS {
        if source.fits() && work.refusal(&encode(&source).bytes).is_none() {
            break;
        }
        source = attempt(random);
    }
    source
}

fn attempt(random: &mut Random) -> Source {
    let (operators, arrays) = tables(random);
    let source = Source { operators, arrays, ..Source::default() };
    let nesting = if random.chance(10) { 8 } else { 4 };
    let items = Maker { nesting, ..Maker::over(&source, random) }.program();
    // Without a mark too.
    let version = random.chance(10).then_some(SECOND_VERSION);
    Source { version, items, ..source }
}

/// In some tables, some operators of two arguments become marked.
pub fn mark_some(operators: &mut [u8], random: &mut Random) {
    if random.chance(55) {
        for operator in operators.iter_mut().filter(|operator| **operator == 2) {
            if random.chance(70) {
                *operator = MARKED;
            }
        }
    }
}

/// Operators and arrays; at least one array can be written.
pub fn tables(random: &mut Random) -> (Vec<u8>, Vec<Declaration>) {
    let operators = match random.below(20) {
        0 => 0,
        1 => 16,
        _ => 1 + random.below(4),
    };
    let pick = |_| *random.pick(&[1, 2, 2, 2, 2, 3, 3, 4]);
    let mut operators: Vec<_> = (0..operators).map(pick).collect();
    mark_some(&mut operators, random);
    let count = if random.chance(4) { 16 } else { 1 + random.below(5) };
    let mut roles: Vec<_> = (0..count).map(|_| role(random)).collect();
    if roles.iter().all(|&role| role == Role::In) {
        roles[0] = *random.pick(&[Role::Out, Role::Inout]);
    }
    // A stable sort: locals come last, the others stay mixed.
    roles.sort_by_key(|&role| role == Role::Local);
    let arrays = roles.into_iter().map(|role| Declaration { role, extents: extents(random) });
    (operators, arrays.collect())
}

fn role(random: &mut Random) -> Role {
    *random.pick(&[Role::In, Role::Out, Role::Out, Role::Inout, Role::Inout, Role::Local])
}

fn extents(random: &mut Random) -> Vec<u16> {
    let (dimensions, most) = *random.pick(&[(1, 12), (1, 12), (1, 6), (2, 5), (2, 4), (3, 3)]);
    (0..dimensions).map(|_| 1 + random.below(most) as u16).collect()
}

/// The loops around an item: what each index may be, how many rounds they make
/// together at most, and how deep loops and guards nest.
#[derive(Clone, Default)]
pub(super) struct Scope {
    pub ranges: Vec<(i32, i32)>,
    pub rounds: usize,
    pub nesting: usize,
}

impl Scope {
    fn loops(&self) -> usize {
        self.ranges.len()
    }

    /// Least and greatest value that the form may have.
    fn range(&self, form: &Form) -> (i32, i32) {
        let mut range = (form.constant, form.constant);
        for (&coefficient, &(low, high)) in form.coefficients.iter().zip(&self.ranges) {
            let (one, other) = (coefficient * low, coefficient * high);
            range = (range.0 + one.min(other), range.1 + one.max(other));
        }
        range
    }
}

pub(super) struct Maker<'a> {
    random: &'a mut Random,
    operators: &'a [u8],
    arrays: &'a [Declaration],
    /// Arrays all of whose cells are written.
    filled: Vec<bool>,
    /// Elements that are written on every way to the present place.
    fresh: Vec<(usize, Vec<Form>)>,
    nesting: usize,
}

impl<'a> Maker<'a> {
    /// Makes items over a program's tables, as if nothing were written yet.
    pub fn over(source: &'a Source, random: &'a mut Random) -> Maker<'a> {
        let filled = vec![false; source.arrays.len()];
        let (operators, arrays) = (&source.operators, &source.arrays);
        Maker { random, operators, arrays, filled, fresh: Vec::new(), nesting: 4 }
    }

    fn program(mut self) -> Vec<Item> {
        let scope = Scope { rounds: 1, ..Scope::default() };
        let mut items = self.fillings();
        let count = 1 + self.random.below(3);
        items.extend(self.items(&scope, count));
        items.extend(self.own_nests(&scope));
        items
    }

    /// Some arrays are filled first, which the items behind may read.
    fn fillings(&mut self) -> Vec<Item> {
        let mut items = Vec::new();
        for array in 0..self.arrays.len() {
            if !self.arrays[array].role.starts_alike() && self.random.chance(40) {
                items.push(self.whole(array, 1));
            }
        }
        items
    }

    /// Some of the other out arrays are written whole by a nest, and more may
    /// follow it.
    fn own_nests(&mut self, scope: &Scope) -> Vec<Item> {
        let mut items = Vec::new();
        for array in 0..self.arrays.len() {
            let unfilled = self.arrays[array].role == Role::Out && !self.filled[array];
            if unfilled && self.random.chance(40) {
                let (levels, behind) = (1 + self.random.below(3), self.random.below(2));
                items.push(self.whole(array, levels));
                items.extend(self.items(scope, behind));
            }
        }
        items
    }

    /// Loops that write every cell of the array.
    pub fn whole(&mut self, array: usize, levels: usize) -> Item {
        let extents = self.arrays[array].extents.clone();
        let ranges = extents.iter().map(|&extent| (0, i32::from(extent) - 1)).collect();
        let scope = Scope { ranges, rounds: 1, nesting: extents.len() };
        // What is fresh has its subscripts outside of these loops.
        let fresh = std::mem::take(&mut self.fresh);
        let value = self.expression(&scope, levels);
        self.fresh = fresh;
        self.whole_of(array, value)
    }

    /// Loops that write every cell of the array with what another of the same
    /// extents holds there.
    pub fn copy(&mut self, array: usize, from: usize) -> Item {
        let subscripts = self.own_indices(array);
        self.whole_of(array, Expression::Read { array: from, subscripts })
    }

    /// A loop for each dimension: the subscripts of one cell.
    fn own_indices(&self, array: usize) -> Vec<Form> {
        let loops = self.arrays[array].extents.len();
        (0..loops).map(|position| Form::index(position, loops)).collect()
    }

    /// Loops that write this value to every cell of the array.
    fn whole_of(&mut self, array: usize, value: Expression) -> Item {
        let extents = self.arrays[array].extents.clone();
        let loops = extents.len();
        let subscripts = self.own_indices(array);
        let mut item = Item::Statement(Statement { target: array, subscripts, value });
        for position in (0..loops).rev() {
            let last = i32::from(extents[position]) - 1;
            let (start, stop, step) =
                if self.random.chance(25) { (last, 0, -1) } else { (0, last, 1) };
            let (start, stop) = (Form::number(start, position), Form::number(stop, position));
            item = Item::Loop(Loop { start, stop, step, body: vec![item] });
        }
        self.filled[array] = true;
        item
    }

    fn items(&mut self, scope: &Scope, count: usize) -> Vec<Item> {
        (0..count).map(|_| self.item(scope)).collect()
    }

    fn item(&mut self, scope: &Scope) -> Item {
        let deeper = scope.nesting < self.nesting;
        match self.random.below(100) {
            0..45 if deeper && scope.rounds <= 60 => self.loop_item(scope),
            45..57 if deeper => self.guard(scope),
            _ => Item::Statement(self.statement(scope)),
        }
    }

    fn loop_item(&mut self, scope: &Scope) -> Item {
        let rounds = if self.random.chance(4) { 0 } else { self.random.between(1, 5) };
        let step = *self.random.pick(&[1, 1, 1, 1, -1, -1, 2, -2, 3]);
        let mut start = Form::number(self.random.between(-3, 4), scope.loops());
        if scope.loops() > 0 && self.random.chance(25) {
            start.coefficients[self.random.below(scope.loops())] = *self.random.pick(&[1, -1, 2]);
        }
        // A triangle if the end stays where the start began.
        let mut stop = if self.random.chance(60) {
            start.clone()
        } else {
            Form::number(start.constant, scope.loops())
        };
        stop.constant +=
            (rounds - 1) * step + self.random.between(0, step.abs() - 1) * step.signum();
        let (from, to) = (scope.range(&start), scope.range(&stop));
        let mut inner = scope.clone();
        inner.ranges.push((from.0.min(to.0), from.1.max(to.1)));
        inner.rounds *= rounds.max(1) as usize;
        inner.nesting += 1;
        let before = self.fresh.clone();
        let fresh = self.fresh.iter_mut().flat_map(|(_, subscripts)| subscripts);
        fresh.for_each(|form| form.coefficients.push(0));
        let count = 1 + self.random.below(2);
        let body = self.items(&inner, count);
        self.fresh = before;
        Item::Loop(Loop { start, stop, step, body })
    }

    fn guard(&mut self, scope: &Scope) -> Item {
        let mut form = Form::number(self.random.between(-2, 3), scope.loops());
        for coefficient in &mut form.coefficients {
            *coefficient = *self.random.pick(&[0, 1, -1, 1, -1, 2]);
        }
        let mut inner = scope.clone();
        inner.nesting += 1;
        let before = self.fresh.clone();
        let count = 1 + self.random.below(2);
        let body = self.items(&inner, count);
        self.fresh = before;
        Item::Guard(Guard { form, body })
    }

    fn statement(&mut self, scope: &Scope) -> Statement {
        let targets: Vec<_> =
            (0..self.arrays.len()).filter(|&array| self.arrays[array].role != Role::In).collect();
        let target = *self.random.pick(&targets);
        let subscripts = self.subscripts(scope, target);
        let value = self.value(scope);
        self.fresh.push((target, subscripts.clone()));
        Statement { target, subscripts, value }
    }

    fn subscripts(&mut self, scope: &Scope, array: usize) -> Vec<Form> {
        let extents = self.arrays[array].extents.clone();
        extents.into_iter().map(|extent| self.subscript(scope, i32::from(extent))).collect()
    }

    /// A form that stays inside the extent whatever the indices are.
    fn subscript(&mut self, scope: &Scope, extent: i32) -> Form {
        let mut form = Form::number(0, scope.loops());
        for coefficient in &mut form.coefficients {
            *coefficient = *self.random.pick(&[0, 0, 0, 1, 1, 1, 1, -1, -1, 2, -2, 3]);
        }
        loop {
            let (low, high) = scope.range(&form);
            if high - low < extent {
                form.constant = self.random.between(-low, extent - 1 - high);
                return form;
            }
            let used: Vec<_> =
                (0..scope.loops()).filter(|&position| form.coefficients[position] != 0).collect();
            form.coefficients[*self.random.pick(&used)] = 0;
        }
    }

    fn value(&mut self, scope: &Scope) -> Expression {
        if self.random.chance(4) && !self.operators.is_empty() {
            let levels = 4 + self.random.below(OPERATOR_NESTING - 3);
            return self.chain(scope, levels);
        }
        let levels = *self.random.pick(&[0, 1, 1, 1, 2, 2, 3]);
        self.expression(scope, levels)
    }

    /// Operators `levels` deep, each but the last with one operator below.
    fn chain(&mut self, scope: &Scope, levels: usize) -> Expression {
        if levels == 0 {
            return self.leaf(scope);
        }
        let number = self.random.below(self.operators.len());
        let arity = usize::from(arity(self.operators[number]));
        let deep = self.random.below(arity);
        let argument = |position| {
            if position == deep {
                self.chain(scope, levels - 1)
            } else {
                self.leaf(scope)
            }
        };
        Expression::Operator { number, arguments: (0..arity).map(argument).collect() }
    }

    pub fn expression(&mut self, scope: &Scope, levels: usize) -> Expression {
        if levels == 0 || self.operators.is_empty() || self.random.chance(10) {
            return self.leaf(scope);
        }
        let number = self.random.below(self.operators.len());
        let arguments = (0..arity(self.operators[number])).map(|_| {
            let below = self.random.below(levels);
            self.expression(scope, below)
        });
        let arguments = arguments.collect();
        Expression::Operator { number, arguments }
    }

    fn leaf(&mut self, scope: &Scope) -> Expression {
        match self.random.below(100) {
            0..64 => self.read(scope).unwrap_or_else(|| Expression::Literal(self.literal(scope))),
            64..84 => Expression::Literal(self.literal(scope)),
            84..97 => Expression::Constant(self.random.below(10) as u32),
            _ => Expression::Constant(self.random.draw() as u32),
        }
    }

    /// A read that is surely of a written cell, or now and then one that may
    /// not be; then the run decides.
    fn read(&mut self, scope: &Scope) -> Option<Expression> {
        if !self.fresh.is_empty() && self.random.chance(35) {
            let (array, subscripts) = self.random.pick(&self.fresh).clone();
            return Some(Expression::Read { array, subscripts });
        }
        let daring = self.random.chance(4);
        let readable =
            |&array: &usize| daring || self.filled[array] || self.arrays[array].role.starts_alike();
        let readable: Vec<_> = (0..self.arrays.len()).filter(readable).collect();
        if readable.is_empty() {
            return None;
        }
        let array = *self.random.pick(&readable);
        let subscripts = self.subscripts(scope, array);
        Some(Expression::Read { array, subscripts })
    }

    fn literal(&mut self, scope: &Scope) -> Form {
        let (widest, coefficient) = if self.random.chance(10) { (32_767, 127) } else { (5, 2) };
        let mut form = Form::number(self.random.between(-widest - 1, widest), scope.loops());
        for own in &mut form.coefficients {
            if self.random.chance(50) {
                *own = self.random.between(-coefficient - 1, coefficient);
            }
        }
        form
    }
}
