//! Random pairs of programs, framed as standard input holds them.

use super::changes::{change, leave_out};
use super::programs::program;
use super::refusals::refused;
use super::rewrites::{insert_array, swap_arguments, IF_INDEPENDENT, SAFE};
use super::unwritten::{complete, unwritten_by, with_inout, with_out};
use super::{templates, Random, ATTEMPTS};
use crate::compare::ALL;
use crate::limits::PROGRAM_BYTES;
use crate::reply::Reply;
use crate::tables::{arity, Role, MARKED};
use crate::tree::{each_node, encode, Declaration, Expression, Form, Source};
use crate::work::Work;

/// What a pair is made to be, with how many of a thousand.
const KINDS: [(Kind, usize); 8] = [
    (Kind::Equal, 255),
    (Kind::DiffersInInout, 35),
    (Kind::Differs, 290),
    (Kind::Damaged, 90),
    (Kind::BadFrame, 14),
    // Each of the nineteen numbers as often as a pair that does not fit.
    (Kind::Refused, 19 * 14),
    (Kind::Unlike, 2 * 16),
    (Kind::TooManyTerms, 14),
];

#[derive(Clone, Copy)]
enum Kind {
    /// In all out and inout arrays.
    Equal,
    /// Equal in the out arrays, if there are any, but not in the inout arrays.
    DiffersInInout,
    /// In an out array.
    Differs,
    /// One to four bytes changed: anything may come of it.
    Damaged,
    /// Refused with 1.
    BadFrame,
    /// One program refused with 2 to 20.
    Refused,
    /// Refused with 22 or 23.
    Unlike,
    /// Refused with 24.
    TooManyTerms,
}

/// An endless stream of framed pairs.
pub struct Pairs {
    random: Random,
    work: Work,
}

impl Iterator for Pairs {
    type Item = Vec<u8>;

    fn next(&mut self) -> Option<Vec<u8>> {
        let weights = KINDS.map(|(_, weight)| weight);
        let (kind, _) = KINDS[self.random.weighted(&weights)];
        Some(self.pair(kind))
    }
}

pub fn frame(left: &[u8], right: &[u8]) -> Vec<u8> {
    let length = u16::try_from(left.len()).expect("a program is shorter than 64 KiB");
    [&length.to_le_bytes(), left, right].concat()
}

pub(super) fn bytes_of(source: &Source) -> Vec<u8> {
    encode(source).bytes
}

impl Pairs {
    pub fn new(seed: u64) -> Pairs {
        Pairs { random: Random::new(seed), work: Work::default() }
    }

    fn pair(&mut self, kind: Kind) -> Vec<u8> {
        match kind {
            Kind::Equal => self.equal(),
            Kind::DiffersInInout => self.differs_in_inout(),
            Kind::Differs => self.differs(),
            Kind::Damaged => self.damaged(),
            Kind::BadFrame => self.bad_frame(),
            Kind::Refused => {
                let number = 2 + self.random.below(19) as u8;
                self.refused(number)
            }
            Kind::Unlike => {
                let number = 22 + self.random.below(2) as u8;
                self.unlike(number)
            }
            Kind::TooManyTerms => self.too_many_terms(),
        }
    }

    /// Mostly small programs, so that thousands run in a second. Out elements
    /// may be left unwritten.
    fn base(&mut self) -> Source {
        match self.random.below(1_000) {
            0..14 => templates::large(&mut self.random),
            14..122 => templates::nest(&mut self.random),
            122..128 => {
                let tables = program(&mut self.random, &mut self.work);
                Source { items: Vec::new(), ..tables }
            }
            _ => program(&mut self.random, &mut self.work),
        }
    }

    /// One that leaves no out element unwritten, and mostly has some.
    fn whole_base(&mut self) -> Source {
        let base = self.base();
        let whole = complete(&base, &mut self.random, &mut self.work);
        self.perhaps_with_out(whole)
    }

    fn perhaps_with_out(&mut self, base: Source) -> Source {
        if self.random.chance(90) {
            with_out(&base, &mut self.random, &mut self.work)
        } else {
            base
        }
    }

    /// The reply of the plain comparison.
    fn reply(&mut self, left: &Source, right: &Source) -> Reply {
        self.work.programs(&bytes_of(left), &bytes_of(right))
    }

    fn reply_in_all(&mut self, left: &Source, right: &Source) -> Reply {
        self.work.programs_masked(&bytes_of(left), &bytes_of(right), ALL)
    }

    fn are_equal(&mut self, left: &Source, right: &Source) -> bool {
        matches!(self.reply_in_all(left, right), Reply::Equal { .. })
    }

    /// Does the rewrite change no value, and write no other elements?
    fn keeps(&mut self, base: &Source, rewrite: &Source) -> bool {
        match self.reply_in_all(base, rewrite) {
            Reply::Equal { .. } => true,
            Reply::Differs { .. } => self.are_equal(&with_inout(base), &with_inout(rewrite)),
            Reply::Refused { .. } => false,
        }
    }

    /// One to four rewrites that together change nothing, and often swaps.
    fn rewritten(&mut self, base: &Source) -> Source {
        let swapped = swap_arguments(base, &mut self.random).filter(|_| self.random.chance(75));
        let mut source = swapped.unwrap_or_else(|| base.clone());
        for _ in 0..1 + self.random.below(4) {
            let safe = self.random.chance(65);
            let rewrites = if safe { &SAFE[..] } else { &IF_INDEPENDENT[..] };
            let Some(next) = self.random.pick(rewrites)(&source, &mut self.random) else {
                continue;
            };
            // Also where it is safe: rounds or updates may be too many now.
            if self.keeps(base, &next) {
                source = next;
            }
        }
        source
    }

    /// Rewritten in so many of a hundred cases.
    fn perhaps_rewritten(&mut self, base: &Source, percent: usize) -> Source {
        if self.random.chance(percent) {
            self.rewritten(base)
        } else {
            base.clone()
        }
    }

    fn equal(&mut self) -> Vec<u8> {
        if self.random.chance(1) {
            let (left, right) = templates::as_many_terms_as_can_be(&mut self.random, "inout");
            return frame(&bytes_of(&left), &bytes_of(&right));
        }
        let mut input = Vec::new();
        for _ in 0..ATTEMPTS {
            let base = self.whole_base();
            let left = self.perhaps_rewritten(&base, 50);
            let right = self.rewritten(&base);
            input = frame(&bytes_of(&left), &bytes_of(&right));
            if self.are_equal(&left, &right) {
                break;
            }
        }
        input
    }

    pub(super) fn differs(&mut self) -> Vec<u8> {
        let kind = self.random.below(100);
        for _ in 0..ATTEMPTS {
            let pair = match kind {
                // An element that is left unwritten is no term.
                0 => Some(templates::as_many_terms_as_can_be(&mut self.random, "out")),
                1..70 => self.with_a_change(),
                70..88 => self.unwritten_on_one_side(),
                _ => self.unwritten_on_both_sides(),
            };
            if let Some((left, right)) = pair {
                return frame(&bytes_of(&left), &bytes_of(&right));
            }
        }
        self.equal()
    }

    fn with_a_change(&mut self) -> Option<(Source, Source)> {
        let base = if self.random.chance(80) {
            self.whole_base()
        } else {
            let base = self.base();
            self.perhaps_with_out(base)
        };
        let left = self.perhaps_rewritten(&base, 40);
        let differs = |pairs: &mut Pairs, right: &Source| {
            matches!(pairs.reply(&left, right), Reply::Differs { .. })
        };
        let right = self.changed(&base, &differs)?;
        Some((left, right))
    }

    /// One program with a change that no out array shows. Some have none.
    fn differs_in_inout(&mut self) -> Vec<u8> {
        let has_out = self.random.chance(70);
        for _ in 0..ATTEMPTS {
            let base = if has_out { self.whole_base() } else { with_inout(&self.base()) };
            let left = self.perhaps_rewritten(&base, 40);
            let differs = |pairs: &mut Pairs, right: &Source| {
                matches!(pairs.reply(&left, right), Reply::Equal { .. })
                    && !pairs.are_equal(&left, right)
            };
            if let Some(right) = self.changed(&base, &differs) {
                return frame(&bytes_of(&left), &bytes_of(&right));
            }
        }
        self.equal()
    }

    /// Two of a program, one of which lacks an update that writes an out
    /// element, the first that differs.
    fn unwritten_on_one_side(&mut self) -> Option<(Source, Source)> {
        let whole = self.whole_base();
        let lacking = leave_out(&whole, &mut self.random)?;
        let Reply::Differs { array, cell } = self.reply(&whole, &lacking) else { return None };
        if !unwritten_by(&lacking, &mut self.work).contains(&(array, cell)) {
            return None;
        }
        let pair = (self.perhaps_rewritten(&whole, 40), self.perhaps_rewritten(&lacking, 40));
        Some(if self.random.chance(50) { (pair.1, pair.0) } else { pair })
    }

    /// A program that leaves out elements unwritten, beside itself or a rewrite.
    fn unwritten_on_both_sides(&mut self) -> Option<(Source, Source)> {
        let base = self.base();
        if unwritten_by(&base, &mut self.work).is_empty() {
            return None;
        }
        Some((self.perhaps_rewritten(&base, 40), self.perhaps_rewritten(&base, 70)))
    }

    /// One change, or a rewrite that breaks a dependence, that makes the wanted
    /// difference; perhaps hidden among rewrites that make none.
    fn changed(
        &mut self,
        base: &Source,
        wanted: &dyn Fn(&mut Pairs, &Source) -> bool,
    ) -> Option<Source> {
        for _ in 0..10 {
            let changed = if self.random.chance(15) {
                self.random.pick(&IF_INDEPENDENT)(base, &mut self.random)
            } else {
                change(base, &mut self.random)
            };
            let Some(right) = changed else { continue };
            if wanted(self, &right) {
                let hidden = self.random.chance(30);
                return Some(if hidden { self.rewritten(&right) } else { right });
            }
        }
        None
    }

    fn damaged(&mut self) -> Vec<u8> {
        let mut input = if self.random.chance(60) { self.equal() } else { self.differs() };
        let places: Vec<_> =
            (0..1 + self.random.below(4)).map(|_| self.random.below(input.len())).collect();
        for place in places {
            self.damage(&mut input, place);
        }
        input
    }

    fn damage(&mut self, input: &mut Vec<u8>, place: usize) {
        let place = place.min(input.len() - 1);
        match self.random.below(11) {
            0 => input.insert(place, self.random.byte()),
            1 if input.len() > 1 => drop(input.remove(place)),
            2..=4 => input[place] ^= 1 << self.random.below(8),
            5 | 6 => input[place] = self.random.below(4) as u8,
            7 => input[place] = input[place].wrapping_add(1),
            8 => input[place] = input[place].wrapping_sub(1),
            9 => input[place] = MARKED,
            _ => input[place] = self.random.byte(),
        }
    }

    /// The length is missing, or says more than there is.
    fn bad_frame(&mut self) -> Vec<u8> {
        let mut input = self.equal();
        let left = usize::from(u16::from_le_bytes([input[0], input[1]]));
        match self.random.below(4) {
            0 => input.truncate(self.random.below(2)),
            1 => input.truncate(1 + left),
            2 => input.truncate(2 + self.random.below(left)),
            _ => {
                let held = (input.len() - 2).min(PROGRAM_BYTES - 1);
                let more = 1 + self.random.below((PROGRAM_BYTES - held).min(300));
                let stated = if self.random.chance(20) { PROGRAM_BYTES } else { held + more };
                input[..2].copy_from_slice(&(stated as u16).to_le_bytes());
                // A long right side may still be enough for what is stated.
                input.truncate(2 + held);
            }
        }
        input
    }

    fn refused(&mut self, number: u8) -> Vec<u8> {
        if self.random.chance(50) {
            let base = self.base();
            let left = bytes_of(&self.rewritten(&base));
            let right = refused(number, &mut self.random, &mut self.work);
            return frame(&left, &right);
        }
        let right = self.companion();
        if number == 2 && self.random.chance(80) {
            // As stated is enough, so the stated bytes need not follow.
            let most = usize::from(u16::MAX) - PROGRAM_BYTES;
            let some = 1 + self.random.below(most);
            let above = *self.random.pick(&[1, some, most]);
            let stated = (PROGRAM_BYTES + above) as u16;
            return [&stated.to_le_bytes(), right.as_slice()].concat();
        }
        let left = refused(number, &mut self.random, &mut self.work);
        frame(&left, &right)
    }

    /// Any right side, for a left one that is refused before it matters.
    fn companion(&mut self) -> Vec<u8> {
        match self.random.below(10) {
            0..5 => {
                let base = self.base();
                bytes_of(&base)
            }
            5..8 => {
                let number = 3 + self.random.below(18) as u8;
                refused(number, &mut self.random, &mut self.work)
            }
            8 => Vec::new(),
            _ => {
                let count = self.random.below(40);
                self.random.bytes(count)
            }
        }
    }

    /// Tables that differ in shared arrays (22) or in operators (23).
    fn unlike(&mut self, number: u8) -> Vec<u8> {
        let mut input = Vec::new();
        for _ in 0..ATTEMPTS {
            let base = self.base();
            let mut other = self.rewritten(&base);
            if number == 22 {
                unlike_arrays(&mut other, &mut self.random);
            } else {
                unlike_operators(&mut other, &mut self.random);
            }
            let swapped = self.random.chance(50);
            let (left, right) = if swapped { (&other, &base) } else { (&base, &other) };
            input = frame(&bytes_of(left), &bytes_of(right));
            if is_refused_with(self.reply(left, right), number) {
                break;
            }
        }
        input
    }

    fn too_many_terms(&mut self) -> Vec<u8> {
        let mut input = Vec::new();
        for _ in 0..ATTEMPTS {
            let (left, right) = templates::too_many_terms(&mut self.random);
            input = frame(&bytes_of(&left), &bytes_of(&right));
            if is_refused_with(self.reply(&left, &right), 24) {
                break;
            }
        }
        input
    }
}

fn is_refused_with(reply: Reply, wanted: u8) -> bool {
    matches!(reply, Reply::Refused { number, .. } if number == wanted)
}

fn unlike_arrays(source: &mut Source, random: &mut Random) {
    let shared = source.arrays.iter().filter(|array| array.role != Role::Local).count();
    let number = random.below(shared.max(1));
    match random.below(4) {
        0 => {
            let dimension = random.below(source.arrays[number].extents.len());
            source.arrays[number].extents[dimension] += 1;
        }
        1 => {
            let roles = [Role::In, Role::Out, Role::Inout];
            source.arrays[number].role = *random.pick(&roles);
        }
        2 => {
            // One shared array more, in front of the locals.
            let role = *random.pick(&[Role::In, Role::Out, Role::Inout]);
            insert_array(source, shared, Declaration { role, extents: vec![1] });
        }
        _ => one_dimension_more(source, number),
    }
}

/// A last extent of 1, and a last subscript of 0.
fn one_dimension_more(source: &mut Source, array: usize) {
    source.arrays[array].extents.push(1);
    let more = |subscripts: &mut Vec<Form>| {
        let loops = subscripts[0].coefficients.len();
        subscripts.push(Form::number(0, loops));
    };
    crate::tree::each_statement(&mut source.items, &mut |statement| {
        if statement.target == array {
            more(&mut statement.subscripts);
        }
    });
    each_node(&mut source.items, &mut |node| match node {
        Expression::Read { array: read, subscripts } if *read == array => more(subscripts),
        _ => {}
    });
}

fn unlike_operators(source: &mut Source, random: &mut Random) {
    let count = source.operators.len();
    let more = *random.pick(&[1, 2, 3, 4, MARKED]);
    match random.below(5) {
        0 => source.operators.push(more),
        1 => {
            // One operator more, before some others.
            let at = random.below(count + 1);
            source.operators.insert(at, more);
            renumber_operators(source, &|number| number + usize::from(number >= at));
        }
        2 | 3 => unlike_mark(source, random),
        _ => {
            if count > 0 {
                let (one, other) = (random.below(count), random.below(count));
                source.operators.swap(one, other);
                renumber_operators(source, &|number| match number {
                    number if number == one => other,
                    number if number == other => one,
                    number => number,
                });
            }
        }
    }
}

/// An operator of two arguments gets a mark or loses it.
fn unlike_mark(source: &mut Source, random: &mut Random) {
    let two = |operator: &&mut u8| arity(**operator) == 2;
    let mut found: Vec<_> = source.operators.iter_mut().filter(two).collect();
    if found.is_empty() {
        return;
    }
    let chosen = random.below(found.len());
    let operator = &mut *found[chosen];
    *operator = if *operator == MARKED { 2 } else { MARKED };
}

fn renumber_operators(source: &mut Source, renumbered: &dyn Fn(usize) -> usize) {
    each_node(&mut source.items, &mut |node| {
        if let Expression::Operator { number, .. } = node {
            *number = renumbered(*number);
        }
    });
}
