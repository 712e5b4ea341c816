//! Do two checkers reply the same and leave the same in lent memory?

use std::fmt::Display;

use separate::random::Random;
use tengmua::{Chosen, Explanation, Refusal, Reply, Side, Written};

use crate::memory::{is_zero, lengths, Garbage, ENOUGH};

/// The entries of the boundary. What a program or list alone is answered is a `Reply` too, as in its four numbers.
pub trait Checker {
    fn programs(&self, left: &[u8], right: &[u8], mask: u16, work: [&mut [u32]; 4]) -> Reply;
    fn plain(&self, left: &[u8], right: &[u8], work: [&mut [u32]; 4]) -> Reply;
    fn lists(&self, left: &[u32], right: &[u32], mask: u16, work: [&mut [u32]; 2]) -> Reply;
    fn unroll(&self, program: &[u8], list: &mut [u32]) -> Reply;
    fn check(&self, list: &[u32]) -> Reply;
    fn write(&self, list: &[u32], out: &mut [u8]) -> Reply;
    fn explain<'a>(
        &self,
        left: &'a [u8],
        right: &'a [u8],
        mask: u16,
        chosen: Chosen,
        work: [&mut [u32]; 4],
    ) -> Explanation<'a>;
}

/// The proved checker, through the static library.
pub struct Ours;

/// The separately written one.
pub struct Separate;

fn counted(answer: Result<usize, Refusal>) -> Reply {
    answer.map_or_else(Reply::Refused, Reply::Equal)
}

impl Checker for Ours {
    fn programs(&self, left: &[u8], right: &[u8], mask: u16, work: [&mut [u32]; 4]) -> Reply {
        let [left_list, right_list, cells, terms] = work;
        tengmua::compare_programs(left, right, mask, left_list, right_list, cells, terms)
    }

    fn plain(&self, left: &[u8], right: &[u8], work: [&mut [u32]; 4]) -> Reply {
        let [left_list, right_list, cells, terms] = work;
        tengmua::compare_plain(left, right, left_list, right_list, cells, terms)
    }

    fn lists(
        &self,
        left: &[u32],
        right: &[u32],
        mask: u16,
        [cells, terms]: [&mut [u32]; 2],
    ) -> Reply {
        tengmua::compare_lists(left, right, mask, cells, terms)
    }

    fn unroll(&self, program: &[u8], list: &mut [u32]) -> Reply {
        counted(tengmua::unroll(program, list))
    }

    fn check(&self, list: &[u32]) -> Reply {
        counted(tengmua::check_list(list).map(|()| 0))
    }

    fn write(&self, list: &[u32], out: &mut [u8]) -> Reply {
        counted(tengmua::write_file(list, out))
    }

    fn explain<'a>(
        &self,
        left: &'a [u8],
        right: &'a [u8],
        mask: u16,
        chosen: Chosen,
        [a, b, c, d]: [&mut [u32]; 4],
    ) -> Explanation<'a> {
        tengmua::explain(left, right, mask, chosen, a, b, c, d)
    }
}

fn side(side: separate::Side) -> Side {
    match side {
        separate::Side::Left => Side::Left,
        separate::Side::Right => Side::Right,
        separate::Side::Both => Side::Both,
        separate::Side::Input => Side::Input,
    }
}

pub(crate) fn reply(reply: separate::Reply) -> Reply {
    match reply {
        separate::Reply::Equal { count } => Reply::Equal(count),
        separate::Reply::Differs { array, cell } => Reply::Differs(array, cell),
        separate::Reply::Refused { side: one, number, place } => {
            Reply::Refused(Refusal { side: side(one), question: number, place })
        }
    }
}

/// An entry over one program or list calls it left.
fn answer(answer: Result<usize, separate::Refusal>) -> Reply {
    match answer {
        Ok(count) => Reply::Equal(count),
        Err(refusal) => reply(refusal.reply(separate::Side::Left)),
    }
}

/// The bytes are a part of what was lent.
fn explanation<'a>(
    explanation: separate::Explanation,
    left: &'a [u8],
    right: &'a [u8],
    chosen: separate::Chosen,
) -> Explanation<'a> {
    match explanation {
        separate::Explanation::Written { array, cell, writer } => {
            let separate::explain::Writer { from, to, count, indices } = writer;
            let bytes = separate::stretch(left, right, chosen, from, to);
            Explanation::Written(Written { array, cell, from, bytes, count, indices })
        }
        separate::Explanation::Starting { array, cell } => Explanation::Starting { array, cell },
        separate::Explanation::Refused { side: one, number, place } => {
            Explanation::Refused(Refusal { side: side(one), question: number, place })
        }
    }
}

impl Checker for Separate {
    fn programs(&self, left: &[u8], right: &[u8], mask: u16, work: [&mut [u32]; 4]) -> Reply {
        let [left_list, right_list, cells, terms] = work;
        reply(separate::compare_programs_masked(
            left, right, mask, left_list, right_list, cells, terms,
        ))
    }

    fn plain(&self, left: &[u8], right: &[u8], work: [&mut [u32]; 4]) -> Reply {
        let [left_list, right_list, cells, terms] = work;
        reply(separate::compare_programs(left, right, left_list, right_list, cells, terms))
    }

    fn lists(
        &self,
        left: &[u32],
        right: &[u32],
        mask: u16,
        [cells, terms]: [&mut [u32]; 2],
    ) -> Reply {
        reply(separate::compare_lists(left, right, mask, cells, terms))
    }

    fn unroll(&self, program: &[u8], list: &mut [u32]) -> Reply {
        answer(separate::unroll(program, list))
    }

    fn check(&self, list: &[u32]) -> Reply {
        answer(separate::check_list(list).map(|()| 0))
    }

    fn write(&self, list: &[u32], out: &mut [u8]) -> Reply {
        answer(separate::write_file(list, out))
    }

    fn explain<'a>(
        &self,
        left: &'a [u8],
        right: &'a [u8],
        mask: u16,
        chosen: Chosen,
        [a, b, c, d]: [&mut [u32]; 4],
    ) -> Explanation<'a> {
        let chosen = match chosen {
            Chosen::Left => separate::Chosen::Left,
            Chosen::Right => separate::Chosen::Right,
        };
        let explained = separate::explain(left, right, mask, chosen, a, b, c, d);
        explanation(explained, left, right, chosen)
    }
}

/// What is not the same, in words.
pub type Difference = String;

/// Two checkers, and garbage for what they are lent.
pub struct Beside<A, B> {
    one: A,
    other: B,
    random: Random,
    garbage: Garbage,
}

impl<A: Checker, B: Checker> Beside<A, B> {
    pub fn new(one: A, other: B, seed: u64) -> Beside<A, B> {
        let mut random = Random::new(seed);
        let garbage = Garbage::new(&mut random);
        Beside { one, other, random, garbage }
    }

    /// Slices of garbage of random lengths, mostly enough.
    fn lent<const N: usize>(&mut self, enough: [usize; N]) -> [Vec<u32>; N] {
        let lengths = lengths(&enough, &mut self.random);
        std::array::from_fn(|slice| {
            let mut words = vec![0; lengths[slice]];
            self.garbage.fill(&mut words, &mut self.random);
            words
        })
    }

    pub fn programs(&mut self, left: &[u8], right: &[u8], mask: u16) -> Result<Reply, Difference> {
        self.compared(ENOUGH, |checker, work| checker.programs(left, right, mask, work))
    }

    pub fn plain(&mut self, left: &[u8], right: &[u8]) -> Result<Reply, Difference> {
        self.compared(ENOUGH, |checker, work| checker.plain(left, right, work))
    }

    pub fn lists(&mut self, left: &[u32], right: &[u32], mask: u16) -> Result<Reply, Difference> {
        let enough = [ENOUGH[2], ENOUGH[3]];
        self.compared(enough, |checker, work| checker.lists(left, right, mask, work))
    }

    /// One call of both, with the same garbage in work memory.
    fn compared<const N: usize>(
        &mut self,
        enough: [usize; N],
        call: impl Fn(&dyn Checker, [&mut [u32]; N]) -> Reply,
    ) -> Result<Reply, Difference> {
        let before = self.lent(enough);
        let mut ours = before.clone();
        let reply = call(&self.one, ours.each_mut().map(|slice| &mut slice[..]));
        left_as_promised(is_short(reply), &before, &ours)?;
        let mut theirs = before;
        let other = call(&self.other, theirs.each_mut().map(|slice| &mut slice[..]));
        same(reply, other)?;
        same_words(&ours, &theirs)?;
        Ok(reply)
    }

    pub fn explain<'a>(
        &mut self,
        left: &'a [u8],
        right: &'a [u8],
        mask: u16,
        chosen: Chosen,
    ) -> Result<Explanation<'a>, Difference> {
        let before = self.lent(ENOUGH);
        let mut ours = before.clone();
        let work = ours.each_mut().map(|slice| &mut slice[..]);
        let explanation = self.one.explain(left, right, mask, chosen, work);
        let short = matches!(explanation, Explanation::Refused(Refusal { question: 25, .. }));
        left_as_promised(short, &before, &ours)?;
        let mut theirs = before;
        let work = theirs.each_mut().map(|slice| &mut slice[..]);
        same(explanation, self.other.explain(left, right, mask, chosen, work))?;
        same_words(&ours, &theirs)?;
        Ok(explanation)
    }

    /// The whole list is compared, the zeros behind it too.
    pub fn unroll(&mut self, program: &[u8]) -> Result<Reply, Difference> {
        let [before] = self.lent([ENOUGH[0]]);
        let (mut ours, mut theirs) = (before.clone(), before);
        let reply = self.one.unroll(program, &mut ours);
        same(reply, self.other.unroll(program, &mut theirs))?;
        same_words(&[ours], &[theirs])?;
        Ok(reply)
    }

    pub fn check(&mut self, list: &[u32]) -> Result<Reply, Difference> {
        let reply = self.one.check(list);
        same(reply, self.other.check(list))?;
        Ok(reply)
    }

    /// To an output that holds these bytes. A file is read back too, by the first checker.
    pub fn write(&mut self, list: &[u32], out: &[u8]) -> Result<Reply, Difference> {
        let (mut ours, mut theirs) = (out.to_vec(), out.to_vec());
        let reply = self.one.write(list, &mut ours);
        let length = if let Reply::Equal(length) = reply { length } else { 0 };
        if ours.get(length..) != out.get(length..) {
            return Err(format!("{reply}: the output is touched behind {length} bytes"));
        }
        same(reply, self.other.write(list, &mut theirs))?;
        if ours != theirs {
            return Err(format!("{reply}: the files are not alike"));
        }
        if let Reply::Equal(length) = reply {
            let mut again = vec![7; list.len()];
            let unrolled = self.one.unroll(&ours[..length], &mut again);
            if again != list {
                return Err(format!("{reply}: the file unrolls to another list, {unrolled}"));
            }
        }
        Ok(reply)
    }
}

fn is_short(reply: Reply) -> bool {
    matches!(reply, Reply::Refused(Refusal { question: 25, .. }))
}

/// Under 25 nothing is touched; otherwise all work memory is zeros.
fn left_as_promised(
    short: bool,
    before: &[Vec<u32>],
    after: &[Vec<u32>],
) -> Result<(), Difference> {
    if short {
        return same_words(before, after).map_err(|words| format!("touched under 25: {words}"));
    }
    match after.iter().position(|slice| !is_zero(slice)) {
        Some(slice) => Err(format!("slice {slice} of work memory is not zeros")),
        None => Ok(()),
    }
}

fn same<T: PartialEq + Display>(ours: T, theirs: T) -> Result<(), Difference> {
    if ours == theirs {
        Ok(())
    } else {
        Err(format!("ours: {ours}; separate: {theirs}"))
    }
}

fn same_words(ours: &[Vec<u32>], theirs: &[Vec<u32>]) -> Result<(), Difference> {
    match ours.iter().zip(theirs).position(|(one, other)| one != other) {
        Some(slice) => Err(format!("slice {slice} is left otherwise")),
        None => Ok(()),
    }
}
