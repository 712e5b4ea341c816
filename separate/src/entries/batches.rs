//! The entries that read one pair after another and count the replies.

use super::{memories, number_at, Line, Unfit};
use crate::batch::{lengths, split, Totals};
use crate::compare::{Compared, Memory, ALL};
use crate::line::line_of_totals;
use crate::reply::{Question, Reply, Side};

/// The bytes of two lengths of 64 bits.
const LENGTHS: usize = 16;

/// The first five arguments.
fn totals([pairs, equal, differs, refused, elements, _]: [usize; 6]) -> Totals {
    let [pairs, equal, differs, refused, elements] =
        [pairs, equal, differs, refused, elements].map(|total| total as u64);
    Totals { pairs, equal, differs, refused, elements }
}

/// The reply to a pair of these lengths, and whether the pair is cut, so that
/// it is the last.
fn compare_pair(stated: [usize; 2], bytes: &[u8], lent: &mut [Vec<u32>; 4]) -> (Reply, bool) {
    let [left_list, right_list, cells, terms] = lent.each_mut().map(|memory| &mut memory[..]);
    let mut memory = Memory { left_list, right_list, cells, terms };
    let pair = split(stated, bytes);
    let reply = match pair {
        _ if !memory.suffices() => Question::Memory.at(0).reply(Side::Both),
        Ok((left, right)) => memory.programs(left, right, Compared::Masked(ALL)),
        Err(cut) => {
            memory.clear();
            cut
        }
    };
    (reply, pair.is_err())
}

impl Line {
    pub(super) fn pair_lengths(&mut self, s: &[u8]) {
        match lengths(s) {
            None => self.say(0),
            Some(Err(reply)) => {
                self.say(1);
                self.reply(reply);
            }
            Some(Ok(lengths)) => {
                self.say(2);
                self.say_all(lengths);
            }
        }
    }

    pub(super) fn compare_pair(&mut self, arguments: [usize; 6], s: &[u8]) -> Result<(), Unfit> {
        let [_, lengths @ .., k] = arguments;
        let (mut lent, s) = memories(lengths, k, s)?;
        let (stated, bytes) = s.split_at_checked(LENGTHS).ok_or(Unfit)?;
        let stated = [0, 8].map(|at| number_at(stated, at));
        let (reply, is_last) = compare_pair(stated, bytes, &mut lent);
        self.reply(reply);
        self.say(u8::from(is_last));
        lent.into_iter().for_each(|memory| self.sum(memory));
        Ok(())
    }

    pub(super) fn count_reply(&mut self, arguments: [usize; 6], s: &[u8]) {
        let (kind, n) = (arguments[5] % 3, number_at(s, 0));
        let mut totals = totals(arguments);
        totals.count(match kind {
            0 => Reply::Equal { count: n },
            1 => Reply::Differs { array: n, cell: n },
            _ => Reply::Refused { side: Side::Input, number: 1, place: n },
        });
        let Totals { pairs, equal, differs, refused, elements } = totals;
        self.say_all([pairs, equal, differs, refused, elements]);
    }

    pub(super) fn totals_line(&mut self, arguments: [usize; 6]) {
        self.text(line_of_totals(totals(arguments)));
    }
}
