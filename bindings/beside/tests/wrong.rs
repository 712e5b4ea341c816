//! A checker that is wrong in one thing is found out: the differential test can fail.

use beside::same::{Beside, Checker, Separate};
use separate::notation::assemble;
use tengmua::{Chosen, Explanation, Refusal, Reply, Side, Written, LIST_WORDS};

/// What the wrong checker does.
#[derive(Clone, Copy, PartialEq)]
enum Wrong {
    Nothing,
    ReplyToPrograms,
    ReplyToPlain,
    ReplyToLists,
    ReplyToProgram,
    ReplyToList,
    /// A word of work memory is not zero afterwards.
    LeavesProgramWork,
    LeavesPlainWork,
    LeavesListWork,
    /// Work memory is cleared under 25.
    ClearsUnderShort,
    ClearsUnderShortPlain,
    /// The plain comparison sees a difference in an inout array, or counts its elements.
    SeesInout,
    CountsInout,
    /// A word behind the list.
    LeavesWord,
    /// The explanation is the other program's.
    ExplainsTheOther,
    /// 27 where there is a difference.
    SeesNoDifference,
    /// One byte less of the statement.
    CutsTheStatement,
    /// One index value is another.
    ChangesAnIndex,
    LeavesExplainWork,
    ClearsUnderShortExplain,
    /// Out arrays of lists start alike on both sides, so that what neither writes passes.
    PassesUnwritten,
    ReplyToWrite,
    /// A byte of the file is another.
    ChangesTheFile,
    /// The byte behind the file.
    TouchesBehindTheFile,
    TouchesOnRefusal,
    /// 28 names the update behind the first.
    NamesTheNextUpdate,
    /// 29 where the output has just the file's length.
    RefusesTheExactLength,
    /// The reply and the bytes are those of a list without its last update.
    LosesAnUpdate,
}

struct Checked(Wrong);

fn other(reply: Reply) -> Reply {
    match reply {
        Reply::Equal(count) => Reply::Equal(count + 1),
        _ => Reply::Equal(0),
    }
}

fn is_short(reply: Reply) -> bool {
    matches!(reply, Reply::Refused(Refusal { question: 25, .. }))
}

/// The list with inout arrays for its out arrays.
fn starting_alike(list: &[u32]) -> Vec<u32> {
    let mut list = list.to_vec();
    // The role is the first of an array's five words.
    list[18..98].iter_mut().step_by(5).filter(|role| **role == 1).for_each(|role| *role = 2);
    list
}

/// The list with zeros for its last update.
fn without_last(list: &[u32]) -> Vec<u32> {
    let mut list = list.to_vec();
    let last = (98..list.len()).step_by(3).rfind(|&at| list[at] == 1);
    list[last.unwrap_or(98)..].fill(0);
    list
}

/// Whatever the lengths, something is there to be spoilt.
fn spoil(slice: &mut [u32]) {
    if let Some(word) = slice.last_mut() {
        *word = word.wrapping_add(1);
    }
}

impl Checker for Checked {
    fn programs(&self, left: &[u8], right: &[u8], mask: u16, work: [&mut [u32]; 4]) -> Reply {
        let [a, b, c, d] = work;
        let reply = Separate.programs(left, right, mask, [&mut *a, &mut *b, &mut *c, &mut *d]);
        if self.0 == Wrong::ClearsUnderShort && is_short(reply) {
            [a, b, c, d].into_iter().for_each(|slice| slice.fill(0));
        } else if self.0 == Wrong::LeavesProgramWork {
            spoil(d);
        }
        if self.0 == Wrong::ReplyToPrograms {
            other(reply)
        } else {
            reply
        }
    }

    fn plain(&self, left: &[u8], right: &[u8], work: [&mut [u32]; 4]) -> Reply {
        let [a, b, c, d] = work;
        let reply = Separate.plain(left, right, [&mut *a, &mut *b, &mut *c, &mut *d]);
        let all =
            Separate.programs(left, right, tengmua::ALL, [&mut *a, &mut *b, &mut *c, &mut *d]);
        if self.0 == Wrong::ClearsUnderShortPlain && is_short(reply) {
            [a, b, c, d].into_iter().for_each(|slice| slice.fill(0));
        } else if self.0 == Wrong::LeavesPlainWork {
            spoil(a);
        }
        match (self.0, all) {
            (Wrong::ReplyToPlain, _) => other(reply),
            (Wrong::SeesInout, Reply::Differs(..)) => all,
            (Wrong::CountsInout, Reply::Equal(_)) => all,
            _ => reply,
        }
    }

    fn lists(&self, left: &[u32], right: &[u32], mask: u16, [c, d]: [&mut [u32]; 2]) -> Reply {
        let reply = Separate.lists(left, right, mask, [&mut *c, &mut *d]);
        if self.0 == Wrong::LeavesListWork {
            spoil(c);
        }
        match (self.0, reply) {
            (Wrong::ReplyToLists, _) => other(reply),
            (Wrong::PassesUnwritten, Reply::Differs(..)) => {
                let [left, right] = [left, right].map(starting_alike);
                Separate.lists(&left, &right, mask, [c, d])
            }
            _ => reply,
        }
    }

    fn unroll(&self, program: &[u8], list: &mut [u32]) -> Reply {
        let reply = Separate.unroll(program, list);
        if self.0 == Wrong::LeavesWord {
            spoil(list);
        }
        if self.0 == Wrong::ReplyToProgram {
            other(reply)
        } else {
            reply
        }
    }

    fn check(&self, list: &[u32]) -> Reply {
        let reply = Separate.check(list);
        if self.0 == Wrong::ReplyToList {
            other(reply)
        } else {
            reply
        }
    }

    fn write(&self, list: &[u32], out: &mut [u8]) -> Reply {
        let room = out.len() - usize::from(self.0 == Wrong::RefusesTheExactLength);
        let reply = match self.0 {
            Wrong::LosesAnUpdate => Separate.write(&without_last(list), out),
            _ => Separate.write(list, &mut out[..room]),
        };
        match (self.0, reply) {
            (Wrong::ReplyToWrite, _) => return other(reply),
            (Wrong::ChangesTheFile, Reply::Equal(length)) => out[length - 2] ^= 1,
            (Wrong::TouchesBehindTheFile, Reply::Equal(length)) => {
                out[length..].iter_mut().take(1).for_each(|byte| *byte ^= 1);
            }
            (Wrong::TouchesOnRefusal, Reply::Refused(_)) => out[0] ^= 1,
            (Wrong::NamesTheNextUpdate, Reply::Refused(no)) if no.question == 28 => {
                return Reply::Refused(Refusal { place: no.place + 1, ..no });
            }
            _ => {}
        }
        reply
    }

    fn explain<'a>(
        &self,
        left: &'a [u8],
        right: &'a [u8],
        mask: u16,
        chosen: Chosen,
        [a, b, c, d]: [&mut [u32]; 4],
    ) -> Explanation<'a> {
        let asked = if self.0 == Wrong::ExplainsTheOther { turned(chosen) } else { chosen };
        let work = [&mut *a, &mut *b, &mut *c, &mut *d];
        let explanation = Separate.explain(left, right, mask, asked, work);
        let short = matches!(explanation, Explanation::Refused(Refusal { question: 25, .. }));
        if self.0 == Wrong::ClearsUnderShortExplain && short {
            [a, b, c, d].into_iter().for_each(|slice| slice.fill(0));
        } else if self.0 == Wrong::LeavesExplainWork {
            spoil(b);
        }
        changed(self.0, explanation)
    }
}

fn turned(chosen: Chosen) -> Chosen {
    match chosen {
        Chosen::Left => Chosen::Right,
        Chosen::Right => Chosen::Left,
    }
}

/// The explanation with the one thing that is wrong.
fn changed<'a>(wrong: Wrong, explanation: Explanation<'a>) -> Explanation<'a> {
    let nothing = Refusal { side: Side::Both, question: 27, place: 0 };
    match (wrong, explanation) {
        (Wrong::SeesNoDifference, Explanation::Written(_)) => Explanation::Refused(nothing),
        (Wrong::CutsTheStatement, Explanation::Written(written)) => {
            let bytes = &written.bytes[..written.bytes.len() - 1];
            Explanation::Written(Written { bytes, ..written })
        }
        (Wrong::ChangesAnIndex, Explanation::Written(mut written)) => {
            written.indices[0] += 1;
            Explanation::Written(written)
        }
        (_, explanation) => explanation,
    }
}

fn list_of(program: &[u8]) -> Vec<u32> {
    let mut list = vec![0; LIST_WORDS];
    separate::unroll(program, &mut list).expect("a list");
    list
}

/// Does some of many calls of every entry find a difference?
fn found(wrong: Wrong) -> bool {
    let mut beside = Beside::new(Checked(wrong), Separate, 1);
    let [program, longer, partial, scratch, other_scratch] = [
        "array A in [2] array B out [1] B[0] = A[1]",
        "array A in [2] array B out [1] for i = 1 to 0 step -1 { B[0] = A[i] }",
        "array A in [2] array B out [2] B[0] = A[1]",
        "array A inout [2] array B out [1] B[0] = A[1]",
        "array A inout [2] array B out [1] B[0] = A[1] A[0] = const 1",
    ]
    .map(|text| assemble(text).expect("a program"));
    let [list, unwritten] = [&program, &partial].map(|program| list_of(program));
    let wide = assemble("array A out [2] for i = 0 to 1 { A[i] = 32767 + i }").expect("a program");
    let wide = list_of(&wide);
    let file = separate::write_file(&list, &mut [0; 100]).expect("a file");
    (0..300).any(|_| {
        beside.programs(&program, &program, tengmua::ALL).is_err()
            || beside.plain(&scratch, &scratch).is_err()
            || beside.plain(&scratch, &other_scratch).is_err()
            || beside.lists(&list, &list, tengmua::ALL).is_err()
            || beside.lists(&unwritten, &unwritten, tengmua::ALL).is_err()
            || beside.unroll(&program).is_err()
            || beside.check(&list).is_err()
            || [file - 1, file, file + 1]
                .iter()
                .any(|&out| beside.write(&list, &vec![5; out]).is_err())
            || beside.write(&wide, &[5; 100]).is_err()
            || beside.explain(&program, &longer, tengmua::ALL, Chosen::Right).is_err()
    })
}

#[test]
fn each_wrong_checker_is_found_out() {
    use Wrong::*;
    assert!(!found(Nothing));
    for (number, wrong) in [
        ReplyToPrograms,
        ReplyToPlain,
        ReplyToLists,
        ReplyToProgram,
        ReplyToList,
        LeavesProgramWork,
        LeavesPlainWork,
        LeavesListWork,
        ClearsUnderShort,
        ClearsUnderShortPlain,
        SeesInout,
        CountsInout,
        LeavesWord,
        ExplainsTheOther,
        SeesNoDifference,
        CutsTheStatement,
        ChangesAnIndex,
        LeavesExplainWork,
        ClearsUnderShortExplain,
        PassesUnwritten,
        ReplyToWrite,
        ChangesTheFile,
        TouchesBehindTheFile,
        TouchesOnRefusal,
        NamesTheNextUpdate,
        RefusesTheExactLength,
        LosesAnUpdate,
    ]
    .into_iter()
    .enumerate()
    {
        assert!(found(wrong), "wrong checker {number} was not found out");
    }
}
