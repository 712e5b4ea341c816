//! Work memory that is owned and used again, for callers that lend none.

use crate::compare::{compare_lists, compare_programs, compare_programs_masked};
use crate::explain::{explain, explain_input, explain_input_masked, Chosen, Explanation};
use crate::input::{compare_input, compare_input_masked};
use crate::limits::{CELL_WORDS, LIST_WORDS, PROGRAM_BYTES, TERM_WORDS};
use crate::reply::{Refusal, Reply};
use crate::run::unroll;
use crate::write::write_file;

pub struct Work {
    left_list: Vec<u32>,
    right_list: Vec<u32>,
    cells: Vec<u32>,
    terms: Vec<u32>,
}

impl Default for Work {
    fn default() -> Work {
        Work {
            left_list: vec![0; LIST_WORDS],
            right_list: vec![0; LIST_WORDS],
            cells: vec![0; CELL_WORDS],
            terms: vec![0; TERM_WORDS],
        }
    }
}

impl Work {
    /// Answers a framed input, as standard input would hold it.
    pub fn input(&mut self, input: &[u8]) -> Reply {
        let Work { left_list, right_list, cells, terms } = self;
        compare_input(input, left_list, right_list, cells, terms)
    }

    pub fn input_masked(&mut self, input: &[u8], mask: u16) -> Reply {
        let Work { left_list, right_list, cells, terms } = self;
        compare_input_masked(input, mask, left_list, right_list, cells, terms)
    }

    pub fn programs(&mut self, left: &[u8], right: &[u8]) -> Reply {
        let Work { left_list, right_list, cells, terms } = self;
        compare_programs(left, right, left_list, right_list, cells, terms)
    }

    pub fn programs_masked(&mut self, left: &[u8], right: &[u8], mask: u16) -> Reply {
        let Work { left_list, right_list, cells, terms } = self;
        compare_programs_masked(left, right, mask, left_list, right_list, cells, terms)
    }

    pub fn explain(&mut self, left: &[u8], right: &[u8], mask: u16, chosen: Chosen) -> Explanation {
        let Work { left_list, right_list, cells, terms } = self;
        explain(left, right, mask, chosen, left_list, right_list, cells, terms)
    }

    pub fn explain_input(&mut self, input: &[u8], chosen: Chosen) -> Explanation {
        let Work { left_list, right_list, cells, terms } = self;
        explain_input(input, chosen, left_list, right_list, cells, terms)
    }

    pub fn explain_input_masked(&mut self, input: &[u8], mask: u16, chosen: Chosen) -> Explanation {
        let Work { left_list, right_list, cells, terms } = self;
        explain_input_masked(input, mask, chosen, left_list, right_list, cells, terms)
    }

    pub fn lists(&mut self, left: &[u32], right: &[u32], mask: u16) -> Reply {
        compare_lists(left, right, mask, &mut self.cells, &mut self.terms)
    }

    /// The list of a program, zeros after it included.
    pub fn unroll(&mut self, program: &[u8]) -> Result<&[u32], Refusal> {
        unroll(program, &mut self.left_list)?;
        Ok(&self.left_list)
    }

    /// The file without loops and guards that has the list of a program.
    pub fn straight(&mut self, program: &[u8]) -> Result<Vec<u8>, Refusal> {
        let list = self.unroll(program)?;
        let mut file = vec![0; PROGRAM_BYTES];
        let length = write_file(list, &mut file)?;
        file.truncate(length);
        Ok(file)
    }

    /// The number of the question that refuses this program, if one does.
    pub fn refusal(&mut self, program: &[u8]) -> Option<u8> {
        unroll(program, &mut self.left_list).err().map(|refusal| refusal.number)
    }
}
