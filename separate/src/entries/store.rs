//! The store in words, as `docs/LAYOUT.md` of the verified checker lays it
//! out: records of kind, payload, four arguments, the link of the term and the
//! head of the bucket. A cursor is a number plus 1, or 0.

use crate::limits::{TERMS, TERM_WORDS};
use crate::reply::Question;

/// Kind, payload and four arguments.
pub type Node = [u32; 6];

const LINK: usize = 6;
const BUCKET_HEAD: usize = 7;
const RECORD: usize = 8;

/// The kind of a starting cell.
const START: u32 = 16;

pub struct Store {
    pub memory: Vec<u32>,
}

/// The top twelve bits of the mix.
fn bucket(node: &Node) -> usize {
    let mix = |mix: u32, &word: &u32| mix.wrapping_add(word).wrapping_mul(129);
    (node[1..].iter().fold(node[0], mix) >> 20) as usize
}

impl Store {
    fn record(&self, number: usize) -> &[u32; RECORD] {
        &self.memory.as_chunks().0[number]
    }

    fn is_node(&self, number: usize, node: &Node) -> bool {
        self.record(number).starts_with(node)
    }

    /// Goes through the numbers below the count from the top. A cursor that
    /// is not met on the way down ends the chain.
    fn find(&self, head: u32, count: u32, node: &Node) -> Option<u32> {
        let mut cursor = head;
        for id in (1..=count).rev() {
            let number = id as usize - 1;
            if cursor == id {
                if self.is_node(number, node) {
                    return Some(id);
                }
                cursor = self.record(number)[LINK];
            }
        }
        None
    }

    /// The count after the call, and the term's number plus 1.
    pub fn intern(&mut self, count: u32, node: Node) -> Result<(u32, u32), Question> {
        if self.memory.len() < TERM_WORDS {
            return Err(Question::Memory);
        }
        if count > TERMS as u32 {
            return Err(Question::Terms);
        }
        let bucket = bucket(&node);
        let head = self.record(bucket)[BUCKET_HEAD];
        if let Some(id) = self.find(head, count, &node) {
            return Ok((count, id));
        }
        if count == TERMS as u32 {
            return Err(Question::Terms);
        }
        let at = RECORD * count as usize;
        self.memory[at..at + LINK].copy_from_slice(&node);
        self.memory[at + LINK] = head;
        self.memory[RECORD * bucket + BUCKET_HEAD] = count + 1;
        Ok((count + 1, count + 1))
    }

    /// Is the term with this number plus 1 the starting content of the cell?
    pub fn starts(&self, id: u32, array: u32, cell: u32) -> Result<bool, Question> {
        if self.memory.len() < TERM_WORDS {
            return Err(Question::Memory);
        }
        let start = [START, array, cell, 0, 0, 0];
        Ok((1..=TERMS as u32).contains(&id) && self.is_node(id as usize - 1, &start))
    }
}
