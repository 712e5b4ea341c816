//! The entry that writes a list as a file.

use super::{memory, Line, Unfit, MEMORY};
use crate::reply::{Reply, Side};
use crate::write::write_file;

/// The longest output: more bytes than any file has.
pub(crate) const OUTPUT: usize = 20_000;

impl Line {
    /// The file's length or the refusal, and a sum of all of the output.
    pub(super) fn write_file(&mut self, arguments: [usize; 6], s: &[u8]) -> Result<(), Unfit> {
        let [length, k, period, bytes, ..] = arguments;
        if length > MEMORY || bytes > OUTPUT || k > s.len() / 4 {
            return Err(Unfit);
        }
        let (stored, held) = s.split_at(4 * k);
        let list = &memory(stored, period)[..length];
        let mut out = held[..held.len().min(bytes)].to_vec();
        out.resize(bytes, 0);
        self.reply(match write_file(list, &mut out) {
            Ok(count) => Reply::Equal { count },
            Err(no) => no.reply(Side::Left),
        });
        self.sum(out.into_iter().map(u32::from));
        Ok(())
    }
}
