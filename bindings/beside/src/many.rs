//! Many pairs: what the program `batch` prints, with any checker's replies.

use separate::batch::pairs;
use tengmua::Reply;

use crate::same;

/// The line of each pair and that of the totals. Whole pairs are answered by `reply`; framing is the separately written program's.
pub fn printed(batch: &[u8], mut reply: impl FnMut(&[u8], &[u8]) -> Reply) -> String {
    let mut lines = String::new();
    let [mut equal, mut differs, mut refused, mut elements] = [0; 4];
    for pair in pairs(batch) {
        let reply = pair.map_or_else(same::reply, |(left, right)| reply(left, right));
        match reply {
            Reply::Equal(count) => {
                equal += 1;
                elements += count;
            }
            Reply::Differs(..) => differs += 1,
            Reply::Refused(_) => refused += 1,
        }
        lines += &format!("{reply}\n");
    }
    let all = equal + differs + refused;
    lines
        + &format!(
            "pairs {all} equal {equal} differs {differs} refused {refused} elements {elements}\n"
        )
}
