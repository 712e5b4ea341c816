//! The proved checker beside the separately written one: the same calls, what they reply, and how long they take.

pub mod many;
pub mod memory;
pub mod same;
pub mod time;
pub mod workloads;
