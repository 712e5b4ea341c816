//! Loop pair checker, written separately (README.md).
//!
//! Two encoded loop programs, or two update lists, go in; a reply comes out, and
//! on a difference, if asked for, where each side wrote the element. A list can
//! also be written as a program without loops.

pub mod batch;
pub mod compare;
pub mod entries;
pub mod explain;
pub mod input;
pub mod limits;
pub mod line;
pub mod list;
pub mod notation;
pub mod random;
pub mod read;
pub mod reply;
pub mod run;
pub mod stream;
pub mod tables;
pub mod terms;
pub mod tree;
pub mod work;
pub mod write;

pub use compare::{compare_lists, compare_programs, compare_programs_masked};
pub use explain::{
    explain, explain_input, explain_input_masked, origin_of, stretch, Chosen, Explanation, Origin,
};
pub use input::{compare_input, compare_input_masked};
pub use line::{line_of, line_of_explanation, line_of_totals};
pub use list::check_list;
pub use read::read_program;
pub use reply::{Question, Refusal, Reply, Side};
pub use run::unroll;
pub use work::Work;
pub use write::write_file;
