//! A plain text notation of program files: `asm` to bytes, `dis` back.
//! README.md describes it.

mod asm;
mod dis;
mod token;

pub use asm::{assemble, names, parse, places, statements, Name, Place, Spelled};
pub use dis::{disassemble, disassemble_with_names, disassemble_with_places, print};
pub use token::{Error, Position};

/// Words with a meaning of their own, which name nothing else.
const RESERVED: [&str; 7] = ["op", "array", "for", "to", "step", "if", "const"];

const ROLES: [&str; 4] = ["in", "out", "inout", "local"];

/// A count with its noun.
fn counted(count: usize, noun: &str) -> String {
    format!("{count} {noun}{}", if count == 1 { "" } else { "s" })
}
