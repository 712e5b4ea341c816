//! The line that is printed for a reply, an explanation or the totals of a
//! batch.

use std::fmt;
use std::io::{self, Write};

use crate::batch::Totals;
use crate::explain::Explanation;
use crate::reply::{Reply, Side};

/// The longest line names four 64-bit numbers and eight of 16 bits; its end
/// fits too.
const LONGEST: usize = 160;

/// The bytes of a line without its line end, by value.
#[derive(Clone, Copy, Debug, PartialEq, Eq)]
pub struct Line {
    pub bytes: [u8; LONGEST],
    pub length: usize,
}

impl Line {
    pub fn as_bytes(&self) -> &[u8] {
        &self.bytes[..self.length]
    }
}

impl fmt::Display for Line {
    fn fmt(&self, out: &mut fmt::Formatter) -> fmt::Result {
        out.write_str(&String::from_utf8_lossy(self.as_bytes()))
    }
}

pub fn line_of(reply: Reply) -> Line {
    line(|rest| match reply {
        Reply::Equal { count } => write!(rest, "equal {count}"),
        Reply::Differs { array, cell } => write!(rest, "differs {array} {cell}"),
        Reply::Refused { side, number, place } => refused(rest, side, number, place),
    })
}

/// A count above eight shows all eight values.
pub fn line_of_explanation(explanation: Explanation) -> Line {
    line(|rest| match explanation {
        Explanation::Written { array, cell, writer } => {
            write!(rest, "written {array} {cell} {} {}", writer.from, writer.to)?;
            writer.indices().iter().try_for_each(|index| write!(rest, " {index}"))
        }
        Explanation::Starting { array, cell } => write!(rest, "starting {array} {cell}"),
        Explanation::Refused { side, number, place } => refused(rest, side, number, place),
    })
}

pub fn line_of_totals(totals: Totals) -> Line {
    let Totals { pairs, equal, differs, refused, elements } = totals;
    line(|rest| {
        write!(rest, "pairs {pairs} equal {equal} differs {differs} refused {refused}")?;
        write!(rest, " elements {elements}")
    })
}

fn line(text: impl FnOnce(&mut &mut [u8]) -> io::Result<()>) -> Line {
    let mut bytes = [0; LONGEST];
    let mut rest = &mut bytes[..];
    text(&mut rest).expect("the longest line fits");
    let length = LONGEST - rest.len();
    Line { bytes, length }
}

fn refused(rest: &mut &mut [u8], side: Side, number: u8, place: usize) -> io::Result<()> {
    write!(rest, "refused {} {number} {place}", side_name(side))
}

fn side_name(side: Side) -> &'static str {
    match side {
        Side::Left => "left",
        Side::Right => "right",
        Side::Both => "both",
        Side::Input => "input",
    }
}

#[cfg(test)]
mod tests {
    use super::*;
    use crate::explain::Writer;

    #[test]
    fn lines() {
        let line = |reply| line_of(reply).to_string();
        assert_eq!(line(Reply::Equal { count: 2 }), "equal 2");
        assert_eq!(line(Reply::Differs { array: 1, cell: 20 }), "differs 1 20");
        for (side, name) in [
            (Side::Left, "left"),
            (Side::Right, "right"),
            (Side::Both, "both"),
            (Side::Input, "input"),
        ] {
            let reply = Reply::Refused { side, number: 3, place: 33 };
            assert_eq!(line(reply), format!("refused {name} 3 33"));
        }
    }

    #[test]
    fn the_longest_lines_fit() {
        let most = usize::MAX;
        let differs = line_of(Reply::Differs { array: most, cell: most });
        assert_eq!(differs.to_string(), format!("differs {most} {most}"));
        let refused = line_of(Reply::Refused { side: Side::Input, number: 255, place: most });
        assert_eq!(refused.to_string(), format!("refused input 255 {most}"));
    }

    #[test]
    fn lines_of_explanations() {
        let line = |explanation| line_of_explanation(explanation).to_string();
        let indices = [0, -5, 7, 8, 9, 10, 11, 12];
        let written = |count| {
            let writer = Writer { from: 22, to: 33, count, indices };
            line(Explanation::Written { array: 1, cell: 0, writer })
        };
        assert_eq!(written(0), "written 1 0 22 33");
        assert_eq!(written(2), "written 1 0 22 33 0 -5");
        assert_eq!(written(8), "written 1 0 22 33 0 -5 7 8 9 10 11 12");
        assert_eq!(written(usize::MAX), written(8));
        assert_eq!(line(Explanation::Starting { array: 3, cell: 40 }), "starting 3 40");
        let refused = Explanation::Refused { side: Side::Both, number: 27, place: 0 };
        assert_eq!(line(refused), "refused both 27 0");
    }

    #[test]
    fn the_longest_explanation_fits_with_its_end() {
        let most = usize::MAX;
        let writer = Writer { from: most, to: most, count: 8, indices: [i16::MIN; 8] };
        let line = line_of_explanation(Explanation::Written { array: most, cell: most, writer });
        let text = format!("written {most} {most} {most} {most}{}", " -32768".repeat(8));
        assert_eq!(line.to_string(), text);
        assert!(line.length < line.bytes.len());
    }

    #[test]
    fn the_line_of_totals() {
        let totals = Totals { pairs: 6, equal: 1, differs: 2, refused: 3, elements: 40 };
        let line = |totals| line_of_totals(totals).to_string();
        assert_eq!(line(totals), "pairs 6 equal 1 differs 2 refused 3 elements 40");
        let most = u64::MAX;
        let totals =
            Totals { pairs: most, equal: most, differs: most, refused: most, elements: most };
        let text =
            format!("pairs {most} equal {most} differs {most} refused {most} elements {most}");
        assert_eq!(line(totals), text);
        assert_eq!(text.len(), 141);
    }

    #[test]
    fn bytes_behind_the_line_are_zeros() {
        let line = line_of(Reply::Equal { count: 7 });
        assert!(line.bytes[line.length..].iter().all(|&byte| byte == 0));
    }
}
