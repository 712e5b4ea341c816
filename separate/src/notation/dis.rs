//! From bytes or a tree to text.

use super::token::is_name;
use super::{counted, RESERVED, ROLES};
use crate::read::read_program;
use crate::reply::Refusal;
use crate::tables;
use crate::tree::{encode, nesting, Expression, Field, Form, Item, Source};

/// The text of a program that can be read.
pub fn disassemble(bytes: &[u8]) -> Result<String, Refusal> {
    read_program(bytes).map(|program| print(&Source::of(&program)))
}

/// The same with given names: one for each operator, then one for each array. Where there is no such
/// text the message says why.
pub fn disassemble_with_names(bytes: &[u8], names: &[&str]) -> Result<String, String> {
    let program = read_program(bytes).map_err(|no| no.to_string())?;
    let source = Source::of(&program);
    let names = Names::given(&source, names)?;
    Ok(Printer { names: &names }.source(&source))
}

/// The same with a comment on each line: the place of the version, operator, role or code that it
/// stands for.
pub fn disassemble_with_places(bytes: &[u8]) -> Result<String, Refusal> {
    let source = Source::of(&read_program(bytes)?);
    let mut text = String::new();
    let mut lines = print(&source).lines().map(str::to_string).collect::<Vec<_>>().into_iter();
    for (field, place) in encode(&source).fields {
        if matches!(field, Field::Version | Field::Operator | Field::Role | Field::ItemCode) {
            // No line is left for the last code, the end of the program.
            let line = lines.next().map_or("# end".to_string(), |line| line + "  #");
            text += &format!("{line} at {place}\n");
        }
    }
    Ok(text)
}

pub fn print(source: &Source) -> String {
    Printer { names: &Names::of(source) }.source(source)
}

/// The names that a text has for its numbers.
struct Names {
    operators: Vec<String>,
    arrays: Vec<String>,
    /// Of the loops around an item, outermost first.
    indices: Vec<String>,
}

impl Names {
    /// Letters for the sixteen arrays and eight loops that there can be.
    fn of(source: &Source) -> Names {
        let letter = |first: u8, number: usize| char::from(first + number as u8).to_string();
        Names {
            operators: (0..source.operators.len()).map(|number| format!("f{number}")).collect(),
            arrays: (0..source.arrays.len()).map(|number| letter(b'A', number)).collect(),
            indices: (0..nesting(&source.items)).map(|loops| letter(b'i', loops)).collect(),
        }
    }

    /// Given ones, first for each operator, then for each array.
    fn given(source: &Source, names: &[&str]) -> Result<Names, String> {
        let (operators, arrays) = (source.operators.len(), source.arrays.len());
        if names.len() != operators + arrays {
            return Err(format!(
                "{} given for {} and {}",
                counted(names.len(), "name"),
                counted(operators, "operator"),
                counted(arrays, "array")
            ));
        }
        for (number, name) in names.iter().enumerate() {
            check_name(name, &names[..number])?;
        }
        let owned = |names: &[&str]| names.iter().map(|name| name.to_string()).collect();
        Ok(Names {
            operators: owned(&names[..operators]),
            arrays: owned(&names[operators..]),
            indices: free_indices(names, nesting(&source.items)),
        })
    }
}

/// Asks what `asm` asks of a name that stands behind these.
fn check_name(name: &str, before: &[&str]) -> Result<(), String> {
    if !is_name(name) {
        return Err(format!(
            "{name:?} is no name: that is an ASCII letter or '_', then ASCII letters, digits and '_'"
        ));
    }
    if RESERVED.contains(&name) {
        return Err(format!("'{name}' is reserved: it names nothing"));
    }
    if before.contains(&name) {
        return Err(format!("'{name}' is given twice"));
    }
    Ok(())
}

/// So many names of indices that are not taken: letters from i to p, then i0, i1 and so on.
fn free_indices(taken: &[&str], count: usize) -> Vec<String> {
    let letters = ('i'..='p').map(String::from);
    let more = (0..).map(|number| format!("i{number}"));
    let free = letters.chain(more).filter(|name| !taken.contains(&name.as_str()));
    free.take(count).collect()
}

struct Printer<'a> {
    names: &'a Names,
}

impl Printer<'_> {
    fn source(&self, source: &Source) -> String {
        let version = source.version.map(|version| format!("version {version}\n"));
        let mut text = version.unwrap_or_default();
        for (name, &operator) in self.names.operators.iter().zip(&source.operators) {
            let star = if operator == tables::MARKED { "*" } else { "" };
            text += &format!("op {name}/{}{star}\n", tables::arity(operator));
        }
        for (name, array) in self.names.arrays.iter().zip(&source.arrays) {
            let role = ROLES[usize::from(array.role.number())];
            let extents: Vec<_> = array.extents.iter().map(u16::to_string).collect();
            text += &format!("array {name} {role} [{}]\n", extents.join(", "));
        }
        self.items(&source.items, 0, 0, &mut text);
        text
    }

    fn items(&self, items: &[Item], loops: usize, indent: usize, text: &mut String) {
        for item in items {
            let margin = "  ".repeat(indent);
            match item {
                Item::Statement(statement) => {
                    let target = self.element(statement.target, &statement.subscripts);
                    *text += &format!("{margin}{target} = {}\n", self.expression(&statement.value));
                }
                Item::Loop(item) => {
                    let (start, stop) = (self.form(&item.start), self.form(&item.stop));
                    let head = format!("for {} = {start} to {stop}", self.names.indices[loops]);
                    *text += &format!("{margin}{head} step {} {{\n", item.step);
                    self.items(&item.body, loops + 1, indent + 1, text);
                    *text += &format!("{margin}}}\n");
                }
                Item::Guard(item) => {
                    *text += &format!("{margin}if {} >= 0 {{\n", self.form(&item.form));
                    self.items(&item.body, loops, indent + 1, text);
                    *text += &format!("{margin}}}\n");
                }
            }
        }
    }

    fn element(&self, array: usize, subscripts: &[Form]) -> String {
        let subscripts: Vec<_> = subscripts.iter().map(|form| self.form(form)).collect();
        format!("{}[{}]", self.names.arrays[array], subscripts.join(", "))
    }

    fn expression(&self, value: &Expression) -> String {
        match value {
            Expression::Read { array, subscripts } => self.element(*array, subscripts),
            Expression::Operator { number, arguments } => {
                let arguments: Vec<_> =
                    arguments.iter().map(|argument| self.expression(argument)).collect();
                format!("{}({})", self.names.operators[*number], arguments.join(", "))
            }
            Expression::Literal(value) => self.form(value),
            Expression::Constant(name) => format!("const {name}"),
        }
    }

    /// Multiples of indices, outermost first, then the constant if it says more.
    fn form(&self, form: &Form) -> String {
        let mut text = String::new();
        for (name, &coefficient) in self.names.indices.iter().zip(&form.coefficients) {
            if coefficient == 0 {
                continue;
            }
            sign(coefficient, &mut text);
            if coefficient.abs() != 1 {
                text += &format!("{}*", coefficient.abs());
            }
            text += name;
        }
        if form.constant != 0 || text.is_empty() {
            sign(form.constant, &mut text);
            text += &form.constant.abs().to_string();
        }
        text
    }
}

fn sign(number: i32, text: &mut String) {
    *text += match (text.is_empty(), number < 0) {
        (true, true) => "-",
        (true, false) => "",
        (false, true) => " - ",
        (false, false) => " + ",
    };
}
