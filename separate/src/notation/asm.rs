//! From text to a tree and to bytes.

use std::ops::{Range, RangeInclusive};

use super::token::{words, Error, Position, Token, Word};
use super::{counted, RESERVED, ROLES};
use crate::limits::{ARITY, ARRAYS, EXTENT, OPERATORS};
use crate::read::code;
use crate::tables::{self, Role};
use crate::tree::{
    encode, Declaration, Expression, Field, Form, Guard, Item, Loop, Source, Statement,
};

/// So deep may a text nest, far beyond what is read, so that the stack is enough.
const NESTING: usize = 500;

/// The bytes of the program. Whether it would be read or run is not asked.
pub fn assemble(text: &str) -> Result<Vec<u8>, Error> {
    Ok(encode(&parse(text)?).bytes)
}

pub fn parse(text: &str) -> Result<Source, Error> {
    parsed(text).map(|parser| parser.source)
}

/// A field of a program file and where it stands in the text.
#[derive(Clone, Debug, PartialEq, Eq)]
pub struct Place {
    pub place: usize,
    pub at: Position,
    pub what: String,
}

/// Every field that is no part of a form, in the order of the file.
pub fn places(text: &str) -> Result<Vec<Place>, Error> {
    let parser = parsed(text)?;
    let fields = encode(&parser.source).fields;
    let marks = parser.marks();
    assert_eq!(fields.len(), marks.len(), "each field has its mark");
    let place =
        |((_, place), (what, at)): ((_, usize), (String, Position))| Place { place, at, what };
    Ok(fields.into_iter().zip(marks).map(place).collect())
}

/// An operator or array that a text declares, and where its name stands.
#[derive(Clone, Debug, PartialEq, Eq)]
pub struct Name {
    /// The word of the declaration.
    pub word: &'static str,
    pub number: usize,
    pub name: String,
    /// The role, or what stands behind the name of an operator.
    pub kind: String,
    pub at: Position,
}

/// The operators, then the arrays.
pub fn names(text: &str) -> Result<Vec<Name>, Error> {
    let parser = parsed(text)?;
    let Source { operators, arrays, .. } = &parser.source;
    let kinds = operators.iter().map(|&operator| {
        let star = if operator == tables::MARKED { "*" } else { "" };
        format!("/{}{star}", tables::arity(operator))
    });
    let mut names = declared("op", "arity ", &parser.operator_marks, kinds);
    let kinds = arrays.iter().map(|array| ROLES[usize::from(array.role.number())].to_string());
    names.extend(declared("array", "role ", &parser.array_marks, kinds));
    Ok(names)
}

/// Of the marks of the declarations with one word, those whose field begins like this.
fn declared(
    word: &'static str,
    field: &str,
    marks: &[Mark],
    kinds: impl Iterator<Item = String>,
) -> Vec<Name> {
    let marks = marks.iter().filter_map(|(what, at)| Some((what.strip_prefix(field)?, *at)));
    let rows = marks.zip(kinds).enumerate();
    rows.map(|(number, ((name, at), kind))| Name { word, number, name: name.to_string(), kind, at })
        .collect()
}

/// A statement as its text has it.
#[derive(Clone, Debug, PartialEq, Eq)]
pub struct Spelled {
    /// The place of its code byte, and the place past its expression.
    pub from: usize,
    pub to: usize,
    /// The names of the indices around it, outermost first.
    pub indices: Vec<String>,
    /// Its words on one line, with a blank where white space or comments stand between them.
    pub text: String,
}

/// Every statement, in the order of the file.
pub fn statements(text: &str) -> Result<Vec<Spelled>, Error> {
    let Parser { source, words, statements, .. } = parsed(text)?;
    let encoded = encode(&source);
    let codes = encoded.fields.iter().filter(|(field, _)| *field == Field::ItemCode);
    let codes: Vec<_> = codes.map(|&(_, place)| place).collect();
    // The code behind a statement is that of the next item, or of an end.
    let is_statement = |pair: &&[usize]| encoded.bytes[pair[0]] == code::STATEMENT;
    let stretches: Vec<_> = codes.windows(2).filter(is_statement).collect();
    assert_eq!(stretches.len(), statements.len(), "each statement has its stretch");
    let spelled = |(stretch, (indices, own)): (&[usize], (Vec<String>, Range<usize>))| Spelled {
        from: stretch[0],
        to: stretch[1],
        indices,
        text: spelled(text, &words[own]),
    };
    Ok(stretches.into_iter().zip(statements).map(spelled).collect())
}

fn spelled(text: &str, words: &[Word]) -> String {
    let mut line = String::new();
    let mut end = words[0].bytes.start;
    for word in words {
        if word.bytes.start > end {
            line.push(' ');
        }
        line += &text[word.bytes.clone()];
        end = word.bytes.end;
    }
    line
}

/// What a field is, and where; one for each field that `encode` notes.
type Mark = (String, Position);

fn parsed(text: &str) -> Result<Parser, Error> {
    let mut parser = Parser { words: words(text)?, ..Parser::default() };
    parser.version_mark = parser.version()?;
    parser.declarations()?;
    let items = parser.items()?;
    parser.expect_end()?;
    parser.mark("end");
    parser.source.items = items;
    Ok(parser)
}

#[derive(Default)]
struct Names {
    operators: Vec<String>,
    arrays: Vec<String>,
    /// Of the enclosing loops, outermost first.
    indices: Vec<String>,
}

impl Names {
    /// What the name stands for here.
    fn kind(&self, name: &str) -> Option<&'static str> {
        let is_in = |names: &[String]| find(names, name).is_some();
        match () {
            () if is_in(&self.operators) => Some("an operator"),
            () if is_in(&self.arrays) => Some("an array"),
            () if is_in(&self.indices) => Some("an index"),
            () => None,
        }
    }
}

fn find(names: &[String], name: &str) -> Option<usize> {
    names.iter().position(|known| known == name)
}

#[derive(Default)]
struct Parser {
    words: Vec<Word>,
    at: usize,
    /// Its items stay empty until all are parsed.
    source: Source,
    names: Names,
    /// The index of the loop whose bounds are being read, which they do not see.
    own_index: Option<String>,
    nesting: usize,
    version_mark: Option<Mark>,
    operator_marks: Vec<Mark>,
    array_marks: Vec<Mark>,
    item_marks: Vec<Mark>,
    /// Of each statement the indices around it and its words.
    statements: Vec<(Vec<String>, Range<usize>)>,
}

impl Parser {
    /// All marks, in the order of the fields.
    fn marks(self) -> Vec<Mark> {
        let mut marks = Vec::from_iter(self.version_mark);
        marks.extend(self.operator_marks);
        marks.extend(self.array_marks);
        marks.extend(self.item_marks);
        marks
    }

    fn peek(&self) -> &Token {
        &self.words[self.at].token
    }

    fn position(&self) -> Position {
        self.words[self.at].at
    }

    /// An error at the next token.
    fn error<T>(&self, message: impl Into<String>) -> Result<T, Error> {
        Self::error_at(self.position(), message)
    }

    fn error_at<T>(at: Position, message: impl Into<String>) -> Result<T, Error> {
        Err(Error { at, message: message.into() })
    }

    fn expected<T>(&self, what: &str) -> Result<T, Error> {
        self.error(format!("expected {what}, found {}", self.peek()))
    }

    /// Notes that a field of an item begins at the next token.
    fn mark(&mut self, what: impl Into<String>) {
        let at = self.position();
        self.item_marks.push((what.into(), at));
    }

    fn is_sign(&self, sign: &str) -> bool {
        matches!(self.peek(), Token::Sign(next) if *next == sign)
    }

    fn is_word(&self, word: &str) -> bool {
        matches!(self.peek(), Token::Name(next) if next == word)
    }

    /// Whether the sign stands behind the next token.
    fn is_followed_by(&self, sign: &str) -> bool {
        let behind = self.words.get(self.at + 1);
        behind.is_some_and(|word| matches!(word.token, Token::Sign(next) if next == sign))
    }

    /// Takes the sign if it comes next.
    fn take_sign(&mut self, sign: &str) -> bool {
        let found = self.is_sign(sign);
        self.at += usize::from(found);
        found
    }

    fn take_word(&mut self, word: &str) -> bool {
        let found = self.is_word(word);
        self.at += usize::from(found);
        found
    }

    fn sign(&mut self, sign: &str) -> Result<(), Error> {
        if self.take_sign(sign) {
            return Ok(());
        }
        self.expected(&format!("'{sign}'"))
    }

    fn word(&mut self, word: &str) -> Result<(), Error> {
        if self.take_word(word) {
            return Ok(());
        }
        self.expected(&format!("'{word}'"))
    }

    fn expect_end(&self) -> Result<(), Error> {
        match self.peek() {
            Token::End => Ok(()),
            Token::Sign("}") => self.error("this '}' closes nothing"),
            _ => self.expected("a statement, 'for' or 'if'"),
        }
    }

    /// Runs a part that lies one level deeper.
    fn deeper<T>(&mut self, part: impl FnOnce(&mut Self) -> Result<T, Error>) -> Result<T, Error> {
        if self.nesting == NESTING {
            return self.error(format!("nested more than {NESTING} deep (8 and 12 are allowed)"));
        }
        self.nesting += 1;
        let result = part(self);
        self.nesting -= 1;
        result
    }

    /// A name that is given to something new.
    fn new_name(&mut self) -> Result<String, Error> {
        let Token::Name(name) = self.peek().clone() else {
            return self.expected("a name");
        };
        if RESERVED.contains(&name.as_str()) {
            return self.error(format!("'{name}' is reserved: it names nothing"));
        }
        if let Some(kind) = self.names.kind(&name) {
            return self.error(format!("'{name}' already names {kind}"));
        }
        self.at += 1;
        Ok(name)
    }

    /// A number, perhaps negative, that its field can hold.
    fn number_in(
        &mut self,
        what: &str,
        range: RangeInclusive<i64>,
        allowed: &str,
    ) -> Result<i64, Error> {
        let at = self.position();
        let negative = self.take_sign("-");
        let Token::Number(number) = *self.peek() else {
            return self.expected(&format!("a number, the {what}"));
        };
        let number = if negative { -number } else { number };
        if !range.contains(&number) {
            let (least, most) = range.into_inner();
            let message = format!("the {what} {number} is outside {least} to {most}{allowed}");
            return Self::error_at(at, message);
        }
        self.at += 1;
        Ok(number)
    }

    /// The version, where the text begins with it. The word is not reserved: what else begins with it
    /// here is no version.
    fn version(&mut self) -> Result<Option<Mark>, Error> {
        let number = self.words.get(1).map(|word| &word.token);
        let given = matches!(number, Some(Token::Number(_) | Token::Sign("-")));
        if !given || !self.take_word("version") {
            return Ok(None);
        }
        let at = self.position();
        let version = self.number_in("version", 0..=65535, " (1 and 2 are allowed)")?;
        self.source.version = Some(version as u16);
        Ok(Some(("version".to_string(), at)))
    }

    fn declarations(&mut self) -> Result<(), Error> {
        loop {
            let at = self.position();
            if self.take_word("op") {
                self.operator_declaration()?;
                Self::count(&mut self.operator_marks, "operator", self.source.operators.len(), at)?;
            } else if self.take_word("array") {
                self.array_declaration()?;
                Self::count(&mut self.array_marks, "array", self.source.arrays.len(), at)?;
            } else {
                for (marks, what) in
                    [(&mut self.operator_marks, "operator"), (&mut self.array_marks, "array")]
                {
                    if marks.is_empty() {
                        marks.push((format!("{what} count"), at));
                    }
                }
                return Ok(());
            }
        }
    }

    /// The count belongs to the last declaration. It is one byte; how much of it is allowed is the
    /// reader's affair.
    fn count(marks: &mut [Mark], kind: &str, count: usize, at: Position) -> Result<(), Error> {
        if count > usize::from(u8::MAX) {
            let most = if kind == "array" { ARRAYS } else { OPERATORS };
            let message = format!(
                "{count} {kind}s: their count is outside 0 to 255 (up to {most} are allowed)"
            );
            return Self::error_at(at, message);
        }
        marks[0] = (format!("{kind} count"), at);
        Ok(())
    }

    /// Notes a field of a declaration. The first place is kept for the count.
    fn declare(marks: &mut Vec<Mark>, what: String, at: Position) {
        if marks.is_empty() {
            marks.push((String::new(), at));
        }
        marks.push((what, at));
    }

    fn operator_declaration(&mut self) -> Result<(), Error> {
        let at = self.position();
        let name = self.new_name()?;
        self.sign("/")?;
        let operator = self.operator_byte(&name)?;
        Self::declare(&mut self.operator_marks, format!("arity {name}"), at);
        self.names.operators.push(name);
        self.source.operators.push(operator);
        Ok(())
    }

    /// The arity, or the byte of a mark where a star follows.
    fn operator_byte(&mut self, name: &str) -> Result<u8, Error> {
        let at = self.position();
        let allowed = format!(" (1 to {ARITY} are allowed)");
        let arity = self.number_in("arity", 0..=255, &allowed)? as u8;
        if arity == tables::MARKED {
            let message = format!(
                "the arity {arity} has no byte: {arity:x} hex is that of an operator whose two \
                 arguments may swap, op {name}/2*"
            );
            return Self::error_at(at, message);
        }
        if !self.is_sign("*") {
            return Ok(arity);
        }
        if arity != 2 {
            return self.error(format!(
                "'*' behind the arity {arity}: two arguments may swap, op {name}/2*, and no others"
            ));
        }
        self.at += 1;
        Ok(tables::MARKED)
    }

    fn array_declaration(&mut self) -> Result<(), Error> {
        let at = self.position();
        let name = self.new_name()?;
        let role = ROLES.iter().position(|role| self.is_word(role));
        let Some(role) = role.and_then(|number| Role::from_number(number as u32)) else {
            return self.expected("'in', 'out', 'inout' or 'local'");
        };
        self.at += 1;
        Self::declare(&mut self.array_marks, format!("role {name}"), at);
        let open = self.position();
        self.sign("[")?;
        Self::declare(&mut self.array_marks, format!("dimensions {name}"), open);
        let mut extents = vec![self.extent(&name)?];
        while self.take_sign(",") {
            extents.push(self.extent(&name)?);
        }
        if extents.len() > usize::from(u8::MAX) {
            let count = extents.len();
            let message = format!("{count} dimensions: outside 0 to 255 (1 to 3 are allowed)");
            return Self::error_at(at, message);
        }
        if !self.is_sign("]") {
            return self.expected("',' or ']'");
        }
        self.at += 1;
        self.names.arrays.push(name);
        self.source.arrays.push(Declaration { role, extents });
        Ok(())
    }

    fn extent(&mut self, name: &str) -> Result<u16, Error> {
        let at = self.position();
        let allowed = format!(" (1 to {EXTENT} are allowed)");
        let extent = self.number_in("extent", 0..=65535, &allowed)?;
        Self::declare(&mut self.array_marks, format!("extent {name}"), at);
        Ok(extent as u16)
    }

    /// Items up to something that begins none.
    fn items(&mut self) -> Result<Vec<Item>, Error> {
        let mut items = Vec::new();
        while let Token::Name(name) = self.peek() {
            let item = match name.as_str() {
                "for" => self.loop_item()?,
                "if" => self.guard()?,
                "op" | "array" => {
                    return self.error("a declaration behind an item: all declarations come first")
                }
                _ => self.statement()?,
            };
            items.push(item);
        }
        Ok(items)
    }

    fn block(&mut self) -> Result<Vec<Item>, Error> {
        let open = self.position();
        self.sign("{")?;
        let items = self.deeper(Self::items)?;
        self.mark("end");
        if *self.peek() == Token::End {
            return self.error(format!("the '{{' of {open} is not closed"));
        }
        if !self.take_sign("}") {
            return self.expected("a statement, 'for', 'if' or '}'");
        }
        Ok(items)
    }

    fn loop_item(&mut self) -> Result<Item, Error> {
        self.mark("loop");
        self.word("for")?;
        let index = self.new_name()?;
        self.sign("=")?;
        self.own_index = Some(index.clone());
        let start = self.form()?;
        self.word("to")?;
        let stop = self.form()?;
        self.own_index = None;
        let given = self.take_word("step");
        self.mark("step");
        let step = if given { self.number_in("step", -32768..=32767, "")? } else { 1 };
        if !self.is_sign("{") {
            return self.expected(if given { "'{'" } else { "'step' or '{'" });
        }
        // From here on only: bounds do not see the loop's own index.
        self.names.indices.push(index);
        let body = self.block()?;
        self.names.indices.pop();
        Ok(Item::Loop(Loop { start, stop, step: step as i32, body }))
    }

    fn guard(&mut self) -> Result<Item, Error> {
        self.mark("guard");
        self.word("if")?;
        let form = self.form()?;
        self.sign(">=")?;
        if *self.peek() != Token::Number(0) {
            return self.expected("0 (a condition is written FORM >= 0)");
        }
        self.at += 1;
        Ok(Item::Guard(Guard { form, body: self.block()? }))
    }

    fn statement(&mut self) -> Result<Item, Error> {
        self.mark("statement");
        let first = self.at;
        let (target, subscripts) = self.element("target")?;
        self.sign("=")?;
        let value = self.expression()?;
        self.statements.push((self.names.indices.clone(), first..self.at));
        Ok(Item::Statement(Statement { target, subscripts, value }))
    }

    /// An array with its subscripts; its number is a field of the file.
    fn element(&mut self, field: &str) -> Result<(usize, Vec<Form>), Error> {
        let at = self.position();
        let Token::Name(name) = self.peek().clone() else {
            return self.expected("an array");
        };
        let Some(array) = find(&self.names.arrays, &name) else {
            return self.error(match self.names.kind(&name) {
                Some("an operator") => {
                    format!("'{name}' is an operator: it is applied as {name}(..)")
                }
                Some(kind) => format!("'{name}' is {kind}, not an array"),
                None if name == "version" && !self.is_followed_by("[") => {
                    "'version NUMBER' stands once, before all declarations".to_string()
                }
                None => format!("array '{name}' is not declared"),
            });
        };
        self.mark(format!("{field} {name}"));
        self.at += 1;
        self.sign("[")?;
        let mut subscripts = vec![self.form()?];
        while self.take_sign(",") {
            subscripts.push(self.form()?);
        }
        if !self.take_sign("]") {
            return self.expected("',' or ']'");
        }
        let (count, own) = (subscripts.len(), self.source.arrays[array].extents.len());
        if count != own {
            let (count, own) = (counted(count, "subscript"), counted(own, "dimension"));
            return Self::error_at(at, format!("{count} for '{name}', which has {own}"));
        }
        Ok((array, subscripts))
    }

    fn expression(&mut self) -> Result<Expression, Error> {
        let value = self.value()?;
        if let Token::Sign(sign @ ("+" | "-" | "*" | "/")) = self.peek() {
            return self.error(format!(
                "'{sign}' behind a value: values are joined by declared operators alone, as in \
                 f(A[0], 1); + and - stand in sums of numbers and indices"
            ));
        }
        Ok(value)
    }

    fn value(&mut self) -> Result<Expression, Error> {
        if self.is_word("const") {
            self.mark("constant");
            self.at += 1;
            let name = self.number_in("name", 0..=i64::from(u32::MAX), "")?;
            return Ok(Expression::Constant(name as u32));
        }
        match (self.peek(), self.words.get(self.at + 1).map(|word| &word.token)) {
            (Token::Name(name), Some(Token::Sign("("))) => {
                let name = name.clone();
                return self.deeper(|parser| parser.operator(name));
            }
            (Token::Name(_), Some(Token::Sign("["))) => {
                self.mark("read");
                let (array, subscripts) = self.element("array")?;
                return Ok(Expression::Read { array, subscripts });
            }
            (Token::Name(_) | Token::Number(_) | Token::Sign("-"), _) => {}
            _ => return self.expected("a read, an operator, 'const' or a literal"),
        }
        self.mark("literal");
        Ok(Expression::Literal(self.form()?))
    }

    fn operator(&mut self, name: String) -> Result<Expression, Error> {
        let at = self.position();
        let Some(number) = find(&self.names.operators, &name) else {
            return self.error(match self.names.kind(&name) {
                Some("an array") => format!("'{name}' is an array: it is read as {name}[..]"),
                Some(kind) => format!("'{name}' is {kind}, not an operator"),
                None => format!("operator '{name}' is not declared"),
            });
        };
        self.mark("operator");
        self.mark(format!("operator {name}"));
        self.at += 1;
        self.sign("(")?;
        let mut arguments = vec![self.expression()?];
        while self.take_sign(",") {
            arguments.push(self.expression()?);
        }
        if !self.take_sign(")") {
            return self.expected("',' or ')'");
        }
        let own = usize::from(tables::arity(self.source.operators[number]));
        let count = arguments.len();
        if count != own {
            let count = counted(count, "argument");
            return Self::error_at(at, format!("{count} for '{name}', whose arity is {own}"));
        }
        Ok(Expression::Operator { number, arguments })
    }

    /// A sum of numbers and multiples of indices, in any order.
    fn form(&mut self) -> Result<Form, Error> {
        let at = self.position();
        let loops = self.names.indices.len();
        let mut sums = vec![0i64; loops + 1];
        let mut factor = if self.take_sign("-") { -1 } else { 1 };
        loop {
            let (index, times) = self.part()?;
            sums[index.unwrap_or(loops)] += factor * times;
            factor = match self.peek() {
                Token::Sign("+") => 1,
                Token::Sign("-") => -1,
                _ => break,
            };
            self.at += 1;
        }
        self.fitting(&sums, at)
    }

    /// The form with these coefficients and, last, this constant.
    fn fitting(&self, sums: &[i64], at: Position) -> Result<Form, Error> {
        let outside = |what: String, least: i64, most: i64| {
            Self::error_at(at, format!("{what} is outside {least} to {most}"))
        };
        let (&constant, coefficients) = sums.split_last().expect("a sum has a constant");
        if i16::try_from(constant).is_err() {
            return outside(format!("the constant {constant}"), -32768, 32767);
        }
        for (name, &sum) in self.names.indices.iter().zip(coefficients) {
            if i8::try_from(sum).is_err() {
                return outside(format!("the coefficient {sum} of {name}"), -128, 127);
            }
        }
        let coefficients = coefficients.iter().map(|&sum| sum as i32).collect();
        Ok(Form { constant: constant as i32, coefficients })
    }

    /// One part of a form: an index, if it has one, and how many times.
    fn part(&mut self) -> Result<(Option<usize>, i64), Error> {
        let (index, times) = match *self.peek() {
            Token::Number(times) => {
                self.at += 1;
                (if self.take_sign("*") { Some(self.index("an index")?) } else { None }, times)
            }
            _ => (Some(self.index("a number or an index")?), 1),
        };
        if self.is_sign("*") {
            return self
                .error("a product is NUMBER*INDEX, as 2*i: the number first, and no other factor");
        }
        if self.is_sign("/") {
            return self.error("'/' in a sum: there is no division");
        }
        Ok((index, times))
    }

    fn index(&mut self, what: &str) -> Result<usize, Error> {
        let Token::Name(name) = self.peek() else {
            return self.expected(what);
        };
        if RESERVED.contains(&name.as_str()) {
            return self.expected(what);
        }
        if let Some(index) = find(&self.names.indices, name) {
            self.at += 1;
            return Ok(index);
        }
        let name = name.clone();
        self.error(match self.names.kind(&name) {
            Some(kind) => format!(
                "'{name}' is {kind}: a sum has numbers and indices alone, and values are joined by \
                 declared operators, as in f(A[0], 1)"
            ),
            None if self.own_index.as_ref() == Some(&name) => {
                format!("the start and end of the loop over '{name}' do not see '{name}' itself")
            }
            None if self.names.indices.is_empty() => {
                format!("'{name}' is no index: no loop encloses this")
            }
            None => {
                format!("'{name}' is no index here: they are {}", self.names.indices.join(", "))
            }
        })
    }
}
