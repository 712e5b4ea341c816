//! The words of a text, with the places they stand at.

use std::fmt;
use std::ops::Range;

/// Line and column, both from 1; columns count characters.
#[derive(Clone, Copy, Debug, PartialEq, Eq)]
pub struct Position {
    pub line: usize,
    pub column: usize,
}

impl fmt::Display for Position {
    fn fmt(&self, out: &mut fmt::Formatter) -> fmt::Result {
        write!(out, "line {}, column {}", self.line, self.column)
    }
}

/// What is wrong with a text, and where.
#[derive(Clone, Debug, PartialEq, Eq)]
pub struct Error {
    pub at: Position,
    pub message: String,
}

impl fmt::Display for Error {
    fn fmt(&self, out: &mut fmt::Formatter) -> fmt::Result {
        write!(out, "{}: {}", self.at, self.message)
    }
}

#[derive(Clone, Debug, PartialEq, Eq)]
pub enum Token {
    Name(String),
    Number(i64),
    Sign(&'static str),
    End,
}

impl fmt::Display for Token {
    fn fmt(&self, out: &mut fmt::Formatter) -> fmt::Result {
        match self {
            Token::Name(name) => write!(out, "'{name}'"),
            Token::Number(number) => write!(out, "{number}"),
            Token::Sign(sign) => write!(out, "'{sign}'"),
            Token::End => write!(out, "the end of the text"),
        }
    }
}

const SIGNS: [&str; 13] = [">=", "/", "=", "[", "]", "(", ")", "{", "}", ",", "+", "-", "*"];

/// What separates words within a line.
const BLANKS: [char; 2] = [' ', '\t'];

/// Characters that are seen as a blank or not at all, or that turn the order of what is seen, and
/// are neither control characters nor white space: Unicode's category Cf, and letters that are blank.
const INVISIBLE: [(char, char); 23] = [
    ('\u{ad}', '\u{ad}'),
    ('\u{600}', '\u{605}'),
    ('\u{61c}', '\u{61c}'),
    ('\u{6dd}', '\u{6dd}'),
    ('\u{70f}', '\u{70f}'),
    ('\u{890}', '\u{891}'),
    ('\u{8e2}', '\u{8e2}'),
    ('\u{115f}', '\u{1160}'),
    ('\u{180e}', '\u{180e}'),
    ('\u{200b}', '\u{200f}'),
    ('\u{202a}', '\u{202e}'),
    ('\u{2060}', '\u{206f}'),
    ('\u{2800}', '\u{2800}'),
    ('\u{3164}', '\u{3164}'),
    ('\u{feff}', '\u{feff}'),
    ('\u{ffa0}', '\u{ffa0}'),
    ('\u{fff9}', '\u{fffb}'),
    ('\u{110bd}', '\u{110bd}'),
    ('\u{110cd}', '\u{110cd}'),
    ('\u{13430}', '\u{1343f}'),
    ('\u{1bca0}', '\u{1bca3}'),
    ('\u{1d173}', '\u{1d17a}'),
    ('\u{e0000}', '\u{e007f}'),
];

/// A word of a text, where it stands, and its bytes there.
#[derive(Clone, Debug, PartialEq, Eq)]
pub struct Word {
    pub token: Token,
    pub at: Position,
    pub bytes: Range<usize>,
}

/// The words of a text; the last is the end, which stands behind the last line.
pub fn words(text: &str) -> Result<Vec<Word>, Error> {
    check_characters(text)?;
    let mut words = Vec::new();
    let mut end = Position { line: 1, column: 1 };
    let mut start = 0;
    for (number, whole) in text.split_inclusive('\n').enumerate() {
        let line = whole.trim_end_matches(['\r', '\n']);
        let code = line.split('#').next().unwrap_or("");
        let mut at = Position { line: number + 1, column: 1 };
        let mut rest = skip(code, code.trim_start_matches(BLANKS), &mut at);
        while !rest.is_empty() {
            let (token, behind) = token(rest).map_err(|message| Error { at, message })?;
            let [first, last] = [rest, behind].map(|left| start + code.len() - left.len());
            words.push(Word { token, at, bytes: first..last });
            rest = skip(rest, behind.trim_start_matches(BLANKS), &mut at);
        }
        end = Position { line: number + 1, column: 1 + line.chars().count() };
        start += whole.len();
    }
    words.push(Word { token: Token::End, at: end, bytes: text.len()..text.len() });
    Ok(words)
}

/// Asks whether every character is seen for what it is, those of comments too: an editor may show
/// a new line, or another order, where a comment goes on.
fn check_characters(text: &str) -> Result<(), Error> {
    let mut at = Position { line: 1, column: 1 };
    let mut rest = text.chars();
    while let Some(character) = rest.next() {
        let ends_line = character == '\r' && rest.as_str().starts_with('\n');
        if is_invisible(character) && !ends_line {
            return Err(Error { at, message: not_allowed(character, at) });
        }
        at = match character {
            '\n' => Position { line: at.line + 1, column: 1 },
            _ => Position { column: at.column + 1, ..at },
        };
    }
    Ok(())
}

fn is_invisible(character: char) -> bool {
    let is_blank = character.is_control() || character.is_whitespace();
    is_blank && !matches!(character, ' ' | '\t' | '\n')
        || INVISIBLE.iter().any(|&(first, last)| (first..=last).contains(&character))
}

fn not_allowed(character: char, at: Position) -> String {
    let what = match character {
        '\r' => ", a CR without LF behind it,",
        '\u{feff}' if at == (Position { line: 1, column: 1 }) => ", a byte order mark,",
        _ => "",
    };
    format!(
        "U+{:04X}{what} may not stand in a text, comments included: allowed are blank, tab, LF, \
         CR LF and visible characters",
        u32::from(character)
    )
}

/// Moves on to the rest of a line.
fn skip<'a>(line: &str, rest: &'a str, at: &mut Position) -> &'a str {
    at.column += line[..line.len() - rest.len()].chars().count();
    rest
}

fn token(text: &str) -> Result<(Token, &str), String> {
    let word = |c: char| c.is_ascii_alphanumeric() || c == '_';
    let length = text.find(|c| !word(c)).unwrap_or(text.len());
    if length > 0 {
        let (word, rest) = text.split_at(length);
        let token = if word.starts_with(|c: char| c.is_ascii_digit()) {
            Token::Number(number(word)?)
        } else {
            Token::Name(word.to_string())
        };
        return Ok((token, rest));
    }
    match SIGNS.into_iter().find(|sign| text.starts_with(sign)) {
        Some(sign) => Ok((Token::Sign(sign), &text[sign.len()..])),
        None => Err(unknown(text.chars().next().unwrap_or(' '))),
    }
}

/// Is this one name, and nothing before or behind it?
pub fn is_name(text: &str) -> bool {
    matches!(token(text), Ok((Token::Name(_), "")))
}

fn unknown(character: char) -> String {
    match character {
        '>' | '<' => format!("'{character}' is no sign: a condition is written FORM >= 0"),
        ';' => "';' is no sign: statements follow each other without one".to_string(),
        _ if character.is_ascii() => {
            format!("{character:?} is no sign of the notation and begins no name or number")
        }
        _ => format!(
            "'{character}' (U+{:04X}) may stand in comments alone: names are of ASCII letters, \
             digits and '_'",
            u32::from(character)
        ),
    }
}

fn number(word: &str) -> Result<i64, String> {
    let (digits, radix) = match word.strip_prefix("0x") {
        Some(digits) => (digits, 16),
        None => (word, 10),
    };
    if digits.is_empty() || !digits.chars().all(|digit| digit.is_digit(radix)) {
        return Err(format!("'{word}' is neither a number (12, 0x1F) nor a name"));
    }
    if radix == 10 && digits.len() > 1 && digits.starts_with('0') {
        let number = match digits.trim_start_matches('0') {
            "" => "0",
            rest => rest,
        };
        return Err(format!("the number {word} has a leading zero: write {number}"));
    }
    let number = u32::from_str_radix(digits, radix).map(i64::from);
    number.map_err(|_| format!("the number {word} is beyond {}, the largest there is", u32::MAX))
}
