//! Lines of the format: tokens, keywords and what each takes. Numbers stay the digits that they are written in.

use std::cmp::Ordering;

/// A refusal: its number, the line that fails, and what is wrong with it in words.
#[derive(Clone, Debug, PartialEq, Eq)]
pub struct Fault {
    pub number: u8,
    pub line: usize,
    pub what: String,
}

/// A number of a refusal and what is wrong, of a line that is known.
pub type Wrong = (u8, String);

/// What stands in an argument's place.
#[derive(Clone, Copy, Debug, PartialEq, Eq)]
pub enum Form {
    /// The id of a sort.
    Sort,
    /// A reference: the id of a node, perhaps with a minus in front.
    Node,
    Number,
    Binary,
    /// Perhaps with a minus in front.
    Decimal,
    Hexadecimal,
}

use Form::*;

/// The list: each keyword with its arguments. That of `sort` comes after `bitvec`.
const KEYWORDS: [(&str, &[Form]); 28] = [
    ("sort", &[Number]),
    ("input", &[Sort]),
    ("const", &[Sort, Binary]),
    ("constd", &[Sort, Decimal]),
    ("consth", &[Sort, Hexadecimal]),
    ("zero", &[Sort]),
    ("one", &[Sort]),
    ("ones", &[Sort]),
    ("not", &[Sort, Node]),
    ("and", &[Sort, Node, Node]),
    ("or", &[Sort, Node, Node]),
    ("xor", &[Sort, Node, Node]),
    ("add", &[Sort, Node, Node]),
    ("sub", &[Sort, Node, Node]),
    ("mul", &[Sort, Node, Node]),
    ("sll", &[Sort, Node, Node]),
    ("srl", &[Sort, Node, Node]),
    ("sra", &[Sort, Node, Node]),
    ("eq", &[Sort, Node, Node]),
    ("neq", &[Sort, Node, Node]),
    ("ult", &[Sort, Node, Node]),
    ("slt", &[Sort, Node, Node]),
    ("ite", &[Sort, Node, Node, Node]),
    ("concat", &[Sort, Node, Node]),
    ("slice", &[Sort, Node, Number, Number]),
    ("uext", &[Sort, Node, Number]),
    ("sext", &[Sort, Node, Number]),
    ("constraint", &[Node]),
];

/// The keywords of the list.
pub fn keywords() -> impl Iterator<Item = &'static str> {
    KEYWORDS.iter().map(|&(name, _)| name)
}

/// A line of the list: its own id, its keyword, the arguments by their form, and its symbol.
#[derive(Clone, Debug)]
pub struct Line<'a> {
    pub id: &'a [u8],
    pub keyword: &'static str,
    pub sort: Option<&'a [u8]>,
    pub references: Vec<Reference<'a>>,
    pub numbers: Vec<&'a [u8]>,
    /// The digits of a constant.
    pub value: &'a [u8],
    pub symbol: Option<&'a [u8]>,
}

/// A reference: its digits, and whether it is negative.
#[derive(Clone, Copy, Debug)]
pub struct Reference<'a> {
    pub negative: bool,
    pub id: &'a [u8],
}

/// "Tokens are the longest runs of bytes other than space, tab and carriage return. A token that begins with
/// `;`, and all after it on its line, is skipped."
pub fn tokens(line: &[u8]) -> Vec<&[u8]> {
    let runs = line.split(|byte| b" \t\r".contains(byte)).filter(|run| !run.is_empty());
    runs.take_while(|token| token[0] != b';').collect()
}

/// What a line says; none of one without tokens.
pub fn line(text: &[u8]) -> Result<Option<Line<'_>>, Wrong> {
    let tokens = tokens(text);
    let Some(&id) = tokens.first() else {
        return Ok(None);
    };
    if !is_id(id) {
        return Err((1, format!("'{}' is no id", shown(id))));
    }
    if compare(id, b"18446744073709551616") != Ordering::Less {
        return Err((1, format!("the id {} is 2^64 or more", shown(id))));
    }
    let keyword = word(tokens.get(1), "a keyword")?;
    let Some(&(keyword, forms)) = KEYWORDS.iter().find(|(name, _)| name.as_bytes() == keyword) else {
        return Err((2, format!("'{}' is not among the keywords that are taken", shown(keyword))));
    };
    let mut rest = &tokens[2..];
    if keyword == "sort" {
        let what = word(rest.first(), "what sort it is")?;
        if what != b"bitvec" {
            return Err((2, format!("'sort {}' is not taken, only 'sort bitvec'", shown(what))));
        }
        rest = &rest[1..];
    }
    if rest.len() < forms.len() || rest.len() > forms.len() + 1 {
        let (takes, given) = (forms.len(), rest.len());
        return Err((1, format!("'{keyword}' takes {takes} and perhaps a symbol, and {given} are given")));
    }
    let (arguments, symbol) = rest.split_at(forms.len());
    let mut line = Line {
        id,
        keyword,
        sort: None,
        references: Vec::new(),
        numbers: Vec::new(),
        value: &[],
        symbol: symbol.first().copied(),
    };
    for (form, argument) in forms.iter().zip(arguments) {
        line.take(*form, argument)?;
    }
    Ok(Some(line))
}

impl<'a> Line<'a> {
    /// An argument, in its place.
    fn take(&mut self, form: Form, argument: &'a [u8]) -> Result<(), Wrong> {
        let (negative, digits) = match argument {
            [b'-', digits @ ..] => (true, digits),
            digits => (false, digits),
        };
        let (fits, wanted) = match form {
            Sort => (is_id(argument), "a sort's id"),
            Node => (is_id(digits), "a node's id"),
            Number => (is_number(argument), "a number"),
            Binary => (are(argument, |byte| matches!(byte, b'0' | b'1')), "binary digits"),
            Decimal => (is_number(digits), "a decimal number"),
            Hexadecimal => (are(argument, |byte| byte.is_ascii_hexdigit()), "hexadecimal digits"),
        };
        if !fits {
            return Err((1, format!("'{}' stands in the place of {wanted}", shown(argument))));
        }
        match form {
            Sort => self.sort = Some(argument),
            Node => self.references.push(Reference { negative, id: digits }),
            Number => self.numbers.push(argument),
            Binary | Decimal | Hexadecimal => self.value = argument,
        }
        Ok(())
    }
}

/// A token of small letters alone.
fn word<'a>(token: Option<&&'a [u8]>, wanted: &str) -> Result<&'a [u8], Wrong> {
    match token {
        None => Err((1, format!("{wanted} is missing"))),
        Some(&token) if are(token, |byte| byte.is_ascii_lowercase()) => Ok(token),
        Some(token) => Err((1, format!("'{}' stands in the place of {wanted}", shown(token)))),
    }
}

/// Whether there are bytes, and all of a class.
fn are(token: &[u8], class: impl Fn(u8) -> bool) -> bool {
    !token.is_empty() && token.iter().all(|&byte| class(byte))
}

/// `[1-9][0-9]*`
fn is_id(token: &[u8]) -> bool {
    are(token, |byte| byte.is_ascii_digit()) && token[0] != b'0'
}

/// `0|[1-9][0-9]*`
fn is_number(token: &[u8]) -> bool {
    token == b"0" || is_id(token)
}

/// Numbers of any length, without leading zeros, by their digits.
pub fn compare(a: &[u8], b: &[u8]) -> Ordering {
    a.len().cmp(&b.len()).then(a.cmp(b))
}

/// A token in a message, of which a long one is cut.
pub fn shown(token: &[u8]) -> String {
    const MOST: usize = 60;
    let cut = if token.len() > MOST { ".." } else { "" };
    String::from_utf8_lossy(&token[..token.len().min(MOST)]).into_owned() + cut
}
