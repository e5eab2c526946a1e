//! The text language of requests and answers, shared by the driver, the model, the generator and the
//! classifier. It knows names, kinds and spelling, and nothing of what a statistic means.

use std::fmt::Display;
use std::fmt::Formatter;
use std::io::BufRead;
use std::io::BufWriter;
use std::io::Write;

#[derive(Clone, Copy, Debug, PartialEq, Eq)]
pub enum Column {
    Measure,
    Mark,
}

#[derive(Clone, Copy, Debug, PartialEq, Eq)]
pub enum Kind {
    Flag,
    Element,
    Sum,
    Count,
}

/// The statistics by number.
pub const NAMES: [&str; 9] = [
    "is_constant",
    "is_sorted",
    "is_strict_sorted",
    "max",
    "min",
    "sum",
    "null_count",
    "uncompressed_size_in_bytes",
    "nan_count",
];

pub const KINDS: [Kind; 9] = [
    Kind::Flag,
    Kind::Flag,
    Kind::Flag,
    Kind::Element,
    Kind::Element,
    Kind::Sum,
    Kind::Count,
    Kind::Count,
    Kind::Count,
];

pub const OPERATIONS: [&str; 13] = [
    "set",
    "clear",
    "get",
    "retain_only",
    "merge_ordered",
    "merge_unordered",
    "combine",
    "lower_union",
    "lower_intersection",
    "upper_union",
    "upper_intersection",
    "precision_union",
    "precision_intersection",
];

/// Values of one kind are ordered as the rules say; two kinds are never compared.
#[derive(Clone, Copy, Debug, PartialEq, Eq, PartialOrd, Ord)]
pub enum Value {
    Flag(bool),
    Measure(i64),
    Mark { lot: u32, piece: u32 },
    Sum(i64),
    Count(u64),
}

impl Value {
    pub fn kind(&self) -> Kind {
        match self {
            Value::Flag(_) => Kind::Flag,
            Value::Measure(_) | Value::Mark { .. } => Kind::Element,
            Value::Sum(_) => Kind::Sum,
            Value::Count(_) => Kind::Count,
        }
    }
}

impl Display for Value {
    fn fmt(&self, f: &mut Formatter<'_>) -> std::fmt::Result {
        match self {
            Value::Flag(b) => write!(f, "{b}"),
            Value::Measure(n) | Value::Sum(n) => write!(f, "{n}"),
            Value::Mark { lot, piece } => write!(f, "{lot}:{piece}"),
            Value::Count(n) => write!(f, "{n}"),
        }
    }
}

#[derive(Clone, Copy, Debug, PartialEq, Eq)]
pub enum Claim {
    Exact(Value),
    Inexact(Value),
    Absent,
}

impl Claim {
    pub fn value(&self) -> Option<Value> {
        match self {
            Claim::Exact(v) | Claim::Inexact(v) => Some(*v),
            Claim::Absent => None,
        }
    }
}

impl Display for Claim {
    fn fmt(&self, f: &mut Formatter<'_>) -> std::fmt::Result {
        match self {
            Claim::Exact(v) => write!(f, "{v}"),
            Claim::Inexact(v) => write!(f, "~{v}"),
            Claim::Absent => write!(f, "{{empty}}"),
        }
    }
}

/// `COLUMN OP | A | B`.
pub struct Request<'a> {
    pub column: Column,
    pub op: &'a str,
    pub a: &'a str,
    pub b: &'a str,
}

pub fn read_request(line: &str) -> Option<Request<'_>> {
    let mut parts = line.split('|').map(str::trim);
    let (head, a, b) = (parts.next()?, parts.next()?, parts.next()?);
    let (column, op) = head.split_once(' ')?;
    let column = match column {
        "measure" => Column::Measure,
        "mark" => Column::Mark,
        _ => return None,
    };
    parts.next().is_none().then_some(Request {
        column,
        op: op.trim(),
        a,
        b,
    })
}

/// A value of the given kind; `flag:`, `count:`, `sum:` or `element:` before it names another.
pub fn read_value(column: Column, kind: Kind, text: &str) -> Option<Value> {
    const PREFIXES: [(&str, Kind); 4] = [
        ("flag:", Kind::Flag),
        ("count:", Kind::Count),
        ("sum:", Kind::Sum),
        ("element:", Kind::Element),
    ];
    let (kind, text) = PREFIXES
        .iter()
        .find_map(|(prefix, kind)| Some((*kind, text.strip_prefix(prefix)?)))
        .unwrap_or((kind, text));
    Some(match (kind, column) {
        (Kind::Flag, _) => Value::Flag(text.parse().ok()?),
        (Kind::Sum, _) => Value::Sum(text.parse().ok()?),
        (Kind::Count, _) => Value::Count(text.parse().ok()?),
        (Kind::Element, Column::Measure) => Value::Measure(text.parse().ok()?),
        (Kind::Element, Column::Mark) => {
            let (lot, piece) = text.split_once(':')?;
            Value::Mark {
                lot: lot.parse().ok()?,
                piece: piece.parse().ok()?,
            }
        }
    })
}

pub fn read_claim(column: Column, kind: Kind, text: &str) -> Option<Claim> {
    if text == "{empty}" {
        Some(Claim::Absent)
    } else if let Some(value) = text.strip_prefix('~') {
        Some(Claim::Inexact(read_value(column, kind, value)?))
    } else {
        Some(Claim::Exact(read_value(column, kind, text)?))
    }
}

pub fn read_name(text: &str) -> Option<usize> {
    NAMES.iter().position(|name| *name == text)
}

/// `NAME=CLAIM`.
pub fn read_statement(column: Column, text: &str) -> Option<(usize, Claim)> {
    let (name, claim) = text.split_once('=')?;
    let stat = read_name(name)?;
    Some((stat, read_claim(column, KINDS[stat], claim)?))
}

/// What is parted by blanks, `-` for nothing.
pub fn words(text: &str) -> impl Iterator<Item = &str> {
    text.split_whitespace().filter(|word| *word != "-")
}

pub fn read_statements(column: Column, text: &str) -> Option<Vec<(usize, Claim)>> {
    words(text)
        .map(|word| read_statement(column, word))
        .collect()
}

pub fn show_statements(statements: &[(usize, Claim)]) -> String {
    if statements.is_empty() {
        return "-".to_string();
    }
    let texts: Vec<String> = statements
        .iter()
        .map(|(stat, claim)| format!("{}={claim}", NAMES[*stat]))
        .collect();
    texts.join(" ")
}

/// Answers each line of standard input, but for blank ones and those that begin with `#`.
pub fn serve<F: FnMut(&Request) -> Option<String>>(mut answer: F) {
    let mut input = std::io::stdin().lock();
    let mut output = BufWriter::with_capacity(1 << 16, std::io::stdout().lock());
    let mut line = String::new();
    loop {
        line.clear();
        if input.read_line(&mut line).expect("standard input is text") == 0 {
            break;
        }
        let text = line.trim();
        if text.is_empty() || text.starts_with('#') {
            continue;
        }
        let answered = read_request(text).and_then(|request| answer(&request));
        let told = answered.as_deref().unwrap_or("unreadable");
        writeln!(output, "{told}").expect("standard output is open");
    }
    output.flush().expect("standard output is open");
}
