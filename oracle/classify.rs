//! classify REQUESTS RUST PROGRAM MODEL SAMPLE: compares the answers of the published Rust and of a program, line
//! by line, and puts each difference under a name. A name stands for one known difference. It is given only
//! where the Rust's answer is the one that it predicts and the program's is the model's: where the Rust
//! panics, nothing but the model checks the program. A difference without a name, an answer of the program
//! that is not the model's, and a request that was not read are printed, and the exit status is 1. Some
//! requests are kept in the file SAMPLE, of every operation, column and named difference; before one whose
//! answers differ stands a comment with the difference's name and the Rust's answer.

use std::collections::HashMap;
use std::fs::File;
use std::io::BufRead;
use std::io::BufReader;
use std::io::BufWriter;
use std::io::Lines;
use std::io::Write;
use std::process::ExitCode;

use text::Claim;
use text::Claim::Absent;
use text::Claim::Exact;
use text::Claim::Inexact;
use text::Column;
use text::KINDS;
use text::Kind;
use text::OPERATIONS;
use text::Request;
use text::Value;

mod text;

type Statement = (usize, Claim);

const NAN_COUNT: usize = 8;
const COUNTS: [usize; 3] = [6, 7, 8];
/// The statistics whose claims are bounds of their own.
const PRECISIONS: [usize; 4] = [0, 1, 2, 5];

const DIFFERENCES: [&str; 5] = [
    "exact-stays-exact",
    "absent-clears",
    "count-overflow",
    "wrong-kind",
    "nan-count-combines",
];
const EXACT_STAYS_EXACT: usize = 0;
const ABSENT_CLEARS: usize = 1;
const COUNT_OVERFLOW: usize = 2;
const WRONG_KIND: usize = 3;
const NAN_COUNT_COMBINES: usize = 4;

fn claim_of(set: &[Statement], stat: usize) -> Claim {
    set.iter()
        .find(|entry| entry.0 == stat)
        .map_or(Absent, |entry| entry.1)
}

/// The value of an exact claim that meets an inexact one above it.
fn exact_below_inexact(a: Claim, b: Claim) -> Option<Value> {
    match (a, b) {
        (Exact(e), Inexact(i)) | (Inexact(i), Exact(e)) if e < i => Some(e),
        _ => None,
    }
}

/// The Rust makes an exact claim inexact where it meets an inexact one above it.
fn bound_difference(request: &Request, rust: &str, program: &str) -> Option<usize> {
    let a = text::read_claim(request.column, Kind::Element, request.a)?;
    let b = text::read_claim(request.column, Kind::Element, request.b)?;
    let e = exact_below_inexact(a, b)?;
    let predicted = request.op == "precision_intersection"
        && rust == format!("value {}", Inexact(e))
        && program == format!("value {}", Exact(e));
    predicted.then_some(EXACT_STAYS_EXACT)
}

/// The Rust stores an absent claim, which clears by the rules, and claims of every kind.
fn set_difference(request: &Request, rust: &str, program: &str) -> Option<usize> {
    let column = request.column;
    let before = text::read_statements(column, request.a)?;
    let (stat, claim) = text::read_statement(column, request.b)?;
    let mut stored = before.clone();
    match stored.iter_mut().find(|entry| entry.0 == stat) {
        Some(entry) => entry.1 = claim,
        None => stored.push((stat, claim)),
    }
    let Some(value) = claim.value() else {
        let mut cleared = before;
        cleared.retain(|entry| entry.0 != stat);
        let predicted =
            rust == text::show_statements(&stored) && program == text::show_statements(&cleared);
        return predicted.then_some(ABSENT_CLEARS);
    };
    let wrong =
        value.kind() != KINDS[stat] || (value.kind() == Kind::Sum && column == Column::Mark);
    // The Rust's answer may spell the kind of the value that it stored.
    let predicted = wrong
        && text::read_statements(column, rust)
            .is_some_and(|told| told.iter().map(spelled).eq(stored.iter().map(spelled)))
        && program == format!("refused 1 | {}", text::show_statements(&before));
    predicted.then_some(WRONG_KIND)
}

/// A statement without the kind of its value.
fn spelled(statement: &Statement) -> (usize, String) {
    (statement.0, statement.1.to_string())
}

/// The Rust panics, or wraps, where the total of two counts is 2^64 or more; by the rules it clears.
fn merge_difference(request: &Request, rust: &str, program: &str) -> Option<usize> {
    let column = request.column;
    let a = text::read_statements(column, request.a)?;
    let b = text::read_statements(column, request.b)?;
    let mut wrapped = Vec::new();
    for stat in COUNTS {
        let (mine, theirs) = (claim_of(&a, stat), claim_of(&b, stat));
        if let (Some(Value::Count(x)), Some(Value::Count(y))) = (mine.value(), theirs.value())
            && let (rest, true) = x.overflowing_add(y)
        {
            let rest = Value::Count(rest);
            let both = matches!((mine, theirs), (Exact(_), Exact(_)));
            wrapped.push((stat, if both { Exact(rest) } else { Inexact(rest) }));
        }
    }
    if wrapped.is_empty() {
        return None;
    }
    if rust == "panic" {
        return Some(COUNT_OVERFLOW);
    }
    let mut told = text::read_statements(column, rust)?;
    let predicted = wrapped
        .iter()
        .all(|entry| claim_of(&told, entry.0) == entry.1);
    told.retain(|entry| wrapped.iter().all(|other| other.0 != entry.0));
    (predicted && program == text::show_statements(&told)).then_some(COUNT_OVERFLOW)
}

/// The refusal before the bar, if there is one, and the set.
fn parts(answer: &str) -> (&str, &str) {
    answer.split_once(" | ").unwrap_or(("", answer))
}

/// The Rust panics where it comes to a NaN count, and makes an exact claim inexact where it meets an
/// inexact one above it.
fn combine_difference(request: &Request, rust: &str, program: &str) -> Option<usize> {
    let column = request.column;
    let a = text::read_statements(column, request.a)?;
    let b = text::read_statements(column, request.b)?;
    let (refusal, left) = parts(program);
    if rust == "panic" {
        let place = |stat: usize| b.iter().position(|entry| entry.0 == stat);
        let stopped = match refusal.strip_prefix("refused 2 ") {
            Some(number) => place(number.parse().ok()?)?,
            None => b.len(),
        };
        return (place(NAN_COUNT)? <= stopped).then_some(NAN_COUNT_COMBINES);
    }
    let (rust_refusal, rust_left) = parts(rust);
    let ours = text::read_statements(column, left)?;
    let theirs = text::read_statements(column, rust_left)?;
    let predicted = refusal == rust_refusal
        && ours.len() == theirs.len()
        && ours.iter().zip(&theirs).all(|(ours, theirs)| {
            let met = exact_below_inexact(claim_of(&a, ours.0), claim_of(&b, ours.0));
            ours == theirs
                || PRECISIONS.contains(&ours.0)
                    && met.is_some_and(|e| {
                        *ours == (ours.0, Exact(e)) && *theirs == (ours.0, Inexact(e))
                    })
        });
    predicted.then_some(EXACT_STAYS_EXACT)
}

fn difference(request: &Request, rust: &str, program: &str) -> Option<usize> {
    match request.op {
        "set" => set_difference(request, rust, program),
        "merge_ordered" | "merge_unordered" => merge_difference(request, rust, program),
        "combine" => combine_difference(request, rust, program),
        "clear" | "get" | "retain_only" => None,
        _ => bound_difference(request, rust, program),
    }
}

/// Every 31st request of an operation, a column and an outcome, until there are 60.
struct Sample {
    seen: HashMap<(usize, bool, Option<usize>), u64>,
    file: BufWriter<File>,
}

impl Sample {
    fn keep(&mut self, op: usize, column: Column, named: Option<usize>, text: &str, rust: &str) {
        let seen = self
            .seen
            .entry((op, column == Column::Measure, named))
            .or_default();
        let kept = *seen % 31 == 0 && *seen / 31 < 60;
        *seen += 1;
        if kept {
            let written = match named {
                Some(name) => writeln!(self.file, "# {}, the Rust: {rust}\n{text}", DIFFERENCES[name]),
                None => writeln!(self.file, "{text}"),
            };
            written.expect("the sample can be written");
        }
    }
}

struct Named {
    by_operation: [u64; OPERATIONS.len()],
    first: Option<String>,
}

fn open(path: &str) -> Lines<BufReader<File>> {
    let file = File::open(path).unwrap_or_else(|err| panic!("{path}: {err}"));
    BufReader::with_capacity(1 << 16, file).lines()
}

fn next(lines: &mut Lines<BufReader<File>>) -> Option<String> {
    lines.next().map(|line| line.expect("answers are text"))
}

fn main() -> ExitCode {
    let paths: Vec<String> = std::env::args().skip(1).collect();
    let [requests, rust, program, model, sample] = paths.as_slice() else {
        eprintln!("classify REQUESTS RUST PROGRAM MODEL SAMPLE");
        return ExitCode::from(2);
    };
    let (mut rust, mut program, mut model) = (open(rust), open(program), open(model));
    let mut sample = Sample {
        seen: HashMap::new(),
        file: BufWriter::new(File::create(sample).expect("the sample can be written")),
    };
    let mut same = [0u64; OPERATIONS.len()];
    let mut unnamed = [0u64; OPERATIONS.len()];
    let mut named: [Named; DIFFERENCES.len()] = std::array::from_fn(|_| Named {
        by_operation: [0; OPERATIONS.len()],
        first: None,
    });
    let mut unlike_model = 0u64;
    let mut printed = 0;
    let mut report = |what: &str, request: &str, told: &[(&str, &str)]| {
        printed += 1;
        if printed <= 20 {
            println!("{what}: {request}");
            for (who, answer) in told {
                println!("  {who}: {answer}");
            }
        }
    };

    for line in open(requests) {
        let line = line.expect("requests are text");
        let text = line.trim();
        if text.is_empty() || text.starts_with('#') {
            continue;
        }
        let (Some(r), Some(p), Some(m)) = (next(&mut rust), next(&mut program), next(&mut model))
        else {
            println!("an answer is missing: {text}");
            return ExitCode::FAILURE;
        };
        let request = text::read_request(text);
        let op = request
            .as_ref()
            .and_then(|request| OPERATIONS.iter().position(|op| *op == request.op));
        let (Some(request), Some(op)) = (request, op) else {
            println!("no request: {text}");
            return ExitCode::FAILURE;
        };
        let told = [
            ("rust", r.as_str()),
            ("program", p.as_str()),
            ("model", m.as_str()),
        ];
        if p != m {
            unlike_model += 1;
            report("not the model's answer", text, &told);
        }
        let unread = told.iter().any(|(_, answer)| *answer == "unreadable");
        if r == p && !unread {
            same[op] += 1;
            sample.keep(op, request.column, None, text, &r);
        } else if !unread
            && p == m
            && let Some(name) = difference(&request, &r, &p)
        {
            let entry = &mut named[name];
            entry.by_operation[op] += 1;
            sample.keep(op, request.column, Some(name), text, &r);
            entry
                .first
                .get_or_insert_with(|| format!("  {text}\n    rust: {r}\n    rules: {p}"));
        } else {
            unnamed[op] += 1;
            report("difference without a name", text, &told);
        }
    }
    if next(&mut rust)
        .or(next(&mut program))
        .or(next(&mut model))
        .is_some()
    {
        println!("there are more answers than requests");
        return ExitCode::FAILURE;
    }

    let mut all = [0u64; 3];
    println!(
        "{:<24}{:>10}{:>10}{:>10}",
        "operation", "same", "named", "unnamed"
    );
    for (op, name) in OPERATIONS.iter().enumerate() {
        let known: u64 = named.iter().map(|entry| entry.by_operation[op]).sum();
        println!("{name:<24}{:>10}{known:>10}{:>10}", same[op], unnamed[op]);
        for (total, n) in all.iter_mut().zip([same[op], known, unnamed[op]]) {
            *total += n;
        }
    }
    println!("{:<24}{:>10}{:>10}{:>10}", "all", all[0], all[1], all[2]);
    for (name, entry) in DIFFERENCES.iter().zip(&named) {
        println!("\n{name}: {}", entry.by_operation.iter().sum::<u64>());
        for (op, n) in OPERATIONS
            .iter()
            .zip(entry.by_operation)
            .filter(|(_, n)| *n > 0)
        {
            println!("  {op} {n}");
        }
        if let Some(first) = &entry.first {
            println!("{first}");
        }
    }
    println!("\nprogram unlike model: {unlike_model}");
    println!(
        "compared {} requests: {} without a name",
        all.iter().sum::<u64>(),
        all[2]
    );
    if all[2] == 0 && unlike_model == 0 {
        ExitCode::SUCCESS
    } else {
        ExitCode::FAILURE
    }
}
