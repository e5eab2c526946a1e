//! generate SEED N: writes N requests. Short ones come first, every one of a section or none where the
//! section does not fit into what is left of N; the rest is random. What was written goes to standard
//! error.

use std::io::BufWriter;
use std::io::Write;

use text::Claim;
use text::Claim::Absent;
use text::Claim::Exact;
use text::Claim::Inexact;
use text::Column;
use text::KINDS;
use text::Kind;
use text::NAMES;
use text::OPERATIONS;
use text::Value;

mod text;

type Statement = (usize, Claim);

const COLUMNS: [Column; 2] = [Column::Measure, Column::Mark];
const MERGES: [&str; 3] = ["merge_ordered", "merge_unordered", "combine"];
const MAX: usize = 3;
const MIN: usize = 4;
const SUM: usize = 5;
const NAN_COUNT: usize = 8;
const TOP: u32 = u32::MAX;

fn mark(lot: u32, piece: u32) -> Value {
    Value::Mark { lot, piece }
}

/// The statistics of a column; marks have no sums.
fn stats(column: Column) -> Vec<usize> {
    (0..NAMES.len())
        .filter(|stat| column == Column::Measure || *stat != SUM)
        .collect()
}

/// The ends of the range, and what lies next to them and to zero.
fn edge_values(column: Column, kind: Kind) -> Vec<Value> {
    let signed = [i64::MIN, i64::MIN + 1, -1, 0, 1, i64::MAX - 1, i64::MAX];
    match (kind, column) {
        (Kind::Flag, _) => vec![Value::Flag(false), Value::Flag(true)],
        (Kind::Element, Column::Measure) => signed.map(Value::Measure).to_vec(),
        (Kind::Element, Column::Mark) => [
            mark(0, 0),
            mark(0, 1),
            mark(0, TOP),
            mark(1, 0),
            mark(256, 1),
            mark(TOP, 0),
            mark(TOP, TOP),
        ]
        .to_vec(),
        (Kind::Sum, _) => signed.map(Value::Sum).to_vec(),
        (Kind::Count, _) => [
            0,
            1,
            1 << 32,
            (1 << 63) - 1,
            1 << 63,
            u64::MAX - 1,
            u64::MAX,
        ]
        .map(Value::Count)
        .to_vec(),
    }
}

fn small_values(column: Column, kind: Kind) -> Vec<Value> {
    match (kind, column) {
        (Kind::Flag, _) => vec![Value::Flag(false), Value::Flag(true)],
        (Kind::Element, Column::Measure) => [-1, 0, 1].map(Value::Measure).to_vec(),
        (Kind::Element, Column::Mark) => [mark(0, 2), mark(1, 0), mark(1, 1)].to_vec(),
        (Kind::Sum, _) => [-1, 0, 1].map(Value::Sum).to_vec(),
        (Kind::Count, _) => [0, 1, 2].map(Value::Count).to_vec(),
    }
}

/// Each value exact and inexact.
fn claims(values: &[Value]) -> Vec<Claim> {
    values
        .iter()
        .flat_map(|v| [Exact(*v), Inexact(*v)])
        .collect()
}

fn small_claims(column: Column, stat: usize) -> Vec<Claim> {
    claims(&small_values(column, KINDS[stat]))
}

/// Three claims of each statistic: two values, and one of them inexact.
fn few_claims(column: Column, stat: usize) -> Vec<Claim> {
    let values = small_values(column, KINDS[stat]);
    let (low, high) = (values[values.len() - 2], values[values.len() - 1]);
    vec![Exact(low), Exact(high), Inexact(high)]
}

/// Two claims of each statistic.
fn two_claims(column: Column, stat: usize) -> Vec<Claim> {
    few_claims(column, stat).split_off(1)
}

/// Claims of the other kinds, and of the sum that marks have not.
fn wrong_claims(column: Column, stat: usize) -> Vec<String> {
    let element = match column {
        Column::Measure => "element:1",
        Column::Mark => "element:1:1",
    };
    let mut values: Vec<&str> = [
        ("flag:true", Kind::Flag),
        ("count:1", Kind::Count),
        ("sum:1", Kind::Sum),
        (element, Kind::Element),
    ]
    .iter()
    .filter(|(_, kind)| *kind != KINDS[stat])
    .map(|(text, _)| *text)
    .collect();
    if stat == SUM && column == Column::Mark {
        values.push("1");
    }
    values
        .iter()
        .flat_map(|v| [v.to_string(), format!("~{v}")])
        .collect()
}

type ClaimsOf = fn(Column, usize) -> Vec<Claim>;

fn one_entry_sets(column: Column, claims_of: ClaimsOf) -> Vec<Vec<Statement>> {
    stats(column)
        .into_iter()
        .flat_map(|stat| {
            claims_of(column, stat)
                .into_iter()
                .map(move |claim| vec![(stat, claim)])
        })
        .collect()
}

/// No entry, one, and two of different statistics in both orders.
fn short_sets(column: Column, claims_of: ClaimsOf) -> Vec<Vec<Statement>> {
    let ones = one_entry_sets(column, claims_of);
    let mut sets = vec![Vec::new()];
    sets.extend(ones.iter().cloned());
    for a in &ones {
        for b in &ones {
            if a[0].0 != b[0].0 {
                sets.push(vec![a[0], b[0]]);
            }
        }
    }
    sets
}

/// Two entries, of these statistics, in both orders.
fn pairs(a: usize, a_claims: &[Claim], b: usize, b_claims: &[Claim]) -> Vec<Vec<Statement>> {
    let mut sets = Vec::new();
    for x in a_claims {
        for y in b_claims {
            sets.push(vec![(a, *x), (b, *y)]);
            sets.push(vec![(b, *y), (a, *x)]);
        }
    }
    sets
}

fn line(column: Column, op: &str, a: &str, b: &str) -> String {
    let column = match column {
        Column::Measure => "measure",
        Column::Mark => "mark",
    };
    format!("{column} {op} | {a} | {b}")
}

fn sets_line(column: Column, op: &str, a: &[Statement], b: &[Statement]) -> String {
    line(
        column,
        op,
        &text::show_statements(a),
        &text::show_statements(b),
    )
}

/// Takes a request that is written out only where it is wanted.
type Emit<'a> = &'a mut dyn FnMut(&dyn Fn() -> String);

/// Every pair of claims over the edges of the elements, for each bound operation.
fn bounds(emit: Emit) {
    for column in COLUMNS {
        let mut all = claims(&edge_values(column, Kind::Element));
        all.push(Absent);
        for op in OPERATIONS
            .iter()
            .filter(|op| op.ends_with("union") || op.ends_with("intersection"))
        {
            for a in &all {
                for b in &all {
                    emit(&|| line(column, op, &a.to_string(), &b.to_string()));
                }
            }
        }
    }
}

/// Every short set with three claims of each statistic, an absent one and those of other kinds.
fn setting(emit: Emit) {
    for column in COLUMNS {
        for set in short_sets(column, two_claims) {
            let a = text::show_statements(&set);
            for (stat, name) in NAMES.iter().enumerate() {
                let mut told = wrong_claims(column, stat);
                told.push(Absent.to_string());
                if stats(column).contains(&stat) {
                    told.extend(few_claims(column, stat).iter().map(Claim::to_string));
                }
                for claim in told {
                    emit(&|| line(column, "set", &a, &format!("{name}={claim}")));
                }
            }
        }
    }
}

/// Every short set with every name.
fn reading(emit: Emit) {
    for column in COLUMNS {
        for set in short_sets(column, few_claims) {
            let a = text::show_statements(&set);
            for name in NAMES {
                emit(&|| line(column, "get", &a, name));
                emit(&|| line(column, "clear", &a, name));
            }
        }
    }
}

/// Every short set with no name, one, and two.
fn retaining(emit: Emit) {
    for column in COLUMNS {
        for set in short_sets(column, two_claims) {
            let a = text::show_statements(&set);
            emit(&|| line(column, "retain_only", &a, "-"));
            for (i, x) in NAMES.iter().enumerate() {
                emit(&|| line(column, "retain_only", &a, x));
                for y in &NAMES[..i] {
                    emit(&|| line(column, "retain_only", &a, &format!("{x} {y}")));
                }
            }
        }
    }
}

/// Every pair of sets of at most one entry, merged and combined.
fn merging_ones(emit: Emit) {
    for column in COLUMNS {
        let mut sets = one_entry_sets(column, small_claims);
        sets.push(Vec::new());
        for op in MERGES {
            for a in &sets {
                for b in &sets {
                    emit(&|| sets_line(column, op, a, b));
                }
            }
        }
    }
}

/// Every pair of claims at the edges of one statistic, merged and combined.
fn merging_edges(emit: Emit) {
    for column in COLUMNS {
        for stat in stats(column) {
            let all = claims(&edge_values(column, KINDS[stat]));
            for op in MERGES {
                for a in &all {
                    for b in &all {
                        emit(&|| sets_line(column, op, &[(stat, *a)], &[(stat, *b)]));
                    }
                }
            }
        }
    }
}

/// Every pair of sets of the same two statistics in any order, merged and combined.
fn merging_pairs(emit: Emit) {
    for column in COLUMNS {
        let stats = stats(column);
        for (i, &s) in stats.iter().enumerate() {
            for &t in &stats[..i] {
                let sets = pairs(s, &few_claims(column, s), t, &few_claims(column, t));
                for op in MERGES {
                    for a in &sets {
                        for b in &sets {
                            emit(&|| sets_line(column, op, a, b));
                        }
                    }
                }
            }
        }
    }
}

/// Sortedness with a Max on this side and a Min on the other.
fn merging_sorted(emit: Emit) {
    for column in COLUMNS {
        for stat in [1, 2] {
            let flags = small_claims(column, stat);
            let mine = pairs(stat, &flags, MAX, &small_claims(column, MAX));
            let theirs = pairs(stat, &flags, MIN, &small_claims(column, MIN));
            for op in ["merge_ordered", "merge_unordered"] {
                for a in &mine {
                    for b in &theirs {
                        emit(&|| sets_line(column, op, a, b));
                    }
                }
            }
        }
    }
}

/// Every pair of sets of at most two entries, merged and combined.
fn merging_short(emit: Emit) {
    for column in COLUMNS {
        let sets = short_sets(column, few_claims);
        let texts: Vec<String> = sets.iter().map(|set| text::show_statements(set)).collect();
        for op in MERGES {
            for a in &texts {
                for b in &texts {
                    emit(&|| line(column, op, a, b));
                }
            }
        }
    }
}

const SECTIONS: [(&str, fn(Emit)); 9] = [
    ("bounds", bounds),
    ("edges merged and combined", merging_edges),
    ("sets of one entry merged and combined", merging_ones),
    ("the same two statistics merged and combined", merging_pairs),
    ("sortedness merged", merging_sorted),
    ("short sets read and cleared", reading),
    ("short sets set", setting),
    ("short sets retained", retaining),
    ("all pairs of short sets merged and combined", merging_short),
];

/// splitmix64.
struct Random(u64);

impl Random {
    fn next(&mut self) -> u64 {
        self.0 = self.0.wrapping_add(0x9e37_79b9_7f4a_7c15);
        let mut z = self.0;
        z = (z ^ (z >> 30)).wrapping_mul(0xbf58_476d_1ce4_e5b9);
        z = (z ^ (z >> 27)).wrapping_mul(0x94d0_49bb_1331_11eb);
        z ^ (z >> 31)
    }

    fn below(&mut self, n: usize) -> usize {
        (self.next() % n as u64) as usize
    }

    /// True in so many of a hundred.
    fn percent(&mut self, n: usize) -> bool {
        self.below(100) < n
    }

    fn pick<T: Clone>(&mut self, from: &[T]) -> T {
        from[self.below(from.len())].clone()
    }

    fn shuffle<T>(&mut self, items: &mut [T]) {
        for i in (1..items.len()).rev() {
            items.swap(i, self.below(i + 1));
        }
    }

    /// Mostly small, so that values collide; else an edge or any number.
    fn value(&mut self, column: Column, kind: Kind) -> Value {
        if self.percent(20) {
            return self.pick(&edge_values(column, kind));
        }
        let small = self.percent(75);
        match (kind, column) {
            (Kind::Flag, _) => Value::Flag(self.percent(75)),
            (Kind::Element, Column::Mark) => {
                let mut part = || {
                    if small {
                        self.below(3) as u32
                    } else {
                        self.next() as u32
                    }
                };
                mark(part(), part())
            }
            (Kind::Element, Column::Measure) | (Kind::Sum, _) => {
                let n = if small {
                    self.below(7) as i64 - 3
                } else {
                    self.next() as i64
                };
                if kind == Kind::Sum {
                    Value::Sum(n)
                } else {
                    Value::Measure(n)
                }
            }
            (Kind::Count, _) => Value::Count(if small {
                self.below(4) as u64
            } else {
                self.next() >> self.below(64)
            }),
        }
    }

    fn claim(&mut self, column: Column, kind: Kind) -> Claim {
        let value = self.value(column, kind);
        if self.percent(65) {
            Exact(value)
        } else {
            Inexact(value)
        }
    }

    /// Statistics in any order, each there in so many of a hundred.
    fn some_stats(&mut self, column: Column, percent: usize) -> Vec<usize> {
        let mut some = stats(column);
        some.retain(|_| self.percent(percent));
        self.shuffle(&mut some);
        some
    }

    fn set(&mut self, column: Column) -> Vec<Statement> {
        let percent = self.pick(&[20, 50, 80, 100]);
        let stats = self.some_stats(column, percent);
        stats
            .into_iter()
            .map(|stat| (stat, self.claim(column, KINDS[stat])))
            .collect()
    }

    /// A value next to this one, or the same.
    fn near(&mut self, value: Value) -> Value {
        let step = self.below(3) as i64 - 1;
        match value {
            Value::Flag(b) => Value::Flag(b ^ (step > 0)),
            Value::Measure(n) => Value::Measure(n.saturating_add(step)),
            Value::Sum(n) => Value::Sum(n.saturating_add(step)),
            Value::Count(n) => Value::Count(n.saturating_add_signed(step)),
            Value::Mark { lot, piece } => mark(lot, piece.saturating_add_signed(step as i32)),
        }
    }

    /// What brings a count or a sum to the end of its range, or just below or beyond it.
    fn complement(&mut self, value: Value) -> Value {
        let step = self.below(5) as i128 - 2;
        match value {
            Value::Count(n) => {
                let rest = (1i128 << 64) - i128::from(n) + step;
                Value::Count(rest.clamp(0, u64::MAX.into()) as u64)
            }
            Value::Sum(n) => {
                let end = if n < 0 {
                    i128::from(i64::MIN)
                } else {
                    i128::from(i64::MAX)
                };
                let rest = end - i128::from(n) + step;
                Value::Sum(rest.clamp(i64::MIN.into(), i64::MAX.into()) as i64)
            }
            other => other,
        }
    }

    /// A set that has much to do with `set`: the same claims, other precisions, near values, totals at
    /// the end of the range.
    fn related(&mut self, column: Column, set: &[Statement], complements: usize) -> Vec<Statement> {
        let mut theirs = Vec::new();
        for stat in self.some_stats(column, 75) {
            let mine = set
                .iter()
                .find(|entry| entry.0 == stat)
                .and_then(|entry| entry.1.value());
            let claim = match mine {
                Some(value) if self.percent(85) => {
                    let value = match self.below(100) {
                        n if n < complements => self.complement(value),
                        n if n < 60 => value,
                        _ => self.near(value),
                    };
                    if self.percent(55) {
                        Exact(value)
                    } else {
                        Inexact(value)
                    }
                }
                _ => self.claim(column, KINDS[stat]),
            };
            theirs.push((stat, claim));
        }
        theirs
    }

    fn merge_request(&mut self, column: Column, op: &str) -> String {
        let a = self.set(column);
        let complements = if op == "combine" { 0 } else { 8 };
        let mut b = if self.percent(75) {
            self.related(column, &a, complements)
        } else {
            self.set(column)
        };
        // Combining a NaN count panics in the published Rust, and hides what else there is.
        if op == "combine" && self.percent(85) {
            b.retain(|entry| entry.0 != NAN_COUNT);
        }
        sets_line(column, op, &a, &b)
    }

    fn set_request(&mut self, column: Column) -> String {
        let a = text::show_statements(&self.set(column));
        let stat = self.below(NAMES.len());
        let claim = if self.percent(10) {
            Absent.to_string()
        } else if self.percent(15) || !stats(column).contains(&stat) {
            let wrong = wrong_claims(column, stat);
            self.pick(&wrong)
        } else {
            self.claim(column, KINDS[stat]).to_string()
        };
        line(column, "set", &a, &format!("{}={claim}", NAMES[stat]))
    }

    fn bound_request(&mut self, column: Column, op: &str) -> String {
        let a = self.claim(column, Kind::Element);
        let b = if self.percent(50) {
            let value = self.near(a.value().expect("a claim with a value"));
            if self.percent(50) {
                Exact(value)
            } else {
                Inexact(value)
            }
        } else {
            self.claim(column, Kind::Element)
        };
        line(column, op, &a.to_string(), &b.to_string())
    }

    fn request(&mut self) -> String {
        let column = self.pick(&COLUMNS);
        // Merging and combining are most of it.
        let op = if self.percent(70) {
            self.pick(&MERGES)
        } else {
            self.pick(&OPERATIONS)
        };
        match op {
            "merge_ordered" | "merge_unordered" | "combine" => self.merge_request(column, op),
            "set" => self.set_request(column),
            "get" | "clear" => {
                let a = text::show_statements(&self.set(column));
                line(column, op, &a, self.pick(&NAMES))
            }
            "retain_only" => {
                let a = text::show_statements(&self.set(column));
                let percent = self.pick(&[15, 50, 85]);
                let mut names: Vec<&str> = NAMES.to_vec();
                names.retain(|_| self.percent(percent));
                self.shuffle(&mut names);
                let b = if names.is_empty() {
                    "-".to_string()
                } else {
                    names.join(" ")
                };
                line(column, op, &a, &b)
            }
            _ => self.bound_request(column, op),
        }
    }
}

fn main() {
    let mut arguments = std::env::args().skip(1).map(|text| text.parse::<u64>());
    let (Some(Ok(seed)), Some(Ok(n))) = (arguments.next(), arguments.next()) else {
        eprintln!("generate SEED N");
        std::process::exit(2);
    };
    let mut output = BufWriter::with_capacity(1 << 16, std::io::stdout().lock());
    let mut left = n;
    for (name, section) in SECTIONS {
        let mut size = 0;
        section(&mut |_| size += 1);
        if size > left {
            eprintln!("{size:>9} {name}: left out");
            continue;
        }
        section(&mut |request| {
            writeln!(output, "{}", request()).expect("standard output is open");
        });
        left -= size;
        eprintln!("{size:>9} {name}");
    }
    let mut random = Random(seed);
    for _ in 0..left {
        writeln!(output, "{}", random.request()).expect("standard output is open");
    }
    eprintln!("{left:>9} random");
    output.flush().expect("standard output is open");
}
