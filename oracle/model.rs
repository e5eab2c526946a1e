//! The rules behind the text interface, written from the rules alone and not from the published Rust.

use text::Claim;
use text::Claim::Absent;
use text::Claim::Exact;
use text::Claim::Inexact;
use text::Column;
use text::KINDS;
use text::Kind;
use text::Request;
use text::Value;

mod text;

const IS_CONSTANT: usize = 0;
const IS_SORTED: usize = 1;
const IS_STRICT_SORTED: usize = 2;
const MAX: usize = 3;
const MIN: usize = 4;
const SUM: usize = 5;
const NAN_COUNT: usize = 8;

/// What a claim with a value allows: exactly it; or, inexact, it and what is above (Lower), it and what
/// is below (Upper), or every value (Precision).
#[derive(Clone, Copy, PartialEq, Eq)]
enum Bound {
    Lower,
    Upper,
    Precision,
}

const BOUNDS: [Bound; 9] = [
    Bound::Precision,
    Bound::Precision,
    Bound::Precision,
    Bound::Upper,
    Bound::Lower,
    Bound::Precision,
    Bound::Upper,
    Bound::Upper,
    Bound::Upper,
];

#[derive(Clone, Copy, PartialEq, Eq)]
enum Meet {
    Claim(Claim),
    Empty,
    None,
}

impl Bound {
    /// Lower takes the smaller value with its precision, Upper the greater; of equal values the union is
    /// exact if either side is. Precision takes the smaller value, exact only if both sides are. With an
    /// absent side there is none.
    fn union(self, a: Claim, b: Claim) -> Option<Claim> {
        let (x, y) = (a.value()?, b.value()?);
        Some(match self {
            Bound::Precision => {
                let least = x.min(y);
                if is_exact(a) && is_exact(b) {
                    Exact(least)
                } else {
                    Inexact(least)
                }
            }
            _ if x == y => {
                if is_exact(a) || is_exact(b) {
                    Exact(x)
                } else {
                    Inexact(x)
                }
            }
            Bound::Lower => {
                if x < y {
                    a
                } else {
                    b
                }
            }
            Bound::Upper => {
                if x > y {
                    a
                } else {
                    b
                }
            }
        })
    }

    /// Two exact claims meet in that claim if they are equal, else in nothing; two inexact ones in the
    /// greater value (Lower) or the smaller (Upper, Precision). An exact and an inexact one meet in the
    /// exact one if the inexact one allows its value, else in nothing. With an absent side there is none,
    /// but of Precision it is empty.
    fn intersection(self, a: Claim, b: Claim) -> Meet {
        match (a, b) {
            (Absent, _) | (_, Absent) => match self {
                Bound::Precision => Meet::Empty,
                Bound::Lower | Bound::Upper => Meet::None,
            },
            (Exact(x), Exact(y)) => {
                if x == y {
                    Meet::Claim(a)
                } else {
                    Meet::Empty
                }
            }
            (Inexact(x), Inexact(y)) => Meet::Claim(Inexact(match self {
                Bound::Lower => x.max(y),
                Bound::Upper | Bound::Precision => x.min(y),
            })),
            (Exact(e), Inexact(i)) | (Inexact(i), Exact(e)) => {
                let allowed = match self {
                    Bound::Lower => e >= i,
                    Bound::Upper => e <= i,
                    Bound::Precision => true,
                };
                if allowed {
                    Meet::Claim(Exact(e))
                } else {
                    Meet::Empty
                }
            }
        }
    }
}

fn is_exact(claim: Claim) -> bool {
    matches!(claim, Exact(_))
}

fn is_exactly(claim: Claim, flag: bool) -> bool {
    claim == Exact(Value::Flag(flag))
}

/// Entries in the order of first setting, each statistic at most once, none absent.
#[derive(Clone)]
struct Set {
    column: Column,
    entries: Vec<(usize, Claim)>,
}

impl Set {
    fn get(&self, stat: usize) -> Claim {
        self.entries
            .iter()
            .find(|entry| entry.0 == stat)
            .map_or(Absent, |entry| entry.1)
    }

    fn clear(&mut self, stat: usize) {
        self.entries.retain(|entry| entry.0 != stat);
    }

    fn retain_only(&mut self, stats: &[usize]) {
        self.entries.retain(|entry| stats.contains(&entry.0));
    }

    /// Whether the value is of the statistic's kind, and no sum of a column that has none.
    fn takes(&self, stat: usize, value: Value) -> bool {
        value.kind() == KINDS[stat] && (value.kind() != Kind::Sum || self.column == Column::Measure)
    }

    /// Replaces the entry in place or adds it last; an absent claim clears it. False if the claim is
    /// refused.
    fn set(&mut self, stat: usize, claim: Claim) -> bool {
        let Some(value) = claim.value() else {
            self.clear(stat);
            return true;
        };
        if !self.takes(stat, value) {
            return false;
        }
        match self.entries.iter_mut().find(|entry| entry.0 == stat) {
            Some(entry) => entry.1 = claim,
            None => self.entries.push((stat, claim)),
        }
        true
    }

    /// Statistics 0 to 8 in that order, each on the entries as changed so far.
    fn merge(&mut self, other: &Set, ordered: bool) {
        for stat in 0..=NAN_COUNT {
            let merged = match stat {
                IS_CONSTANT => self.merged_constant(other),
                IS_SORTED | IS_STRICT_SORTED if !ordered => Absent,
                IS_SORTED => self.merged_sorted(other, stat, |max, min| max <= min),
                IS_STRICT_SORTED => self.merged_sorted(other, stat, |max, min| max < min),
                MAX | MIN => BOUNDS[stat]
                    .union(self.get(stat), other.get(stat))
                    .unwrap_or(Absent),
                SUM => self.merged_sum(other),
                _ => self.merged_count(other, stat),
            };
            self.set(stat, merged);
        }
    }

    /// Exactly false on either side gives exactly false. Two exactly true with both Mins exact give
    /// exactly whether the Mins are equal. All else clears.
    fn merged_constant(&self, other: &Set) -> Claim {
        let (a, b) = (self.get(IS_CONSTANT), other.get(IS_CONSTANT));
        if is_exactly(a, false) || is_exactly(b, false) {
            return Exact(Value::Flag(false));
        }
        if is_exactly(a, true)
            && is_exactly(b, true)
            && let Exact(x) = self.get(MIN)
            && let Exact(y) = other.get(MIN)
        {
            return Exact(Value::Flag(x == y));
        }
        Absent
    }

    /// Two exactly true stay if this Max and the other Min, exact or not, are in order, and become
    /// inexactly false if they are not. All else clears.
    fn merged_sorted(&self, other: &Set, stat: usize, in_order: fn(Value, Value) -> bool) -> Claim {
        if is_exactly(self.get(stat), true)
            && is_exactly(other.get(stat), true)
            && let Some(max) = self.get(MAX).value()
            && let Some(min) = other.get(MIN).value()
        {
            if in_order(max, min) {
                Exact(Value::Flag(true))
            } else {
                Inexact(Value::Flag(false))
            }
        } else {
            Absent
        }
    }

    /// Two exact sums that add give their exact sum. All else clears.
    fn merged_sum(&self, other: &Set) -> Claim {
        if let Exact(Value::Sum(x)) = self.get(SUM)
            && let Exact(Value::Sum(y)) = other.get(SUM)
            && let Ok(total) = i64::try_from(i128::from(x) + i128::from(y))
        {
            Exact(Value::Sum(total))
        } else {
            Absent
        }
    }

    /// Two claims give the total, exact only if both are. An absent side clears, and so does a total of
    /// 2^64 or more.
    fn merged_count(&self, other: &Set, stat: usize) -> Claim {
        let (a, b) = (self.get(stat), other.get(stat));
        let (Some(Value::Count(x)), Some(Value::Count(y))) = (a.value(), b.value()) else {
            return Absent;
        };
        let Ok(total) = u64::try_from(u128::from(x) + u128::from(y)) else {
            return Absent;
        };
        if is_exact(a) && is_exact(b) {
            Exact(Value::Count(total))
        } else {
            Inexact(Value::Count(total))
        }
    }

    /// The other's entries in order: a missing statistic takes the claim, a present one the intersection.
    /// One that is empty stops it and is told; what came before it stays.
    fn combine(&mut self, other: &Set) -> Result<(), usize> {
        for &(stat, claim) in &other.entries {
            let mine = self.get(stat);
            if mine == Absent {
                self.set(stat, claim);
                continue;
            }
            match BOUNDS[stat].intersection(mine, claim) {
                Meet::Claim(met) => self.set(stat, met),
                Meet::Empty => return Err(stat),
                Meet::None => unreachable!("both claims have values"),
            };
        }
        Ok(())
    }

    fn show(&self) -> String {
        text::show_statements(&self.entries)
    }
}

/// A set is read by setting its statements one by one.
fn read_set(column: Column, text: &str) -> Option<Set> {
    let mut set = Set {
        column,
        entries: Vec::new(),
    };
    for (stat, claim) in text::read_statements(column, text)? {
        if !set.set(stat, claim) {
            return None;
        }
    }
    Some(set)
}

fn set(request: &Request) -> Option<String> {
    let mut set = read_set(request.column, request.a)?;
    let (stat, claim) = text::read_statement(request.column, request.b)?;
    let taken = set.set(stat, claim);
    Some(if taken {
        set.show()
    } else {
        format!("refused 1 | {}", set.show())
    })
}

fn merge(request: &Request, ordered: bool) -> Option<String> {
    let mut set = read_set(request.column, request.a)?;
    set.merge(&read_set(request.column, request.b)?, ordered);
    Some(set.show())
}

fn combine(request: &Request) -> Option<String> {
    let mut set = read_set(request.column, request.a)?;
    Some(match set.combine(&read_set(request.column, request.b)?) {
        Ok(()) => set.show(),
        Err(stat) => format!("refused 2 {stat} | {}", set.show()),
    })
}

fn bound(request: &Request, bound: Bound, operation: &str) -> Option<String> {
    let a = text::read_claim(request.column, Kind::Element, request.a)?;
    let b = text::read_claim(request.column, Kind::Element, request.b)?;
    let met = match operation {
        "union" => bound.union(a, b).map_or(Meet::None, Meet::Claim),
        "intersection" => bound.intersection(a, b),
        _ => return None,
    };
    Some(match met {
        Meet::Claim(claim) => format!("value {claim}"),
        Meet::Empty => "empty".to_string(),
        Meet::None => "none".to_string(),
    })
}

fn answer(request: &Request) -> Option<String> {
    match request.op {
        "set" => set(request),
        "clear" => {
            let mut set = read_set(request.column, request.a)?;
            set.clear(text::read_name(request.b)?);
            Some(set.show())
        }
        "get" => {
            let set = read_set(request.column, request.a)?;
            Some(set.get(text::read_name(request.b)?).to_string())
        }
        "retain_only" => {
            let mut set = read_set(request.column, request.a)?;
            let stats: Vec<usize> = text::words(request.b)
                .map(text::read_name)
                .collect::<Option<_>>()?;
            set.retain_only(&stats);
            Some(set.show())
        }
        "merge_ordered" => merge(request, true),
        "merge_unordered" => merge(request, false),
        "combine" => combine(request),
        op => match op.split_once('_')? {
            ("lower", operation) => bound(request, Bound::Lower, operation),
            ("upper", operation) => bound(request, Bound::Upper, operation),
            ("precision", operation) => bound(request, Bound::Precision, operation),
            _ => None,
        },
    }
}

fn main() {
    text::serve(answer);
}
