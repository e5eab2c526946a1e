//! The published Rust behind the text interface. Names of statistics and the spelling of claims are the
//! published files' own; a panic is answered `panic`.

use std::panic::AssertUnwindSafe;
use std::panic::catch_unwind;

use vortex_array::dtype::DType;
use vortex_array::dtype::Nullability::Nullable;
use vortex_array::dtype::PType;
use vortex_array::expr::stats::IntersectionResult;
use vortex_array::expr::stats::LowerBound;
use vortex_array::expr::stats::Precision;
use vortex_array::expr::stats::Stat;
use vortex_array::expr::stats::StatBound;
use vortex_array::expr::stats::UpperBound;
use vortex_array::scalar::PValue;
use vortex_array::scalar::Scalar;
use vortex_array::scalar::ScalarValue;
use vortex_array::stats::stats_set::StatsSet;

use text::Claim;
use text::Column;
use text::Kind;
use text::Request;
use text::Value;

mod text;

/// A measure is a signed 64-bit primitive, a mark is bytes; rows of both may be null.
fn dtype(column: Column) -> DType {
    match column {
        Column::Measure => DType::Primitive(PType::I64, Nullable),
        Column::Mark => DType::Binary(Nullable),
    }
}

fn scalar_value(value: Value) -> ScalarValue {
    match value {
        Value::Flag(b) => ScalarValue::from(b),
        Value::Measure(n) | Value::Sum(n) => ScalarValue::from(n),
        Value::Mark { lot, piece } => {
            ScalarValue::Binary([lot.to_be_bytes(), piece.to_be_bytes()].concat())
        }
        Value::Count(n) => ScalarValue::from(n),
    }
}

fn precision(claim: Claim) -> Precision<ScalarValue> {
    match claim {
        Claim::Exact(v) => Precision::Exact(scalar_value(v)),
        Claim::Inexact(v) => Precision::Inexact(scalar_value(v)),
        Claim::Absent => Precision::Absent,
    }
}

fn stat_named(name: &str) -> Option<Stat> {
    Stat::all().find(|stat| stat.name() == name)
}

fn kind(stat: Stat) -> Kind {
    match stat {
        Stat::IsConstant | Stat::IsSorted | Stat::IsStrictSorted => Kind::Flag,
        Stat::Max | Stat::Min => Kind::Element,
        Stat::Sum => Kind::Sum,
        Stat::NullCount | Stat::UncompressedSizeInBytes | Stat::NaNCount => Kind::Count,
    }
}

fn read_statement(column: Column, text: &str) -> Option<(Stat, Precision<ScalarValue>)> {
    let (name, claim) = text.split_once('=')?;
    let stat = stat_named(name)?;
    Some((
        stat,
        precision(text::read_claim(column, kind(stat), claim)?),
    ))
}

fn read_set(column: Column, text: &str) -> Option<StatsSet> {
    text::words(text)
        .map(|word| read_statement(column, word))
        .collect()
}

/// A value plain where it is of the kind wanted, else with its kind before it. Signed numbers that are
/// wanted neither as an element nor as a sum are named by what the column has of them.
fn show_value(column: Column, wanted: Kind, value: ScalarValue) -> String {
    let (plain, text) = match value {
        ScalarValue::Bool(b) => (wanted == Kind::Flag, format!("flag:{b}")),
        ScalarValue::Primitive(PValue::U64(n)) => (wanted == Kind::Count, format!("count:{n}")),
        ScalarValue::Primitive(PValue::I64(n)) => match column {
            Column::Measure => (
                matches!(wanted, Kind::Element | Kind::Sum),
                format!("element:{n}"),
            ),
            Column::Mark => (wanted == Kind::Sum, format!("sum:{n}")),
        },
        ScalarValue::Binary(bytes) => {
            let number = |part: &[u8]| part.iter().fold(0u64, |n, b| n << 8 | u64::from(*b));
            let (lot, piece) = bytes.split_at(4);
            (
                wanted == Kind::Element,
                format!("element:{}:{}", number(lot), number(piece)),
            )
        }
        ScalarValue::Decimal(none) => match none {},
    };
    match text.split_once(':') {
        Some((_, bare)) if plain => bare.to_string(),
        _ => text,
    }
}

fn show_claim(column: Column, wanted: Kind, claim: Precision<ScalarValue>) -> String {
    claim
        .map(|value| show_value(column, wanted, value))
        .to_string()
}

fn show_set(column: Column, set: &StatsSet) -> String {
    if set.is_empty() {
        return "-".to_string();
    }
    let texts: Vec<String> = set
        .iter()
        .map(|(stat, claim)| format!("{stat}={}", show_claim(column, kind(*stat), claim.clone())))
        .collect();
    texts.join(" ")
}

/// The number of the statistic that the error of a combine names first.
fn contradicted(error: &str) -> Option<u8> {
    let name = error.split(' ').next()?;
    Stat::all()
        .find(|stat| format!("{stat:?}") == name)
        .map(u8::from)
}

fn merge(request: &Request, ordered: bool) -> Option<String> {
    let column = request.column;
    let mut set = read_set(column, request.a)?;
    let other = read_set(column, request.b)?;
    let dtype = dtype(column);
    let (mine, theirs) = (set.as_mut_typed_ref(&dtype), other.as_typed_ref(&dtype));
    if ordered {
        mine.merge_ordered(&theirs);
    } else {
        mine.merge_unordered(&theirs);
    }
    Some(show_set(column, &set))
}

fn combine(request: &Request) -> Option<String> {
    let column = request.column;
    let mut set = read_set(column, request.a)?;
    let other = read_set(column, request.b)?;
    let dtype = dtype(column);
    let combined = set
        .as_mut_typed_ref(&dtype)
        .combine_sets(&other.as_typed_ref(&dtype));
    let left = show_set(column, &set);
    Some(match combined {
        Ok(()) => left,
        Err(error) => format!("refused 2 {} | {left}", contradicted(&error.to_string())?),
    })
}

fn read_bound<B: StatBound<Scalar>>(column: Column, text: &str) -> Option<B> {
    let claim = precision(text::read_claim(column, Kind::Element, text)?);
    Some(B::lift(claim.into_scalar(dtype(column))))
}

fn show_bound<B: StatBound<Scalar>>(column: Column, bound: B) -> String {
    let claim = bound
        .into_value()
        .map(|scalar| scalar.into_value().expect("no bound is null"));
    format!("value {}", show_claim(column, Kind::Element, claim))
}

fn union<B: StatBound<Scalar>>(request: &Request) -> Option<String> {
    let column = request.column;
    let a: B = read_bound(column, request.a)?;
    let b: B = read_bound(column, request.b)?;
    Some(
        a.union(&b)
            .map_or("none".to_string(), |bound| show_bound(column, bound)),
    )
}

fn intersection<B: StatBound<Scalar>>(request: &Request) -> Option<String> {
    let column = request.column;
    let a: B = read_bound(column, request.a)?;
    let b: B = read_bound(column, request.b)?;
    Some(match a.intersection(&b) {
        Some(IntersectionResult::Value(bound)) => show_bound(column, bound),
        Some(IntersectionResult::Empty) => "empty".to_string(),
        None => "none".to_string(),
    })
}

fn answer(request: &Request) -> Option<String> {
    let column = request.column;
    match request.op {
        "set" => {
            let mut set = read_set(column, request.a)?;
            let (stat, claim) = read_statement(column, request.b)?;
            set.set(stat, claim);
            Some(show_set(column, &set))
        }
        "clear" => {
            let mut set = read_set(column, request.a)?;
            set.clear(stat_named(request.b)?);
            Some(show_set(column, &set))
        }
        "get" => {
            let set = read_set(column, request.a)?;
            let stat = stat_named(request.b)?;
            Some(show_claim(column, kind(stat), set.get(stat)))
        }
        "retain_only" => {
            let mut set = read_set(column, request.a)?;
            let stats: Vec<Stat> = text::words(request.b)
                .map(stat_named)
                .collect::<Option<_>>()?;
            set.retain_only(&stats);
            Some(show_set(column, &set))
        }
        "merge_ordered" => merge(request, true),
        "merge_unordered" => merge(request, false),
        "combine" => combine(request),
        "lower_union" => union::<LowerBound<Scalar>>(request),
        "lower_intersection" => intersection::<LowerBound<Scalar>>(request),
        "upper_union" => union::<UpperBound<Scalar>>(request),
        "upper_intersection" => intersection::<UpperBound<Scalar>>(request),
        "precision_union" => union::<Precision<Scalar>>(request),
        "precision_intersection" => intersection::<Precision<Scalar>>(request),
        _ => None,
    }
}

fn main() {
    std::panic::set_hook(Box::new(|_| ()));
    text::serve(|request| {
        catch_unwind(AssertUnwindSafe(|| answer(request))).unwrap_or(Some("panic".to_string()))
    });
}
