//! Stand-in for `stat_bound.rs`, from its three implementations and how `stats_set.rs` uses them.

use crate::expr::stats::IntersectionResult;
use crate::expr::stats::Precision;
use crate::expr::stats::Stat;

/// A claim read as a bound.
pub trait StatBound<T>: Sized {
    fn lift(value: Precision<T>) -> Self;

    fn into_value(self) -> Precision<T>;

    /// The bound of the rows of both, or nothing where there is none.
    fn union(&self, other: &Self) -> Option<Self>;

    /// The bound of rows that both speak of, or nothing where there is none.
    fn intersection(&self, other: &Self) -> Option<IntersectionResult<Self>>;

    fn to_exact(&self) -> Option<&T>;
}

/// A statistic with the bound that its claims are read as.
pub trait StatType<T> {
    type Bound: StatBound<T>;

    const STAT: Stat;
}
