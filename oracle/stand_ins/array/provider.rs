//! Stand-in for `provider.rs`, from how `stats_set.rs` uses it: who tells a claim of each statistic,
//! and the claim read as a value or as the statistic's bound.

use std::any::type_name;

use vortex_error::VortexError;
use vortex_error::vortex_panic;

use crate::expr::stats::Precision;
use crate::expr::stats::Stat;
use crate::expr::stats::StatType;
use crate::scalar::Scalar;

pub trait StatsProvider {
    /// The claim of the statistic, absent where there is none.
    fn get(&self, stat: Stat) -> Precision<Scalar>;

    /// How many entries there are.
    fn len(&self) -> usize;

    fn is_empty(&self) -> bool {
        self.len() == 0
    }
}

pub trait StatsProviderExt: StatsProvider {
    fn get_as<T: for<'a> TryFrom<&'a Scalar, Error = VortexError>>(
        &self,
        stat: Stat,
    ) -> Precision<T> {
        self.get(stat).map(|scalar| {
            T::try_from(&scalar).unwrap_or_else(|err| {
                vortex_panic!(err, "Failed to get stat {} as {}", stat, type_name::<T>())
            })
        })
    }

    fn get_scalar_bound<S: StatType<Scalar>>(&self) -> Option<S::Bound> {
        self.get(S::STAT).bound::<S>()
    }

    fn get_as_bound<S, T>(&self) -> Option<S::Bound>
    where
        S: StatType<T>,
        T: for<'a> TryFrom<&'a Scalar, Error = VortexError>,
    {
        self.get_as::<T>(S::STAT).bound::<S>()
    }
}

impl<P: StatsProvider> StatsProviderExt for P {}
