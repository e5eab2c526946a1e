//! The crate around the published files. Every module here is a stand-in but `partial_ord`,
//! `stats::stats_set`, and `expr::stats` with its `bound` and `precision`.

pub mod aggregate_fn;
pub mod dtype;
pub mod expr {
    pub mod stats;
}
pub mod partial_ord;
pub mod scalar;
pub mod stats {
    pub mod stats_set;
}
