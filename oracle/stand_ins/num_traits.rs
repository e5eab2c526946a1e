//! Stand-in for `num_traits`.

/// A sum, or nothing where it does not fit.
pub trait CheckedAdd: Sized {
    fn checked_add(&self, v: &Self) -> Option<Self>;
}
