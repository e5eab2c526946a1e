//! Stand-in for `enum_iterator`: the values of an enum in the order in which it declares them.

pub use stand_in_derive::Sequence;

pub trait Sequence: Copy + 'static {
    const VALUES: &'static [Self];
}

pub fn all<T: Sequence>() -> impl Iterator<Item = T> {
    T::VALUES.iter().copied()
}
