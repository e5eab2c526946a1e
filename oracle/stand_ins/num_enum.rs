//! Stand-in for `num_enum`: the two derives between an enum and its numbers.

pub use stand_in_derive::IntoPrimitive;
pub use stand_in_derive::TryFromPrimitive;
