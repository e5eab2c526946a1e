//! Stand-in for `vortex_error`: an error that is its text, and panics that carry one.

use std::fmt::Debug;
use std::fmt::Display;
use std::fmt::Formatter;

pub struct VortexError(String);

pub type VortexResult<T> = Result<T, VortexError>;

impl VortexError {
    pub fn new(text: String) -> Self {
        Self(text)
    }
}

impl Display for VortexError {
    fn fmt(&self, f: &mut Formatter<'_>) -> std::fmt::Result {
        f.write_str(&self.0)
    }
}

impl Debug for VortexError {
    fn fmt(&self, f: &mut Formatter<'_>) -> std::fmt::Result {
        f.write_str(&self.0)
    }
}

impl std::error::Error for VortexError {}

/// The value, or a panic with a reason.
pub trait VortexExpect {
    type Output;

    fn vortex_expect(self, reason: &'static str) -> Self::Output;
}

impl<T> VortexExpect for Option<T> {
    type Output = T;

    fn vortex_expect(self, reason: &'static str) -> T {
        self.unwrap_or_else(|| panic!("{reason}"))
    }
}

impl<T, E: Display> VortexExpect for Result<T, E> {
    type Output = T;

    fn vortex_expect(self, reason: &'static str) -> T {
        self.unwrap_or_else(|err| panic!("{reason}: {err}"))
    }
}

#[macro_export]
macro_rules! vortex_err {
    ($($args:tt)+) => {
        $crate::VortexError::new(format!($($args)+))
    };
}

#[macro_export]
macro_rules! vortex_panic {
    ($fmt:literal $(, $arg:expr)* $(,)?) => {
        panic!($fmt $(, $arg)*)
    };
    ($err:expr, $fmt:literal $(, $arg:expr)* $(,)?) => {
        panic!("{}: {}", format!($fmt $(, $arg)*), $err)
    };
}
