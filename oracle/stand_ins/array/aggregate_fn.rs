//! Stand-in for aggregate functions: the type that each one's answer has, and whether a reference is
//! to one of them. Nothing is aggregated.

use std::any::Any;
use std::any::TypeId;
use std::sync::Arc;

use crate::dtype::DType;

#[derive(Clone, Copy, Debug, Default, PartialEq, Eq)]
pub struct EmptyOptions;

#[derive(Clone, Copy, Debug, Default, PartialEq, Eq)]
pub struct NumericalAggregateOpts {
    pub skip_nans: bool,
}

impl NumericalAggregateOpts {
    pub const fn skip_nans() -> Self {
        Self { skip_nans: true }
    }
}

pub trait AggregateFnVTable: 'static + Sized {
    type Options: 'static + Send + Sync;

    /// The type of the answer over a column of `input`, or nothing where there is no answer.
    fn return_dtype(&self, options: &Self::Options, input: &DType) -> Option<DType>;
}

#[derive(Clone)]
pub struct AggregateFnRef {
    function: TypeId,
    options: Arc<dyn Any + Send + Sync>,
}

impl AggregateFnRef {
    pub fn is<V: AggregateFnVTable>(&self) -> bool {
        self.function == TypeId::of::<V>()
    }

    pub fn as_opt<V: AggregateFnVTable>(&self) -> Option<&V::Options> {
        if self.is::<V>() {
            self.options.downcast_ref()
        } else {
            None
        }
    }
}

pub trait AggregateFnVTableExt: AggregateFnVTable {
    fn bind(self, options: Self::Options) -> AggregateFnRef {
        AggregateFnRef {
            function: TypeId::of::<Self>(),
            options: Arc::new(options),
        }
    }
}

impl<V: AggregateFnVTable> AggregateFnVTableExt for V {}

pub mod fns {
    use super::AggregateFnVTable;
    use super::EmptyOptions;
    use super::NumericalAggregateOpts;
    use crate::dtype::DType;
    use crate::dtype::Nullability::NonNullable;
    use crate::dtype::Nullability::Nullable;
    use crate::dtype::PType;

    fn count() -> Option<DType> {
        Some(DType::Primitive(PType::U64, NonNullable))
    }

    pub mod max {
        pub struct Max;

        impl super::AggregateFnVTable for Max {
            type Options = super::NumericalAggregateOpts;

            fn return_dtype(
                &self,
                _: &Self::Options,
                input: &super::DType,
            ) -> Option<super::DType> {
                Some(input.clone())
            }
        }
    }

    pub mod min {
        pub struct Min;

        impl super::AggregateFnVTable for Min {
            type Options = super::NumericalAggregateOpts;

            fn return_dtype(
                &self,
                _: &Self::Options,
                input: &super::DType,
            ) -> Option<super::DType> {
                Some(input.clone())
            }
        }
    }

    pub mod sum {
        use super::*;

        pub struct Sum;

        /// Numbers have sums of 64 bits, bytes have none.
        impl AggregateFnVTable for Sum {
            type Options = NumericalAggregateOpts;

            fn return_dtype(&self, _: &Self::Options, input: &DType) -> Option<DType> {
                match input {
                    DType::Primitive(ptype, _) => Some(DType::Primitive(*ptype, Nullable)),
                    _ => None,
                }
            }
        }
    }

    pub mod null_count {
        use super::*;

        pub struct NullCount;

        impl AggregateFnVTable for NullCount {
            type Options = EmptyOptions;

            fn return_dtype(&self, _: &EmptyOptions, _: &DType) -> Option<DType> {
                count()
            }
        }
    }

    pub mod nan_count {
        use super::*;

        pub struct NanCount;

        /// As published, floats alone have a NaN count. With `nan_everywhere` every column has one,
        /// so that combining it can be run.
        impl AggregateFnVTable for NanCount {
            type Options = EmptyOptions;

            fn return_dtype(&self, _: &EmptyOptions, input: &DType) -> Option<DType> {
                match input {
                    DType::Primitive(ptype, _) if ptype.is_float() => count(),
                    _ if cfg!(nan_everywhere) => count(),
                    _ => None,
                }
            }
        }
    }

    pub mod uncompressed_size_in_bytes {
        use super::*;

        pub struct UncompressedSizeInBytes;

        #[derive(Clone, Copy, Debug, PartialEq, Eq)]
        pub struct UncompressedSizeOpts {
            exact: bool,
        }

        impl UncompressedSizeOpts {
            pub const fn exact() -> Self {
                Self { exact: true }
            }

            pub const fn is_exact(&self) -> bool {
                self.exact
            }
        }

        /// As published, every type of ours has a size.
        impl AggregateFnVTable for UncompressedSizeInBytes {
            type Options = UncompressedSizeOpts;

            fn return_dtype(&self, _: &UncompressedSizeOpts, _: &DType) -> Option<DType> {
                count()
            }
        }
    }
}
