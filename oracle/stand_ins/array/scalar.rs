//! Stand-in for scalars. Comparison and checked addition have the meanings of the rules: flags with
//! false below true, numbers by value, bytes one by one from the first, and no sum where the total
//! does not fit.

use std::cmp::Ordering;
use std::fmt::Display;
use std::fmt::Formatter;

use num_traits::CheckedAdd;
use vortex_error::VortexError;
use vortex_error::VortexExpect;
use vortex_error::VortexResult;
use vortex_error::vortex_err;
use vortex_error::vortex_panic;

use crate::dtype::DType;
use crate::dtype::DecimalDType;
use crate::dtype::PType;

#[derive(Clone, Copy, Debug)]
pub enum PValue {
    U64(u64),
    I64(i64),
}

impl PValue {
    pub fn ptype(&self) -> PType {
        match self {
            PValue::U64(_) => PType::U64,
            PValue::I64(_) => PType::I64,
        }
    }

    pub fn as_u64(self) -> Option<u64> {
        match self {
            PValue::U64(v) => Some(v),
            PValue::I64(v) => u64::try_from(v).ok(),
        }
    }

    pub fn as_i64(self) -> Option<i64> {
        match self {
            PValue::U64(v) => i64::try_from(v).ok(),
            PValue::I64(v) => Some(v),
        }
    }
}

// As published, the right side is read as the left side's type, and one that cannot be panics.
impl PartialEq for PValue {
    fn eq(&self, other: &Self) -> bool {
        self.partial_cmp(other) == Some(Ordering::Equal)
    }
}

impl Eq for PValue {}

impl PartialOrd for PValue {
    fn partial_cmp(&self, other: &Self) -> Option<Ordering> {
        Some(match self {
            PValue::U64(v) => v.cmp(&other.as_u64().vortex_expect("upcast")),
            PValue::I64(v) => v.cmp(&other.as_i64().vortex_expect("upcast")),
        })
    }
}

impl Display for PValue {
    fn fmt(&self, f: &mut Formatter<'_>) -> std::fmt::Result {
        match self {
            PValue::U64(v) => write!(f, "{v}u64"),
            PValue::I64(v) => write!(f, "{v}i64"),
        }
    }
}

/// No value of ours is decimal.
#[derive(Clone, Copy, Debug, PartialEq, Eq)]
pub enum DecimalValue {}

impl DecimalValue {
    pub fn fits_in_precision(&self, _dtype: DecimalDType) -> bool {
        match *self {}
    }
}

#[derive(Clone, Debug, PartialEq, Eq)]
pub enum ScalarValue {
    Bool(bool),
    Primitive(PValue),
    Decimal(DecimalValue),
    Binary(Vec<u8>),
}

impl Display for ScalarValue {
    fn fmt(&self, f: &mut Formatter<'_>) -> std::fmt::Result {
        match self {
            ScalarValue::Bool(b) => write!(f, "{b}"),
            ScalarValue::Primitive(p) => write!(f, "{p}"),
            ScalarValue::Decimal(d) => match *d {},
            ScalarValue::Binary(bytes) => bytes.iter().try_for_each(|b| write!(f, "{b:02x}")),
        }
    }
}

impl From<bool> for ScalarValue {
    fn from(value: bool) -> Self {
        ScalarValue::Bool(value)
    }
}

impl From<u64> for ScalarValue {
    fn from(value: u64) -> Self {
        ScalarValue::Primitive(PValue::U64(value))
    }
}

impl From<usize> for ScalarValue {
    fn from(value: usize) -> Self {
        ScalarValue::from(value as u64)
    }
}

impl From<i64> for ScalarValue {
    fn from(value: i64) -> Self {
        ScalarValue::Primitive(PValue::I64(value))
    }
}

impl TryFrom<&ScalarValue> for usize {
    type Error = VortexError;

    fn try_from(value: &ScalarValue) -> VortexResult<usize> {
        let ScalarValue::Primitive(p) = value else {
            return Err(vortex_err!("{value} is no primitive"));
        };
        p.as_u64()
            .and_then(|v| usize::try_from(v).ok())
            .ok_or_else(|| vortex_err!("cannot read {p} as usize"))
    }
}

/// A value with its type; without a value it is null.
#[derive(Clone, Debug)]
pub struct Scalar {
    dtype: DType,
    value: Option<ScalarValue>,
}

impl Scalar {
    pub fn try_new(dtype: DType, value: Option<ScalarValue>) -> VortexResult<Self> {
        Self::validate(&dtype, value.as_ref())?;
        Ok(Self { dtype, value })
    }

    /// # Safety
    ///
    /// The value must be valid for the type.
    pub unsafe fn new_unchecked(dtype: DType, value: Option<ScalarValue>) -> Self {
        Self { dtype, value }
    }

    /// Whether a scalar of the type can hold the value.
    pub fn validate(dtype: &DType, value: Option<&ScalarValue>) -> VortexResult<()> {
        let valid = match (dtype, value) {
            (_, None) => dtype.is_nullable(),
            (DType::Bool(_), Some(ScalarValue::Bool(_))) => true,
            (DType::Primitive(ptype, _), Some(ScalarValue::Primitive(p))) => p.ptype() == *ptype,
            (DType::Decimal(..), Some(ScalarValue::Decimal(_))) => true,
            (DType::Binary(_), Some(ScalarValue::Binary(_))) => true,
            _ => false,
        };
        if valid {
            Ok(())
        } else {
            Err(vortex_err!("no scalar of {dtype:?} holds {value:?}"))
        }
    }

    pub fn dtype(&self) -> &DType {
        &self.dtype
    }

    pub fn value(&self) -> Option<&ScalarValue> {
        self.value.as_ref()
    }

    pub fn into_value(self) -> Option<ScalarValue> {
        self.value
    }

    pub fn as_primitive(&self) -> PrimitiveScalar {
        match &self.value {
            None => PrimitiveScalar(None),
            Some(ScalarValue::Primitive(p)) => PrimitiveScalar(Some(*p)),
            Some(value) => vortex_panic!("{} is no primitive", value),
        }
    }

    pub fn as_decimal(&self) -> DecimalScalar {
        match &self.value {
            Some(ScalarValue::Decimal(d)) => match *d {},
            _ => vortex_panic!("no scalar is decimal"),
        }
    }
}

/// Scalars of one type compare, null below all else; scalars of two types do not.
impl PartialOrd for Scalar {
    fn partial_cmp(&self, other: &Self) -> Option<Ordering> {
        if !self.dtype.eq_ignore_nullability(&other.dtype) {
            return None;
        }
        match (&self.value, &other.value) {
            (None, None) => Some(Ordering::Equal),
            (None, Some(_)) => Some(Ordering::Less),
            (Some(_), None) => Some(Ordering::Greater),
            (Some(ScalarValue::Bool(a)), Some(ScalarValue::Bool(b))) => a.partial_cmp(b),
            (Some(ScalarValue::Primitive(a)), Some(ScalarValue::Primitive(b))) => a.partial_cmp(b),
            (Some(ScalarValue::Binary(a)), Some(ScalarValue::Binary(b))) => a.partial_cmp(b),
            _ => None,
        }
    }
}

impl PartialEq for Scalar {
    fn eq(&self, other: &Self) -> bool {
        self.dtype.eq_ignore_nullability(&other.dtype) && self.value == other.value
    }
}

impl Eq for Scalar {}

impl TryFrom<&Scalar> for bool {
    type Error = VortexError;

    fn try_from(scalar: &Scalar) -> VortexResult<bool> {
        match scalar.value() {
            Some(ScalarValue::Bool(b)) => Ok(*b),
            other => Err(vortex_err!("{other:?} is no flag")),
        }
    }
}

pub struct PrimitiveScalar(Option<PValue>);

impl PrimitiveScalar {
    pub fn pvalue(&self) -> Option<PValue> {
        self.0
    }
}

impl CheckedAdd for PrimitiveScalar {
    fn checked_add(&self, other: &Self) -> Option<Self> {
        let total = match (self.0?, other.0?) {
            (PValue::I64(a), PValue::I64(b)) => PValue::I64(a.checked_add(b)?),
            (PValue::U64(a), PValue::U64(b)) => PValue::U64(a.checked_add(b)?),
            _ => return None,
        };
        Some(PrimitiveScalar(Some(total)))
    }
}

#[derive(Clone, Copy, Debug, PartialEq, Eq)]
pub enum NumericOperator {
    Add,
}

/// There is none.
pub enum DecimalScalar {}

impl DecimalScalar {
    pub fn checked_binary_numeric(
        &self,
        _other: &Self,
        _operator: NumericOperator,
    ) -> VortexResult<Option<Scalar>> {
        match *self {}
    }

    pub fn decimal_value(&self) -> Option<DecimalValue> {
        match *self {}
    }
}
