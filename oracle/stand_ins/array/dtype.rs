//! Stand-in for the logical types: those of a measure, a mark and their statistics, and what the
//! published files name beside them.

#[derive(Clone, Copy, Debug, PartialEq, Eq)]
pub enum Nullability {
    NonNullable,
    Nullable,
}

#[derive(Clone, Copy, Debug, PartialEq, Eq)]
pub enum PType {
    U64,
    I64,
    F64,
}

impl PType {
    pub fn is_float(&self) -> bool {
        matches!(self, PType::F64)
    }
}

/// No column of ours is decimal.
#[derive(Clone, Copy, Debug, PartialEq, Eq)]
pub struct DecimalDType;

#[derive(Clone, Debug, PartialEq, Eq)]
pub enum DType {
    Null,
    Bool(Nullability),
    Primitive(PType, Nullability),
    Decimal(DecimalDType, Nullability),
    Binary(Nullability),
}

impl DType {
    pub fn is_nullable(&self) -> bool {
        match self {
            DType::Null => true,
            DType::Bool(n) | DType::Primitive(_, n) | DType::Decimal(_, n) | DType::Binary(n) => {
                *n == Nullability::Nullable
            }
        }
    }

    pub fn eq_ignore_nullability(&self, other: &Self) -> bool {
        match (self, other) {
            (DType::Null, DType::Null)
            | (DType::Bool(_), DType::Bool(_))
            | (DType::Binary(_), DType::Binary(_)) => true,
            (DType::Primitive(a, _), DType::Primitive(b, _)) => a == b,
            (DType::Decimal(a, _), DType::Decimal(b, _)) => a == b,
            _ => false,
        }
    }
}
