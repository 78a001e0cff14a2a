//! Types, and which of them agree.
use super::{ItemNumber, Tables};
use crate::report::Findings;
use crate::tree::{self, Scalar, Side};

#[derive(Clone, Copy, PartialEq, Eq)]
pub enum Type {
    /// The type of an expression with an unknown name. It agrees with every type.
    Unknown,
    /// The type of an element or field of a variable without such parts. It agrees with every type, but an operator on it gives its own.
    Missing,
    Scalar(Scalar),
    Pointer(usize),
    Array(Scalar),
    End(usize, Side),
}

pub const INT: Type = Type::Scalar(Scalar::Int);
pub const BOOL: Type = Type::Scalar(Scalar::Bool);

impl Type {
    pub fn is_silent(self) -> bool {
        matches!(self, Type::Unknown | Type::Missing)
    }

    pub fn is_scalar(self) -> bool {
        matches!(self, Type::Scalar(_))
    }

    pub fn is_number(self) -> bool {
        matches!(self, Type::Scalar(Scalar::Int | Scalar::Byte))
    }

    pub fn agrees(self, other: Type) -> bool {
        self.is_silent() || other.is_silent() || self == other || self.is_number() && other.is_number()
    }
}

/// Returns whether a written type is one of the exchange heap, even if its names are unknown.
pub fn in_heap(written: &tree::Type) -> bool {
    !matches!(written, tree::Type::Scalar(_))
}

impl<'a> Tables<'a> {
    /// Returns the type that is written, or `Unknown` if one of its names is not found.
    pub fn written(&self, written: &tree::Type, findings: &mut Findings) -> Type {
        match written {
            tree::Type::Scalar(scalar) => Type::Scalar(*scalar),
            tree::Type::Array { element, .. } => Type::Array(*element),
            tree::Type::Pointer { target, .. } => match self.items.get(self.word(target)) {
                Some(ItemNumber::Struct(number)) => Type::Pointer(number),
                _ => {
                    findings.unknown(*target);
                    Type::Unknown
                }
            },
            tree::Type::End { contract, side, state, .. } => {
                let Some(ItemNumber::Contract(number)) = self.items.get(self.word(contract)) else {
                    findings.unknown(*contract);
                    return Type::Unknown;
                };
                match state {
                    Some(state) if self.contracts[number].state_names.get(self.word(state)).is_none() => {
                        findings.unknown(*state);
                        Type::Unknown
                    }
                    _ => Type::End(number, *side),
                }
            }
        }
    }
}
