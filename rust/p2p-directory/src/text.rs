//! Keys and signatures as bytes, and as text.

use crate::error::ParseError;
use std::fmt;

/// How a type whose one field is its bytes is shown.
macro_rules! shown_in_hexadecimal {
    ($type:ident) => {
        impl AsRef<[u8]> for $type {
            fn as_ref(&self) -> &[u8] {
                &self.0
            }
        }

        impl std::fmt::Display for $type {
            fn fmt(&self, f: &mut std::fmt::Formatter<'_>) -> std::fmt::Result {
                $crate::text::write_lower(&self.0, f)
            }
        }

        impl std::fmt::Debug for $type {
            fn fmt(&self, f: &mut std::fmt::Formatter<'_>) -> std::fmt::Result {
                write!(f, concat!(stringify!($type), "({})"), self)
            }
        }

        impl std::fmt::LowerHex for $type {
            fn fmt(&self, f: &mut std::fmt::Formatter<'_>) -> std::fmt::Result {
                $crate::text::write_prefix(f)?;
                $crate::text::write_lower(&self.0, f)
            }
        }

        impl std::fmt::UpperHex for $type {
            fn fmt(&self, f: &mut std::fmt::Formatter<'_>) -> std::fmt::Result {
                $crate::text::write_prefix(f)?;
                self.0.iter().try_for_each(|byte| write!(f, "{byte:02X}"))
            }
        }
    };
}

/// How a type of which any bytes are a value is made from them.
macro_rules! made_of_any_bytes {
    ($type:ident, $size:ident) => {
        impl From<[u8; $size]> for $type {
            fn from(bytes: [u8; $size]) -> $type {
                $type(bytes)
            }
        }

        impl TryFrom<&[u8]> for $type {
            type Error = std::array::TryFromSliceError;

            /// Converts a slice of exactly that length, and fails for another length.
            fn try_from(bytes: &[u8]) -> Result<$type, std::array::TryFromSliceError> {
                bytes.try_into().map($type)
            }
        }

        impl std::str::FromStr for $type {
            type Err = $crate::error::ParseError;

            /// Parses two hexadecimal digits for each byte, in either case. Fails with
            /// [`Length`](crate::ParseError::Length) for another number of digits, and otherwise
            /// with [`Digit`](crate::ParseError::Digit).
            fn from_str(text: &str) -> Result<$type, $crate::error::ParseError> {
                $crate::text::read_hexadecimal(text).map($type)
            }
        }
    };
}

pub(crate) use {made_of_any_bytes, shown_in_hexadecimal};

/// Writes `0x` if it is asked for.
pub(crate) fn write_prefix(f: &mut fmt::Formatter<'_>) -> fmt::Result {
    match f.alternate() {
        true => f.write_str("0x"),
        false => Ok(()),
    }
}

/// Writes two digits for each byte.
pub(crate) fn write_lower(bytes: &[u8], f: &mut fmt::Formatter<'_>) -> fmt::Result {
    bytes.iter().try_for_each(|byte| write!(f, "{byte:02x}"))
}

/// Reads two digits for each byte.
pub(crate) fn read_hexadecimal<const N: usize>(text: &str) -> Result<[u8; N], ParseError> {
    let (pairs, rest) = text.as_bytes().as_chunks();
    if pairs.len() != N || !rest.is_empty() {
        return Err(ParseError::Length(text.len()));
    }
    let mut bytes = [0; N];
    for (byte, [high, low]) in bytes.iter_mut().zip(pairs) {
        *byte = digit(*high)? << 4 | digit(*low)?;
    }
    Ok(bytes)
}

fn digit(character: u8) -> Result<u8, ParseError> {
    let digit = char::from(character).to_digit(16);
    digit.map(|digit| digit as u8).ok_or(ParseError::Digit)
}
