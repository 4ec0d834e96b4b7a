//! Numbers as hexadecimal digits.

use crate::proved::der_core::{AsUintRef, Uint, UintRef};
use core::fmt;

impl fmt::LowerHex for UintRef<'_> {
    /// Prints two digits for each byte. With `#` they stand after `0x`.
    fn fmt(&self, f: &mut fmt::Formatter<'_>) -> fmt::Result {
        f.write_str(if f.alternate() { "0x" } else { "" })?;
        self.as_bytes().iter().try_for_each(|octet| write!(f, "{octet:02x}"))
    }
}

impl fmt::LowerHex for Uint {
    /// As of `UintRef`.
    fn fmt(&self, f: &mut fmt::Formatter<'_>) -> fmt::Result {
        fmt::LowerHex::fmt(&self.as_uint_ref(), f)
    }
}

impl fmt::Debug for UintRef<'_> {
    /// Prints the number in hexadecimal.
    fn fmt(&self, f: &mut fmt::Formatter<'_>) -> fmt::Result {
        write!(f, "{self:#x}")
    }
}

impl fmt::Debug for Uint {
    /// Prints the number in hexadecimal.
    fn fmt(&self, f: &mut fmt::Formatter<'_>) -> fmt::Result {
        write!(f, "{self:#x}")
    }
}
