// Made of crates/pkcs1_c/src/status.rt by tools/erase/erase.py, and not to be edited.
//! The statuses that calls return: 0, or the number of an error.

use crate::calls::pkcs1_c::bytes::Bytes;
use crate::proved::der_core::ErrorKind;
use crate::proved::pkcs1::Error;

/// The call succeeded.
pub(crate) const OK: u32 = 0;
/// An earlier read failed: not returned by these calls.
pub(crate) const FAILED: u32 = 1;
/// The input ends too early.
pub(crate) const INCOMPLETE: u32 = 2;
/// A length is indefinite.
pub(crate) const INDEFINITE_LENGTH: u32 = 3;
/// A number has no octets.
pub(crate) const LENGTH: u32 = 4;
/// A number isn't in shortest form, or a default is written.
pub(crate) const NONCANONICAL: u32 = 5;
/// An object identifier is malformed.
pub(crate) const OID_MALFORMED: u32 = 6;
/// The algorithm is another one.
pub(crate) const OID_UNKNOWN: u32 = 7;
/// A length is above the limit.
pub(crate) const OVERFLOW: u32 = 8;
/// A length isn't in shortest form.
pub(crate) const OVERLENGTH: u32 = 9;
/// The algorithm has no parameters.
pub(crate) const PARAMETERS_MISSING: u32 = 10;
/// Another tag was expected.
pub(crate) const TAG_UNEXPECTED: u32 = 11;
/// A tag octet isn't allowed.
pub(crate) const TAG_UNKNOWN: u32 = 12;
/// Bytes follow the value.
pub(crate) const TRAILING_DATA: u32 = 13;
/// A value isn't allowed.
pub(crate) const VALUE: u32 = 14;
/// The encoding is longer than the output.
pub(crate) const NO_ROOM: u32 = 15;
/// A read or a write failed: not returned by these calls.
pub(crate) const FILE: u32 = 16;
/// Out of memory.
pub(crate) const OUT_OF_MEMORY: u32 = 17;
/// There aren't as many other primes as the key says.
pub(crate) const OTHER_PRIMES: u32 = 21;

/// The status of an error kind.
pub(crate) fn kind_number(kind: &ErrorKind) -> u32 {
    match kind {
        ErrorKind::Failed => FAILED,
        ErrorKind::Incomplete => INCOMPLETE,
        ErrorKind::IndefiniteLength => INDEFINITE_LENGTH,
        ErrorKind::Length { .. } => LENGTH,
        ErrorKind::Noncanonical { .. } => NONCANONICAL,
        ErrorKind::OidMalformed => OID_MALFORMED,
        ErrorKind::OidUnknown => OID_UNKNOWN,
        ErrorKind::Overflow => OVERFLOW,
        ErrorKind::Overlength => OVERLENGTH,
        ErrorKind::ParametersMissing => PARAMETERS_MISSING,
        ErrorKind::TagUnexpected { .. } => TAG_UNEXPECTED,
        ErrorKind::TagUnknown { .. } => TAG_UNKNOWN,
        ErrorKind::TrailingData => TRAILING_DATA,
        ErrorKind::Value { .. } => VALUE,
        ErrorKind::NoRoom => NO_ROOM,
        ErrorKind::File => FILE,
        ErrorKind::OutOfMemory => OUT_OF_MEMORY,
    }
}

/// The status of an error.
pub(crate) fn status(error: &Error) -> u32 {
    match error {
        Error::Asn1(error) => kind_number(&error.kind),
        Error::Crypto => 18,
        Error::KeyMalformed => 19,
        Error::Version => 20,
    }
}

/// The C string that describes a status: its octets end with a zero.
fn status_octets(status: u32) -> &'static [u8] {
    match status {
        0 => b"no error\0",
        1 => b"an earlier read failed\0",
        2 => b"the input ends too early: it is empty or cut off, or a field is missing\0",
        3 => b"the length is indefinite: this is BER, not DER\0",
        4 => b"the contents have a wrong length: a number has no octets\0",
        5 =>
            b"the contents are not in shortest form: needless zeros in front, or (strict) a default written out\0",
        6 =>
            b"the object identifier is malformed: empty, cut off, not in shortest form, or over 39 octets\0",
        7 =>
            b"the object identifier is another one: another algorithm, or PKCS #8 with no RSA key or an RSA-PSS key\0",
        8 =>
            b"a length passes the limit of 4294967295 octets, or stands in more than four octets\0",
        9 => b"the length is not in shortest form: this is not DER\0",
        10 =>
            b"the algorithm parameters are missing: rsaEncryption needs NULL, RSASSA-PSS and RSAES-OAEP a SEQUENCE\0",
        11 =>
            b"another tag was expected: the input may be PEM, PKCS #1, PKCS #8, SubjectPublicKeyInfo or an encrypted key\0",
        12 => b"the tag octet is not known: this is not DER of a key or of parameters\0",
        13 =>
            b"bytes follow the value, or a field that it does not have: a private key read as a public one, perhaps\0",
        14 =>
            b"the value is not allowed: negative, salt over 255, another version, trailer or NULL; a public key, perhaps\0",
        15 => b"there is too little room for the encoding\0",
        16 => b"a read or a write failed\0",
        17 => b"no memory was found\0",
        21 => b"the other primes are not as many as the key says\0",
        _ => b"another error\0",
    }
}

/// The C string that describes this status, which may be any number. Its octets end with a zero.
#[unsafe(no_mangle)]
pub extern "C" fn pkcs1_c_status_text(status: u32, text: &mut Bytes<'static>) {
    text.octets = status_octets(status);
}

/// The version of the library, as a C string. Its octets end with a zero.
#[unsafe(no_mangle)]
pub extern "C" fn pkcs1_c_version(text: &mut Bytes<'static>) {
    text.octets = b"0.8.1\0";
}
