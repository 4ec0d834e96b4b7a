// Made of crates/pkcs1_c/src/private_key.rt by tools/erase/erase.py, and not to be edited.
//! Private keys.

use crate::calls::pkcs1_c::bytes::Bytes;
use crate::calls::pkcs1_c::given_key::GivenKey;
use crate::calls::pkcs1_c::status::{OK, OTHER_PRIMES, status};
use crate::calls::pkcs1_c::written::write_encoding;
use crate::proved::der_core::Length;
use crate::proved::pkcs1::{OtherPrimeInfo, RsaPrivateKeyView, UintRef, first_other_prime};

/// The numbers of a private key, most significant byte first.
#[repr(C)]
#[derive(Clone, Copy)]
pub struct PrivateKey<'a> {
    /// The modulus n.
    pub modulus: &'a [u8],
    /// The public exponent e.
    pub public_exponent: &'a [u8],
    /// The private exponent d.
    pub private_exponent: &'a [u8],
    /// The first prime p.
    pub prime1: &'a [u8],
    /// The second prime q.
    pub prime2: &'a [u8],
    /// The exponent of the first prime.
    pub exponent1: &'a [u8],
    /// The exponent of the second prime.
    pub exponent2: &'a [u8],
    /// The coefficient.
    pub coefficient: &'a [u8],
    /// How many primes there are after the first two.
    pub other_primes: usize,
}

/// A prime after the first two.
#[repr(C)]
#[derive(Clone, Copy)]
pub struct OtherPrime<'a> {
    /// The prime.
    pub prime: &'a [u8],
    /// Its exponent.
    pub exponent: &'a [u8],
    /// Its coefficient.
    pub coefficient: &'a [u8],
}

/// The C struct of a prime.
fn to_c_other_prime<'a>(info: &OtherPrimeInfo<UintRef<'a>>) -> OtherPrime<'a> {
    OtherPrime {
        prime: info.prime.as_bytes(),
        exponent: info.exponent.as_bytes(),
        coefficient: info.coefficient.as_bytes(),
    }
}

/// The C struct of a key.
#[inline(always)]
pub(crate) fn to_c_key<'a>(view: &RsaPrivateKeyView<'a>) -> PrivateKey<'a> {
    PrivateKey {
        modulus: view.modulus().as_bytes(),
        public_exponent: view.public_exponent().as_bytes(),
        private_exponent: view.private_exponent().as_bytes(),
        prime1: view.prime1().as_bytes(),
        prime2: view.prime2().as_bytes(),
        exponent1: view.exponent1().as_bytes(),
        exponent2: view.exponent2().as_bytes(),
        coefficient: view.coefficient().as_bytes(),
        other_primes: view.other_primes().remaining(),
    }
}

/// The encodings of a key's other primes, one behind the other.
#[inline(always)]
pub(crate) fn to_c_list<'a>(view: &RsaPrivateKeyView<'a>) -> Bytes<'a> {
    Bytes {
        octets: view.other_primes().as_bytes(),
    }
}

/// Decodes a private key, and allocates nothing. `OK` exactly if the octets encode one: then `key` holds it, in parts
/// of `encoding`, with the number of its other primes, and `listed` their encodings, one behind the other. Else the
/// status of the first fault of a private key, and both are as they were.
#[unsafe(no_mangle)]
pub extern "C" fn pkcs1_c_private_key_decode<'a>(
    encoding: *const u8, encoding_len: usize,
    key: &mut PrivateKey<'a>,
    listed: &mut Bytes<'a>,
) -> u32 {
    let encoding = unsafe { core::slice::from_raw_parts(encoding, encoding_len) };
    match RsaPrivateKeyView::try_from(encoding) {
        Ok(view) => {
            *key = to_c_key(&view);
            *listed = to_c_list(&view);
            OK
        }
        Err(error) => status(&error),
    }
}

/// Puts the primes whose encodings are `listed`, one behind the other, into `others`, as many as fit. The rest of it is
/// as it was. Nothing is promised of other octets, at which it stops, or of more octets than the limit.
#[unsafe(no_mangle)]
pub extern "C" fn pkcs1_c_other_primes<'a>(listed: *const u8, listed_len: usize, others: *mut OtherPrime<'a>, others_len: usize) {
    let listed = unsafe { core::slice::from_raw_parts(listed, listed_len) };
    let others = unsafe { core::slice::from_raw_parts_mut(others, others_len) };
    if listed.len() > Length::MAX.to_usize() {
        return;
    }
    let mut rest = listed;
    for i in 0..others.len() {
        match first_other_prime(rest) {
            Ok((prime, behind)) => {
                others[i] = to_c_other_prime(&prime);
                rest = behind;
            }
            Err(_) => return,
        }
    }
}

/// Puts the only encoding of a private key to the front of `out`, and allocates nothing. `len` and the rest of `out`
/// are as of `pkcs1_c_public_key_encode`. `NO_ROOM` exactly if the key has an encoding, and `out` is shorter.
/// `OTHER_PRIMES`: there are more or fewer other primes than `key` says. Else the status of the first number that can't
/// be held, as there; the eight come before other primes. Else `OVERFLOW`: the key has no encoding within the limit.
#[unsafe(no_mangle)]
pub extern "C" fn pkcs1_c_private_key_encode(
    key: &PrivateKey<'_>,
    others: *const OtherPrime<'_>, others_len: usize,
    out: *mut u8, out_len: usize,
    len: &mut usize,
) -> u32 {
    let others = unsafe { core::slice::from_raw_parts(others, others_len) };
    let out = unsafe { core::slice::from_raw_parts_mut(out, out_len) };
    if key.other_primes != others.len() {
        return OTHER_PRIMES;
    }
    match &GivenKey::of(key, others) {
        Ok(key) => write_encoding(key, out, len),
        Err(failure) => status(failure),
    }
}
