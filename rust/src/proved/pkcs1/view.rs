// Made of crates/pkcs1/src/view.rt by tools/erase/erase.py, and not to be edited.
//! RSA private keys over the input, without a list of their other primes.

use crate::proved::pkcs1::other_primes::OtherPrimes;
use crate::proved::pkcs1::public_key::{RsaPublicKey, RsaPublicKeyRef};
use crate::proved::pkcs1::version::Version;
use crate::proved::pkcs1::viewed_key::ViewedKey;
use crate::proved::der_core::{Decode, NoMemory, UintRef};
use crate::proved::pkcs1_params::Error;
use crate::rattle_std::fmt;

/// An RSA private key (RFC 8017 A.1.2) over its encoding. It allocates nothing, however many primes there are. No
/// relation between the numbers is checked.
#[derive(Clone, Copy)]
pub struct RsaPrivateKeyView<'a> {
    bytes: &'a [u8],
    key: ViewedKey<'a>,
}

impl<'a> RsaPrivateKeyView<'a> {
    /// The version: `Multi` exactly if there are other primes.
    #[must_use]
    pub fn version(&self) -> Version {
        self.key.version()
    }

    /// The modulus n.
    #[must_use]
    pub fn modulus(&self) -> UintRef<'a> {
        self.key.modulus
    }

    /// The public exponent e.
    #[must_use]
    pub fn public_exponent(&self) -> UintRef<'a> {
        self.key.public_exponent
    }

    /// The private exponent d.
    #[must_use]
    pub fn private_exponent(&self) -> UintRef<'a> {
        self.key.private_exponent
    }

    /// The first prime p.
    #[must_use]
    pub fn prime1(&self) -> UintRef<'a> {
        self.key.prime1
    }

    /// The second prime q.
    #[must_use]
    pub fn prime2(&self) -> UintRef<'a> {
        self.key.prime2
    }

    /// The exponent of the first prime: d modulo p - 1.
    #[must_use]
    pub fn exponent1(&self) -> UintRef<'a> {
        self.key.exponent1
    }

    /// The exponent of the second prime: d modulo q - 1.
    #[must_use]
    pub fn exponent2(&self) -> UintRef<'a> {
        self.key.exponent2
    }

    /// The coefficient: the inverse of q modulo p.
    #[must_use]
    pub fn coefficient(&self) -> UintRef<'a> {
        self.key.coefficient
    }

    /// The public key: the modulus and the public exponent.
    #[must_use]
    pub fn public_key(&self) -> RsaPublicKeyRef<'a> {
        RsaPublicKey {
            modulus: self.modulus(),
            public_exponent: self.public_exponent(),
        }
    }

    /// The primes after the first two, in order; none if the version is `TwoPrime`.
    #[must_use]
    pub fn other_primes(&self) -> OtherPrimes<'a> {
        if let Some(primes) = self.key.other_prime_infos {
            return primes;
        }
        OtherPrimes::none()
    }

    /// The encoding of the key: the slice that was read, or the octets in the container's privateKey.
    #[must_use]
    pub fn as_bytes(&self) -> &'a [u8] {
        self.bytes
    }
}

impl<'a> TryFrom<&'a [u8]> for RsaPrivateKeyView<'a> {
    type Error = Error;

    /// Reads a private key, and allocates nothing, however many primes there are. Ok exactly if the whole slice encodes
    /// one: then a view of that key, which keeps the slice. Err: the first fault of a private key.
    #[inline(always)]
    fn try_from(bytes: &'a [u8]) -> crate::proved::pkcs1::Result<RsaPrivateKeyView<'a>> {
        let key = ViewedKey::from_der(NoMemory, bytes)?;
        Ok(RsaPrivateKeyView { bytes, key })
    }
}

impl fmt::Debug for RsaPrivateKeyView<'_> {
    /// Prints the version, the modulus and the public exponent, but nothing secret.
    fn fmt(&self, f: &mut fmt::Formatter<'_>) -> fmt::Result {
        self.key.print("RsaPrivateKeyView", f)
    }
}
