// Made of crates/pkcs8_core/src/rsa.rt by tools/erase/erase.py, and not to be edited.
//! RSA keys in containers.

use crate::proved::pkcs8_core::info::{PrivateKeyInfoOf, PrivateKeyInfoView};
use crate::proved::pkcs1::spki::ReadIdentifier;
use crate::proved::pkcs1::{RsaPrivateKeyRef, RsaPrivateKeyView, require_rsa_encryption};
use crate::rattle_std::alloc::Global;

impl<'a, O: ReadIdentifier<'a>> PrivateKeyInfoOf<'a, O> {
    /// A view of the RSA key in the container, and allocates nothing. Ok exactly if the algorithm is rsaEncryption with
    /// NULL, and the octets encode a private key: then a view of that key, which keeps these octets. Err: the first
    /// fault of the RSA key in the container. Of the algorithm it is that of `require_rsa_encryption`.
    pub fn rsa_view(&self) -> crate::proved::pkcs1::Result<RsaPrivateKeyView<'a>> {
        require_rsa_encryption(&self.algorithm)?;
        RsaPrivateKeyView::try_from(self.private_key.as_bytes())
    }

    /// The RSA key in the container, as a struct. Ok only if `rsa_view` is Ok: then that key. Err: the error of
    /// `rsa_view`, or `OutOfMemory`, which comes where it may for `RsaPrivateKeyRef::decode_key`, and only of
    /// rsaEncryption with NULL. A key of two primes is always read.
    pub fn rsa_key(&self, alloc: Global) -> crate::proved::pkcs1::Result<RsaPrivateKeyRef<'a>> {
        require_rsa_encryption(&self.algorithm)?;
        RsaPrivateKeyRef::decode_key(alloc, self.private_key.as_bytes())
    }
}

/// Reads the RSA key in a container, and allocates nothing. Ok exactly if the whole slice encodes a container of an RSA
/// key, of which `rsa_view` is Ok: then a view of that key, which keeps the octets in the container's privateKey. Err:
/// the first fault of a container, then that of the RSA key in it.
pub fn rsa_from_pkcs8_der<'a>(bytes: &'a [u8]) -> crate::proved::pkcs1::Result<RsaPrivateKeyView<'a>> {
    let info = PrivateKeyInfoView::try_from(bytes)?;
    info.rsa_view()
}
