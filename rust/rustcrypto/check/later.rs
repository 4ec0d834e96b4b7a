//! Two traits of later releases of `der` and `spki`. By these RustCrypto's pkcs1 0.8 is built over those of Debian.
use der::asn1::{Any, AnyRef, Uint, UintRef};
use der::referenced::OwnedToRef;
use spki::{AlgorithmIdentifier, AlgorithmIdentifierRef};

pub trait AsUintRef {
    fn as_uint_ref(&self) -> UintRef<'_>;
}
impl AsUintRef for UintRef<'_> {
    fn as_uint_ref(&self) -> UintRef<'_> {
        *self
    }
}
impl AsUintRef for Uint {
    fn as_uint_ref(&self) -> UintRef<'_> {
        self.owned_to_ref()
    }
}

pub trait AsAlgorithmIdentifierRef {
    fn as_algo_ref(&self) -> AlgorithmIdentifierRef<'_>;
}
impl AsAlgorithmIdentifierRef for AlgorithmIdentifier<AnyRef<'_>> {
    fn as_algo_ref(&self) -> AlgorithmIdentifierRef<'_> {
        *self
    }
}
impl AsAlgorithmIdentifierRef for AlgorithmIdentifier<Any> {
    fn as_algo_ref(&self) -> AlgorithmIdentifierRef<'_> {
        self.owned_to_ref()
    }
}
