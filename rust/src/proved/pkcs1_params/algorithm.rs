// Made of crates/pkcs1_params/src/algorithm.rt by tools/erase/erase.py, and not to be edited.
//! Parameters in their algorithm identifier (RFC 8017 A.2.3, A.2.1; RFC 5280 4.1.1.2). `AlgorithmView::from_der` reads
//! one, and `reading.rt` the parameters in it.

use crate::proved::pkcs1_params::error::{Error, Result};
use crate::proved::pkcs1_params::reading::{AlgorithmParams, read_any};
use crate::proved::pkcs1_params::shortest::Shortest;
use crate::proved::pkcs1_params::spelling::EncodeParams;
use crate::proved::der_core::{Decode, Encode, ErrorKind, NoMemory};
use crate::proved::spki_core::{
    AlgorithmIdentifierOf, AlgorithmIdentifierRef, AlgorithmView, AnyRef, AssociatedOid,
    IdentifierValue,
};

/// Borrowed parameters that are read from the algorithm identifier that they stand in: `RsaPssParamsRef`,
/// `RsaPssParamsView`, `RsaOaepParamsRef`, `RsaOaepParamsView`. Nothing is allocated.
pub trait FromAlgorithm<'a>: AlgorithmParams<'a> {
    /// The parameters in an algorithm identifier. Ok exactly if it is this algorithm, and its parameters are the
    /// SEQUENCE of the fields of such parameters: then the only value that has them. `OidUnknown` if it is another
    /// algorithm's, then `ParametersMissing` if it has none, as RFC 4055 forbids with a signature and an encrypted
    /// value (3.1, 4.1). Else `TagUnexpected` if they are no SEQUENCE, or the first fault of the fields.
    fn from_algorithm(algorithm: &AlgorithmIdentifierRef<'a>) -> Result<Self>;

    /// Reads an algorithm identifier with such parameters, as in a certificate's signatureAlgorithm. Ok exactly if the
    /// whole slice encodes one: then its parameters. Err: the first fault. Once the slice is an algorithm identifier
    /// with parameters of any type, it is that of `from_algorithm`.
    fn from_algorithm_der(bytes: &'a [u8]) -> Result<Self>;

    /// Reads it as `from_algorithm_der` does, but only from its shortest encoding. Of an encoding in which a default is
    /// written the error is `Noncanonical` with the tag of the first such field. Else it is that of
    /// `from_algorithm_der`.
    fn from_algorithm_der_strict(bytes: &'a [u8]) -> Result<Self>;
}

impl<'a, T: AlgorithmParams<'a>> FromAlgorithm<'a> for T {
    fn from_algorithm(algorithm: &AlgorithmIdentifierRef<'a>) -> Result<T> {
        from_identifier(algorithm, false)
    }

    fn from_algorithm_der(bytes: &'a [u8]) -> Result<T> {
        let algorithm = AlgorithmView::from_der(NoMemory, bytes)?;
        from_identifier(&algorithm, false)
    }

    fn from_algorithm_der_strict(bytes: &'a [u8]) -> Result<T> {
        let algorithm = AlgorithmView::from_der(NoMemory, bytes)?;
        from_identifier(&algorithm, true)
    }
}

/// The parameters in an algorithm identifier, whatever holds its object identifier; if `strict`, only where no default
/// is written.
#[inline(always)]
fn from_identifier<'a, O: IdentifierValue, T: AlgorithmParams<'a>>(
    algorithm: &AlgorithmIdentifierOf<O, AnyRef<'a>>,
    strict: bool,
) -> Result<T> {
    let any = parameters_of::<O, T>(algorithm)?;
    Ok(read_any(any, strict)?)
}

/// The parameters in an algorithm identifier, whatever holds its object identifier, as they are before they are read.
#[inline(always)]
fn parameters_of<'a, O: IdentifierValue, T: AlgorithmParams<'a>>(
    algorithm: &AlgorithmIdentifierOf<O, AnyRef<'a>>,
) -> Result<AnyRef<'a>> {
    let oid = algorithm.oid.as_identifier_view();
    if oid.as_bytes() != T::Oid::octets() {
        return Err(Error::Asn1(crate::proved::der_core::Error::new(ErrorKind::OidUnknown)));
    }
    match algorithm.parameters {
        Some(any) => Ok(any),
        None => Err(Error::Asn1(crate::proved::der_core::Error::new(ErrorKind::ParametersMissing))),
    }
}

/// Writes the shortest encoding of the algorithm identifier of D with these parameters to the front of a slice and
/// returns its length.
pub(crate) fn encode_identifier<D: AssociatedOid, T: EncodeParams>(
    params: T,
    out: &mut [u8],
) -> Result<usize> {
    let algorithm = Shortest::identified::<D>(params);
    Ok(algorithm.encode_into(out)?)
}
