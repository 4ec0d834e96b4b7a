// Made of crates/pkcs1_params/src/oaep.rt by tools/erase/erase.py, and not to be edited.
//! Parameters of RSAES-OAEP (RFC 8017 A.2.1). `try_from` and `from_der_strict` read them by the functions of
//! `reading.rt`.

use crate::proved::pkcs1_params::contents::{append_contents, check_contents, prepend_contents};
use crate::proved::pkcs1_params::error::{Error, Result, fault_of};
use crate::proved::pkcs1_params::from_view::ReadParams;
use crate::proved::pkcs1_params::hash_fields::{MaskGenOf, mgf1_with, with_null};
use crate::proved::pkcs1_params::hash_functions::Sha1;
use crate::proved::pkcs1_params::label::empty_source;
use crate::proved::pkcs1_params::reading::read_params;
use crate::proved::pkcs1_params::spelling::non_defaults_in;
use crate::proved::der_core::{
    Contents, EncodeValue, EqualByValue, ErrorKind, Memory, NoMemory, Prepend, SequenceTag,
    TaggedBy, TryClone, Writer,
};
use crate::proved::spki_core::{
    AlgorithmIdentifierOf, Any, AnyParams, AnyRef, AnyValue, AssociatedOid, IdentifierValue,
    IdentifierView, ObjectIdentifier,
};
use crate::rattle_std::alloc::Global;
use crate::rattle_std::fmt;

/// Parameters of RSAES-OAEP (RFC 8017 A.2.1). Explicit defaults are read, but never written.
/// An `O` holds each object identifier, a `P` the parameters of a hash function or a source: see `RsaOaepParams` and
/// `RsaOaepParamsView`.
///
/// ```text
/// RSAES-OAEP-params ::= SEQUENCE {
///     hashAlgorithm     [0] HashAlgorithm     DEFAULT sha1,
///     maskGenAlgorithm  [1] MaskGenAlgorithm  DEFAULT mgf1SHA1,
///     pSourceAlgorithm  [2] PSourceAlgorithm  DEFAULT pSpecifiedEmpty
/// }
/// ```
#[derive(Clone, Copy, PartialEq, Eq, Hash)]
pub struct OaepParamsOf<O, P> {
    /// The hash function; SHA-1 with NULL by default.
    pub hash: AlgorithmIdentifierOf<O, P>,
    /// The mask generation function and its hash function; MGF1 with SHA-1 with NULL by default.
    pub mask_gen: MaskGenOf<O, P>,
    /// The source of the label; pSpecified with an empty OCTET STRING by default.
    pub p_source: AlgorithmIdentifierOf<O, P>,
}

/// RSAES-OAEP parameters that hold their identifiers.
pub type RsaOaepParams<P> = OaepParamsOf<ObjectIdentifier, P>;

/// RSAES-OAEP parameters whose algorithms have borrowed parameters.
pub type RsaOaepParamsRef<'a> = RsaOaepParams<AnyRef<'a>>;

/// RSAES-OAEP parameters whose algorithms have owned parameters. `Decode::from_der` reads them. Memory runs out there
/// only if the slice begins with a SEQUENCE of parameters, and an algorithm in them has parameters with octets to copy.
pub type RsaOaepParamsOwned = RsaOaepParams<Any>;

/// RSAES-OAEP parameters over their encoding, whose octets are their identifiers. Only `to_params` copies them.
pub type RsaOaepParamsView<'a> = OaepParamsOf<IdentifierView<'a>, AnyRef<'a>>;

impl<'a, O: ReadParams<'a>> TryFrom<&'a [u8]> for OaepParamsOf<O, AnyRef<'a>> {
    type Error = Error;

    /// Reads parameters, and allocates nothing. Ok exactly if the whole slice encodes some: then these. A field that is
    /// left out has its default, and a default that is written out is accepted. Err: the first fault of parameters.
    fn try_from(bytes: &'a [u8]) -> Result<OaepParamsOf<O, AnyRef<'a>>> {
        let view = read_params::<RsaOaepParamsView<'a>>(bytes, false)?;
        Ok(O::oaep_from_view(view))
    }
}

impl<'a, O: ReadParams<'a>> OaepParamsOf<O, AnyRef<'a>> {
    /// Reads parameters as `try_from` does, but only from their shortest encoding. Of an encoding in which a default is
    /// written the error is `Noncanonical` with the tag of the first such field. Else it is that of `try_from`.
    pub fn from_der_strict(bytes: &'a [u8]) -> Result<OaepParamsOf<O, AnyRef<'a>>> {
        let view = read_params::<RsaOaepParamsView<'a>>(bytes, true)?;
        Ok(O::oaep_from_view(view))
    }
}

/// The first fault of bytes that aren't RSAES-OAEP parameters, of which they have exactly one; `None` if they are such
/// parameters.
pub fn fault_of_oaep_params(bytes: &[u8]) -> Option<ErrorKind> {
    fault_of(RsaOaepParamsView::try_from(bytes))
}

impl<O: IdentifierValue, P: AnyValue> Contents for OaepParamsOf<O, P> {}

impl<O, P> TaggedBy for OaepParamsOf<O, P> {
    type Marker = SequenceTag;
}

impl<O: IdentifierValue, P: AnyValue> EncodeValue for OaepParamsOf<O, P> {
    #[inline(always)]
    fn check_value(&self) -> crate::proved::der_core::Result<()> {
        check_contents(self, 0)
    }

    #[inline(always)]
    fn prepend_value<W: Prepend>(&self, writer: &mut W) {
        prepend_contents(self, non_defaults_in(self), 0, writer);
    }

    fn append_value<W: Writer>(&self, writer: &mut W) -> crate::proved::der_core::Result<()> {
        append_contents(self, non_defaults_in(self), 0, writer)
    }
}

impl<O: IdentifierValue, P> OaepParamsOf<O, P> {
    /// The hash function D with NULL, MGF1 with the same hash function, and the empty label.
    #[inline(always)]
    pub(crate) fn of_hash<D: AssociatedOid, M: Memory>(memory: M) -> OaepParamsOf<O, P>
    where
        P: AnyParams<M>,
    {
        OaepParamsOf {
            hash: with_null::<D, O, P, M>(memory),
            mask_gen: mgf1_with::<D, O, P, M>(memory),
            p_source: empty_source::<O, P, M>(memory),
        }
    }
}

impl<'a> RsaOaepParams<AnyRef<'a>> {
    /// The hash function D with NULL, MGF1 with the same hash function, and the empty label.
    #[must_use]
    pub fn new<D: AssociatedOid>() -> RsaOaepParams<AnyRef<'a>> {
        RsaOaepParams::of_hash::<D, NoMemory>(NoMemory)
    }
}

impl<P: AnyValue> EqualByValue for RsaOaepParams<P> {}

impl<P: AnyValue + TryClone> TryClone for RsaOaepParams<P> {
    fn try_clone_in(&self, alloc: Global) -> crate::proved::der_core::Result<RsaOaepParams<P>> {
        self.try_clone_in(alloc)
    }
}

impl<P: AnyValue + TryClone> RsaOaepParams<P> {
    /// The same parameters, or `OutOfMemory`, which never comes if the parameters of each algorithm are always copied.
    pub(crate) fn try_clone_in(&self, alloc: Global) -> crate::proved::der_core::Result<RsaOaepParams<P>> {
        Ok(RsaOaepParams {
            hash: self.hash.try_clone_in(alloc)?,
            mask_gen: self.mask_gen.try_clone_in(alloc)?,
            p_source: self.p_source.try_clone_in(alloc)?,
        })
    }
}

impl<'a, O: IdentifierValue> Default for OaepParamsOf<O, AnyRef<'a>> {
    /// Every field at its default.
    #[inline(always)]
    fn default() -> OaepParamsOf<O, AnyRef<'a>> {
        OaepParamsOf::of_hash::<Sha1, NoMemory>(NoMemory)
    }
}

impl RsaOaepParams<Any> {
    /// Every field at its default, owned. Nothing is allocated.
    #[must_use]
    pub fn default_in(alloc: Global) -> RsaOaepParams<Any> {
        RsaOaepParams::of_hash::<Sha1, Global>(alloc)
    }
}

impl<P: fmt::Debug> fmt::Debug for RsaOaepParams<P> {
    fn fmt(&self, f: &mut fmt::Formatter<'_>) -> fmt::Result {
        f.debug_struct("RsaOaepParams")
            .field("hash", &self.hash)
            .field("mask_gen", &self.mask_gen)
            .field("p_source", &self.p_source)
            .finish()
    }
}
