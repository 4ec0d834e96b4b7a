// Made of crates/pkcs1_params/src/pss.rt by tools/erase/erase.py, and not to be edited.
//! Parameters of RSASSA-PSS (RFC 8017 A.2.3). `try_from` and `from_der_strict` read them by the functions of
//! `reading.rt`.

use crate::proved::pkcs1_params::contents::{append_contents, check_contents, prepend_contents};
use crate::proved::pkcs1_params::error::{Error, Result, fault_of};
use crate::proved::pkcs1_params::from_view::ReadParams;
use crate::proved::pkcs1_params::hash_fields::{MaskGenOf, mgf1_with, with_null};
use crate::proved::pkcs1_params::hash_functions::Sha1;
use crate::proved::pkcs1_params::reading::read_params;
use crate::proved::pkcs1_params::spelling::non_defaults_in;
use crate::proved::pkcs1_params::trailer_field::TrailerField;
use crate::proved::der_core::{
    Contents, EncodeValue, EqualByValue, ErrorKind, Memory, NoMemory, Prepend, SequenceTag,
    TaggedBy, TryClone, Writer,
};
use crate::proved::spki_core::{
    AlgorithmIdentifierOf, Any, AnyParams, AnyRef, AnyValue, AssociatedOid, IdentifierValue,
    IdentifierView, ObjectIdentifier,
};
use crate::rattle_std::alloc::Global;
use crate::rattle_std::fmt;

/// Parameters of RSASSA-PSS (RFC 8017 A.2.3). Explicit defaults are read, but never written.
/// An `O` holds each object identifier, a `P` the parameters of a hash function or a source: see `RsaPssParams` and
/// `RsaPssParamsView`.
///
/// ```text
/// RSASSA-PSS-params ::= SEQUENCE {
///     hashAlgorithm     [0] HashAlgorithm     DEFAULT sha1,
///     maskGenAlgorithm  [1] MaskGenAlgorithm  DEFAULT mgf1SHA1,
///     saltLength        [2] INTEGER           DEFAULT 20,
///     trailerField      [3] TrailerField      DEFAULT trailerFieldBC
/// }
/// ```
#[derive(Clone, Copy, PartialEq, Eq, Hash)]
pub struct PssParamsOf<O, P> {
    /// The hash function; SHA-1 with NULL by default.
    pub hash: AlgorithmIdentifierOf<O, P>,
    /// The mask generation function and its hash function; MGF1 with SHA-1 with NULL by default.
    pub mask_gen: MaskGenOf<O, P>,
    /// The salt length in octets, from 0 to 255; 20 by default.
    pub salt_len: u8,
    /// The trailer field of an encoded message; `BC` by default.
    pub trailer_field: TrailerField,
}

/// RSASSA-PSS parameters that hold their identifiers.
pub type RsaPssParams<P> = PssParamsOf<ObjectIdentifier, P>;

/// RSASSA-PSS parameters whose algorithms have borrowed parameters.
pub type RsaPssParamsRef<'a> = RsaPssParams<AnyRef<'a>>;

/// RSASSA-PSS parameters whose algorithms have owned parameters. `Decode::from_der` reads them. Memory runs out there
/// only if the slice begins with a SEQUENCE of parameters, and an algorithm in them has parameters with octets to copy.
pub type RsaPssParamsOwned = RsaPssParams<Any>;

/// RSASSA-PSS parameters over their encoding, whose octets are their identifiers. Only `to_params` copies them.
pub type RsaPssParamsView<'a> = PssParamsOf<IdentifierView<'a>, AnyRef<'a>>;

impl<'a, O: ReadParams<'a>> TryFrom<&'a [u8]> for PssParamsOf<O, AnyRef<'a>> {
    type Error = Error;

    /// Reads parameters, and allocates nothing. Ok exactly if the whole slice encodes some: then these. A field that is
    /// left out has its default, and a default that is written out is accepted. Err: the first fault of parameters.
    fn try_from(bytes: &'a [u8]) -> Result<PssParamsOf<O, AnyRef<'a>>> {
        let view = read_params::<RsaPssParamsView<'a>>(bytes, false)?;
        Ok(O::pss_from_view(view))
    }
}

impl<'a, O: ReadParams<'a>> PssParamsOf<O, AnyRef<'a>> {
    /// Reads parameters as `try_from` does, but only from their shortest encoding. Of an encoding in which a default is
    /// written the error is `Noncanonical` with the tag of the first such field. Else it is that of `try_from`.
    pub fn from_der_strict(bytes: &'a [u8]) -> Result<PssParamsOf<O, AnyRef<'a>>> {
        let view = read_params::<RsaPssParamsView<'a>>(bytes, true)?;
        Ok(O::pss_from_view(view))
    }
}

/// The first fault of bytes that aren't RSASSA-PSS parameters, of which they have exactly one; `None` if they are such
/// parameters.
pub fn fault_of_pss_params(bytes: &[u8]) -> Option<ErrorKind> {
    fault_of(RsaPssParamsView::try_from(bytes))
}

impl<O: IdentifierValue, P: AnyValue> Contents for PssParamsOf<O, P> {}

impl<O, P> TaggedBy for PssParamsOf<O, P> {
    type Marker = SequenceTag;
}

impl<O: IdentifierValue, P: AnyValue> EncodeValue for PssParamsOf<O, P> {
    #[inline(always)]
    fn check_value(&self) -> crate::proved::der_core::Result<()> {
        check_contents(self, 0)
    }

    #[inline(always)]
    fn prepend_value<W: Prepend>(&self, writer: &mut W) {
        prepend_contents(self, non_defaults_in(self), 0, writer);
    }

    fn append_value<W: Writer>(&self, writer: &mut W) -> crate::proved::der_core::Result<()> {
        append_contents(self, non_defaults_in(self), 0, writer)
    }
}

impl<O: IdentifierValue, P> PssParamsOf<O, P> {
    /// The hash function D with NULL, MGF1 with the same hash function, a salt of this many octets, and the trailer
    /// field.
    #[inline(always)]
    pub(crate) fn of_hash<D: AssociatedOid, M: Memory>(memory: M, salt_len: u8) -> PssParamsOf<O, P>
    where
        P: AnyParams<M>,
    {
        PssParamsOf {
            hash: with_null::<D, O, P, M>(memory),
            mask_gen: mgf1_with::<D, O, P, M>(memory),
            salt_len,
            trailer_field: TrailerField::BC,
        }
    }
}

impl<'a> RsaPssParams<AnyRef<'a>> {
    /// The default salt length in octets: that of a SHA-1 hash.
    pub const SALT_LEN_DEFAULT: u8 = 20;

    /// The hash function D with NULL, MGF1 with the same hash function, a salt of this many octets, and the trailer
    /// field.
    #[must_use]
    pub fn new<D: AssociatedOid>(salt_len: u8) -> RsaPssParams<AnyRef<'a>> {
        RsaPssParams::of_hash::<D, NoMemory>(NoMemory, salt_len)
    }
}

impl<P: AnyValue> EqualByValue for RsaPssParams<P> {}

impl<P: AnyValue + TryClone> TryClone for RsaPssParams<P> {
    fn try_clone_in(&self, alloc: Global) -> crate::proved::der_core::Result<RsaPssParams<P>> {
        self.try_clone_in(alloc)
    }
}

impl<P: AnyValue + TryClone> RsaPssParams<P> {
    /// The same parameters, or `OutOfMemory`, which never comes if the parameters of each algorithm are always copied.
    pub(crate) fn try_clone_in(&self, alloc: Global) -> crate::proved::der_core::Result<RsaPssParams<P>> {
        Ok(RsaPssParams {
            hash: self.hash.try_clone_in(alloc)?,
            mask_gen: self.mask_gen.try_clone_in(alloc)?,
            salt_len: self.salt_len,
            trailer_field: self.trailer_field,
        })
    }
}

impl<'a, O: IdentifierValue> Default for PssParamsOf<O, AnyRef<'a>> {
    /// Every field at its default.
    #[inline(always)]
    fn default() -> PssParamsOf<O, AnyRef<'a>> {
        PssParamsOf::of_hash::<Sha1, NoMemory>(NoMemory, RsaPssParamsRef::SALT_LEN_DEFAULT)
    }
}

impl RsaPssParams<Any> {
    /// Every field at its default, owned. Nothing is allocated.
    #[must_use]
    pub fn default_in(alloc: Global) -> RsaPssParams<Any> {
        RsaPssParams::of_hash::<Sha1, Global>(alloc, RsaPssParamsRef::SALT_LEN_DEFAULT)
    }
}

impl<P: fmt::Debug> fmt::Debug for RsaPssParams<P> {
    fn fmt(&self, f: &mut fmt::Formatter<'_>) -> fmt::Result {
        f.debug_struct("RsaPssParams")
            .field("hash", &self.hash)
            .field("mask_gen", &self.mask_gen)
            .field("salt_len", &self.salt_len)
            .field("trailer_field", &self.trailer_field)
            .finish()
    }
}
