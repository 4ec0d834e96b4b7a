//! Parameters of RSASSA-PSS and RSAES-OAEP. They are read and written by the proved functions.

use crate::mirror::Mirror;
#[cfg(feature = "alloc")]
use der::asn1::Any;
use der::asn1::AnyRef;
use der::{Tag, oid::AssociatedOid};
use spki::AlgorithmIdentifier;

/// The trailer field of RSASSA-PSS (RFC 8017 A.2.3).
#[derive(Clone, Copy, Debug, Default, PartialEq, Eq)]
#[repr(u8)]
pub enum TrailerField {
    /// The octet BC, the only one that is defined.
    #[default]
    BC = 1,
}

/// Parameters of RSASSA-PSS (RFC 8017 A.2.3). Explicit defaults are read, but not written.
#[derive(Clone, Debug, PartialEq, Eq)]
pub struct RsaPssParams<P> {
    /// The hash function.
    pub hash: AlgorithmIdentifier<P>,
    /// The mask generation function and its hash function.
    pub mask_gen: AlgorithmIdentifier<AlgorithmIdentifier<P>>,
    /// The salt length in octets.
    pub salt_len: u8,
    /// The trailer field.
    pub trailer_field: TrailerField,
}

/// Parameters of RSAES-OAEP (RFC 8017 A.2.1). Explicit defaults are read, but not written.
#[derive(Clone, Debug, PartialEq, Eq)]
pub struct RsaOaepParams<P> {
    /// The hash function.
    pub hash: AlgorithmIdentifier<P>,
    /// The mask generation function and its hash function.
    pub mask_gen: AlgorithmIdentifier<AlgorithmIdentifier<P>>,
    /// The source of the label.
    pub p_source: AlgorithmIdentifier<P>,
}

/// Parameters of RSASSA-PSS whose algorithms have borrowed parameters.
pub type RsaPssParamsRef<'a> = RsaPssParams<AnyRef<'a>>;
/// Parameters of RSAES-OAEP whose algorithms have borrowed parameters.
pub type RsaOaepParamsRef<'a> = RsaOaepParams<AnyRef<'a>>;
/// Parameters of RSASSA-PSS that own the parameters of their algorithms.
#[cfg(feature = "alloc")]
pub type RsaPssParamsOwned = RsaPssParams<Any>;
/// Parameters of RSAES-OAEP that own the parameters of their algorithms.
#[cfg(feature = "alloc")]
pub type RsaOaepParamsOwned = RsaOaepParams<Any>;

impl<P> RsaPssParams<P> {
    /// The default salt length in octets.
    pub const SALT_LEN_DEFAULT: u8 = 20;
}

impl<'a> RsaPssParamsRef<'a> {
    /// The hash function D with NULL, MGF1 with the same hash function, and a salt of so many octets.
    #[must_use]
    pub fn new<D: AssociatedOid>(salt_len: u8) -> Self {
        let it = Self::default();
        let hash = AlgorithmIdentifier { oid: D::OID, ..it.hash };
        RsaPssParams { hash, mask_gen: AlgorithmIdentifier { parameters: Some(hash), ..it.mask_gen }, salt_len, ..it }
    }
}

impl<'a> RsaOaepParamsRef<'a> {
    /// The hash function D with NULL, MGF1 with the same hash function, and the empty label.
    #[must_use]
    pub fn new<D: AssociatedOid>() -> Self {
        Self::new_with_label::<D>(&[])
    }

    /// The hash function D with NULL, MGF1 with the same hash function, and this label.
    ///
    /// # Panics
    ///
    /// The label is longer than `der::Length::MAX`.
    #[must_use]
    pub fn new_with_label<D: AssociatedOid>(label: &'a impl AsRef<[u8]>) -> Self {
        let it = Self::default();
        let hash = AlgorithmIdentifier { oid: D::OID, ..it.hash };
        let label = AnyRef::new(Tag::OctetString, label.as_ref()).expect("the label is too long");
        RsaOaepParams {
            hash,
            mask_gen: AlgorithmIdentifier { parameters: Some(hash), ..it.mask_gen },
            p_source: AlgorithmIdentifier { parameters: Some(label), ..it.p_source },
        }
    }
}

/// `Default` of parameters, as a proved function has them.
macro_rules! defaults {
    ($($(#[$if:meta])? $name:ty, $proved:ident;)*) => { $(
        $(#[$if])?
        impl Default for $name {
            fn default() -> Self {
                Mirror::of(&proved::$proved::default()).expect("the defaults are held here too")
            }
        }
    )* };
}
defaults! {
    RsaPssParamsRef<'_>, RsaPssParamsRef;
    RsaOaepParamsRef<'_>, RsaOaepParamsRef;
    #[cfg(feature = "alloc")]
    RsaPssParamsOwned, RsaPssParamsRef;
    #[cfg(feature = "alloc")]
    RsaOaepParamsOwned, RsaOaepParamsRef;
}
