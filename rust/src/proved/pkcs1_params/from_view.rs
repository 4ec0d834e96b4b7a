// Made of crates/pkcs1_params/src/from_view.rt by tools/erase/erase.py, and not to be edited.
//! Parameters are read as views. Then they are kept or copied, by what is to hold their identifiers.

use crate::proved::pkcs1_params::hash_fields::MaskGenOf;
use crate::proved::pkcs1_params::oaep::{OaepParamsOf, RsaOaepParams, RsaOaepParamsRef, RsaOaepParamsView};
use crate::proved::pkcs1_params::pss::{PssParamsOf, RsaPssParams, RsaPssParamsRef, RsaPssParamsView};
use crate::proved::spki_core::{AlgorithmIdentifier, AnyRef, IdentifierView, ObjectIdentifier, ReadIdentifier};

/// What holds the identifiers of parameters that are read: `IdentifierView`, or `ObjectIdentifier` as copies.
pub trait ReadParams<'a>: ReadIdentifier<'a> {
    /// The RSASSA-PSS parameters of a view.
    fn pss_from_view(params: RsaPssParamsView<'a>) -> PssParamsOf<Self, AnyRef<'a>>;

    /// The RSAES-OAEP parameters of a view.
    fn oaep_from_view(params: RsaOaepParamsView<'a>) -> OaepParamsOf<Self, AnyRef<'a>>;
}

impl<'a> ReadParams<'a> for IdentifierView<'a> {
    #[inline(always)]
    fn pss_from_view(params: RsaPssParamsView<'a>) -> RsaPssParamsView<'a> {
        params
    }

    #[inline(always)]
    fn oaep_from_view(params: RsaOaepParamsView<'a>) -> RsaOaepParamsView<'a> {
        params
    }
}

impl<'a> ReadParams<'a> for ObjectIdentifier {
    #[inline(always)]
    fn pss_from_view(params: RsaPssParamsView<'a>) -> RsaPssParams<AnyRef<'a>> {
        RsaPssParams {
            hash: params.hash.to_algorithm_identifier(),
            mask_gen: mask_gen_from_view(params.mask_gen),
            salt_len: params.salt_len,
            trailer_field: params.trailer_field,
        }
    }

    #[inline(always)]
    fn oaep_from_view(params: RsaOaepParamsView<'a>) -> RsaOaepParams<AnyRef<'a>> {
        RsaOaepParams {
            hash: params.hash.to_algorithm_identifier(),
            mask_gen: mask_gen_from_view(params.mask_gen),
            p_source: params.p_source.to_algorithm_identifier(),
        }
    }
}

/// Copies the identifiers.
#[inline(always)]
fn mask_gen_from_view<'a>(
    mask_gen: MaskGenOf<IdentifierView<'a>, AnyRef<'a>>,
) -> MaskGenOf<ObjectIdentifier, AnyRef<'a>> {
    AlgorithmIdentifier {
        oid: mask_gen.oid.to_object_identifier(),
        parameters: match mask_gen.parameters {
            Some(hash) => Some(hash.to_algorithm_identifier()),
            None => None,
        },
    }
}

impl<'a> RsaPssParamsView<'a> {
    /// The parameters as a struct that holds its identifiers.
    #[inline(always)]
    #[must_use]
    pub fn to_params(self) -> RsaPssParamsRef<'a> {
        ObjectIdentifier::pss_from_view(self)
    }
}

impl<'a> RsaOaepParamsView<'a> {
    /// The parameters as a struct that holds its identifiers.
    #[inline(always)]
    #[must_use]
    pub fn to_params(self) -> RsaOaepParamsRef<'a> {
        ObjectIdentifier::oaep_from_view(self)
    }
}
