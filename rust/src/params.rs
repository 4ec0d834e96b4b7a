//! What parameters of RSASSA-PSS and of RSAES-OAEP have in common.

use crate::Error;
use crate::algorithm::{AlgorithmIdentifier, MaskGen};
use crate::algorithms::Mgf1;
use crate::der::asn1::{Any, AnyRef};
use crate::der::{decoded, encoded, from_slices};
use crate::identifier::{AssociatedOid, Identifier, OfIdentifier};
use crate::keys::asn1;
use crate::oaep::{RsaOaepParams, RsaOaepParamsOwned, RsaOaepParamsRef, RsaOaepParamsView};
use crate::proved::{der_core::NoMemory, pkcs1_params as proved};
use crate::pss::{RsaPssParams, RsaPssParamsOwned, RsaPssParamsRef, RsaPssParamsView};
#[cfg(feature = "alloc")]
use crate::rattle_std::{alloc::Global, prelude::Vec};
use crate::values::Held;
use core::convert::{Infallible, identity};

/// The hash function D with NULL.
pub(crate) const fn plain<'a, D: AssociatedOid>() -> AlgorithmIdentifier<AnyRef<'a>> {
    AlgorithmIdentifier { oid: D::OID, parameters: Some(AnyRef::NULL) }
}

/// MGF1 with the hash function D with NULL.
pub(crate) const fn mgf1<'a, D: AssociatedOid>() -> MaskGen<AnyRef<'a>> {
    AlgorithmIdentifier { oid: Mgf1::OID, parameters: Some(plain::<D>()) }
}

/// Whether the hash function is D, and the mask generation function is MGF1 with D. No view is made of the other fields.
pub(crate) fn uses_hash<D: AssociatedOid, P: Held, O: Identifier>(
    hash: &AlgorithmIdentifier<P, O>,
    mask_gen: &MaskGen<P, O>,
) -> bool {
    let is_mgf1 = proved::is_mgf1(mask_gen.oid.as_identifier().as_bytes());
    is_mgf1 && hash.is_hash::<D>() && mask_gen.parameters.as_ref().is_some_and(AlgorithmIdentifier::is_hash::<D>)
}

/// All spellings, as lists of std.
#[cfg(feature = "alloc")]
pub(crate) fn listed(spellings: Vec<Vec<u8>>) -> crate::der::Result<alloc::vec::Vec<alloc::vec::Vec<u8>>> {
    let mut list = Vec::with_room(Global, spellings.len())?;
    for spelling in alloc::vec::Vec::from(spellings) {
        list.push(spelling.into())?;
    }
    Ok(list.into())
}

/// What has no name of its own of a type of parameters: how it is made of its view, and lent as one, and its traits.
macro_rules! parameters {
    ($($name:ident $reference:ident $owned:ident $view:ident [$($sub:ident)?] [$($plain:ident)*];)*) => { $(
        impl<'a, O: OfIdentifier<'a>> $name<AnyRef<'a>, O> {
            #[inline(always)]
            pub(crate) fn of_view(view: proved::$view<'a>) -> Self {
                $name {
                    hash: AlgorithmIdentifier::of(view.hash, identity),
                    mask_gen: AlgorithmIdentifier::of(view.mask_gen, |hash| AlgorithmIdentifier::of(hash, identity)),
                    $($sub: AlgorithmIdentifier::of(view.$sub, identity),)?
                    $($plain: view.$plain,)*
                }
            }
        }

        impl<P: Held, O: Identifier> $name<P, O> {
            #[inline]
            pub(crate) fn view(&self) -> proved::$view<'_> {
                proved::$view {
                    hash: self.hash.as_view(),
                    mask_gen: self.mask_gen.lent(AlgorithmIdentifier::as_view),
                    $($sub: self.$sub.as_view(),)?
                    $($plain: self.$plain,)*
                }
            }

            /// The parameters with those of their algorithms held otherwise.
            pub(crate) fn map<'p, Q, E>(&'p self, held: impl Fn(&'p P) -> Result<Q, E>) -> Result<$name<Q>, E> {
                Ok($name {
                    hash: self.hash.map(&held)?,
                    mask_gen: self.mask_gen.map(|hash| hash.map(&held))?,
                    $($sub: self.$sub.map(&held)?,)?
                    $($plain: self.$plain,)*
                })
            }
        }

        impl<'a> From<$view<'a>> for $reference<'a> {
            /// Copies the identifiers.
            fn from(view: $view<'a>) -> $reference<'a> {
                let Ok(params) = view.map(|any| Ok::<_, Infallible>(*any));
                params
            }
        }

        impl<'a, O: OfIdentifier<'a>> Default for $name<AnyRef<'a>, O> {
            /// Each field at its default.
            fn default() -> $name<AnyRef<'a>, O> {
                // In the encoding without a field, each has its default.
                Self::try_from(&[0x30, 0][..]).expect("no field is read")
            }
        }

        impl Default for $owned {
            /// Each field at its default. Nothing is allocated.
            fn default() -> $owned {
                $reference::default().try_into().expect("no octet takes memory")
            }
        }

        impl<'a, O: OfIdentifier<'a>> TryFrom<&'a [u8]> for $name<AnyRef<'a>, O> {
            type Error = Error;

            /// Reads the whole slice.
            #[inline]
            fn try_from(bytes: &'a [u8]) -> Result<Self, Error> {
                proved::$view::try_from(bytes).map(Self::of_view)
            }
        }

        impl<'a, O: OfIdentifier<'a>> TryFrom<AnyRef<'a>> for $name<AnyRef<'a>, O> {
            type Error = Error;

            /// Reads the parameters of an algorithm.
            fn try_from(any: AnyRef<'a>) -> Result<Self, Error> {
                Ok(Self::of_view(any.decode_as_in(NoMemory)?))
            }
        }

        decoded! {
            {O: OfIdentifier<'a>} $name<AnyRef<'a>, O>, bytes => asn1(Self::try_from(bytes));
            {} $name<Any>, bytes => $reference::from_der(bytes)?.try_into();
        }
        from_slices! { $name<Any>; }
        encoded! { {P: Held, O: Identifier} $name<P, O>, params => params.view(); }
    )* };
}
parameters! {
    RsaPssParams RsaPssParamsRef RsaPssParamsOwned RsaPssParamsView [] [salt_len trailer_field];
    RsaOaepParams RsaOaepParamsRef RsaOaepParamsOwned RsaOaepParamsView [p_source] [];
}
