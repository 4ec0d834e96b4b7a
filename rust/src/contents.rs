//! Reading of contents octets, where another reader has read the header.

use crate::der::asn1::{AnyRef, UintRef};
use crate::der::{Result, Tag, decoded};
use crate::identifier::OfIdentifier;
use crate::keys::{OtherPrimeInfos, RsaPrivateKey, asn1, private_key};
use crate::proved::der_core::{NoMemory, read_contents};
use crate::proved::pkcs1::{self as proved, OtherPrimeInfo, RsaPublicKey, TrailerField, Version};
use crate::rattle_std::alloc::Global;
use crate::{RsaOaepParams, RsaPssParams};

/// A type that is read from its contents octets, without a header.
///
/// ```
/// use pkcs1_proved::{RsaPublicKeyRef, der::DecodeContents};
///
/// let key = RsaPublicKeyRef::from_contents(&[2, 1, 7, 2, 1, 3])?;
/// assert_eq!((key.modulus.as_bytes(), key.public_exponent.as_bytes()), (&[7][..], &[3][..]));
/// # Ok::<(), pkcs1_proved::der::Error>(())
/// ```
pub trait DecodeContents<'a>: Sized {
    /// Reads the whole slice as the contents octets of a value.
    ///
    /// # Errors
    ///
    /// The slice isn't the contents octets of such a value, or there is no memory for the value.
    fn from_contents(contents: &'a [u8]) -> Result<Self>;
}

decoded! {
    DecodeContents::from_contents:
    {} Version, contents => read_contents(NoMemory, contents);
    {} TrailerField, contents => read_contents(NoMemory, contents);
    {} OtherPrimeInfo<UintRef<'a>>, contents => read_contents(NoMemory, contents);
    {} RsaPublicKey<UintRef<'a>>, contents => read_contents(NoMemory, contents);
    {} RsaPrivateKey<UintRef<'a>>, contents => {
        let key: proved::RsaPrivateKeyRef<'a> = read_contents(Global, contents)?;
        #[rustfmt::skip]
        macro_rules! number { ($name:ident) => { key.$name }; }
        Ok(private_key!(RsaPrivateKey, number, key.other_prime_infos.map(OtherPrimeInfos)))
    };
    {O: OfIdentifier<'a>} RsaPssParams<AnyRef<'a>, O>, contents => {
        asn1(AnyRef::new(Tag::SEQUENCE, contents)?.decode_as())
    };
    {O: OfIdentifier<'a>} RsaOaepParams<AnyRef<'a>, O>, contents => {
        asn1(AnyRef::new(Tag::SEQUENCE, contents)?.decode_as())
    };
}
