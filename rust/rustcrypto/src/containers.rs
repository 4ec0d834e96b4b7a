//! Keys that types of others hold in PKCS #8 (RFC 5208) or SubjectPublicKeyInfo (RFC 5280), from PKCS #1 and to it.

use crate::release::PrivateKeyInfo;
use crate::{ALGORITHM_ID, DecodeRsaPrivateKey, DecodeRsaPublicKey, Error, Result};
#[cfg(feature = "alloc")]
use crate::{ALGORITHM_OID, EncodeRsaPrivateKey, EncodeRsaPublicKey, RsaPrivateKeyRef, RsaPublicKeyRef};
use der::asn1::BitStringRef;
#[cfg(feature = "alloc")]
use der::{Document, SecretDocument, asn1::Null};
#[cfg(feature = "alloc")]
use spki::AlgorithmIdentifierRef;
use spki::SubjectPublicKeyInfoRef;

/// The key is put into a container of version 0 for rsaEncryption, of which the type is made.
impl<T> DecodeRsaPrivateKey for T
where
    T: for<'a> TryFrom<PrivateKeyInfo<'a>, Error = pkcs8::Error>,
{
    #[allow(clippy::unnecessary_fallible_conversions, clippy::useless_conversion, reason = "of der 0.8 it may fail")]
    fn from_pkcs1_der(key: &[u8]) -> Result<T> {
        let private_key = key.try_into().map_err(|_| Error::KeyMalformed)?;
        Ok(T::try_from(PrivateKeyInfo::new(ALGORITHM_ID, private_key))?)
    }
}

/// The key is put behind the identifier of rsaEncryption.
impl<T> DecodeRsaPublicKey for T
where
    T: for<'a> TryFrom<SubjectPublicKeyInfoRef<'a>, Error = spki::Error>,
{
    fn from_pkcs1_der(key: &[u8]) -> Result<T> {
        let subject_public_key = BitStringRef::from_bytes(key)?;
        Ok(T::try_from(SubjectPublicKeyInfoRef { algorithm: ALGORITHM_ID, subject_public_key })?)
    }
}

/// Refuses another algorithm than rsaEncryption, and other parameters than NULL (RFC 8017 A.1).
#[cfg(feature = "alloc")]
fn rsa_alone(algorithm: &AlgorithmIdentifierRef<'_>) -> Result<()> {
    algorithm.assert_algorithm_oid(ALGORITHM_OID)?;
    algorithm.parameters_any()?.decode_as::<Null>()?;
    Ok(())
}

/// The key in the type's container, whatever its version and attributes.
#[cfg(feature = "alloc")]
impl<T: pkcs8::EncodePrivateKey> EncodeRsaPrivateKey for T {
    fn to_pkcs1_der(&self) -> Result<SecretDocument> {
        let document = self.to_pkcs8_der()?;
        let container = PrivateKeyInfo::try_from(document.as_bytes())?;
        rsa_alone(&container.algorithm)?;
        RsaPrivateKeyRef::try_from(AsRef::<[u8]>::as_ref(&container.private_key))?.try_into()
    }
}

/// The key in the type's SubjectPublicKeyInfo.
#[cfg(feature = "alloc")]
impl<T: spki::EncodePublicKey> EncodeRsaPublicKey for T {
    fn to_pkcs1_der(&self) -> Result<Document> {
        let document = self.to_public_key_der()?;
        let info = SubjectPublicKeyInfoRef::try_from(document.as_bytes())?;
        rsa_alone(&info.algorithm)?;
        RsaPublicKeyRef::try_from(info.subject_public_key.as_bytes().ok_or(spki::Error::KeyMalformed)?)?.try_into()
    }
}
