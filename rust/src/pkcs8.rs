//! PKCS #8 containers of private keys (RFC 5208).

use crate::algorithm::{AlgorithmIdentifier, AlgorithmIdentifierRef};
#[cfg(feature = "alloc")]
use crate::der::SecretDocument;
use crate::der::asn1::OctetStringRef;
use crate::der::{decoded, encoded, from_slices};
use crate::identifier::Identifier;
use crate::proved::pkcs8_core::{self as proved, PrivateKeyInfoView};
use crate::proved::spki_core::AlgorithmIdentifierOf;
use crate::{Error, Result, RsaPrivateKeyOwned, RsaPrivateKeyRef, RsaPrivateKeyView};
#[cfg(feature = "alloc")]
use crate::{RsaPrivateKey, values::Number};

/// A private key with its algorithm and attributes (RFC 5208 5). The version is always 0.
///
/// ```text
/// PrivateKeyInfo ::= SEQUENCE {
///     version              INTEGER { v1(0) },
///     privateKeyAlgorithm  AlgorithmIdentifier,
///     privateKey           OCTET STRING,
///     attributes           [0] IMPLICIT Attributes OPTIONAL
/// }
/// ```
#[derive(Clone, Copy)]
pub struct PrivateKeyInfoRef<'a> {
    /// The algorithm that the private key is for.
    pub algorithm: AlgorithmIdentifierRef<'a>,
    /// The octets of the private key, in the format of its algorithm.
    pub private_key: OctetStringRef<'a>,
    /// The contents octets of the attributes, which aren't checked.
    pub attributes: Option<&'a [u8]>,
}

impl<'a> PrivateKeyInfoRef<'a> {
    fn view(&self) -> PrivateKeyInfoView<'_> {
        PrivateKeyInfoView {
            algorithm: self.algorithm.as_view(),
            private_key: self.private_key,
            attributes: self.attributes,
        }
    }

    /// The RSA key in the container.
    /// # Errors
    /// `OidUnknown` if the algorithm isn't rsaEncryption, `ParametersMissing`, `Value` if they aren't NULL, or the
    /// octets are no key.
    pub fn rsa_view(&self) -> Result<RsaPrivateKeyView<'a>> {
        let algorithm = AlgorithmIdentifierOf {
            oid: self.algorithm.oid.as_identifier().0.to_object_identifier(),
            parameters: self.algorithm.parameters,
        };
        let info = proved::PrivateKeyInfoRef { algorithm, private_key: self.private_key, attributes: None };
        info.rsa_view()
    }
}

impl core::fmt::Debug for PrivateKeyInfoRef<'_> {
    /// Prints the algorithm, but nothing secret.
    fn fmt(&self, f: &mut core::fmt::Formatter<'_>) -> core::fmt::Result {
        f.debug_struct("PrivateKeyInfo").field("algorithm", &self.algorithm).finish_non_exhaustive()
    }
}

decoded! {
    {} PrivateKeyInfoRef<'a>, bytes => {
        let view = PrivateKeyInfoView::try_from(bytes)?;
        let algorithm = AlgorithmIdentifier::of(view.algorithm, core::convert::identity);
        Ok(PrivateKeyInfoRef { algorithm, private_key: view.private_key, attributes: view.attributes })
    };
}
from_slices! { PrivateKeyInfoRef<'a>; }
encoded! {
    {} PrivateKeyInfoRef<'_>, info => info.view();
}

impl<'a> TryFrom<PrivateKeyInfoRef<'a>> for RsaPrivateKeyRef<'a> {
    type Error = Error;

    fn try_from(info: PrivateKeyInfoRef<'a>) -> Result<RsaPrivateKeyRef<'a>> {
        Ok(RsaPrivateKeyRef::of_view(&info.rsa_view()?)?)
    }
}

impl<'a> RsaPrivateKeyRef<'a> {
    /// The RSA key in the encoding of a container.
    /// # Errors
    /// The slice is no container, or as of `PrivateKeyInfoRef::rsa_view`.
    pub fn from_pkcs8_der(bytes: &'a [u8]) -> Result<RsaPrivateKeyRef<'a>> {
        Ok(RsaPrivateKeyRef::of_view(&proved::rsa_from_pkcs8_der(bytes)?)?)
    }
}

impl RsaPrivateKeyOwned {
    /// The RSA key in the encoding of a container.
    /// # Errors
    /// As of `RsaPrivateKeyRef::from_pkcs8_der`.
    pub fn from_pkcs8_der(bytes: &[u8]) -> Result<RsaPrivateKeyOwned> {
        Ok(RsaPrivateKeyOwned::try_from(&RsaPrivateKeyRef::from_pkcs8_der(bytes)?)?)
    }
}

#[cfg(feature = "alloc")]
impl<U: Number> RsaPrivateKey<U> {
    /// Returns the container of the key, without attributes.
    /// # Errors
    /// The key has no encoding, or there is no memory for it.
    pub fn to_pkcs8_der(&self) -> Result<SecretDocument> {
        let key = crate::der::to_der(&self.written()?)?;
        let private_key = OctetStringRef::new(&key)?;
        let info = PrivateKeyInfoRef { algorithm: crate::ALGORITHM_ID, private_key, attributes: None };
        Ok(SecretDocument::written(&info.view())?)
    }
}
