//! Types that name the algorithms of PKCS #1.

use crate::identifier::{AssociatedOid, ObjectIdentifier};

macro_rules! algorithms {
    ($($(#[doc = $doc:literal])* $name:ident = $text:literal;)*) => { $(
        $(#[doc = $doc])*
        #[derive(Clone, Copy, Debug)]
        pub struct $name;

        impl AssociatedOid for $name {
            const OID: ObjectIdentifier = ObjectIdentifier::new_unwrap($text);
        }
    )* };
}
algorithms! {
    /// SHA-1 (RFC 8017 B.1).
    Sha1 = "1.3.14.3.2.26";
    /// SHA-224.
    Sha224 = "2.16.840.1.101.3.4.2.4";
    /// SHA-256.
    Sha256 = "2.16.840.1.101.3.4.2.1";
    /// SHA-384.
    Sha384 = "2.16.840.1.101.3.4.2.2";
    /// SHA-512.
    Sha512 = "2.16.840.1.101.3.4.2.3";
    /// SHA-512/224.
    Sha512_224 = "2.16.840.1.101.3.4.2.5";
    /// SHA-512/256.
    Sha512_256 = "2.16.840.1.101.3.4.2.6";
    /// SHA3-256.
    Sha3_256 = "2.16.840.1.101.3.4.2.8";
    /// SHA3-384.
    Sha3_384 = "2.16.840.1.101.3.4.2.9";
    /// SHA3-512.
    Sha3_512 = "2.16.840.1.101.3.4.2.10";
    /// MGF1, the mask generation function (RFC 8017 B.2.1).
    Mgf1 = "1.2.840.113549.1.1.8";
    /// id-pSpecified: the label is in the parameters (RFC 8017 A.2.1).
    PSpecified = "1.2.840.113549.1.1.9";
    /// id-RSASSA-PSS (RFC 8017 A.2.3).
    RsassaPss = "1.2.840.113549.1.1.10";
    /// id-RSAES-OAEP (RFC 8017 A.2.1).
    RsaesOaep = "1.2.840.113549.1.1.7";
    /// rsaEncryption, of keys (RFC 8017 A.1).
    RsaEncryption = "1.2.840.113549.1.1.1";
}
