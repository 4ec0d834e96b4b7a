// Made of crates/pkcs1_c/src/container.rt by tools/erase/erase.py, and not to be edited.
//! RSA keys in PKCS #8 containers.

use crate::calls::pkcs1_c::bytes::Bytes;
use crate::calls::pkcs1_c::private_key::{PrivateKey, to_c_key, to_c_list};
use crate::calls::pkcs1_c::status::{OK, status};
use crate::calls::pkcs1_c::written::write_encoding;
use crate::proved::der_core::OctetStringRef;
use crate::proved::pkcs1::{RsaPrivateKeyView, algorithm_id};
use crate::proved::pkcs8_core::{PrivateKeyInfoRef, PrivateKeyInfoView};

/// A container (PrivateKeyInfo of RFC 5208 5) of an RSA key, whose algorithm is rsaEncryption with NULL.
#[repr(C)]
#[derive(Clone, Copy)]
pub struct PrivateKeyInfo<'a> {
    /// The DER encoding of the private key.
    pub private_key: &'a [u8],
    /// Whether there are attributes.
    pub has_attributes: bool,
    /// Their contents octets, which aren't checked.
    pub attributes: &'a [u8],
}

/// Decodes a container and the RSA key in it.
fn read_container<'a>(
    encoding: &'a [u8],
) -> crate::proved::pkcs1::Result<(PrivateKeyInfoView<'a>, RsaPrivateKeyView<'a>)> {
    let info = PrivateKeyInfoView::try_from(encoding)?;
    let view = info.rsa_view()?;
    Ok((info, view))
}

/// The C struct of a container of an RSA key.
fn to_c_info<'a>(info: &PrivateKeyInfoView<'a>) -> PrivateKeyInfo<'a> {
    let private_key = info.private_key.as_bytes();
    match info.attributes {
        Some(attributes) => PrivateKeyInfo {
            private_key,
            has_attributes: true,
            attributes,
        },
        None => PrivateKeyInfo {
            private_key,
            has_attributes: false,
            attributes: crate::rattle_std::NO_OCTETS,
        },
    }
}

/// Decodes a container whose algorithm is rsaEncryption with NULL, and the private key in it; allocates nothing. `OK`
/// exactly if the octets encode such a container: then `info` holds it, in parts of `encoding`, and attributes that are
/// absent are empty. `key` and `listed` hold the only key in it, as of `pkcs1_c_private_key_decode`. Else the status of
/// the first fault of a container, then of the RSA key in it, and all three are as they were.
#[unsafe(no_mangle)]
pub extern "C" fn pkcs1_c_private_key_info_decode<'a>(
    encoding: *const u8, encoding_len: usize,
    info: &mut PrivateKeyInfo<'a>,
    key: &mut PrivateKey<'a>,
    listed: &mut Bytes<'a>,
) -> u32 {
    let encoding = unsafe { core::slice::from_raw_parts(encoding, encoding_len) };
    match read_container(encoding) {
        Ok((read, view)) => {
            *info = to_c_info(&read);
            *key = to_c_key(&view);
            *listed = to_c_list(&view);
            OK
        }
        Err(error) => status(&error),
    }
}

/// The container of a C struct. Its `private_key` must be the encoding of a private key.
fn from_c_info<'a>(info: &PrivateKeyInfo<'a>) -> crate::proved::pkcs1::Result<PrivateKeyInfoRef<'a>> {
    let _view = RsaPrivateKeyView::try_from(info.private_key)?;
    let private_key = OctetStringRef::new(info.private_key)?;
    let attributes = if info.has_attributes {
        Some(info.attributes)
    } else {
        None
    };
    let made = PrivateKeyInfoRef {
        algorithm: algorithm_id(),
        private_key,
        attributes,
    };
    made.lemma_has_encoding();
    Ok(made)
}

/// Puts the only encoding of a container to the front of `out`. `len` and the rest of `out` are as of
/// `pkcs1_c_public_key_encode`. If `private_key` encodes a private key: `NO_ROOM` exactly if there is an encoding, and
/// `out` is shorter; `OVERFLOW` exactly if none is within the limit. Else the status of the first fault of
/// `private_key` as a private key.
#[unsafe(no_mangle)]
pub extern "C" fn pkcs1_c_private_key_info_encode(
    info: &PrivateKeyInfo<'_>,
    out: *mut u8, out_len: usize,
    len: &mut usize,
) -> u32 {
    let out = unsafe { core::slice::from_raw_parts_mut(out, out_len) };
    match from_c_info(info) {
        Ok(made) => write_encoding(&made, out, len),
        Err(failure) => status(&failure),
    }
}
