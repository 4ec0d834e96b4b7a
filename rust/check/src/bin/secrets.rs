//! secrets KEY..: under memcheck, does the path of a call depend on the secret numbers of these private keys?
//!
//! All octets of them but the first are undefined, so memcheck tells each branch and each address that depends on them.
//! `secrets --leak KEY..` has such a branch, which must be told.

use check::proved::der_core::{Encode, TryClone, Uint, UintRef};
use check::proved::pkcs1::{EncodeRsaPrivateKey, OtherPrimeInfo, RsaPrivateKey, RsaPrivateKeyRef, RsaPrivateKeyView};
use check::proved::pkcs8_core::{PrivateKeyInfoRef, PrivateKeyInfoView, rsa_from_pkcs8_der};
use check::rattle_std::alloc::Global;
use std::hint::black_box;

#[link(name = "built", kind = "static")]
unsafe extern "C" {
    /// Makes octets undefined.
    fn hide(octets: *mut u8, len: usize);
    /// Makes them defined.
    fn show(octets: *mut u8, len: usize);
}

/// Where the octets of each secret number behind the first stand: where they begin, and how many.
fn secrets(der: &[u8], key: &RsaPrivateKeyRef<'_>) -> Vec<(usize, usize)> {
    let others = key.other_prime_infos.iter().flatten();
    let others = others.flat_map(|OtherPrimeInfo { prime, exponent, coefficient }| [prime, exponent, coefficient]);
    let firsts = [&key.private_exponent, &key.prime1, &key.prime2, &key.exponent1, &key.exponent2, &key.coefficient];
    let place = |number: &UintRef<'_>| {
        let octets = number.as_bytes();
        assert!(octets.len() > 64);
        (octets.as_ptr() as usize - der.as_ptr() as usize + 1, octets.len() - 1)
    };
    firsts.into_iter().chain(others).map(place).collect()
}

/// Reads a key in each way, and writes it in each way.
fn use_key(der: &[u8], out: &mut [u8]) {
    let view = RsaPrivateKeyView::try_from(der).unwrap();
    assert!(view.other_primes().remaining() < 2);
    let key = RsaPrivateKeyRef::decode_key(Global, der).unwrap();
    let owned = RsaPrivateKey::<Uint>::decode_owned_key(Global, der).unwrap();
    black_box(format!("{key:?} {view:?} {owned:?} {:?}", owned.public_key()));
    black_box((key.version(), TryClone::try_clone_in(&owned, Global).unwrap()));
    assert!(key.encode_into(out).unwrap() == der.len() && owned.encode_into(out).unwrap() == der.len());
    assert!(owned.encode_into(&mut out[..der.len() - 1]).is_err());
    let document = owned.to_pkcs1_der(Global).unwrap();
    black_box(format!("{document:?}"));
    black_box(document.as_bytes());
}

/// Reads the key in a container in each way, and writes the container.
fn use_container(der: &[u8], out: &mut [u8]) {
    black_box(rsa_from_pkcs8_der(der).unwrap());
    black_box(PrivateKeyInfoView::try_from(der).unwrap().rsa_view().unwrap());
    let info = PrivateKeyInfoRef::try_from(der).unwrap();
    let key = info.rsa_key(Global).unwrap();
    black_box(format!("{key:?}"));
    assert!(info.encode_info(out).unwrap() == der.len());
    assert!(info.encode_to_slice(&mut out[..der.len() - 1]).is_err());
}

fn main() -> std::io::Result<()> {
    let leak = std::env::args().any(|word| word == "--leak");
    for file in std::env::args().skip(if leak { 2 } else { 1 }) {
        let mut der = std::fs::read(file)?;
        let mut out = vec![0; der.len() + 8];
        let info = PrivateKeyInfoRef::try_from(&der[..]).ok();
        let inside = info.as_ref().map(|info| info.private_key.as_bytes());
        let places = secrets(&der, &RsaPrivateKeyRef::decode_key(Global, inside.unwrap_or(&der)).unwrap());
        let call = if info.is_some() { use_container } else { use_key };
        for &(begin, len) in &places {
            // SAFETY: the octets are those of a number.
            unsafe { hide(der[begin..][..len].as_mut_ptr(), len) };
        }
        call(&der, &mut out);
        if leak && der[places[0].0] & 1 == 1 {
            black_box(&mut out)[0] ^= 1;
        }
        for octets in [&mut der, &mut out] {
            // SAFETY: the octets are those of the list.
            unsafe { show(octets.as_mut_ptr(), octets.len()) };
        }
        assert!(leak || out[..der.len()] == der);
    }
    Ok(())
}
