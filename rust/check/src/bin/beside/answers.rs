//! What the readers of the crate answer, as octets: the status, then the parts of the value, each with its length in
//! front, and what is written of it again.

use check::proved::{der_core as der, pkcs1 as rsa, pkcs8_core as pkcs8, spki_core as spki};
use check::rattle_std::alloc::Global;
use rsa::{FromAlgorithm, RsaOaepParamsRef, RsaPrivateKeyRef, RsaPrivateKeyView, RsaPssParamsRef, RsaPublicKeyRef};

type Answer = rsa::Result<Vec<u8>>;

/// The status of `pkcs1.h` for the error.
fn status(error: rsa::Error) -> u8 {
    use der::ErrorKind as K;
    match error {
        rsa::Error::Asn1(error) => match error.kind() {
            K::Failed => 1,
            K::Incomplete => 2,
            K::IndefiniteLength => 3,
            K::Length { .. } => 4,
            K::Noncanonical { .. } => 5,
            K::OidMalformed => 6,
            K::OidUnknown => 7,
            K::Overflow => 8,
            K::Overlength => 9,
            K::ParametersMissing => 10,
            K::TagUnexpected { .. } => 11,
            K::TagUnknown { .. } => 12,
            K::TrailingData => 13,
            K::Value { .. } => 14,
            K::NoRoom => 15,
            K::File => 16,
            K::OutOfMemory => 17,
            other => panic!("{other:?} has no status"),
        },
        rsa::Error::Crypto => 18,
        rsa::Error::KeyMalformed => 19,
        rsa::Error::Version => 20,
        other => panic!("{other:?} has no status"),
    }
}

fn tell(told: &mut Vec<u8>, bytes: &[u8]) {
    told.extend((bytes.len() as u32).to_be_bytes());
    told.extend(bytes);
}

/// The encoding. A longer slice is left as it was behind it, and a slice one too short is left as it was.
fn tell_written<T: der::Encode>(told: &mut Vec<u8>, value: &T) {
    let mut room = vec![0xee; value.encoded_len().unwrap().to_usize() + 3];
    let len = value.encode_to_slice(&mut room).unwrap().len();
    assert!(room.split_off(len) == [0xee; 3]);
    let mut short = vec![0x11; len - 1];
    assert_eq!(value.encode_to_slice(&mut short).unwrap_err().kind(), der::ErrorKind::NoRoom);
    assert!(short.iter().all(|octet| *octet == 0x11));
    tell(told, &room);
}

fn public_key(bytes: &[u8]) -> Answer {
    let key = RsaPublicKeyRef::try_from(bytes)?;
    let mut told = Vec::new();
    tell(&mut told, key.modulus.as_bytes());
    tell(&mut told, key.public_exponent.as_bytes());
    tell_written(&mut told, &key);
    Ok(told)
}

fn tell_key(told: &mut Vec<u8>, key: &RsaPrivateKeyRef<'_>) {
    let front = [&key.modulus, &key.public_exponent, &key.private_exponent, &key.prime1, &key.prime2];
    for number in front.into_iter().chain([&key.exponent1, &key.exponent2, &key.coefficient]) {
        tell(told, number.as_bytes());
    }
    for prime in key.other_prime_infos.iter().flatten() {
        for number in [&prime.prime, &prime.exponent, &prime.coefficient] {
            tell(told, number.as_bytes());
        }
    }
}

fn private_key(bytes: &[u8]) -> Answer {
    let view = RsaPrivateKeyView::try_from(bytes);
    let key = RsaPrivateKeyRef::decode_key(Global, bytes);
    assert_eq!(view.as_ref().err(), key.as_ref().err());
    let (view, key) = (view?, key?);
    assert!(view.as_bytes() == bytes && view.coefficient() == key.coefficient);
    let mut told = Vec::new();
    tell_key(&mut told, &key);
    tell_written(&mut told, &key);
    Ok(told)
}

fn container(bytes: &[u8]) -> Answer {
    let info = pkcs8::PrivateKeyInfoRef::try_from(bytes)?;
    let mut told = Vec::new();
    tell_key(&mut told, &info.rsa_key(Global)?);
    tell(&mut told, info.private_key.as_bytes());
    told.push(info.attributes().is_some().into());
    info.attributes().inspect(|octets| tell(&mut told, octets));
    tell_written(&mut told, &info);
    Ok(told)
}

fn tell_algorithm(told: &mut Vec<u8>, algorithm: &spki::AlgorithmIdentifierRef<'_>) {
    tell(told, algorithm.oid.as_bytes());
    told.push(algorithm.parameters.map_or(0, |any| any.tag().octet()));
    algorithm.parameters.inspect(|any| tell(told, any.value()));
}

fn tell_mask_gen(told: &mut Vec<u8>, mask_gen: &spki::AlgorithmIdentifier<spki::AlgorithmIdentifierRef<'_>>) {
    tell(told, mask_gen.oid.as_bytes());
    told.push(mask_gen.parameters.is_some().into());
    mask_gen.parameters.as_ref().inspect(|hash| tell_algorithm(told, hash));
}

fn pss(read: rsa::Result<RsaPssParamsRef<'_>>) -> Answer {
    let params = read?;
    let mut told = Vec::new();
    tell_algorithm(&mut told, &params.hash);
    tell_mask_gen(&mut told, &params.mask_gen);
    told.extend([params.salt_len, params.trailer_field as u8]);
    tell_written(&mut told, &params);
    tell_written(&mut told, &params.to_algorithm());
    Ok(told)
}

fn oaep(read: rsa::Result<RsaOaepParamsRef<'_>>) -> Answer {
    let params = read?;
    let mut told = Vec::new();
    tell_algorithm(&mut told, &params.hash);
    tell_mask_gen(&mut told, &params.mask_gen);
    tell_algorithm(&mut told, &params.p_source);
    params.label().inspect(|label| tell(&mut told, label));
    tell_written(&mut told, &params);
    tell_written(&mut told, &params.to_algorithm());
    Ok(told)
}

/// What each reader answers, in the order of `built.c`.
pub fn answers(bytes: &[u8]) -> [Vec<u8>; 11] {
    [
        public_key(bytes),
        private_key(bytes),
        container(bytes),
        pss(RsaPssParamsRef::try_from(bytes)),
        pss(RsaPssParamsRef::from_der_strict(bytes)),
        pss(RsaPssParamsRef::from_algorithm_der(bytes)),
        pss(RsaPssParamsRef::from_algorithm_der_strict(bytes)),
        oaep(RsaOaepParamsRef::try_from(bytes)),
        oaep(RsaOaepParamsRef::from_der_strict(bytes)),
        oaep(RsaOaepParamsRef::from_algorithm_der(bytes)),
        oaep(RsaOaepParamsRef::from_algorithm_der_strict(bytes)),
    ]
    .map(|answer| match answer {
        Ok(told) => [&[0], &told[..]].concat(),
        Err(error) => vec![status(error)],
    })
}
