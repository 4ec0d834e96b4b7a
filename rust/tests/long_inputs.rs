//! However long an input is, a call ends, and takes little of the stack: in a debug build too.

mod made;

use made::{kind, sequence, tlv};
use pkcs1_proved::der::{Encode, ErrorKind, asn1::UintRef};
use pkcs1_proved::{RsaOaepParamsRef, RsaPssParamsRef, RsaPublicKeyRef};

const LONG: usize = 1 << 20;

/// Does this with 128 KiB of stack.
fn on_a_short_stack(call: impl FnOnce() + Send + 'static) {
    let thread = std::thread::Builder::new().stack_size(128 << 10);
    thread.spawn(call).unwrap().join().unwrap();
}

#[test]
fn a_long_identifier_is_refused() {
    for octet in [0x2a, 0x80, 0xaa] {
        let parameters = sequence(&[tlv(0xa0, &sequence(&[tlv(6, &vec![octet; LONG])]))]);
        on_a_short_stack(move || {
            assert_eq!(kind(RsaPssParamsRef::try_from(&parameters[..])), ErrorKind::OidMalformed);
            assert_eq!(kind(RsaOaepParamsRef::try_from(&parameters[..])), ErrorKind::OidMalformed);
        });
    }
}

#[test]
fn long_parameters_of_a_hash_function_are_opaque() {
    let hash = sequence(&[tlv(6, made::SHA_256), tlv(4, &vec![0x80; LONG])]);
    let parameters = sequence(&[tlv(0xa0, &hash)]);
    on_a_short_stack(move || {
        let params = RsaPssParamsRef::try_from(&parameters[..]).unwrap();
        assert_eq!(params.hash.parameters.unwrap().value().len(), LONG);
        assert_eq!(params.encode_to_slice(&mut vec![0; parameters.len()]).unwrap(), parameters);
    });
}

#[test]
fn long_numbers_are_read_and_written() {
    let der = sequence(&[tlv(2, &[&[0], &vec![0xff; LONG][..]].concat()), tlv(2, &[3])]);
    on_a_short_stack(move || {
        let key = RsaPublicKeyRef::try_from(&der[..]).unwrap();
        assert_eq!(key.modulus.bit_len(), 8 * LONG as u64);
        assert_eq!(key.encode_to_slice(&mut vec![0; der.len()]).unwrap(), der);
    });
}

#[test]
fn many_zeros_in_front_of_a_number_are_skipped() {
    let mut octets = vec![0; LONG];
    octets.push(7);
    on_a_short_stack(move || assert_eq!(UintRef::new(&octets).unwrap().as_bytes(), [7]));
}

#[cfg(feature = "alloc")]
#[test]
fn many_primes_are_read_and_written() {
    let other = sequence(&[tlv(2, &[3]), tlv(2, &[5]), tlv(2, &[7])]);
    let mut parts = vec![tlv(2, &[1])];
    parts.extend((0..8).map(|_| tlv(2, &[9])));
    parts.push(sequence(&vec![other; LONG / 16]));
    let der = sequence(&parts);
    on_a_short_stack(move || {
        let key = pkcs1_proved::RsaPrivateKeyRef::try_from(&der[..]).unwrap();
        assert_eq!(key.other_prime_infos.as_ref().unwrap().len(), LONG / 16);
        assert_eq!(key.to_der(), Ok(der));
    });
}
