//! Spellings of parameters: each mask of a value chooses one, and any other number is refused.

mod made;

use made::{SHA_256, sequence, tlv};
use pkcs1_proved::der::{ErrorKind, Tag};
use pkcs1_proved::{Result, RsaOaepParamsRef, RsaPssParamsRef};

const SHA_1: &[u8] = &[0x2b, 0x0e, 3, 2, 0x1a];
const MGF1: &[u8] = &[0x2a, 0x86, 0x48, 0x86, 0xf7, 0x0d, 1, 1, 8];
const P_SPECIFIED: &[u8] = &[0x2a, 0x86, 0x48, 0x86, 0xf7, 0x0d, 1, 1, 9];

/// The encoding of a field, and whether it equals its default.
type Field = (Vec<u8>, bool);

/// The field with this number, which holds the first of these values, its default, or the second.
fn field(number: u8, is_default: bool, values: [Vec<u8>; 2]) -> Field {
    (tlv(0xa0 + number, &values[usize::from(!is_default)]), is_default)
}

fn algorithm(oid: &[u8], parameters: Vec<u8>) -> Vec<u8> {
    sequence(&[tlv(6, oid), parameters])
}

fn hash(oid: &[u8]) -> Vec<u8> {
    algorithm(oid, tlv(5, &[]))
}

/// The hash function and the mask generation function, which are defaults where the bits of the choice are 1.
fn functions(choice: u8) -> [Field; 2] {
    let hashes = [SHA_1, SHA_256].map(hash);
    let masks = hashes.clone().map(|hash| algorithm(MGF1, hash));
    [field(0, choice & 1 != 0, hashes), field(1, choice & 2 != 0, masks)]
}

/// The spelling under this mask, or nothing if the value has no such mask.
fn spelling(fields: &[Field], mask: u8) -> Option<Vec<u8>> {
    let mut left = mask;
    let mut written = Vec::new();
    for (encoding, is_default) in fields {
        if !is_default || left & 1 != 0 {
            written.push(encoding.clone());
        }
        left >>= u8::from(*is_default);
    }
    (left == 0).then(|| sequence(&written))
}

/// Of all numbers of eight bits `encode_spelling` takes the masks of the value alone. Where it gives an error, and behind
/// what it writes, the slice is as it was.
fn check_masks(fields: &[Field], encode_spelling: impl Fn(u8, &mut [u8]) -> Result<&[u8]>) {
    for mask in 0..=255 {
        let mut room = [0x55; 150];
        let Some(der) = spelling(fields, mask) else {
            let refused = made::kind(encode_spelling(mask, &mut room));
            assert_eq!((refused, room), (ErrorKind::Value { tag: Tag::SEQUENCE }, [0x55; 150]), "{mask}");
            continue;
        };
        assert_eq!(made::kind(encode_spelling(mask, &mut room[..der.len() - 1])), ErrorKind::NoRoom);
        assert_eq!(room, [0x55; 150]);
        assert_eq!(encode_spelling(mask, &mut room).unwrap(), der);
        assert!(room.starts_with(&der) && room[der.len()..].iter().all(|octet| *octet == 0x55));
    }
}

#[test]
fn masks_of_pss_are_below_two_to_the_number_of_defaults() {
    for choice in 0..8 {
        let salt_len = field(2, choice & 4 != 0, [20, 32].map(|salt_len| tlv(2, &[salt_len])));
        let trailer = (tlv(0xa3, &tlv(2, &[1])), true);
        let fields = [&functions(choice)[..], &[salt_len, trailer]].concat();
        let der = spelling(&fields, 0).unwrap();
        let params = RsaPssParamsRef::try_from(&der[..]).unwrap();
        assert_eq!(u32::from(params.default_fields()), choice.count_ones() + 1);
        check_masks(&fields, |mask, out| params.encode_spelling(mask, out));
    }
}

#[test]
fn masks_of_oaep_are_below_two_to_the_number_of_defaults() {
    for choice in 0..8 {
        let sources = [&b""[..], b"label"].map(|label| algorithm(P_SPECIFIED, tlv(4, label)));
        let fields = [&functions(choice)[..], &[field(2, choice & 4 != 0, sources)]].concat();
        let der = spelling(&fields, 0).unwrap();
        let params = RsaOaepParamsRef::try_from(&der[..]).unwrap();
        assert_eq!(u32::from(params.default_fields()), choice.count_ones());
        check_masks(&fields, |mask, out| params.encode_spelling(mask, out));
    }
}
