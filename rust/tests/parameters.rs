//! Parameters of RSASSA-PSS and RSAES-OAEP are read, made and written.

mod made;

use pkcs1_proved::der::asn1::AnyRef;
use pkcs1_proved::der::{Encode, ErrorKind, Tag, oid::AssociatedOid};
use pkcs1_proved::holders::Held;
use pkcs1_proved::spki::AlgorithmIdentifier;
use pkcs1_proved::{
    Mgf1, PSpecified, RsaOaepParamsRef, RsaPssParamsRef, RsaPssParamsView, Sha1, Sha256, Sha384, TrailerField,
};

#[test]
fn defaults_are_filled_in() {
    let params = RsaPssParamsRef::try_from(&[0x30, 0][..]).unwrap();
    assert!(params.uses_hash::<Sha1>() && params.salt_len == RsaPssParamsRef::SALT_LEN_DEFAULT);
    assert_eq!(params.trailer_field, TrailerField::BC);
    assert_eq!(params.encode_to_slice(&mut [0; 2]).unwrap(), [0x30, 0]);
    let params = RsaOaepParamsRef::try_from(&[0x30, 0][..]).unwrap();
    assert!(params.uses_hash::<Sha1>() && params.label() == Some(&[][..]));
}

#[test]
fn parameters_of_a_hash_function_are_those_that_are_read() {
    let der = made::pss(made::SHA_256, 32);
    let params = RsaPssParamsRef::new::<Sha256>(32);
    made::check_written(&params, &der);
    assert_eq!(params, RsaPssParamsRef::try_from(&der[..]).unwrap());
    assert_eq!(params.hash.oid.as_bytes(), made::SHA_256);
    assert_ne!(params, RsaPssParamsRef::new::<Sha256>(33));
}

#[test]
fn a_default_that_is_written_is_read_but_not_strictly() {
    let der = made::sequence(&[made::tlv(0xa2, &made::tlv(2, &[20]))]);
    assert_eq!(RsaPssParamsRef::try_from(&der[..]).unwrap(), RsaPssParamsRef::default());
    assert!(matches!(made::kind(RsaPssParamsRef::from_der_strict(&der)), ErrorKind::Noncanonical { .. }));
}

/// Comparing slices at an address that may not be read takes 100 ns on some processors, even where they are empty.
#[test]
fn no_octets_stand_at_an_address_that_may_be_read() {
    let (oaep, empty) = (RsaOaepParamsRef::new::<Sha256>(), AnyRef::new(Tag::OCTET_STRING, &[]).unwrap());
    let slices = [
        AnyRef::NULL.value(),
        empty.as_any().value(),
        oaep.label().unwrap(),
        oaep.hash.parameters.unwrap().value(),
        RsaPssParamsRef::try_from(&[0x30, 0][..]).unwrap().hash.parameters.unwrap().value(),
    ];
    assert!(slices.iter().all(|octets| octets.is_empty() && octets.as_ptr().addr() > 4096));
    #[cfg(feature = "alloc")]
    {
        let owned = pkcs1_proved::RsaOaepParamsOwned::default();
        let (hash, label) = (owned.hash.parameters.as_ref().unwrap(), owned.label().unwrap());
        assert!(hash.value().is_empty() && hash.value().as_ptr().addr() > 4096 && label.as_ptr().addr() > 4096);
    }
}

#[test]
fn a_label_is_written_and_read() {
    let params = RsaOaepParamsRef::new_with_label::<Sha256>(b"label");
    let mut room = [0; 200];
    let der = params.encode_to_slice(&mut room).unwrap();
    assert_eq!(RsaOaepParamsRef::try_from(der).unwrap().label(), Some(&b"label"[..]));
}

#[test]
fn a_hash_function_is_told_by_its_identifier_with_null_or_without() {
    for (one, other) in made::hash_functions().iter().flat_map(|one| made::hash_functions().map(|other| (one, other))) {
        let (pss, oaep, same) = (one.pss, one.oaep, one.oid == other.oid);
        assert_eq!(((other.pss_uses)(&pss), (other.oaep_uses)(&oaep)), (same, same));
        assert_eq!((other.is_hash)(&pss.hash), same);
        let without = AlgorithmIdentifier { parameters: None, ..pss.hash };
        for (hash, under) in [(without, pss.hash), (pss.hash, without), (without, without)] {
            let mask_gen = AlgorithmIdentifier { parameters: Some(under), ..pss.mask_gen };
            assert!((one.pss_uses)(&RsaPssParamsRef { hash, mask_gen, ..pss }));
            assert!((one.oaep_uses)(&RsaOaepParamsRef { hash, mask_gen, ..oaep }));
        }
        let mask_gen = other.pss.mask_gen;
        assert_eq!((one.pss_uses)(&RsaPssParamsRef { mask_gen, ..pss }), same);
        assert_eq!((other.oaep_uses)(&RsaOaepParamsRef { mask_gen, ..oaep }), same);
    }
}

#[test]
fn parameters_mean_the_same_with_null_or_without_and_nothing_else_does() {
    let (pss, oaep) = (RsaPssParamsRef::new::<Sha256>(32), RsaOaepParamsRef::new_with_label::<Sha256>(b"label"));
    let (hash, mgf1) = (pss.hash, pss.mask_gen);
    let with = |parameters| AlgorithmIdentifier { parameters, ..hash };
    let under = |parameters| AlgorithmIdentifier { parameters, ..mgf1 };
    let (zero, one) = (with(AnyRef::new(Tag::NULL, &[0]).ok()), with(AnyRef::new(Tag::NULL, &[1]).ok()));
    let other = RsaPssParamsRef::new::<Sha384>(32);
    for (hash, mask_gen, same) in [
        (hash, mgf1, true),
        (with(None), under(Some(with(None))), true),
        (other.hash, mgf1, false),
        (zero, mgf1, false),
        (hash, other.mask_gen, false),
        (hash, under(Some(zero)), false),
        (hash, under(None), false),
        (hash, AlgorithmIdentifier { oid: PSpecified::OID, ..mgf1 }, false),
    ] {
        let (one, two) = (RsaPssParamsRef { hash, mask_gen, ..pss }, RsaOaepParamsRef { hash, mask_gen, ..oaep });
        assert_eq!((pss.means_same(&one), one.means_same(&pss)), (same, same));
        assert_eq!((oaep.means_same(&two), two.means_same(&oaep)), (same, same));
        assert!(one.means_same(&one) && two.means_same(&two));
    }
    assert!(zero.is_same_hash(&zero) && !zero.is_same_hash(&one) && !zero.is_same_hash(&with(None)));
    assert!(!pss.means_same(&RsaPssParamsRef::new::<Sha256>(33)));
    assert!(!oaep.means_same(&RsaOaepParamsRef::new_with_label::<Sha256>(b"Label")));
    let mut room = [0; 100];
    assert!(pss.means_same(&RsaPssParamsView::try_from(pss.encode_to_slice(&mut room).unwrap()).unwrap()));
}

#[test]
fn other_masks_use_no_hash_function_and_other_sources_have_no_label() {
    let (pss, oaep) = (RsaPssParamsRef::new::<Sha256>(32), RsaOaepParamsRef::new_with_label::<Sha256>(b"label"));
    let (hash, label) = (pss.hash, oaep.p_source.parameters);
    let mgf1 = |parameters| AlgorithmIdentifier { parameters, ..pss.mask_gen };
    for mask_gen in [
        mgf1(None),
        AlgorithmIdentifier { oid: PSpecified::OID, parameters: Some(hash) },
        mgf1(Some(AlgorithmIdentifier { parameters: label, ..hash })),
        mgf1(Some(AlgorithmIdentifier { parameters: AnyRef::new(Tag::NULL, &[0]).ok(), ..hash })),
    ] {
        assert!(!RsaPssParamsRef { mask_gen, ..pss }.uses_hash::<Sha256>());
        assert!(!RsaOaepParamsRef { mask_gen, ..oaep }.uses_hash::<Sha256>());
    }
    for (oid, parameters) in
        [(PSpecified::OID, None), (PSpecified::OID, Some(AnyRef::NULL)), (Mgf1::OID, label), (Sha256::OID, label)]
    {
        assert_eq!(RsaOaepParamsRef { p_source: AlgorithmIdentifier { oid, parameters }, ..oaep }.label(), None);
    }
}

#[cfg(feature = "alloc")]
/// It is what is read, and written.
fn check<'a, T: Encode + PartialEq + std::fmt::Debug + TryFrom<&'a [u8]>>(params: &T, der: &'a [u8]) {
    assert_eq!(T::try_from(der).ok().as_ref(), Some(params));
    made::check_written(params, der);
}

#[cfg(feature = "alloc")]
#[test]
fn what_is_known_and_what_is_not_is_written_alike() {
    use pkcs1_proved::der::asn1::ObjectIdentifier;
    use pkcs1_proved::{RsaOaepParamsOwned, RsaPssParamsOwned};
    check(&RsaPssParamsOwned::default(), &[0x30, 0]);
    check(&RsaOaepParamsOwned::default(), &[0x30, 0]);
    let octets = vec![1; 70_000];
    for len in [0, 1, 62, 63, 64, 65, 127, 128, 255, 256, 70_000] {
        let params = RsaOaepParamsRef::new_with_label::<Sha384>(&octets[..len]);
        check(&params, &params.to_der().unwrap());
        assert_eq!(params.label(), Some(&octets[..len]));
        let hash =
            AlgorithmIdentifier { parameters: AnyRef::new(Tag::OCTET_STRING, &octets[..len]).ok(), ..params.hash };
        let params = RsaPssParamsRef { hash, ..RsaPssParamsRef::new::<pkcs1_proved::Sha512>(64) };
        check(&params, &params.to_der().unwrap());
    }
    for salt_len in 0..=255 {
        let params = RsaPssParamsRef::new::<Sha256>(salt_len);
        check(&params, &params.to_der().unwrap());
        let view = params.to_der().unwrap();
        check(&RsaPssParamsView::try_from(&view[..]).unwrap(), &view);
    }
    for len in 1..=39 {
        let oid = ObjectIdentifier::from_bytes(&octets[..len]).unwrap();
        let hash = AlgorithmIdentifier { oid, parameters: Some(AnyRef::NULL) };
        let mask_gen = AlgorithmIdentifier { oid: Mgf1::OID, parameters: Some(hash) };
        let params = RsaOaepParamsRef { hash, mask_gen, ..RsaOaepParamsRef::default() };
        check(&params, &params.to_der().unwrap());
    }
}
