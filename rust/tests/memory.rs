//! Which calls allocate, and that each failed allocation gives `OutOfMemory`.
#![cfg(feature = "alloc")]

mod made;

use pkcs1_proved::der::asn1::{Any, Uint};
use pkcs1_proved::der::{Decode, Document, Encode, ErrorKind, Tag};
use pkcs1_proved::pkcs8::PrivateKeyInfoRef;
use pkcs1_proved::{
    DecodeRsaPrivateKey, EncodeRsaPrivateKey, Error, RsaOaepParamsOwned, RsaOaepParamsRef, RsaPrivateKeyOwned,
    RsaPrivateKeyRef, RsaPrivateKeyView, RsaPssParamsOwned, RsaPssParamsRef, RsaPublicKeyOwned, RsaPublicKeyRef,
    Sha256,
};
use std::alloc::{GlobalAlloc, Layout, System};
use std::cell::Cell;

struct Counting;

thread_local! {
    /// How many allocations of this thread succeed before one fails; below zero none is counted.
    static LEFT: Cell<isize> = const { Cell::new(isize::MIN) };
}

// SAFETY: calls the system's allocator, or returns null.
unsafe impl GlobalAlloc for Counting {
    unsafe fn alloc(&self, layout: Layout) -> *mut u8 {
        let left = LEFT.get();
        if left >= 0 {
            LEFT.set(left - 1);
        }
        if left == 0 {
            return std::ptr::null_mut();
        }
        // SAFETY: as the caller says.
        unsafe { System.alloc(layout) }
    }

    unsafe fn dealloc(&self, pointer: *mut u8, layout: Layout) {
        // SAFETY: as the caller says.
        unsafe { System.dealloc(pointer, layout) }
    }
}

#[global_allocator]
static ALLOCATOR: Counting = Counting;

/// How many allocations the call makes. With each of them failing in turn it must return `OutOfMemory`.
fn requests<T, E: Into<Error>>(call: impl Fn() -> Result<T, E>) -> isize {
    for count in 0.. {
        LEFT.set(count);
        let answer = call();
        let failed = LEFT.replace(isize::MIN) < 0;
        match answer.map_err(Into::into) {
            Ok(_) if !failed => return count,
            Err(Error::Asn1(error)) if failed => assert_eq!(error.kind(), ErrorKind::OutOfMemory),
            answer => panic!("{:?}, failed: {failed}", answer.err()),
        }
    }
    unreachable!()
}

#[test]
fn what_borrows_takes_no_memory() {
    let (public, two) = (made::public_key(), made::private_key(0));
    let twelve = made::private_key(10);
    let container = made::container(&twelve, Some(&[5, 0]));
    let key = RsaPrivateKeyRef::try_from(&two[..]).unwrap();
    let params = RsaPssParamsRef::new::<Sha256>(32);
    assert_eq!(requests(|| RsaPublicKeyRef::from_der(&public)), 0);
    assert_eq!(requests(|| RsaPublicKeyRef::from_der(&public)?.encode_to_slice(&mut [0; 400]).map(<[u8]>::len)), 0);
    assert_eq!(requests(|| RsaPrivateKeyRef::from_der(&two)), 0);
    assert_eq!(requests(|| RsaPrivateKeyView::try_from(&twelve[..])), 0);
    assert_eq!(requests(|| RsaPrivateKeyView::from_der(&twelve)), 0);
    assert_eq!(requests(|| PrivateKeyInfoRef::from_der(&container)?.rsa_view()), 0);
    assert_eq!(requests(|| key.encode_to_slice(&mut [0; 2000]).map(<[u8]>::len)), 0);
    assert_eq!(requests(|| params.encode_to_slice(&mut [0; 99]).map(<[u8]>::len)), 0);
    assert_eq!(requests(|| RsaOaepParamsRef::default().encoded_len()), 0);
}

#[test]
fn what_owns_takes_some() {
    let (public, two, twelve) = (made::public_key(), made::private_key(0), made::private_key(10));
    let key = RsaPrivateKeyRef::try_from(&two[..]).unwrap();
    let long = RsaPrivateKeyRef::try_from(&twelve[..]).unwrap();
    assert_eq!(requests(|| key.to_der()), 1);
    assert_eq!(requests(|| RsaPublicKeyOwned::from_der(&public)), 2);
    assert_eq!(requests(|| RsaPrivateKeyRef::from_der(&twelve)), 1);
    assert_eq!(requests(|| RsaPrivateKeyOwned::from_pkcs1_der(&two)), 8);
    let owned = RsaPrivateKeyOwned::from_pkcs1_der(&twelve).unwrap();
    assert_eq!(requests(|| owned.try_clone()), 8 + 1 + 3 * 10);
    assert_eq!((requests(|| long.to_der()), requests(|| long.encoded_len())), (2, 1)); // the list is made at once
    assert!(requests(|| owned.to_pkcs1_der()) > 1);
    assert!(requests(|| owned.to_pkcs8_der()) > 1);
    let pss = made::pss(made::SHA_256, 32);
    assert_eq!(requests(|| RsaPssParamsOwned::try_from(&pss[..])), 0); // NULL takes none
    assert_eq!(requests(|| Ok::<_, Error>(RsaOaepParamsOwned::default())), 0);
    assert_eq!(requests(|| RsaPssParamsRef::default().to_algorithm_der()), 1);
    // The list of them grows to 4, 8 and 16, and is made again of the lists of std.
    assert_eq!(requests(|| RsaPssParamsRef::default().spellings()), 16 + 3 + 1);
}

/// Memory doesn't run out while there is some: what takes it gives the whole of a value of more than 1 MiB.
#[test]
fn long_values_are_copied() {
    let octets = vec![0x11; 1 << 20];
    let number = Uint::new(&octets).unwrap();
    assert_eq!((number.as_bytes(), number.try_clone().unwrap()), (&octets[..], Uint::new(&octets).unwrap()));
    let any = Any::new(Tag::OCTET_STRING, &octets).unwrap();
    assert_eq!((any.value(), any.try_clone().unwrap().value()), (&octets[..], &octets[..]));
    let params = RsaOaepParamsRef::new_with_label::<Sha256>(&octets);
    let owned = RsaOaepParamsOwned::try_from(params).unwrap();
    assert_eq!((owned.label(), owned.try_clone().unwrap().label()), (params.label(), params.label()));
    let der = params.to_der().unwrap();
    assert_eq!(RsaOaepParamsRef::try_from(&der[..]).unwrap(), params);
    let algorithm = params.to_algorithm_der().unwrap();
    assert_eq!(RsaOaepParamsRef::from_algorithm_der(&algorithm).unwrap(), params);
    let of_sha_1 = RsaOaepParamsRef { p_source: params.p_source, ..RsaOaepParamsRef::default() };
    let spellings = of_sha_1.spellings().unwrap();
    assert!(spellings.len() == 4 && spellings.iter().all(|it| RsaOaepParamsRef::try_from(&it[..]) == Ok(of_sha_1)));
}

#[test]
fn long_keys_are_copied_and_written() {
    let numbers = |count| vec![made::number(1 << 20, 0x11); count];
    let der = made::sequence(&numbers(2));
    let key = RsaPublicKeyRef::try_from(&der[..]).unwrap();
    assert_eq!(RsaPublicKeyOwned::try_from(key).unwrap().try_clone().unwrap().to_der().unwrap(), der);
    assert_eq!(Document::from_der(&der).unwrap().try_clone().unwrap().as_bytes(), der);
    assert_eq!(Document::try_from(&key).unwrap().to_vec(), der);
    let der = made::sequence(&[&[made::tlv(2, &[0])], &numbers(8)[..]].concat());
    let key = RsaPrivateKeyOwned::from_pkcs1_der(&der).unwrap();
    assert_eq!(key.try_clone().unwrap().to_pkcs1_der().unwrap().as_bytes(), der);
    assert_eq!(key.to_pkcs8_der().unwrap().as_bytes(), made::container(&der, None));
}
