//! refuse ROWS..: each request for memory of each call is refused in turn, over the encodings in files of worked rows.
//!
//! A call then says that memory is out, or gives the right answer.

use check::proved::der_core::{Decode, Document, Encode, Error, ErrorKind, SecretDocument, TryClone, Uint};
use check::proved::pkcs1::{
    DecodeRsaPublicKey, EncodeRsaPrivateKey, EncodeRsaPublicKey, RsaOaepParamsOwned, RsaPrivateKey, RsaPrivateKeyRef,
    RsaPssParamsOwned, RsaPublicKey, reencode_private_key, reencode_public_key,
};
use check::proved::pkcs8_core::PrivateKeyInfoRef;
use check::proved::{pkcs1, spki_core::Any};
use check::rattle_std::alloc::Global;
use std::alloc::{GlobalAlloc, Layout, System};
use std::sync::atomic::{AtomicUsize, Ordering::Relaxed};

/// How many requests are granted before one is refused.
static GRANTED: AtomicUsize = AtomicUsize::new(NONE_REFUSED);
const NONE_REFUSED: usize = usize::MAX;

struct Refusing;

// SAFETY: what is granted is granted by the system's allocator.
unsafe impl GlobalAlloc for Refusing {
    unsafe fn alloc(&self, layout: Layout) -> *mut u8 {
        match GRANTED.load(Relaxed) {
            NONE_REFUSED => {}
            0 => {
                GRANTED.store(NONE_REFUSED, Relaxed);
                return std::ptr::null_mut();
            }
            more => GRANTED.store(more - 1, Relaxed),
        }
        unsafe { System.alloc(layout) }
    }

    unsafe fn dealloc(&self, octets: *mut u8, layout: Layout) {
        unsafe { System.dealloc(octets, layout) }
    }
}

#[global_allocator]
static ALLOCATOR: Refusing = Refusing;

type Answer = Result<Vec<u8>, ErrorKind>;

fn kind(error: impl Into<pkcs1::Error>) -> ErrorKind {
    match error.into() {
        pkcs1::Error::Asn1(error) => error.kind(),
        _ => ErrorKind::Failed,
    }
}

/// How many calls were made, and how many of them ran out of memory.
#[derive(Default)]
struct Count {
    calls: usize,
    refused: usize,
}

impl Count {
    /// Makes the call with each of its requests refused.
    fn refuse<T, E: Into<pkcs1::Error>>(&mut self, call: impl Fn() -> Result<T, E>, look: impl Fn(&T) -> Vec<u8>) {
        let answer = |given: Result<T, E>| -> Answer { given.map(|value| look(&value)).map_err(kind) };
        let right = answer(call());
        for granted in 0.. {
            GRANTED.store(granted, Relaxed);
            let given = call();
            let was_refused = GRANTED.swap(NONE_REFUSED, Relaxed) == NONE_REFUSED;
            let given = answer(given);
            self.calls += 1;
            if given == Err(ErrorKind::OutOfMemory) && was_refused {
                self.refused += 1;
            } else {
                assert_eq!(given, right);
            }
            if !was_refused {
                return;
            }
        }
    }
}

fn encoded<T: Encode>(value: &T) -> Vec<u8> {
    let mut room = vec![0; value.encoded_len().unwrap().to_usize()];
    value.encode_into(&mut room).unwrap();
    room
}

fn refuse_each(bytes: &[u8], count: &mut Count) {
    count.refuse(|| RsaPublicKey::<Uint>::from_pkcs1_der(Global, bytes), encoded);
    count.refuse(|| RsaPrivateKey::<Uint>::decode_owned_key(Global, bytes), encoded);
    count.refuse(|| RsaPrivateKeyRef::decode_key(Global, bytes), encoded);
    count.refuse(|| PrivateKeyInfoRef::try_from(bytes)?.rsa_key(Global), encoded);
    count.refuse(|| RsaPssParamsOwned::from_der(Global, bytes), encoded);
    count.refuse(|| RsaOaepParamsOwned::from_der(Global, bytes), encoded);
    count.refuse(|| Any::from_der(Global, bytes), encoded);
    count.refuse(|| Document::from_der(Global, bytes), |document| document.as_bytes().into());
    count.refuse(|| SecretDocument::from_der(Global, bytes), |document| document.as_bytes().into());
    count.refuse(|| reencode_public_key(Global, bytes), |document| document.as_bytes().into());
    count.refuse(|| reencode_private_key(Global, bytes), |document| document.as_bytes().into());
    if let Ok(key) = RsaPublicKey::<Uint>::from_pkcs1_der(Global, bytes) {
        count.refuse(|| TryClone::try_clone_in(&key, Global), encoded);
        count.refuse(|| key.to_pkcs1_der(Global), |document| document.as_bytes().into());
    }
    if let Ok(key) = RsaPrivateKey::<Uint>::decode_owned_key(Global, bytes) {
        count.refuse(|| TryClone::try_clone_in(&key, Global), encoded);
        count.refuse(|| key.to_pkcs1_der(Global), |document| document.as_bytes().into());
    }
    let all = |spellings: &check::rattle_std::prelude::Vec<check::rattle_std::prelude::Vec<u8>>| {
        spellings.iter().flat_map(|spelling| spelling.to_vec()).collect()
    };
    if let Ok(params) = RsaPssParamsOwned::from_der(Global, bytes) {
        count.refuse(|| -> Result<_, Error> { params.try_clone_in(Global) }, encoded);
        count.refuse(|| params.spellings(Global), all);
    }
    if let Ok(params) = RsaOaepParamsOwned::from_der(Global, bytes) {
        count.refuse(|| -> Result<_, Error> { params.try_clone_in(Global) }, encoded);
        count.refuse(|| params.spellings(Global), all);
    }
}

fn main() -> std::io::Result<()> {
    let mut count = Count::default();
    for bytes in check::words::encodings(std::env::args().skip(1))? {
        refuse_each(&bytes, &mut count);
    }
    let Count { calls, refused } = count;
    assert!(refused > 1000, "only {refused} calls ran out of memory");
    println!("{calls} calls, {refused} of which ran out of memory");
    Ok(())
}
