// Made of crates/pkcs1_tool/src/tests/file_calls.rt by tools/erase/erase.py, and not to be edited.
//! Which calls on files are made, in order: no file is created before what goes into it is there, none is renamed
//! before it is whole, and no other file is touched.
use crate::rattle_std::prelude::{HostRuntime, Vec};
use crate::tool::pkcs1_tool::tests::checks::{equal, holds};
use crate::tool::pkcs1_tool::tests::key_files::{PRIVATE, PUBLIC};
use crate::tool::pkcs1_tool::tests::recorded::{Call, Calls, Recorder, Way};
use crate::proved::pkcs1::{
    DecodeRsaPrivateKey, DecodeRsaPublicKey, EncodeRsaPrivateKey, EncodeRsaPublicKey,
    RsaPrivateKeyOwned, RsaPublicKeyOwned, RsaPublicKeyRef,
};
use crate::tool::pkcs1_program::{CopyError, Mode, ReplaceFiles, WriteError, copy_priv, copy_pub};
use crate::rattle_std::alloc::Global;
use crate::rattle_std::cell::RefCell;
use crate::rattle_std::fs;
use crate::rattle_std::path::Path;
use crate::rattle_std::test::Fail;

const READ: &[Call] = &[Call::Open, Call::Read, Call::Read];

const WRITTEN: &[Call] = &[Call::Create, Call::Write, Call::Flush, Call::Close];

const READ_AND_WRITTEN: &[Call] = &[
    Call::Open,
    Call::Read,
    Call::Read,
    Call::Create,
    Call::Write,
    Call::Flush,
    Call::Close,
];

/// The calls of a copy to a regular file, up to the one that ends it.
const REPLACED: &[Call] = &[
    Call::Open,
    Call::Read,
    Call::Read,
    Call::Target,
    Call::CreateNew,
    Call::Write,
    Call::Flush,
    Call::Close,
    Call::Rename,
    Call::SyncName,
];

/// The calls behind one of a new file that failed.
const REMOVED: &[Call] = &[Call::Close, Call::Remove];

/// The calls of a copy to another file.
const IN_PLACE: &[Call] = &[
    Call::Open,
    Call::Read,
    Call::Read,
    Call::Target,
    Call::OpenInPlace,
    Call::Write,
    Call::Flush,
    Call::Close,
];

/// What a new file of a private key gets.
const OWNER: Mode = Mode {
    bits: 0o600,
    umask_takes: true,
};

/// Files over an input, of which one call may fail.
fn files<'a>(calls: &'a Calls, input: &'a [u8], failing: Option<Call>) -> Recorder<'a> {
    Recorder {
        calls,
        input,
        failing,
        also_failing: None,
        way: Way::Beside(None),
        mode: OWNER,
    }
}

#[test]
fn copies_call_files_in_order() { let rt = HostRuntime;
    let alloc = rt.alloc();
    let (from, to) = (Path::new("in"), Path::new("out"));
    for (input, way, wanted, error) in [
        (PUBLIC, Way::Beside(None), READ, None),
        (PRIVATE, Way::Beside(None), REPLACED, None),
        (PRIVATE, Way::Beside(Some(0o664)), REPLACED, None),
        (PRIVATE, Way::InPlace, IN_PLACE, None),
        (
            PRIVATE,
            Way::NotAtAll,
            &REPLACED[..4],
            Some(WriteError::Open),
        ),
        (
            PRIVATE,
            Way::LinkToNothing,
            &REPLACED[..4],
            Some(WriteError::Dangling),
        ),
        (b"0\x00".as_slice(), Way::Beside(None), READ, None),
        (b"1\x00".as_slice(), Way::Beside(None), &READ[..2], None),
    ] {
        let calls = RefCell::new(Vec::new_in(alloc));
        let mut recorder = Recorder {
            way,
            ..files(&calls, input, None)
        };
        let done = copy_priv(&mut recorder, alloc, from, to);
        equal(&rt, done.is_ok(), input == PRIVATE && error.is_none());
        if let (Err(told), Some(error)) = (done, error) {
            equal(&rt, told.error, CopyError::Write(error));
        }
        equal(&rt, calls.into_inner().as_slice(), wanted);
    }
}

#[test]
fn keys_call_files_in_order() -> Result<(), Fail> { let rt = HostRuntime;
    let alloc = rt.alloc();
    let (from, to) = (Path::new("in"), Path::new("out"));
    let calls = RefCell::new(Vec::new_in(alloc));
    let mut recorder = files(&calls, PRIVATE, None);
    let key = RsaPrivateKeyOwned::read_pkcs1_der_file(&mut recorder, alloc, from)?;
    key.write_pkcs1_der_file(&mut recorder, alloc, to)?;
    equal(&rt, calls.into_inner().as_slice(), READ_AND_WRITTEN);
    let calls = RefCell::new(Vec::new_in(alloc));
    let mut recorder = files(&calls, PUBLIC, None);
    let key = RsaPublicKeyOwned::read_pkcs1_der_file(&mut recorder, alloc, from)?;
    key.write_pkcs1_der_file(&mut recorder, alloc, to)?;
    equal(&rt, calls.into_inner().as_slice(), READ_AND_WRITTEN);
    let calls = RefCell::new(Vec::new_in(alloc));
    let mut recorder = files(&calls, PUBLIC, None);
    let key = RsaPublicKeyRef::try_from(PUBLIC)?;
    key.write_pkcs1_der_file(&mut recorder, alloc, to)?;
    equal(&rt, calls.into_inner().as_slice(), WRITTEN);
    Ok(())
}

/// The calls of reading a public key's file.
fn calls_of_reading(alloc: Global, input: &[u8], failing: Option<Call>) -> Vec<Call> {
    let calls = RefCell::new(Vec::new_in(alloc));
    let mut recorder = files(&calls, input, failing);
    let _ = RsaPublicKeyOwned::read_pkcs1_der_file(&mut recorder, alloc, Path::new("in"));
    calls.into_inner()
}

#[test]
fn reading_ends_at_a_failed_call() { let rt = HostRuntime;
    for (failing, input, want) in [
        (None, b"1\x00".as_slice(), READ),
        (Some(Call::Read), PUBLIC, &READ[..2]),
    ] {
        let calls = calls_of_reading(rt.alloc(), input, failing);
        equal(&rt, calls.as_slice(), want);
    }
}

/// After a call that fails, a file is only closed and removed. If it can't be removed, the error has its path.
#[test]
fn a_new_file_is_removed() { let rt = HostRuntime;
    let alloc = rt.alloc();
    let (from, to) = (Path::new("in"), Path::new("out"));
    for (failing, front, after) in [
        (Call::Read, &REPLACED[..2], &REMOVED[2..]),
        (Call::Target, &REPLACED[..4], &REMOVED[2..]),
        (Call::CreateNew, &REPLACED[..5], &REMOVED[2..]),
        (Call::Write, &REPLACED[..6], REMOVED),
        (Call::Flush, &REPLACED[..7], REMOVED),
        (Call::Rename, &REPLACED[..9], &REMOVED[1..]),
        (Call::SyncName, REPLACED, &REMOVED[2..]),
    ] {
        for also_failing in [None, Some(Call::Remove)] {
            let calls = RefCell::new(Vec::new_in(alloc));
            let mut recorder = Recorder {
                also_failing,
                ..files(&calls, PRIVATE, Some(failing))
            };
            let Err(told) = copy_priv(&mut recorder, alloc, from, to) else {
                return holds(&rt, false);
            };
            let is_left = also_failing.is_some() && after.len() > REMOVED[2..].len();
            equal(&rt, told.left.is_some(), is_left);
            let calls = calls.into_inner();
            let count = front.len().min(calls.len());
            equal(&rt, &calls.as_slice()[..count], front);
            equal(&rt, &calls.as_slice()[count..], after);
        }
    }
}

/// A new file of a public key has the mode of the one that it replaces or, if there is none, of the one that was read.
#[test]
fn a_new_file_of_a_public_key_has_a_mode() { let rt = HostRuntime;
    let alloc = rt.alloc();
    for (replaced, bits, umask_takes) in [(None, 0o664, true), (Some(0o100640), 0o640, false)] {
        let calls = RefCell::new(Vec::new_in(alloc));
        let mut recorder = Recorder {
            way: Way::Beside(replaced),
            mode: Mode { bits, umask_takes },
            ..files(&calls, PUBLIC, None)
        };
        let done = copy_pub(&mut recorder, alloc, Path::new("in"), Path::new("out"));
        equal(&rt, done.is_ok(), true);
        equal(&rt, calls.into_inner().as_slice(), REPLACED);
    }
}

/// A file of std that came to be regular isn't written in place.
#[test]
fn regular_files_are_not_opened_in_place() -> Result<(), Fail> { let rt = HostRuntime;
    let path = Path::new("regular.der");
    fs::write(&rt, path, PUBLIC)?;
    let opened = (&mut &rt).open_in_place(path).is_ok();
    let held = fs::read(&rt, path)?;
    fs::remove_file(&rt, path)?;
    equal(&rt, opened, false);
    equal(&rt, held.as_slice(), PUBLIC);
    Ok(())
}
