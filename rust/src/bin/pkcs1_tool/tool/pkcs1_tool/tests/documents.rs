// Made of crates/pkcs1_tool/src/tests/documents.rt by tools/erase/erase.py, and not to be edited.
//! Documents from sources and to sinks that move a few bytes per call, or fail at one; and documents in files.
use crate::rattle_std::prelude::{HostRuntime, Vec};
use crate::tool::pkcs1_tool::tests::checks::{equal, holds};
use crate::tool::pkcs1_tool::tests::doubles::{FailingReader, Full, failing_at, giving, taking};
use crate::proved::der_core::{Document, Error, ErrorKind, FromRead, SecretDocument, Sink, Source, Tag, ToWrite};
use crate::rattle_std::alloc::Global;
use crate::rattle_std::fs;
use crate::rattle_std::path::Path;
use crate::rattle_std::test::Fail;

const TEXT: &[u8] = &[0x30, 0x06, 0x02, 0x01, 0x07, 0x02, 0x01, 0x03];

const FILE_ERROR: Error = Error {
    kind: ErrorKind::File,
};

#[test]
fn documents_come_from_sources() -> Result<(), Fail> { let rt = HostRuntime;
    let alloc = rt.alloc();
    let document = Document::read_from(alloc, &mut giving(TEXT, 0))?;
    equal(&rt, document.as_bytes(), TEXT);
    let secret = SecretDocument::read_from(alloc, &mut giving(TEXT, 0))?;
    equal(&rt, secret.as_bytes(), TEXT);
    for call in 1..10 {
        let mut source = giving(TEXT, call);
        let answer = Document::read_from(alloc, &mut source);
        equal(&rt, (answer, source.faults()), (Err(FILE_ERROR), 1));
    }
    let mut source = giving(TEXT, 1);
    source.faults = u64::MAX;
    let answer = Document::read_from(alloc, &mut source);
    equal(&rt, (answer, source.faults()), (Err(FILE_ERROR), u64::MAX));
    let answer = SecretDocument::read_from(alloc, &mut giving(TEXT, 3));
    equal(&rt, answer.map(|_| ()), Err(FILE_ERROR));
    let answer = Document::read_from(alloc, &mut giving(&[0x30, 0x06, 0x02], 0));
    equal(&rt, answer, Err(Error::new(ErrorKind::Incomplete)));
    Ok(())
}

#[test]
fn documents_go_to_sinks() -> Result<(), Fail> { let rt = HostRuntime;
    let alloc = rt.alloc();
    let document = Document::from_der(alloc, TEXT)?;
    let secret = SecretDocument::from_der(alloc, TEXT)?;
    let mut sink = taking(alloc, 3, 0);
    document.write_to(&mut sink)?;
    equal(&rt, (sink.taken.as_slice(), sink.flushes), (TEXT, 1));
    let mut sink = taking(alloc, 3, 0);
    secret.write_to(&mut sink)?;
    equal(&rt, (sink.taken.as_slice(), sink.flushes), (TEXT, 1));
    let mut sink = taking(alloc, 3, 2);
    equal(&rt, document.write_to(&mut sink), Err(FILE_ERROR));
    equal(&rt, sink.taken.as_slice(), [0x30, 0x06, 0x02].as_slice());
    let mut sink = ToWrite::new(Full);
    equal(&rt, document.write_to(&mut sink), Err(FILE_ERROR));
    equal(&rt, sink.faults(), 1);
    Ok(())
}

/// A document of more than 1 MiB, which is more than 16 pieces of 64 KiB.
fn long_encoding(alloc: Global) -> Result<Vec<u8>, Fail> {
    let mut encoding = Vec::new_in(alloc);
    encoding.extend_from_slice(&[0x30, 0x83, 0x10, 0x00, 0x00])?;
    for place in 0..0x10_0000_u32 {
        encoding.push(u8::try_from(place % 251).unwrap_or(0))?;
    }
    Ok(encoding)
}

#[test]
fn long_documents_come_and_go_in_pieces() -> Result<(), Fail> { let rt = HostRuntime;
    let alloc = rt.alloc();
    let encoding = long_encoding(alloc)?;
    let mut source = giving(encoding.as_slice(), 0);
    source.most = 40_000;
    let document = Document::read_from(alloc, &mut source)?;
    holds(&rt, document.as_bytes() == encoding.as_slice());
    let mut sink = taking(alloc, 3, 0);
    sink.most = 40_000;
    document.write_to(&mut sink)?;
    holds(&rt, sink.taken == encoding);
    let mut source = FromRead::new(encoding.as_slice());
    let secret = SecretDocument::read_from(alloc, &mut source)?;
    holds(&rt, secret.as_bytes() == encoding.as_slice());
    let mut sink = failing_at(alloc, 0);
    secret.write_to(&mut sink)?;
    holds(&rt, sink.into_inner().taken == encoding);
    Ok(())
}

#[test]
fn an_error_of_std_is_told_once() -> Result<(), Fail> { let rt = HostRuntime;
    let alloc = rt.alloc();
    let mut source = FromRead::new(FailingReader {
        left: TEXT,
        calls: 0,
    });
    let answer = Document::read_from(alloc, &mut source);
    equal(&rt, (answer, source.faults()), (Err(FILE_ERROR), 1));
    let document = Document::read_from(alloc, &mut source)?;
    equal(&rt, (document.as_bytes(), source.faults()), (TEXT, 1));
    let mut sink = failing_at(alloc, 1);
    equal(&rt, document.write_to(&mut sink), Err(FILE_ERROR));
    equal(&rt, sink.faults(), 1);
    document.write_to(&mut sink)?;
    equal(&rt, sink.faults(), 1);
    let writer = sink.into_inner();
    equal(&rt, (writer.taken.as_slice(), writer.calls), (TEXT, 3));
    let mut sink = failing_at(alloc, 2);
    equal(&rt, document.write_to(&mut sink), Err(FILE_ERROR));
    equal(&rt, sink.faults(), 1);
    let writer = sink.into_inner();
    equal(&rt, (writer.taken.as_slice(), writer.calls), (TEXT, 2));
    Ok(())
}

/// What a file held before.
const OLD: &str = "an old text that is longer";

#[test]
fn open_documents_go_through_files() -> Result<(), Fail> { let rt = HostRuntime;
    let alloc = rt.alloc();
    let document = Document::from_der(alloc, TEXT)?;
    let path = Path::new("document.der");
    fs::write(&rt, path, OLD)?;
    document.write_der_file(&mut &rt, path)?;
    let held = fs::read(&rt, path)?;
    let read = Document::read_der_file(&mut &rt, alloc, path)?;
    fs::remove_file(&rt, path)?;
    equal(&rt, held.as_slice(), TEXT);
    equal(&rt, read.as_bytes(), TEXT);
    Ok(())
}

#[test]
fn secret_documents_go_through_files() -> Result<(), Fail> { let rt = HostRuntime;
    let alloc = rt.alloc();
    let document = SecretDocument::from_der(alloc, TEXT)?;
    let path = Path::new("secret.der");
    fs::write(&rt, path, OLD)?;
    document.write_der_file(&mut &rt, path)?;
    let held = fs::read(&rt, path)?;
    let read = SecretDocument::read_der_file(&mut &rt, alloc, path)?;
    fs::remove_file(&rt, path)?;
    equal(&rt, held.as_slice(), TEXT);
    equal(&rt, read.as_bytes(), TEXT);
    Ok(())
}

#[test]
fn files_that_are_not_read_are_told() -> Result<(), Fail> { let rt = HostRuntime;
    let alloc = rt.alloc();
    let path = Path::new("no_document.der");
    let absent = Document::read_der_file(&mut &rt, alloc, path);
    equal(&rt, absent, Err(FILE_ERROR));
    let folder = Document::read_der_file(&mut &rt, alloc, Path::new("."));
    equal(&rt, folder, Err(FILE_ERROR));
    fs::write(&rt, path, OLD)?;
    let read = Document::read_der_file(&mut &rt, alloc, path);
    fs::remove_file(&rt, path)?;
    let found = ErrorKind::TagUnexpected {
        expected: Tag::SEQUENCE,
        actual: Tag::from_octet(b'a')?,
    };
    equal(&rt, read, Err(Error::new(found)));
    Ok(())
}

#[test]
fn files_that_are_not_written_are_told() -> Result<(), Fail> { let rt = HostRuntime;
    let alloc = rt.alloc();
    let document = Document::from_der(alloc, TEXT)?;
    let secret = SecretDocument::from_der(alloc, TEXT)?;
    for path in ["no_such_folder/document.der", "/dev/full"] {
        let written = document.write_der_file(&mut &rt, Path::new(path));
        equal(&rt, written, Err(FILE_ERROR));
        let written = secret.write_der_file(&mut &rt, Path::new(path));
        equal(&rt, written, Err(FILE_ERROR));
    }
    Ok(())
}
