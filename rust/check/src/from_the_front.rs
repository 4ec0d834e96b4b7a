//! What no call of the crate does, but a program that is proved may: it appends to a writer, and ends a reader.

use crate::proved::der_core::{Encode, ErrorKind, Reader, SliceReader, SliceWriter, UintRef};

#[test]
fn what_is_appended_is_what_is_written_to_a_slice() {
    let (mut octets, mut room, mut other) = ([1; 0x1_0000], [0; 0x1_0006], [0; 0x1_0006]);
    for first in [0x7f, 0x80, 0x81] {
        octets[0] = first;
        for len in [1, 0x7e, 0x7f, 0x80, 0xfe, 0xff, 0x100, 0xfffe, 0xffff, 0x1_0000] {
            let number = UintRef::new(&octets[..len]).unwrap();
            let mut writer = SliceWriter::new(&mut room);
            number.encode(&mut writer).unwrap();
            let written = number.encode_to_slice(&mut other).unwrap();
            assert!(writer.finish() == written, "{len} octets, of which the first is {first}");
        }
    }
}

#[test]
fn a_reader_ends_where_no_byte_is_left() {
    for left in 0..3 {
        let mut reader = SliceReader::new(&[0; 3][..left]).unwrap();
        let error = reader.finish().err().map(|error| error.kind());
        assert_eq!(error, (left > 0).then_some(ErrorKind::TrailingData), "{left} bytes");
    }
}
