// Made of crates/pkcs1_program/src/filter.rt by tools/erase/erase.py, and not to be edited.
//! The program as a filter: reading lines and writing the output for each.

use crate::rattle_std::prelude::Vec;
use crate::tool::pkcs1_program::answer::answer_line;
use crate::tool::pkcs1_program::fault::Fault;
use crate::tool::pkcs1_program::laws::lemma_answers_are_one;
use crate::tool::pkcs1_program::lines::split_line;
use crate::tool::pkcs1_program::request::Encodings;
use crate::proved::der_core::{ErrorKind, Length, Sink, Source, put_all, read_all};
use crate::rattle_std::alloc::Global;

/// The longest input, in bytes.
pub const LIMIT: usize = 16777216;

/// How many bytes of output are held before they are written.
const BUFFER: usize = 65536;

/// Reads all that the source gives until its end.
fn read_input<R: Source>(alloc: Global, source: &mut R) -> Result<Vec<u8>, Fault> {
    match read_all(alloc, source, Length::of(LIMIT)) {
        Ok(input) => Ok(input),
        Err(error) if error.kind() == ErrorKind::OutOfMemory => Err(Fault::Memory),
        Err(_) => Err(Fault::Read),
    }
}

/// Writes all the bytes, in order.
fn write_out<W: Sink>(bytes: &[u8], sink: &mut W) -> Result<(), Fault> {
    match put_all(bytes, sink) {
        Ok(()) => Ok(()),
        Err(_) => Err(Fault::Write),
    }
}

/// Writes what is held, if it is long.
fn write_long<W: Sink>(held: &mut Vec<u8>, sink: &mut W) -> Result<(), Fault> {
    if held.len() < BUFFER {
        return Ok(());
    }
    write_out(held.as_slice(), sink)?;
    held.clear();
    Ok(())
}

/// Writes all the bytes, in order, and flushes the sink.
pub(crate) fn finish<W: Sink>(bytes: &[u8], sink: &mut W) -> Result<(), Fault> {
    write_out(bytes, sink)?;
    match sink.flush() {
        Ok(()) => Ok(()),
        Err(_) => Err(Fault::Write),
    }
}

/// Makes the output for each line, in order. Of it, what is long is written, and the rest is left in `held`.
fn answer_lines<W: Sink>(
    alloc: Global,
    input: &[u8],
    held: &mut Vec<u8>,
    sink: &mut W,
) -> Result<(), Fault> {
    let mut encodings = Encodings::new_in(alloc);
    let mut answer = Vec::new_in(alloc);
    let mut rest = input;
    while !rest.is_empty() {
        let (line, more) = split_line(rest);
        answer.clear();
        answer_line(alloc, line, &mut encodings, &mut answer)?;
        answer.push(b'\n')?;
        held.extend_from_slice(answer.as_slice())?;
        write_long(held, sink)?;
        rest = more;
    }
    Ok(())
}

/// Writes the output for each line, in order, and flushes the sink. If memory runs out, the output for the lines before
/// is written.
fn answer_input<W: Sink>(alloc: Global, input: &[u8], sink: &mut W) -> Result<(), Fault> {
    let mut held = Vec::new_in(alloc);
    match answer_lines(alloc, input, &mut held, sink) {
        Ok(()) => finish(held.as_slice(), sink),
        Err(Fault::Memory) => {
            write_out(held.as_slice(), sink)?;
            Err(Fault::Memory)
        }
        Err(fault) => Err(fault),
    }
}

/// Reads the whole input, then writes the output for each line, many lines at once. What follows is said of the bytes
/// that source and sink report.
///
/// Ok: the source gave all until its end, at most `LIMIT` bytes, the output for each line was written, in order, the
/// sink is flushed, and no call failed. Of any source there are some bytes, at most `LIMIT`, whose output was written.
/// `Read`: one call of the source failed, or it gave more than `LIMIT`; nothing was written, and no call of the sink
/// failed. `Write`: one call of the sink failed, and a beginning of the output was written. `Memory`: the output for
/// some first lines was written, at least one byte came, and no call failed. A line has at most one output, and so has
/// an input.
pub fn run<R: Source, W: Sink>(alloc: Global, source: &mut R, sink: &mut W) -> Result<(), Fault> {
    lemma_answers_are_one();
    let input = read_input(alloc, source)?;
    answer_input(alloc, input.as_slice(), sink)
}
