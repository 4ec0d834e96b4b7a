// Made of crates/pkcs1_tool/src/tests.rt by tools/erase/erase.py, and not to be edited.
//! Tests of what no worked row can express: documents from sources, to sinks and in files, a key type of a caller,
//! constants, errors that are compared, values that are printed, what writers leave, runs of the program.

mod carried_key;
mod checks;
mod documents;
mod doubles;
mod file_calls;
mod key_files;
mod program;
mod recorded;
mod values;
mod writers;
