// Made of crates/pkcs1_c/src/filled.rt by tools/erase/erase.py, and not to be edited.
//! Decoding into a caller's struct.

/// Puts what was read into the struct at `$place`, by `$to_c`, and is 0; or it is the status of the error, and the
/// struct stays as it was. The caller imports `OK` and `status`.
macro_rules! fill {
    ($place:expr, $read:expr, $to_c:path) => {
        match $read {
            Ok(read) => {
                *$place = $to_c(&read);
                OK
            }
            Err(error) => status(&error),
        }
    };
}

pub(crate) use fill;
