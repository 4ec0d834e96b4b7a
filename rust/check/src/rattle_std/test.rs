//! What tests return.

use super::alloc::{AllocError, AllocFailed};

/// Why a test failed.
#[derive(Debug)]
pub struct Fail(std::string::String);

macro_rules! fails {
    ($($error:ty)*) => { $(
        impl From<$error> for Fail {
            fn from(error: $error) -> Fail {
                Fail(std::format!("{error:?}"))
            }
        }
    )* };
}
fails! { AllocError std::io::Error crate::proved::der_core::Error crate::proved::pkcs1::Error
crate::tool::pkcs1_program::Fault &str }

impl<T> From<AllocFailed<T>> for Fail {
    fn from(_failed: AllocFailed<T>) -> Fail {
        Fail("no memory was found".into())
    }
}
