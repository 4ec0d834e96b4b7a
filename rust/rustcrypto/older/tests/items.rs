//! What the crate promises, by the names of 0.7 and those that it has of 0.8.
use pkcs8::PrivateKeyInfo;

include!("../../tests/shared/items.rs");
