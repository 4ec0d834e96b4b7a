// Made of crates/pkcs1_tool/src/tests/checks.rt by tools/erase/erase.py, and not to be edited.
//! Assertions as calls, so that each is proved once. `assert!` is used where later code relies on it.
use crate::rattle_std::prelude::{assert, assert_eq};
use crate::rattle_std::fmt::Debug;
use crate::rattle_std::process::Abort;

/// Asserts that both are equal.
pub fn equal<T: PartialEq + Debug>(rt: &impl Abort, got: T, want: T) {
    assert_eq!(rt; got, want);
}

/// Asserts that it is true.
pub fn holds(rt: &impl Abort, it: bool) {
    assert!(rt; it);
}
