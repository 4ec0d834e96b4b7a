//! `Clone`, which in Rattle may fail.

use crate::proved::pkcs1::{OtherPrimeInfo, PrivateKeyOf};

impl<U: Copy, O: Copy> Clone for PrivateKeyOf<U, O> {
    fn clone(&self) -> PrivateKeyOf<U, O> {
        *self
    }
}

impl<U: Clone> Clone for OtherPrimeInfo<U> {
    fn clone(&self) -> OtherPrimeInfo<U> {
        OtherPrimeInfo {
            prime: self.prime.clone(),
            exponent: self.exponent.clone(),
            coefficient: self.coefficient.clone(),
        }
    }
}
