// Made of crates/pkcs1/src/private_key/written.rt by tools/erase/erase.py, and not to be edited.
//! A private key as it is written: a row of its parts. The compiler takes rows of seven parts at most, so the end of
//! the row is a type of its own.

use super::PrivateKeyOf;
use crate::proved::der_core::{
    Borrowed, BorrowedLast, Contents, Encode, EncodeValue, Encoding, Prepend, Result, Writer,
};

/// What follows the two primes of a private key: their exponents, the coefficient, and the other primes.
pub struct CrtParts<'b, U, O>(&'b PrivateKeyOf<U, O>);

impl<'b, U: Encoding, O: Encoding> Contents for CrtParts<'b, U, O> {}

/// They in a row, borrowed.
type CrtRow<'b, U, O> = (
    Borrowed<'b, U>,
    (Borrowed<'b, U>, (Borrowed<'b, U>, BorrowedLast<'b, O>)),
);

impl<'b, U: Encoding, O: Encoding> CrtParts<'b, U, O> {
    #[inline(always)]
    fn row(&self) -> CrtRow<'b, U, O> {
        let key = self.0;
        let last = (
            Borrowed(&key.coefficient),
            BorrowedLast(&key.other_prime_infos),
        );
        (Borrowed(&key.exponent1), (Borrowed(&key.exponent2), last))
    }
}

impl<'b, U: Encode, O: Encode> EncodeValue for CrtParts<'b, U, O> {
    #[inline(always)]
    fn check_value(&self) -> Result<()> {
        self.row().check_value()
    }

    #[inline(always)]
    fn prepend_value<W: Prepend>(&self, writer: &mut W) {
        self.row().prepend_value(writer);
    }

    #[inline(always)]
    fn append_value<W: Writer>(&self, writer: &mut W) -> Result<()> {
        self.row().append_value(writer)
    }
}

/// The parts of a private key in a row.
pub type KeyRow<'b, U, O> = (
    u8,
    (
        Borrowed<'b, U>,
        (
            Borrowed<'b, U>,
            (
                Borrowed<'b, U>,
                (Borrowed<'b, U>, (Borrowed<'b, U>, CrtParts<'b, U, O>)),
            ),
        ),
    ),
);

impl<U: Encoding, O: Encoding> PrivateKeyOf<U, O> {
    /// The key's parts in a row, whatever holds the other primes: for types of these of one's own. It is written as the
    /// key's contents. An empty list of other primes is written as one.
    #[inline(always)]
    #[must_use]
    pub fn row(&self) -> KeyRow<'_, U, O> {
        let prime1 = (
            Borrowed(&self.prime1),
            (Borrowed(&self.prime2), CrtParts(self)),
        );
        let public_exponent = (
            Borrowed(&self.public_exponent),
            (Borrowed(&self.private_exponent), prime1),
        );
        (
            self.version().into(),
            (Borrowed(&self.modulus), public_exponent),
        )
    }
}
