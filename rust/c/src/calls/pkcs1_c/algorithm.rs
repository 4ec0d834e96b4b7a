// Made of crates/pkcs1_c/src/algorithm.rt by tools/erase/erase.py, and not to be edited.
//! Algorithm identifiers.

use crate::calls::pkcs1_c::bytes::Bytes;
use crate::proved::der_core::{Result, Tag};
use crate::proved::pkcs1_params::is_mgf1;
use crate::proved::spki_core::{AlgorithmView, AnyRef, IdentifierView};

/// An AlgorithmIdentifier (RFC 5280 4.1.1.2).
#[repr(C)]
#[derive(Clone, Copy)]
pub struct Algorithm<'a> {
    /// The contents octets of the object identifier of the algorithm.
    pub oid: &'a [u8],
    /// Whether there are parameters.
    pub has_parameters: bool,
    /// The tag octet of the parameters.
    pub tag: u8,
    /// Their contents octets.
    pub parameters: &'a [u8],
}

/// A mask generation function.
#[repr(C)]
#[derive(Clone, Copy)]
pub struct MaskGen<'a> {
    /// The contents octets of the object identifier of the function.
    pub oid: &'a [u8],
    /// Whether its parameters are there: a hash function.
    pub has_hash: bool,
    /// The hash function that it uses.
    pub hash: Algorithm<'a>,
}

/// The C struct of an algorithm.
pub(crate) fn to_c_algorithm<'a>(algorithm: &AlgorithmView<'a, AnyRef<'a>>) -> Algorithm<'a> {
    let oid = algorithm.oid.as_bytes();
    match &algorithm.parameters {
        None => Algorithm {
            oid,
            has_parameters: false,
            tag: 0,
            parameters: crate::rattle_std::NO_OCTETS,
        },
        Some(any) => Algorithm {
            oid,
            has_parameters: true,
            tag: any.tag().octet(),
            parameters: any.value(),
        },
    }
}

/// The C struct of a mask generation function.
pub(crate) fn to_c_mask_gen<'a>(
    mask_gen: &AlgorithmView<'a, AlgorithmView<'a, AnyRef<'a>>>,
) -> MaskGen<'a> {
    let oid = mask_gen.oid.as_bytes();
    match &mask_gen.parameters {
        None => MaskGen {
            oid,
            has_hash: false,
            hash: Algorithm {
                oid: crate::rattle_std::NO_OCTETS,
                has_parameters: false,
                tag: 0,
                parameters: crate::rattle_std::NO_OCTETS,
            },
        },
        Some(hash) => MaskGen {
            oid,
            has_hash: true,
            hash: to_c_algorithm(hash),
        },
    }
}

/// The object identifier with these contents octets, or `OidMalformed`.
#[inline(always)]
fn from_c_oid<'a>(octets: &'a [u8]) -> Result<IdentifierView<'a>> {
    IdentifierView::from_bytes(octets)
}

/// The algorithm of a C struct.
#[inline(always)]
pub(crate) fn from_c_algorithm<'a>(
    algorithm: &Algorithm<'a>,
) -> Result<AlgorithmView<'a, AnyRef<'a>>> {
    let oid = from_c_oid(algorithm.oid)?;
    let parameters = if algorithm.has_parameters {
        let tag = Tag::from_octet(algorithm.tag)?;
        Some(AnyRef::new(tag, algorithm.parameters)?)
    } else {
        None
    };
    Ok(AlgorithmView { oid, parameters })
}

/// The mask generation function of a C struct.
#[inline(always)]
pub(crate) fn from_c_mask_gen<'a>(
    mask_gen: &MaskGen<'a>,
) -> Result<AlgorithmView<'a, AlgorithmView<'a, AnyRef<'a>>>> {
    let oid = from_c_oid(mask_gen.oid)?;
    let parameters = if mask_gen.has_hash {
        Some(from_c_algorithm(&mask_gen.hash)?)
    } else {
        None
    };
    Ok(AlgorithmView { oid, parameters })
}

/// Whether two identifiers have the same octets, out of line.
#[inline(never)]
fn is_same_otherwise(oid: &[u8], other: &[u8]) -> bool {
    oid == other
}

/// Whether two identifiers have the same octets. That of SHA-1 has five, and those of the other hash functions have
/// nine. These are compared in line.
#[inline(always)]
pub(crate) fn is_same(oid: &[u8], other: &[u8]) -> bool {
    match oid {
        _ if oid.len() != other.len() => false,
        [a, b, c, d, e, f, g, h, i] => match other {
            [r, s, t, u, v, w, x, y, z] => {
                (*a == *r)
                    & (*b == *s)
                    & (*c == *t)
                    & (*d == *u)
                    & (*e == *v)
                    & (*f == *w)
                    & (*g == *x)
                    & (*h == *y)
                    & (*i == *z)
            }
            _ => false,
        },
        [a, b, c, d, e] => match other {
            [v, w, x, y, z] => { (*a == *v) & (*b == *w) & (*c == *x) & (*d == *y) & (*e == *z) }
            _ => false,
        },
        _ => is_same_otherwise(oid, other),
    }
}

/// Whether the parameters are NULL or absent, which mean the same of a hash function (RFC 4055 2.1).
#[inline(always)]
pub(crate) fn is_null_or_absent(algorithm: &Algorithm<'_>) -> bool {
    !algorithm.has_parameters
        || (algorithm.tag == Tag::NULL.octet() && algorithm.parameters.is_empty())
}

/// Whether the algorithm is the hash function with this identifier, with NULL or without parameters.
#[inline(always)]
fn is_hash(algorithm: &Algorithm<'_>, oid: &[u8]) -> bool {
    is_null_or_absent(algorithm) && is_same(algorithm.oid, oid)
}

/// The same, out of line.
#[inline(never)]
fn is_hash_otherwise(algorithm: &Algorithm<'_>, oid: &Bytes<'_>) -> bool {
    is_hash(algorithm, oid.octets)
}

/// Whether the algorithm is the hash function with this identifier: with NULL or without parameters, which mean the
/// same (RFC 4055 2.1). Where it has nine octets, no register is saved.
#[unsafe(no_mangle)]
pub extern "C" fn pkcs1_c_algorithm_is(algorithm: &Algorithm<'_>, oid: &Bytes<'_>) -> bool {
    if algorithm.oid.len() != 9 {
        return is_hash_otherwise(algorithm, oid);
    }
    is_hash(algorithm, oid.octets)
}

/// Whether the hash function has this identifier, and the mask generation function is MGF1 with the same.
#[inline(always)]
fn uses_hash(hash: &Algorithm<'_>, mask_gen: &MaskGen<'_>, oid: &[u8]) -> bool {
    mask_gen.has_hash && is_mgf1(mask_gen.oid) && is_hash(hash, oid) && is_hash(&mask_gen.hash, oid)
}

/// The same, out of line.
#[inline(never)]
fn uses_hash_otherwise(hash: &Algorithm<'_>, mask_gen: &MaskGen<'_>, oid: &Bytes<'_>) -> bool {
    uses_hash(hash, mask_gen, oid.octets)
}

/// Whether the hash function has this identifier, and the mask generation function is MGF1 with the same: each of them
/// as `pkcs1_c_algorithm_is` has it. Where it has nine octets, no call stands between comparisons, and no register is
/// saved.
#[unsafe(no_mangle)]
pub extern "C" fn pkcs1_c_uses_hash(
    hash: &Algorithm<'_>,
    mask_gen: &MaskGen<'_>,
    oid: &Bytes<'_>,
) -> bool {
    if hash.oid.len() != 9 {
        return uses_hash_otherwise(hash, mask_gen, oid);
    }
    uses_hash(hash, mask_gen, oid.octets)
}
