// Made of crates/pkcs1_c/src/meanings.rt by tools/erase/erase.py, and not to be edited.
//! Which structs mean the same. Nothing that they hold is checked: equal octets are alike, whether or not they may be
//! encoded.

use crate::calls::pkcs1_c::algorithm::{Algorithm, MaskGen, is_null_or_absent, is_same};
use crate::calls::pkcs1_c::oaep::OaepParams;
use crate::calls::pkcs1_c::pss::PssParams;

/// Whether both have the same parameters, or none.
fn have_same_parameters(left: &Algorithm<'_>, right: &Algorithm<'_>) -> bool {
    if left.has_parameters && right.has_parameters {
        left.tag == right.tag && left.parameters == right.parameters
    } else {
        left.has_parameters == right.has_parameters
    }
}

/// Whether both are the same algorithm, with the same parameters.
fn is_same_algorithm(left: &Algorithm<'_>, right: &Algorithm<'_>) -> bool {
    is_same(left.oid, right.oid) && have_same_parameters(left, right)
}

/// Whether both are the same hash function.
fn is_same_hash(left: &Algorithm<'_>, right: &Algorithm<'_>) -> bool {
    let parameters_alike = (is_null_or_absent(left) && is_null_or_absent(right))
        || have_same_parameters(left, right);
    parameters_alike && is_same(left.oid, right.oid)
}

/// Whether two mask generation functions mean the same: the identifiers are equal, and the hash functions are the same,
/// or both have none.
fn is_same_mask(left: &MaskGen<'_>, right: &MaskGen<'_>) -> bool {
    let same_hash = if left.has_hash && right.has_hash {
        is_same_hash(&left.hash, &right.hash)
    } else {
        left.has_hash == right.has_hash
    };
    same_hash && is_same(left.oid, right.oid)
}

/// Whether both are the same hash function: the identifiers are equal, and so are the parameters, where NULL and none
/// are alike.
#[unsafe(no_mangle)]
pub extern "C" fn pkcs1_c_algorithm_is_same_hash(
    left: &Algorithm<'_>,
    right: &Algorithm<'_>,
) -> bool {
    is_same_hash(left, right)
}

/// Whether both mean the same: all fields are equal, where a hash function with NULL and one without parameters are
/// alike, in the mask generation function too. Structs that can't be encoded are compared too.
#[unsafe(no_mangle)]
pub extern "C" fn pkcs1_c_pss_means_same(left: &PssParams<'_>, right: &PssParams<'_>) -> bool {
    is_same_hash(&left.hash, &right.hash)
        && is_same_mask(&left.mask_gen, &right.mask_gen)
        && left.salt_len == right.salt_len
        && left.trailer_field == right.trailer_field
}

/// The same of parameters of RSAES-OAEP, whose sources are alike only if they are equal.
#[unsafe(no_mangle)]
pub extern "C" fn pkcs1_c_oaep_means_same(left: &OaepParams<'_>, right: &OaepParams<'_>) -> bool {
    is_same_hash(&left.hash, &right.hash)
        && is_same_mask(&left.mask_gen, &right.mask_gen)
        && is_same_algorithm(&left.p_source, &right.p_source)
}
