// Made of crates/pkcs1_params/src/lib.rt by tools/erase/erase.py, and not to be edited.
//! Parameters of RSASSA-PSS and RSAES-OAEP (RFC 8017 A.2.3, A.2.1), and the error of keys and parameters.

mod algorithm;
mod contents;
mod default_salt;
mod error;
mod fields;
mod from_view;
mod hash_fields;
pub mod hash_functions;
mod holders;
mod label;
mod laws;
mod listing;
mod noting;
mod oaep;
mod oaep_algorithm;
mod oaep_reading;
mod oaep_spelling;
mod owned;
mod pss;
mod pss_algorithm;
mod pss_reading;
mod pss_spelling;
mod reading;
mod shortest;
mod spelling;
mod trailer_field;

pub use algorithm::FromAlgorithm;
pub use default_salt::DefaultSalt;
pub use error::{Error, Result};
pub use hash_fields::{is_mgf1, with_null};
pub use label::{PSpecified, is_p_specified};
pub use laws::{
    lemma_algorithms, lemma_algorithms_exclude_each_other, lemma_bare_params_take_no_memory,
    lemma_oaep_spellings, lemma_params_decode, lemma_pss_spellings,
    lemma_written_defaults_are_found,
};
pub use oaep::{
    OaepParamsOf, RsaOaepParams, RsaOaepParamsOwned, RsaOaepParamsRef, RsaOaepParamsView,
    fault_of_oaep_params,
};
pub use oaep_algorithm::{RsaesOaep, fault_of_oaep_algorithm, rsaes_oaep_oid};
pub use pss::{
    PssParamsOf, RsaPssParams, RsaPssParamsOwned, RsaPssParamsRef, RsaPssParamsView,
    fault_of_pss_params,
};
pub use pss_algorithm::{RsassaPss, fault_of_pss_algorithm, rsassa_pss_oid};
pub use shortest::Shortest;
pub use spelling::EncodeParams;
pub use trailer_field::TrailerField;
