// Made of crates/pkcs1_params/src/fields.rt by tools/erase/erase.py, and not to be edited.
//! The fields of parameters, and writing them under a mask that says which defaults are written.

use crate::proved::pkcs1_params::holders::{MaskHolder, PlainHolder};
use crate::proved::pkcs1_params::pss::RsaPssParamsRef;
use crate::proved::pkcs1_params::trailer_field::TrailerField;
use crate::proved::der_core::{Encode, Prepend, Result, TagNumber, Writer};
use crate::proved::spki_core::ContextSpecificRef;

/// A field with its value. A `Plain` holds a hash function or a label source, a `Mask` a mask generation function.
pub enum FieldRef<'b, Plain, Mask> {
    Hash(&'b Plain),
    MaskGen(&'b Mask),
    SaltLen(u8),
    Trailer(TrailerField),
    PSource(&'b Plain),
}

impl<Plain: PlainHolder, Mask: MaskHolder> FieldRef<'_, Plain, Mask> {
    #[inline(always)]
    fn number(&self) -> TagNumber {
        TagNumber::new(match self {
            FieldRef::Hash(_) => 0,
            FieldRef::MaskGen(_) => 1,
            FieldRef::SaltLen(_) => 2,
            FieldRef::Trailer(_) => 3,
            FieldRef::PSource(_) => 2,
        })
    }

    /// Whether the value is the default.
    #[inline(always)]
    pub(crate) fn is_default(&self) -> bool {
        match *self {
            FieldRef::Hash(hash) => hash.is_default_hash(),
            FieldRef::MaskGen(mask_gen) => mask_gen.is_default(),
            FieldRef::SaltLen(salt_len) => salt_len == RsaPssParamsRef::SALT_LEN_DEFAULT,
            FieldRef::Trailer(trailer) => trailer == TrailerField::BC,
            FieldRef::PSource(p_source) => p_source.is_default_source(),
        }
    }

    /// Appends the field.
    fn append<W: Writer>(&self, writer: &mut W) -> Result<()> {
        let number = self.number();
        match *self {
            FieldRef::Hash(hash) => append_field(number, hash, writer),
            FieldRef::MaskGen(mask_gen) => append_field(number, mask_gen, writer),
            FieldRef::SaltLen(salt_len) => append_field(number, &salt_len, writer),
            FieldRef::Trailer(trailer) => append_field(number, &trailer, writer),
            FieldRef::PSource(p_source) => append_field(number, p_source, writer),
        }
    }

    /// Writes the field in front of what was received, or counts it.
    #[inline(always)]
    fn prepend<W: Prepend>(&self, writer: &mut W) {
        let number = self.number();
        match *self {
            FieldRef::Hash(hash) => prepend_field(number, hash, writer),
            FieldRef::MaskGen(mask_gen) => prepend_field(number, mask_gen, writer),
            FieldRef::SaltLen(salt_len) => prepend_field(number, &salt_len, writer),
            FieldRef::Trailer(trailer) => prepend_field(number, &trailer, writer),
            FieldRef::PSource(p_source) => prepend_field(number, p_source, writer),
        }
    }
}

/// Appends a field.
fn append_field<T: Encode, W: Writer>(
    tag_number: TagNumber,
    value: &T,
    writer: &mut W,
) -> Result<()> {
    ContextSpecificRef { tag_number, value }.append(writer)
}

/// Writes a field in front of what was received, or counts it.
#[inline(never)]
fn prepend_field<T: Encode, W: Prepend>(tag_number: TagNumber, value: &T, writer: &mut W) {
    ContextSpecificRef { tag_number, value }.prepend(writer);
}

/// Whether the field is left out, and the mask for the later ones.
#[inline(always)]
pub(crate) fn take_mask_bit(default: bool, mask: u8) -> (bool, u8) {
    if default {
        (mask % 2 == 0, mask / 2)
    } else {
        (false, mask)
    }
}

/// Whether the field has its default, and the bits for the later ones.
#[inline(always)]
fn split_non_defaults<Plain: PlainHolder, Mask: MaskHolder, L: Fields>(
    non_defaults: u8,
    _field: &FieldRef<'_, Plain, Mask>,
    _later: &L,
) -> (bool, u8) {
    (non_defaults % 2 == 0, non_defaults / 2)
}

/// Fields with their values, in order. Each list has a type of its own, so that code for it has no loop.
pub trait Fields {
    /// Which fields differ from their defaults, as bits: bit j is that of field j.
    fn non_defaults(&self) -> u8;

    /// How many of the fields have their defaults.
    fn count_defaults(&self) -> u8;

    /// Appends the fields under a mask. Bit j of `non_defaults` says whether field j differs from its default.
    fn append<W: Writer>(&self, non_defaults: u8, mask: u8, writer: &mut W) -> Result<()>;

    /// Writes the fields under a mask in front of what was received, the last one first, or counts them.
    fn prepend<W: Prepend>(&self, non_defaults: u8, mask: u8, writer: &mut W);
}

/// No field.
pub struct NoField;

/// A field and the later ones.
pub struct FieldThen<'b, Plain, Mask, L> {
    pub(crate) first: FieldRef<'b, Plain, Mask>,
    pub(crate) later: L,
}

impl Fields for NoField {
    #[inline(always)]
    fn non_defaults(&self) -> u8 {
        0
    }

    #[inline(always)]
    fn count_defaults(&self) -> u8 {
        0
    }

    #[inline(always)]
    fn append<W: Writer>(&self, _non_defaults: u8, _mask: u8, _writer: &mut W) -> Result<()> {
        Ok(())
    }

    #[inline(always)]
    fn prepend<W: Prepend>(&self, _non_defaults: u8, _mask: u8, _writer: &mut W) {}
}

impl<Plain: PlainHolder, Mask: MaskHolder, L: Fields> Fields for FieldThen<'_, Plain, Mask, L> {
    #[inline(always)]
    fn non_defaults(&self) -> u8 {
        u8::from(!self.first.is_default()) + 2 * self.later.non_defaults()
    }

    #[inline(always)]
    fn count_defaults(&self) -> u8 {
        u8::from(self.first.is_default()) + self.later.count_defaults()
    }

    #[inline(always)]
    fn append<W: Writer>(&self, non_defaults: u8, mask: u8, writer: &mut W) -> Result<()> {
        let (default, non_defaults) = split_non_defaults(non_defaults, &self.first, &self.later);
        let (left_out, mask) = take_mask_bit(default, mask);
        if left_out {
            return self.later.append(non_defaults, mask, writer);
        }
        self.first.append(writer)?;
        self.later.append(non_defaults, mask, writer)
    }

    #[inline(always)]
    fn prepend<W: Prepend>(&self, non_defaults: u8, mask: u8, writer: &mut W) {
        let (default, non_defaults) = split_non_defaults(non_defaults, &self.first, &self.later);
        let (left_out, mask) = take_mask_bit(default, mask);
        self.later.prepend(non_defaults, mask, writer);
        if !left_out {
            self.first.prepend(writer);
        }
    }
}
