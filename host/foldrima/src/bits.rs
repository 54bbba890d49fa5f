//! Indices and signs in bytes and back.

use crate::{asked, call, valued, Refusal};

/// The number of bytes that `count` indices of `bits` bits each take.
pub fn packed_len(count: usize, bits: u8) -> Result<usize, Refusal> {
    valued(|number, place, value| unsafe {
        call!(foldrima_packed_len(count, bits, number, place, value))
    })
}

/// Packs indices of `bits` bits each, least significant bit first.
pub fn pack_indices(indices: &[u16], bits: u8, out: &mut [u8]) -> Result<(), Refusal> {
    asked(|number, place| unsafe {
        call!(foldrima_pack_indices([indices], bits, [mut out], number, place))
    })
}

/// Unpacks `count` indices of `bits` bits each.
pub fn unpack_indices(
    packed: &[u8],
    count: usize,
    bits: u8,
    out: &mut [u16],
) -> Result<(), Refusal> {
    asked(|number, place| unsafe {
        call!(foldrima_unpack_indices([packed], count, bits, [mut out], number, place))
    })
}

/// Packs signs, each −1 or 1, a bit each.
pub fn pack_signs(signs: &[i8], out: &mut [u8]) -> Result<(), Refusal> {
    asked(|number, place| unsafe { call!(foldrima_pack_signs([signs], [mut out], number, place)) })
}

/// Unpacks `count` signs.
pub fn unpack_signs(packed: &[u8], count: usize, out: &mut [i8]) -> Result<(), Refusal> {
    asked(|number, place| unsafe {
        call!(foldrima_unpack_signs([packed], count, [mut out], number, place))
    })
}

/// Whether the length is right and all bits from `used_bits` up are zero.
pub fn validate_padding_zero(packed: &[u8], used_bits: usize) -> Result<(), Refusal> {
    asked(|number, place| unsafe {
        call!(foldrima_validate_padding_zero([packed], used_bits, number, place))
    })
}
