//! Records: written, read, and their three parts.

use crate::{
    asked, call, environment::look, of_record, raw, valued, Position, RadiusCodecProfileV1, Range,
    Refusal, TurboMode,
};

/// What an accepted record says of itself.
#[derive(Debug, Clone, Copy, PartialEq)]
pub struct Header {
    pub mode: TurboMode,
    pub profile: RadiusCodecProfileV1,
    pub dim: usize,
    /// Bits of an angle.
    pub bits: u8,
    pub projections: usize,
    pub range: Range,
    /// Whether the record has a norm.
    pub has_norm: bool,
    /// The norm that its scores are scaled with; 1.0 where it has none.
    pub norm: f32,
}

/// A norm as the C functions take it: whether it is given, and its value.
fn given(norm: Option<f32>) -> (u8, f32) {
    match norm {
        Some(norm) => (1, norm),
        None => (0, 1.0),
    }
}

/// How many bytes a record of these scalars takes; `bits` are those of an angle. A norm takes
/// four, whatever its value, and is refused (18) in `PolarOnly`.
pub fn record_size(
    profile: RadiusCodecProfileV1,
    dim: usize,
    bits: u8,
    mode: TurboMode,
    projections: usize,
    norm: Option<f32>,
) -> Result<usize, Refusal> {
    let (has_norm, _) = given(norm);
    valued(|number, place, value| unsafe {
        call!(foldrima_record_size(
            profile as u8,
            dim,
            bits,
            mode as u8,
            projections,
            has_norm,
            number,
            place,
            value
        ))
    })
}

/// Writes a record of these parts; `bits` are those of an angle. A norm is stored exactly
/// where one is given, bit for bit, 1.0 and −0.0 too. In `PolarOnly` it is refused (18), as it
/// scales the residual; one that is not finite or below zero is refused too (23).
#[allow(clippy::too_many_arguments)]
pub fn write_record(
    profile: RadiusCodecProfileV1,
    dim: usize,
    bits: u8,
    mode: TurboMode,
    projections: usize,
    norm: Option<f32>,
    radii: &[f32],
    indices: &[u16],
    signs: &[i8],
    out: &mut [u8],
) -> Result<(), Refusal> {
    let (has_norm, norm) = given(norm);
    asked(|number, place| unsafe {
        call!(foldrima_write_record(
            profile as u8,
            dim,
            bits,
            mode as u8,
            projections,
            has_norm,
            norm,
            [radii],
            [indices],
            [signs],
            [mut out],
            number,
            place
        ))
    })
}

/// Reads a record: all of it is checked, and its header handed back. A record of no
/// bytes is withdrawn, before every check; one of 1 to 5 is refused.
pub fn read_record(bytes: &[u8]) -> Result<Position<Header>, Refusal> {
    let (mut mode, mut profile, mut dim, mut bits, mut projections) = (0, 0, 0, 0, 0);
    let mut range = Range { min: 0.0, max: 0.0 };
    let (mut has_norm, mut norm) = (0, 1.0);
    let answer = of_record(|number, place| unsafe {
        call!(foldrima_read_record(
            [bytes],
            number,
            place,
            &mut mode,
            &mut profile,
            &mut dim,
            &mut bits,
            &mut projections,
            &mut range.min,
            &mut range.max,
            &mut has_norm,
            &mut norm
        ))
    })?;
    let mode = if mode == 0 { TurboMode::PolarOnly } else { TurboMode::PolarWithQjl };
    let profile = match profile {
        0 => RadiusCodecProfileV1::F32,
        _ => RadiusCodecProfileV1::BlockLinearU16,
    };
    let has_norm = has_norm != 0;
    Ok(answer.map(|()| Header { mode, profile, dim, bits, projections, range, has_norm, norm }))
}

type Part = unsafe extern "C" fn(*const u8, usize, *mut usize, *mut usize);

fn part(bytes: &[u8], find: Part) -> &[u8] {
    look();
    let (mut start, mut count) = (0, 0);
    unsafe { find(bytes.as_ptr(), bytes.len(), &mut start, &mut count) };
    &bytes[start..start + count]
}

/// The record's own bytes that hold its radii; empty where it is refused or withdrawn.
pub fn radii_part(bytes: &[u8]) -> &[u8] {
    part(bytes, raw::foldrima_radii_part)
}

/// The record's own bytes that hold its indices; empty where it is refused or withdrawn.
pub fn indices_part(bytes: &[u8]) -> &[u8] {
    part(bytes, raw::foldrima_indices_part)
}

/// The record's own bytes that hold its signs; empty where it has none, is refused or
/// withdrawn.
pub fn signs_part(bytes: &[u8]) -> &[u8] {
    part(bytes, raw::foldrima_signs_part)
}

/// The radii of a record, one for each pair. A record of no bytes is withdrawn, before every
/// check.
pub fn read_radii(bytes: &[u8], out: &mut [f32]) -> Result<Position<()>, Refusal> {
    of_record(|number, place| unsafe {
        call!(foldrima_read_radii([bytes], [mut out], number, place))
    })
}

/// The indices of a record, one for each pair. A record of no bytes is withdrawn, before
/// every check.
pub fn read_indices(bytes: &[u8], out: &mut [u16]) -> Result<Position<()>, Refusal> {
    of_record(|number, place| unsafe {
        call!(foldrima_read_indices([bytes], [mut out], number, place))
    })
}

/// The signs of a record, one for each projection. A record of no bytes is withdrawn, before
/// every check.
pub fn read_signs(bytes: &[u8], out: &mut [i8]) -> Result<Position<()>, Refusal> {
    of_record(|number, place| unsafe {
        call!(foldrima_read_signs([bytes], [mut out], number, place))
    })
}
