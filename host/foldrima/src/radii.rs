//! Radii in bytes and back.

use crate::{asked, call, valued, RadiusCodecProfileV1, Refusal};

/// The least and the greatest radius of a linear payload; 0 and 0 for `F32`.
#[derive(Debug, Clone, Copy, PartialEq)]
pub struct Range {
    pub min: f32,
    pub max: f32,
}

/// Compresses radii, 4 bytes each for `F32` and 2 for `BlockLinearU16`; their range.
///
/// `F32` radii come back to the last bit. Where all radii are below 2^127, each linear one comes
/// back within (max - min) / 65,535 + max / 2^22 + 2^-23 of what it was, as exact numbers; so do
/// those of a linear record.
pub fn compress(
    radii: &[f32],
    profile: RadiusCodecProfileV1,
    out: &mut [u8],
) -> Result<Range, Refusal> {
    let (mut min, mut max) = (0.0, 0.0);
    asked(|number, place| unsafe {
        let (min, max) = (&mut min, &mut max);
        call!(foldrima_compress([radii], profile as u8, [mut out], number, place, min, max))
    })?;
    Ok(Range { min, max })
}

/// Decompresses `count` radii.
pub fn decompress(
    profile: RadiusCodecProfileV1,
    count: usize,
    range: Range,
    payload: &[u8],
    out: &mut [f32],
) -> Result<(), Refusal> {
    let (profile, Range { min, max }) = (profile as u8, range);
    asked(|number, place| unsafe {
        call!(foldrima_decompress(profile, count, min, max, [payload], [mut out], number, place))
    })
}

/// The bytes of a payload with the range that goes with it.
pub fn encoded_bytes(profile: RadiusCodecProfileV1, payload: &[u8]) -> Result<usize, Refusal> {
    valued(|number, place, value| unsafe {
        call!(foldrima_encoded_bytes(profile as u8, [payload], number, place, value))
    })
}
