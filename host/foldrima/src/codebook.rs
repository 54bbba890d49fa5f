//! The scalar codebook; the square root, an angle and the two seeds.

use crate::{asked, environment::look, raw, valued, Refusal};

/// Even levels between two bounds. Every call checks the fields anew.
#[derive(Debug, Clone, Copy, PartialEq)]
pub struct ScalarCodebook {
    pub bits: u8,
    pub min: f32,
    pub max: f32,
}

impl ScalarCodebook {
    /// The codebook of these bits and bounds.
    pub fn uniform(bits: u8, min: f32, max: f32) -> Result<Self, Refusal> {
        asked(|number, place| unsafe { raw::foldrima_uniform(bits, min, max, number, place) })?;
        Ok(Self { bits, min, max })
    }

    /// How many levels there are.
    pub fn levels(&self) -> Result<u32, Refusal> {
        let Self { bits, min, max } = *self;
        valued(|number, place, value| unsafe {
            raw::foldrima_levels(bits, min, max, number, place, value)
        })
    }

    /// The level that a value falls into.
    pub fn quantize(&self, x: f32) -> Result<u16, Refusal> {
        let Self { bits, min, max } = *self;
        valued(|number, place, value| unsafe {
            raw::foldrima_quantize(bits, min, max, x, number, place, value)
        })
    }

    /// The middle of a level.
    pub fn dequantize_midpoint(&self, index: u16) -> Result<f32, Refusal> {
        let Self { bits, min, max } = *self;
        valued(|number, place, value| unsafe {
            raw::foldrima_dequantize_midpoint(bits, min, max, index, number, place, value)
        })
    }
}

/// IEEE 754's squareRoot.
pub fn sqrt(x: f32) -> f32 {
    look();
    unsafe { raw::foldrima_sqrt(x) }
}

/// The angle of an index of so many bits.
pub fn dequantize_angle(bits: u8, index: u16) -> Result<f32, Refusal> {
    valued(|number, place, value| unsafe {
        raw::foldrima_dequantize_angle(bits, index, number, place, value)
    })
}

/// The seed of the generator that draws a rotation's signs.
pub fn hadamard_seed(seed: u64) -> u64 {
    look();
    unsafe { raw::foldrima_hadamard_seed(seed) }
}

/// The seed of the generator that draws a matrix.
pub fn matrix_seed(seed: u64) -> u64 {
    look();
    unsafe { raw::foldrima_matrix_seed(seed) }
}
