//! The rotations by themselves, and all that is asked under a setup.

use crate::{
    asked, call, call_under, of_record, scored, valued, Position, Refusal, RotationKind, TurboMode,
};

/// Rotates the input by signs and the Hadamard transform.
pub fn apply(dim: usize, signs: &[f32], input: &[f32], output: &mut [f32]) -> Result<(), Refusal> {
    asked(|number, place| unsafe {
        call!(foldrima_apply(dim, [signs], [input], [mut output], number, place))
    })
}

/// Rotates the input back.
pub fn apply_inverse(
    dim: usize,
    signs: &[f32],
    input: &[f32],
    output: &mut [f32],
) -> Result<(), Refusal> {
    asked(|number, place| unsafe {
        call!(foldrima_apply_inverse(dim, [signs], [input], [mut output], number, place))
    })
}

/// Rotates the input by a matrix, lent column by column: the entry of row i and column j
/// stands at j × dim + i. Each entry of the output is the sum along a row.
pub fn stored_apply(
    dim: usize,
    matrix: &[f32],
    input: &[f32],
    output: &mut [f32],
) -> Result<(), Refusal> {
    asked(|number, place| unsafe {
        call!(foldrima_stored_apply(dim, [matrix], [input], [mut output], number, place))
    })
}

/// Rotates the input back, where the matrix is orthogonal: each entry of the output is the sum
/// along a column.
pub fn stored_apply_inverse(
    dim: usize,
    matrix: &[f32],
    input: &[f32],
    output: &mut [f32],
) -> Result<(), Refusal> {
    asked(|number, place| unsafe {
        call!(foldrima_stored_apply_inverse(dim, [matrix], [input], [mut output], number, place))
    })
}

/// A setup, with the parts that the host draws and works out. Every call checks it.
#[derive(Debug, Clone, Copy)]
pub struct Setup<'a> {
    pub mode: TurboMode,
    pub dim: usize,
    /// Total bits: those of an angle, and one more for the residual.
    pub bits: u8,
    pub projections: usize,
    /// Which rotation it has: for boards of a power of two up to 4,096, or of any even
    /// dimension up to 512.
    pub kind: RotationKind,
    /// The rotation's signs, each −1.0 or 1.0, or its matrix column by column, dim × dim
    /// entries.
    pub rotation: &'a [f32],
    /// Cosine and sine of each index's angle.
    pub directions: &'a [f32],
    /// Row by row; empty in `PolarOnly`.
    pub matrix: &'a [f32],
}

impl Setup<'_> {
    /// Mode and kind as the C functions take them.
    pub(crate) fn codes(&self) -> (u8, u8) {
        (self.mode as u8, self.kind as u8)
    }

    /// Whether the setup holds together.
    pub fn check(&self) -> Result<(), Refusal> {
        asked(|number, place| unsafe {
            call_under!(self, self.codes(), foldrima_check_setup(number, place))
        })
    }

    /// The sketch of a vector: a sign for each projection, none in `PolarOnly`.
    pub fn sketch(&self, vector: &[f32], out: &mut [i8]) -> Result<(), Refusal> {
        let codes = self.codes();
        asked(|number, place| unsafe {
            call_under!(self, codes, foldrima_sketch([vector], [mut out], number, place))
        })
    }

    /// The residual's estimate from a sketch's signs, scaled with the source's norm, 1.0 where
    /// it isn't known; 0 in `PolarOnly`. A norm that is not finite or below zero is refused (23)
    /// in both modes.
    pub fn sketch_score(&self, query: &[f32], sketch: &[i8], norm: f32) -> Result<f32, Refusal> {
        let codes = self.codes();
        valued(|number, place, value| unsafe {
            call_under!(
                self,
                codes,
                foldrima_sketch_score([query], [sketch], norm, number, place, value)
            )
        })
    }

    /// Rotates and projects a query once, for many records.
    pub fn prepare_query(
        &self,
        query: &[f32],
        rotated: &mut [f32],
        projected: &mut [f32],
    ) -> Result<(), Refusal> {
        let codes = self.codes();
        asked(|number, place| unsafe {
            call_under!(
                self,
                codes,
                foldrima_prepare_query([query], [mut rotated], [mut projected], number, place)
            )
        })
    }

    /// The score of a record against a query, its residual scaled with the record's norm. A
    /// record of no bytes is withdrawn, after the checks of the setup and of the query.
    pub fn inner_product_estimate(
        &self,
        query: &[f32],
        record: &[u8],
    ) -> Result<Position<f32>, Refusal> {
        let codes = self.codes();
        scored(|number, place, value| unsafe {
            call_under!(
                self,
                codes,
                foldrima_inner_product_estimate([query], [record], number, place, value)
            )
        })
    }

    /// The score of a record against a prepared query; needs no rotation and no matrix. A
    /// record of no bytes is withdrawn, after the checks of all else.
    pub fn inner_product_estimate_prepared(
        &self,
        rotated: &[f32],
        projected: &[f32],
        record: &[u8],
    ) -> Result<Position<f32>, Refusal> {
        scored(|number, place, value| unsafe {
            call!(foldrima_inner_product_estimate_prepared(
                self.mode as u8,
                self.dim,
                self.bits,
                self.projections,
                self.kind as u8,
                [self.directions],
                [rotated],
                [projected],
                [record],
                number,
                place,
                value
            ))
        })
    }

    /// The squared distance of a record from a query: 12 where its sum (both squared norms,
    /// less twice the score) is NaN or plus infinity, and 0 where it is not greater than zero.
    /// A record of no bytes is withdrawn where it is for a score.
    pub fn l2_distance_estimate(
        &self,
        query: &[f32],
        record: &[u8],
    ) -> Result<Position<f32>, Refusal> {
        let codes = self.codes();
        scored(|number, place, value| unsafe {
            call_under!(
                self,
                codes,
                foldrima_l2_distance_estimate([query], [record], number, place, value)
            )
        })
    }

    /// The vector that a record's polar code stands for. A record of no bytes is withdrawn,
    /// after the setup's checks and before the output's.
    pub fn decode_approximate(
        &self,
        record: &[u8],
        out: &mut [f32],
    ) -> Result<Position<()>, Refusal> {
        let codes = self.codes();
        of_record(|number, place| unsafe {
            call_under!(
                self,
                codes,
                foldrima_decode_approximate([record], [mut out], number, place)
            )
        })
    }
}
