//! The smallest setup, and a record under it.

use foldrima::{RotationKind, Setup, TurboMode};

/// One pair of one bit, without residual: indices 0 and 1 point along (−1, 0) and (1, 0).
pub const SETUP: Setup = Setup {
    mode: TurboMode::PolarOnly,
    dim: 2,
    bits: 1,
    projections: 0,
    kind: RotationKind::FastHadamard,
    rotation: &[1.0, 1.0],
    directions: &[-1.0, 0.0, 1.0, 0.0],
    matrix: &[],
};

/// P12: radius 1.0, index 1.
pub const RECORD: [u8; 11] = [0, 2, 0, 0, 0, 1, 0, 0, 0x80, 0x3F, 1];
