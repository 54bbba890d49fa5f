//! The port's calls for Rust programs: safe functions over the C functions of its static
//! library, under the Rust's names. Outputs are lent and must have exactly the needed
//! length; a refused call writes to none of them. A record of no bytes is a withdrawn
//! position, neither a refusal nor a value: calls that take a record answer a [`Position`],
//! and write nothing where it is withdrawn. A record with signs may have the norm of its
//! source, which its residual is scaled with; without one the norm is 1.0. A setup rotates by
//! signs, for boards of a power of two, or by a matrix, for any even dimension up to 512
//! ([`RotationKind`]). A [`Scan`] keeps the best of a stream of records under a query.
//!
//! The library's answers rest on the float mode that a thread starts with: round to
//! nearest, subnormals kept. A call panics in a thread that has changed it.
//!
//! ```
//! use foldrima::{refusal, Position, Refusal, RotationKind, Setup, TurboMode};
//!
//! # fn main() -> Result<(), Refusal> {
//! let signs = [1.0, 1.0]; // drawn by a generator that is seeded with `hadamard_seed`
//! let directions = [-1.0, 0.0, 1.0, 0.0]; // cosine and sine of each `dequantize_angle`
//! let matrix = [1.0, 0.0, 0.0, 1.0, 1.0, 1.0]; // drawn with `matrix_seed`, row by row
//! let (mode, dim, bits, projections) = (TurboMode::PolarWithQjl, 2, 2, 3);
//! let (kind, rotation) = (RotationKind::FastHadamard, &signs);
//! let (directions, matrix) = (&directions, &matrix);
//! let setup = Setup { mode, dim, bits, projections, kind, rotation, directions, matrix };
//! let (mut rotated, mut projected) = ([0.0; 2], [0.0; 3]);
//! setup.prepare_query(&[1.0, 3.0], &mut rotated, &mut projected)?;
//! let record = [2, 2, 0, 0, 0, 1, 3, 0, 0, 0, 0, 0, 0x80, 0x3F, 1, 5];
//! let score = |record: &[u8]| setup.inner_product_estimate_prepared(&rotated, &projected, record);
//! assert!(matches!(score(&record)?, Position::Kept(x) if x > 3.66 && x < 3.67));
//! let normed = [6, 2, 0, 0, 0, 1, 3, 0, 0, 0, 0, 0, 0, 0x40, 0, 0, 0x80, 0x3F, 1, 5]; // norm 2.0
//! assert!(matches!(score(&normed)?, Position::Kept(x) if x > 4.49 && x < 4.50));
//! let refused = Refusal { number: refusal::MALFORMED_LENGTH, place: 9 };
//! assert_eq!(score(&record[..9]), Err(refused));
//! assert_eq!(refused.to_string(), "refused (13): byte length wrong; the length found: 9");
//! assert_eq!(score(&[])?, Position::Withdrawn);
//! # Ok(())
//! # }
//! ```

#[cfg(not(all(target_arch = "x86_64", target_pointer_width = "64")))]
compile_error!("libcapi.a is for 64-bit x86");

pub mod raw;
pub mod refusal;

mod bits;
mod codebook;
mod environment;
mod position;
mod radii;
mod record;
mod scan;
mod setup;

pub use bits::{
    pack_indices, pack_signs, packed_len, unpack_indices, unpack_signs, validate_padding_zero,
};
pub use codebook::{dequantize_angle, hadamard_seed, matrix_seed, sqrt, ScalarCodebook};
pub use position::Position;
pub use radii::{compress, decompress, encoded_bytes, Range};
pub use raw::{Hit, Tally};
pub use record::{
    indices_part, radii_part, read_indices, read_radii, read_record, read_signs, record_size,
    signs_part, write_record, Header,
};
pub use refusal::Refusal;
pub use scan::{Scan, Taken};
pub use setup::{apply, apply_inverse, stored_apply, stored_apply_inverse, Setup};

/// Whether a residual sketch goes with the polar code.
#[derive(Debug, Clone, Copy, PartialEq, Eq, Hash)]
#[repr(u8)]
pub enum TurboMode {
    PolarOnly = 0,
    PolarWithQjl = 1,
}

/// Which rotation a setup has, and so what is lent for it.
#[derive(Debug, Clone, Copy, PartialEq, Eq, Hash)]
#[repr(u8)]
pub enum RotationKind {
    /// Signs and the Hadamard transform, for powers of two up to 4,096.
    FastHadamard = 0,
    /// A matrix, for even dimensions up to 512.
    Stored = 1,
}

/// How radii are stored. `BlockLogU8` is refused by every call.
#[derive(Debug, Clone, Copy, PartialEq, Eq, Hash)]
#[repr(u8)]
pub enum RadiusCodecProfileV1 {
    F32 = 0,
    BlockLinearU16 = 1,
    BlockLogU8 = 2,
}

/// Makes a call that takes a record with room for its number and place, and reads them as
/// an answer.
#[inline]
fn of_record(call: impl FnOnce(*mut u32, *mut usize)) -> Result<Position<()>, Refusal> {
    environment::look();
    let (mut number, mut place) = (0, 0);
    call(&mut number, &mut place);
    match number {
        0 => Ok(Position::Kept(())),
        raw::WITHDRAWN => Ok(Position::Withdrawn),
        _ => Err(Refusal { number, place }),
    }
}

/// The same for a call that never answers withdrawn.
#[inline]
fn asked(call: impl FnOnce(*mut u32, *mut usize)) -> Result<(), Refusal> {
    match of_record(call)? {
        Position::Kept(()) => Ok(()),
        Position::Withdrawn => unreachable!("withdrawn, by a call that never answers so"),
    }
}

/// The same for a call that takes a record, with room for a score or a distance.
#[inline]
fn scored(call: impl FnOnce(*mut u32, *mut usize, *mut f32)) -> Result<Position<f32>, Refusal> {
    let mut value = 0.0;
    let answer = of_record(|number, place| call(number, place, &mut value))?;
    Ok(answer.map(|()| value))
}

/// The same for a call that never answers withdrawn, with room for a value.
#[inline]
fn valued<T: Default>(call: impl FnOnce(*mut u32, *mut usize, *mut T)) -> Result<T, Refusal> {
    let mut value = T::default();
    asked(|number, place| call(number, place, &mut value))?;
    Ok(value)
}
