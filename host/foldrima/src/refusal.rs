//! The refusals of documents 01 and 02: their numbers by name, and in words.

use std::fmt;

/// Why a call was refused: the documents' number, and the place that it names. A withdrawn
/// position is no refusal: `Position`.
#[derive(Debug, Clone, Copy, PartialEq, Eq, Hash)]
pub struct Refusal {
    pub number: u32,
    pub place: usize,
}

/// A name for each number; what it says, and what its place is (nothing where it is always 0).
macro_rules! refusals {
    ($($name:ident = $number:literal, $words:literal, $place:literal;)*) => {
        $(#[doc = concat!("Refusal ", $number, ": ", $words, ".")]
        pub const $name: u32 = $number;)*

        /// The name of each number, in their order.
        pub const NAMES: [(&str, u32); 25] = [$((stringify!($name), $name)),*];

        fn words(number: u32) -> Option<(&'static str, &'static str)> {
            match number {
                $($name => Some(($words, $place)),)*
                _ => None,
            }
        }
    };
}

refusals! {
    INVALID_BIT_WIDTH = 1, "bits outside 1 to 16, or total bits below 2 in residual mode", "the bits";
    ZERO_DIMENSION = 2, "dimension 0", "";
    ODD_DIMENSION = 3, "odd dimension", "the dimension";
    ROTATION_FAILED = 4, "an even dimension that is no power of two under Hadamard signs, or above 4,096", "the dimension";
    DIMENSION_MISMATCH = 5, "an input's length, or a record's dimension, is not the setup's, or an end lies before the one in front of it or behind the bytes", "what was found";
    OUTPUT_LENGTH = 6, "an output isn't exactly the needed length", "the needed length";
    INVALID_DIRECTION = 7, "a direction entry is not finite or outside -1 to 1", "its index";
    ZERO_PROJECTION_COUNT = 8, "in residual mode, projections 0 or above 4,096", "the count";
    NON_FINITE_MATRIX = 9, "an entry of a matrix is not finite", "its index";
    MALFORMED_SIGN = 10, "a sign is neither -1 nor 1", "its index";
    NON_FINITE_INPUT = 11, "a value is not finite, in the vector, rotated or projected", "its index there";
    NON_FINITE_SCORE = 12, "a score or distance is not finite", "";
    MALFORMED_LENGTH = 13, "byte length wrong", "the length found";
    MALFORMED_PADDING = 14, "padding bits not zero", "that byte's index in its payload";
    MALFORMED_INDEX = 15, "an index at or above 2^bits", "its index, or 0 for a single one";
    MALFORMED_RADIUS = 16, "a radius is NaN, infinite or below zero", "its index";
    MALFORMED_RANGE = 17, "a bound not finite, or min above max, or for a codebook equal to it", "";
    UNDEFINED_PROFILE = 18, "a map bit not defined, a norm without signs, or profile BlockLogU8", "the map byte, or 0";
    LENGTH_OVERFLOW = 19, "count times bits exceeds the largest usize", "";
    PROFILE_MISMATCH = 20, "a record's bits or projections are not the setup's", "";
    SCAN_LENGTH = 21, "a scan's length is 0 or above 64", "";
    SCAN_FULL = 22, "a scan has taken 4,294,967,295 records, or has fewer numbers left than there are records", "";
    MALFORMED_NORM = 23, "a norm is not finite or below zero", "";
    SCAN_NOT_SHORTER = 25, "a scan's new length is 0 or above its present one", "";
    STORED_DIMENSION = 26, "a stored rotation's dimension is above 512", "";
}

impl fmt::Display for Refusal {
    fn fmt(&self, f: &mut fmt::Formatter) -> fmt::Result {
        let Self { number, place } = self;
        match words(*number) {
            Some((words, "")) => write!(f, "refused ({number}): {words}"),
            Some((words, what)) => write!(f, "refused ({number}): {words}; {what}: {place}"),
            None => write!(f, "refused with the unknown number {number} at {place}"),
        }
    }
}

impl std::error::Error for Refusal {}
