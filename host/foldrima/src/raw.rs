//! The C functions of `libcapi.a`, as its header has them. A slice is a pointer and a
//! length. `number` and `place` come back as a refusal's, as 0 and 0 beside a value, or as
//! `WITHDRAWN` and 0; where there is no value, the other outputs keep what they held.

/// The number of a withdrawn position, which no refusal has.
pub const WITHDRAWN: u32 = 255;

// Bits.
extern "C" {
    pub fn foldrima_packed_len(
        count: usize,
        bits: u8,
        number: *mut u32,
        place: *mut usize,
        value: *mut usize,
    );
    pub fn foldrima_pack_indices(
        indices: *const u16,
        indices_len: usize,
        bits: u8,
        out: *mut u8,
        out_len: usize,
        number: *mut u32,
        place: *mut usize,
    );
    pub fn foldrima_unpack_indices(
        packed: *const u8,
        packed_len: usize,
        count: usize,
        bits: u8,
        out: *mut u16,
        out_len: usize,
        number: *mut u32,
        place: *mut usize,
    );
    pub fn foldrima_pack_signs(
        signs: *const i8,
        signs_len: usize,
        out: *mut u8,
        out_len: usize,
        number: *mut u32,
        place: *mut usize,
    );
    pub fn foldrima_unpack_signs(
        packed: *const u8,
        packed_len: usize,
        count: usize,
        out: *mut i8,
        out_len: usize,
        number: *mut u32,
        place: *mut usize,
    );
    pub fn foldrima_validate_padding_zero(
        packed: *const u8,
        packed_len: usize,
        used_bits: usize,
        number: *mut u32,
        place: *mut usize,
    );
}

// Codebook, root, angle and seeds.
extern "C" {
    pub fn foldrima_uniform(bits: u8, min: f32, max: f32, number: *mut u32, place: *mut usize);
    pub fn foldrima_levels(
        bits: u8,
        min: f32,
        max: f32,
        number: *mut u32,
        place: *mut usize,
        value: *mut u32,
    );
    pub fn foldrima_quantize(
        bits: u8,
        min: f32,
        max: f32,
        x: f32,
        number: *mut u32,
        place: *mut usize,
        value: *mut u16,
    );
    pub fn foldrima_dequantize_midpoint(
        bits: u8,
        min: f32,
        max: f32,
        index: u16,
        number: *mut u32,
        place: *mut usize,
        value: *mut f32,
    );
    pub fn foldrima_sqrt(x: f32) -> f32;
    pub fn foldrima_dequantize_angle(
        bits: u8,
        index: u16,
        number: *mut u32,
        place: *mut usize,
        value: *mut f32,
    );
    pub fn foldrima_hadamard_seed(seed: u64) -> u64;
    pub fn foldrima_matrix_seed(seed: u64) -> u64;
}

// Radii.
extern "C" {
    pub fn foldrima_compress(
        radii: *const f32,
        radii_len: usize,
        profile: u8,
        out: *mut u8,
        out_len: usize,
        number: *mut u32,
        place: *mut usize,
        min: *mut f32,
        max: *mut f32,
    );
    pub fn foldrima_decompress(
        profile: u8,
        count: usize,
        min: f32,
        max: f32,
        payload: *const u8,
        payload_len: usize,
        out: *mut f32,
        out_len: usize,
        number: *mut u32,
        place: *mut usize,
    );
    pub fn foldrima_encoded_bytes(
        profile: u8,
        payload: *const u8,
        payload_len: usize,
        number: *mut u32,
        place: *mut usize,
        value: *mut usize,
    );
}

// Rotations.
extern "C" {
    pub fn foldrima_apply(
        dim: usize,
        signs: *const f32,
        signs_len: usize,
        input: *const f32,
        input_len: usize,
        output: *mut f32,
        output_len: usize,
        number: *mut u32,
        place: *mut usize,
    );
    pub fn foldrima_apply_inverse(
        dim: usize,
        signs: *const f32,
        signs_len: usize,
        input: *const f32,
        input_len: usize,
        output: *mut f32,
        output_len: usize,
        number: *mut u32,
        place: *mut usize,
    );
    pub fn foldrima_stored_apply(
        dim: usize,
        matrix: *const f32,
        matrix_len: usize,
        input: *const f32,
        input_len: usize,
        output: *mut f32,
        output_len: usize,
        number: *mut u32,
        place: *mut usize,
    );
    pub fn foldrima_stored_apply_inverse(
        dim: usize,
        matrix: *const f32,
        matrix_len: usize,
        input: *const f32,
        input_len: usize,
        output: *mut f32,
        output_len: usize,
        number: *mut u32,
        place: *mut usize,
    );
}

// Records.
extern "C" {
    pub fn foldrima_record_size(
        profile: u8,
        dim: usize,
        bits: u8,
        mode: u8,
        projections: usize,
        has_norm: u8,
        number: *mut u32,
        place: *mut usize,
        value: *mut usize,
    );
    pub fn foldrima_read_record(
        bytes: *const u8,
        bytes_len: usize,
        number: *mut u32,
        place: *mut usize,
        mode: *mut u8,
        profile: *mut u8,
        dim: *mut usize,
        bits: *mut u8,
        projections: *mut usize,
        min: *mut f32,
        max: *mut f32,
        has_norm: *mut u8,
        norm: *mut f32,
    );
    pub fn foldrima_radii_part(
        bytes: *const u8,
        bytes_len: usize,
        start: *mut usize,
        count: *mut usize,
    );
    pub fn foldrima_indices_part(
        bytes: *const u8,
        bytes_len: usize,
        start: *mut usize,
        count: *mut usize,
    );
    pub fn foldrima_signs_part(
        bytes: *const u8,
        bytes_len: usize,
        start: *mut usize,
        count: *mut usize,
    );
    pub fn foldrima_read_radii(
        bytes: *const u8,
        bytes_len: usize,
        out: *mut f32,
        out_len: usize,
        number: *mut u32,
        place: *mut usize,
    );
    pub fn foldrima_read_indices(
        bytes: *const u8,
        bytes_len: usize,
        out: *mut u16,
        out_len: usize,
        number: *mut u32,
        place: *mut usize,
    );
    pub fn foldrima_read_signs(
        bytes: *const u8,
        bytes_len: usize,
        out: *mut i8,
        out_len: usize,
        number: *mut u32,
        place: *mut usize,
    );
    pub fn foldrima_write_record(
        profile: u8,
        dim: usize,
        bits: u8,
        mode: u8,
        projections: usize,
        has_norm: u8,
        norm: f32,
        radii: *const f32,
        radii_len: usize,
        indices: *const u16,
        indices_len: usize,
        signs: *const i8,
        signs_len: usize,
        out: *mut u8,
        out_len: usize,
        number: *mut u32,
        place: *mut usize,
    );
}

// Scores by a prepared query.
extern "C" {
    pub fn foldrima_inner_product_estimate_prepared(
        mode: u8,
        dim: usize,
        bits: u8,
        projections: usize,
        kind: u8,
        directions: *const f32,
        directions_len: usize,
        rotated: *const f32,
        rotated_len: usize,
        projected: *const f32,
        projected_len: usize,
        bytes: *const u8,
        bytes_len: usize,
        number: *mut u32,
        place: *mut usize,
        value: *mut f32,
    );
}

/// What a scan counts: how many hits it keeps at most, how many it has, and how many records it
/// has taken, refused and found withdrawn. The last two are part of those taken. `comparisons` is
/// how many times a new score was compared with a hit's.
#[derive(Debug, Clone, Copy, PartialEq, Eq, Hash)]
#[repr(C)]
pub struct Tally {
    pub length: usize,
    pub kept: usize,
    pub taken: u32,
    pub refused: u32,
    pub withdrawn: u32,
    pub comparisons: u64,
}

/// A scan: its counts, and its hits in their order. Behind the hits kept the lists may hold
/// anything.
#[derive(Debug, Clone, Copy)]
#[repr(C)]
pub struct Scan {
    pub tally: Tally,
    pub numbers: [u32; 64],
    pub scores: [f32; 64],
}

/// A record among the best of a scan: its number, and the score that it got.
#[derive(Debug, Clone, Copy, PartialEq, Default)]
#[repr(C)]
pub struct Hit {
    pub number: u32,
    pub score: f32,
}

// Scans.
extern "C" {
    pub fn foldrima_scan_open(length: usize, number: *mut u32, place: *mut usize) -> Scan;
    pub fn foldrima_scan_take(
        tally: Tally,
        numbers: *mut u32,
        numbers_len: usize,
        scores: *mut f32,
        scores_len: usize,
        mode: u8,
        dim: usize,
        bits: u8,
        projections: usize,
        kind: u8,
        rotation: *const f32,
        rotation_len: usize,
        directions: *const f32,
        directions_len: usize,
        matrix: *const f32,
        matrix_len: usize,
        query: *const f32,
        query_len: usize,
        bytes: *const u8,
        bytes_len: usize,
        number: *mut u32,
        place: *mut usize,
        value: *mut f32,
    ) -> Tally;
    pub fn foldrima_scan_take_prepared(
        tally: Tally,
        numbers: *mut u32,
        numbers_len: usize,
        scores: *mut f32,
        scores_len: usize,
        mode: u8,
        dim: usize,
        bits: u8,
        projections: usize,
        kind: u8,
        directions: *const f32,
        directions_len: usize,
        rotated: *const f32,
        rotated_len: usize,
        projected: *const f32,
        projected_len: usize,
        bytes: *const u8,
        bytes_len: usize,
        number: *mut u32,
        place: *mut usize,
        value: *mut f32,
    ) -> Tally;
    pub fn foldrima_scan_take_many(
        tally: Tally,
        numbers: *mut u32,
        numbers_len: usize,
        scores: *mut f32,
        scores_len: usize,
        mode: u8,
        dim: usize,
        bits: u8,
        projections: usize,
        kind: u8,
        directions: *const f32,
        directions_len: usize,
        rotated: *const f32,
        rotated_len: usize,
        projected: *const f32,
        projected_len: usize,
        bytes: *const u8,
        bytes_len: usize,
        ends: *const usize,
        ends_len: usize,
        number: *mut u32,
        place: *mut usize,
    ) -> Tally;
    pub fn foldrima_scan_shorten(
        tally: Tally,
        length: usize,
        number: *mut u32,
        place: *mut usize,
    ) -> Tally;
    pub fn foldrima_scan_close(
        scan: Scan,
        out: *mut Hit,
        out_len: usize,
        number: *mut u32,
        place: *mut usize,
    );
}

/// Declares calls that take a setup: its scalars and tables, then the rest.
macro_rules! under_a_setup {
    ($(fn $name:ident($($rest:tt)*);)*) => {
        extern "C" {
            $(pub fn $name(
                mode: u8,
                dim: usize,
                bits: u8,
                projections: usize,
                kind: u8,
                rotation: *const f32,
                rotation_len: usize,
                directions: *const f32,
                directions_len: usize,
                matrix: *const f32,
                matrix_len: usize,
                $($rest)*
            );)*
        }
    };
}

// Setup, sketch, queries, scores, distances, decoding.
under_a_setup! {
    fn foldrima_check_setup(
        number: *mut u32,
        place: *mut usize,
    );
    fn foldrima_sketch(
        vector: *const f32,
        vector_len: usize,
        out: *mut i8,
        out_len: usize,
        number: *mut u32,
        place: *mut usize,
    );
    fn foldrima_sketch_score(
        query: *const f32,
        query_len: usize,
        sketch: *const i8,
        sketch_len: usize,
        norm: f32,
        number: *mut u32,
        place: *mut usize,
        value: *mut f32,
    );
    fn foldrima_prepare_query(
        query: *const f32,
        query_len: usize,
        rotated: *mut f32,
        rotated_len: usize,
        projected: *mut f32,
        projected_len: usize,
        number: *mut u32,
        place: *mut usize,
    );
    fn foldrima_inner_product_estimate(
        query: *const f32,
        query_len: usize,
        bytes: *const u8,
        bytes_len: usize,
        number: *mut u32,
        place: *mut usize,
        value: *mut f32,
    );
    fn foldrima_l2_distance_estimate(
        query: *const f32,
        query_len: usize,
        bytes: *const u8,
        bytes_len: usize,
        number: *mut u32,
        place: *mut usize,
        value: *mut f32,
    );
    fn foldrima_decode_approximate(
        bytes: *const u8,
        bytes_len: usize,
        out: *mut f32,
        out_len: usize,
        number: *mut u32,
        place: *mut usize,
    );
}

/// A C function's call: `[items]` stands for a slice, its pointer and its length, and
/// `[mut items]` for one that is written.
#[macro_export]
macro_rules! call {
    (@ $name:ident ($($done:expr,)*)) => {
        $crate::raw::$name($($done),*)
    };
    (@ $name:ident ($($done:expr,)*) [mut $items:expr], $($rest:tt)*) => {
        $crate::call!(@ $name ($($done,)* $items.as_mut_ptr(), $items.len(),) $($rest)*)
    };
    (@ $name:ident ($($done:expr,)*) [$items:expr], $($rest:tt)*) => {
        $crate::call!(@ $name ($($done,)* $items.as_ptr(), $items.len(),) $($rest)*)
    };
    (@ $name:ident ($($done:expr,)*) $one:expr, $($rest:tt)*) => {
        $crate::call!(@ $name ($($done,)* $one,) $($rest)*)
    };
    ($name:ident($($all:tt)*)) => {
        $crate::call!(@ $name () $($all)*,)
    };
}

/// The same for a function that takes a setup first; its mode and its rotation's kind are
/// given as two numbers.
#[macro_export]
macro_rules! call_under {
    ($setup:expr, $codes:expr, $name:ident($($rest:tt)*)) => {
        $crate::call!($name(
            $codes.0,
            $setup.dim,
            $setup.bits,
            $setup.projections,
            $codes.1,
            [$setup.rotation],
            [$setup.directions],
            [$setup.matrix],
            $($rest)*
        ))
    };
}
