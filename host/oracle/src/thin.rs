//! Thin calls of the nine files for a driver: plain values in, a value or the name of
//! the error's variant out. Nothing is computed here but what the port is lent (the
//! direction table, and the parts read back out of serialised forms), the sum of a
//! distance, which the Rust does not show, and the score with a source norm, which turbo.rs
//! has no call for: the sum of its two halves.

use serde_json::{json, Value};

use crate::{
    bitpack,
    codebook::ScalarCodebook,
    error::TurboQuantError,
    packed::{PackedPolarCode, PackedQjlSketch, PackedTurboCode},
    polar::{PolarCode, PolarProjectedQuery, PolarQuantizer},
    qjl::{QjlProjectedQuery, QjlQuantizer, QjlSketch, QjlSketchProvenanceV1},
    radius::{CompressedRadiiV1, RadiusCodecProfileV1},
    rotation::{FastHadamardRotation, Rotation, RotationKind, StoredRotation},
    turbo::{TurboCode, TurboMode, TurboProjectedQuery, TurboQuantizer},
};

/// What the Rust refused with: its variant's name and, for `NonFiniteInput`, the index.
#[derive(Debug, Clone, Copy, PartialEq, Eq)]
pub struct Fault {
    pub variant: &'static str,
    pub index: Option<usize>,
}

/// A value, or the Rust's error.
pub type Answer<T> = Result<T, Fault>;

/// The name of an error's variant.
pub fn variant(error: &TurboQuantError) -> &'static str {
    match error {
        TurboQuantError::DimensionMismatch { .. } => "DimensionMismatch",
        TurboQuantError::OddDimension { .. } => "OddDimension",
        TurboQuantError::ZeroDimension => "ZeroDimension",
        TurboQuantError::InvalidBitWidth { .. } => "InvalidBitWidth",
        TurboQuantError::ZeroProjectionCount => "ZeroProjectionCount",
        TurboQuantError::RotationFailed { .. } => "RotationFailed",
        TurboQuantError::MalformedCode { .. } => "MalformedCode",
        TurboQuantError::NonFiniteInput { .. } => "NonFiniteInput",
        TurboQuantError::ProfileMismatch { .. } => "ProfileMismatch",
    }
}

fn named<T>(result: crate::error::Result<T>) -> Answer<T> {
    result.map_err(|error| Fault {
        variant: variant(&error),
        index: match error {
            TurboQuantError::NonFiniteInput { index } => Some(index),
            _ => None,
        },
    })
}

// Bits.

pub fn packed_len(count: usize, bits: u8) -> Answer<usize> {
    named(bitpack::packed_len(count, bits))
}

pub fn pack_indices(indices: &[u16], bits: u8) -> Answer<Vec<u8>> {
    named(bitpack::pack_indices(indices, bits))
}

pub fn unpack_indices(bytes: &[u8], count: usize, bits: u8) -> Answer<Vec<u16>> {
    named(bitpack::unpack_indices(bytes, count, bits))
}

pub fn pack_signs(signs: &[i8]) -> Answer<Vec<u8>> {
    named(bitpack::pack_signs(signs))
}

pub fn unpack_signs(bytes: &[u8], count: usize) -> Answer<Vec<i8>> {
    named(bitpack::unpack_signs(bytes, count))
}

pub fn validate_padding_zero(bytes: &[u8], used_bits: usize) -> Answer<()> {
    named(bitpack::validate_padding_zero(bytes, used_bits))
}

// Codebook. Only `uniform` checks; the other calls take the fields as they are.

pub fn codebook_uniform(bits: u8, min: f32, max: f32) -> Answer<ScalarCodebook> {
    named(ScalarCodebook::uniform(bits, min, max))
}

pub fn codebook_levels(bits: u8, min: f32, max: f32) -> u32 {
    ScalarCodebook { bits, min, max }.levels()
}

pub fn codebook_quantize(bits: u8, min: f32, max: f32, value: f32) -> Answer<u16> {
    named(ScalarCodebook { bits, min, max }.quantize(value))
}

pub fn codebook_midpoint(bits: u8, min: f32, max: f32, index: u16) -> Answer<f32> {
    named(ScalarCodebook { bits, min, max }.dequantize_midpoint(index))
}

// Radii.

pub fn compress(radii: &[f32], profile: RadiusCodecProfileV1) -> Answer<CompressedRadiiV1> {
    named(CompressedRadiiV1::compress(radii, profile))
}

pub fn decompress(
    profile: RadiusCodecProfileV1,
    count: usize,
    min: f32,
    max: f32,
    payload: &[u8],
) -> Answer<Vec<f32>> {
    let payload = payload.to_vec();
    named(CompressedRadiiV1 { profile, count, min, max, payload }.decompress())
}

/// The bytes of a payload with its range. The Rust asks for no good profile here.
pub fn encoded_bytes(profile: RadiusCodecProfileV1, payload: &[u8]) -> usize {
    let payload = payload.to_vec();
    CompressedRadiiV1 { profile, count: 0, min: 0.0, max: 0.0, payload }.encoded_bytes()
}

// Angles and directions.

/// `PolarCode::dequantize_angle` of the only pair. It checks neither bits nor index.
pub fn dequantize_angle(bits: u8, index: u16) -> Answer<f32> {
    let code = PolarCode { dim: 2, bits, radii: vec![1.0], angle_indices: vec![index] };
    named(code.dequantize_angle(0))
}

/// The table that the host lends the port: cosine and sine of each index's angle.
pub fn directions(polar_bits: u8) -> Vec<f32> {
    let mut table = Vec::with_capacity(2 << polar_bits);
    for index in 0..1u32 << polar_bits {
        let theta = dequantize_angle(polar_bits, index as u16).unwrap();
        table.push(theta.cos());
        table.push(theta.sin());
    }
    table
}

// Rotation with given signs, through the serialised form.

/// A Hadamard rotation of `dim` with these signs. Their number is not checked here, as
/// `apply` does not check it.
pub fn rotation(dim: usize, signs: &[f32]) -> Answer<FastHadamardRotation> {
    let drawn = named(FastHadamardRotation::new(dim, 0))?;
    let mut form = serde_json::to_value(drawn).unwrap();
    form["signs"] = json!(signs);
    Ok(serde_json::from_value(form).unwrap())
}

pub fn apply(rotation: &impl Rotation, input: &[f32]) -> Answer<Vec<f32>> {
    let mut output = vec![0.0; rotation.dim()];
    named(rotation.apply(input, &mut output))?;
    Ok(output)
}

pub fn apply_inverse(rotation: &impl Rotation, input: &[f32]) -> Answer<Vec<f32>> {
    let mut output = vec![0.0; rotation.dim()];
    named(rotation.apply_inverse(input, &mut output))?;
    Ok(output)
}

/// The signs that the Rust draws for this seed.
pub fn drawn_signs(dim: usize, seed: u64) -> Answer<Vec<f32>> {
    let drawn = named(FastHadamardRotation::new(dim, seed))?;
    Ok(floats(&serde_json::to_value(drawn).unwrap()["signs"]))
}

// The stored rotation with a given matrix, through the serialised form.

/// A stored rotation with this matrix, column by column, dim × dim finite entries. The Rust
/// takes an odd dimension here too.
pub fn stored_rotation(dim: usize, matrix: &[f32]) -> Answer<StoredRotation> {
    let drawn = named(StoredRotation::new(dim.min(1), 0))?;
    let mut form = serde_json::to_value(drawn).unwrap();
    form["dim"] = json!(dim);
    form["matrix"] = stored_matrix(dim, matrix);
    Ok(serde_json::from_value(form).unwrap())
}

/// The matrix as rotation.rs has it in its serialised form: `as_slice` goes into `data` and
/// `from_vec` reads it, both column by column, whatever the comment on the field says.
fn stored_matrix(dim: usize, matrix: &[f32]) -> Value {
    json!({ "rows": dim, "cols": dim, "data": matrix })
}

// Sketches with a given matrix, through the serialised form.

/// A QJL quantizer with this matrix. Its length is not checked here.
pub fn qjl(dim: usize, projections: usize, matrix: &[f32]) -> Answer<QjlQuantizer> {
    let drawn = named(QjlQuantizer::new(dim.min(1), projections.min(1), 0))?;
    let mut form = serde_json::to_value(drawn).unwrap();
    form["dim"] = json!(dim);
    form["projections"] = json!(projections);
    form["projection_matrix"] = json!(matrix);
    Ok(serde_json::from_value(form).unwrap())
}

pub fn sketch(qjl: &QjlQuantizer, vector: &[f32]) -> Answer<Vec<i8>> {
    Ok(named(qjl.sketch(vector))?.signs)
}

/// `project_query`, its values read through `Debug`.
pub fn project_query(qjl: &QjlQuantizer, query: &[f32]) -> Answer<Vec<f32>> {
    let projected = named(qjl.project_query(query))?;
    Ok(floats_in(&format!("{projected:?}"), "projected: ["))
}

fn sketch_of(qjl: &QjlQuantizer, signs: &[i8]) -> QjlSketch {
    QjlSketch { dim: qjl.dim(), projections: qjl.projections(), signs: signs.to_vec() }
}

/// `inner_product_estimate` of a sketch with these signs.
pub fn sketch_score(qjl: &QjlQuantizer, signs: &[i8], query: &[f32]) -> Answer<f32> {
    named(qjl.inner_product_estimate(&sketch_of(qjl, signs), query))
}

/// The same with a source norm, by document 02's reference.
pub fn sketch_score_with_norm(
    qjl: &QjlQuantizer,
    signs: &[i8],
    norm: f32,
    query: &[f32],
) -> Answer<f32> {
    let projected = named(qjl.project_query(query))?;
    with_norm(qjl, &sketch_of(qjl, signs), norm, &projected)
}

fn with_norm(
    qjl: &QjlQuantizer,
    sketch: &QjlSketch,
    norm: f32,
    projected: &QjlProjectedQuery,
) -> Answer<f32> {
    named(qjl.inner_product_estimate_with_projected_query_and_source_norm(sketch, norm, projected))
}

/// The norm as the Rust would keep it beside a sketch, if it does.
pub fn source_norm(norm: f32) -> Answer<f32> {
    Ok(named(QjlSketchProvenanceV1::new(norm, None))?.source_norm)
}

// Polar code with given parts.

pub fn polar_code(dim: usize, bits: u8, radii: &[f32], indices: &[u16]) -> Answer<PolarCode> {
    named(PolarCode::from_parts(dim, bits, radii.to_vec(), indices))
}

/// A polar quantizer with given signs.
pub fn polar(dim: usize, bits: u8, signs: &[f32]) -> Answer<PolarQuantizer> {
    let drawn = named(PolarQuantizer::new(dim, bits, 0))?;
    let mut form = serde_json::to_value(drawn).unwrap();
    form["rotation"]["FastHadamard"]["signs"] = json!(signs);
    Ok(serde_json::from_value(form).unwrap())
}

pub fn polar_score(polar: &PolarQuantizer, code: &PolarCode, query: &[f32]) -> Answer<f32> {
    named(polar.inner_product_estimate(code, query))
}

pub fn polar_decode(polar: &PolarQuantizer, code: &PolarCode) -> Answer<Vec<f32>> {
    named(polar.decode(code))
}

// The whole quantizer.

/// The quantizer as the Rust draws it.
pub fn turbo(
    mode: TurboMode,
    dim: usize,
    bits: u8,
    projections: usize,
    seed: u64,
) -> Answer<TurboQuantizer> {
    named(TurboQuantizer::new_with_mode(dim, bits, projections, seed, mode))
}

/// The same with a rotation of this kind. The matrix of a stored one, which is a stand-in's,
/// is there to be replaced.
pub fn turbo_by(
    kind: RotationKind,
    mode: TurboMode,
    dim: usize,
    bits: u8,
    projections: usize,
    seed: u64,
) -> Answer<TurboQuantizer> {
    named(TurboQuantizer::new_with_mode_and_rotation(dim, bits, projections, seed, mode, kind))
}

/// The quantizer's signs, from its own serialised form; none where it rotates by QR.
pub fn turbo_signs(turbo: &TurboQuantizer) -> Option<Vec<f32>> {
    let form = serde_json::to_value(turbo).unwrap();
    match &form["polar"]["rotation"]["FastHadamard"]["signs"] {
        Value::Null => None,
        signs => Some(floats(signs)),
    }
}

/// The matrix of the quantizer's stored rotation, column by column, from its own serialised
/// form; empty where it rotates by signs.
pub fn turbo_stored_matrix(turbo: &TurboQuantizer) -> Vec<f32> {
    let form = serde_json::to_value(turbo).unwrap();
    floats(&form["polar"]["rotation"]["StoredQr"]["matrix"]["data"])
}

/// The quantizer's matrix, from its own serialised form; empty in `PolarOnly`.
pub fn turbo_matrix(turbo: &TurboQuantizer) -> Vec<f32> {
    floats(&serde_json::to_value(turbo).unwrap()["qjl"]["projection_matrix"])
}

/// The same quantizer with other signs, or another matrix of its stored rotation, and, in
/// residual mode, another matrix: it is serialised, changed and read back. Entries must be
/// finite; JSON has no others.
pub fn turbo_with(turbo: &TurboQuantizer, rotation: &[f32], matrix: &[f32]) -> TurboQuantizer {
    let mut form = serde_json::to_value(turbo).unwrap();
    let turn = &mut form["polar"]["rotation"];
    if !turn["FastHadamard"].is_null() {
        turn["FastHadamard"]["signs"] = json!(rotation);
    }
    if !turn["StoredQr"].is_null() {
        turn["StoredQr"]["matrix"] = stored_matrix(turbo.dim(), rotation);
    }
    if !form["qjl"].is_null() {
        form["qjl"]["projection_matrix"] = json!(matrix);
    }
    serde_json::from_value(form).unwrap()
}

/// `prepare_query`: rotated and projected values, read through `Debug`.
pub fn prepare_query(turbo: &TurboQuantizer, query: &[f32]) -> Answer<(Vec<f32>, Vec<f32>)> {
    let prepared = named(turbo.prepare_query(query))?;
    let text = format!("{prepared:?}");
    Ok((floats_in(&text, "rotated_query: ["), floats_in(&text, "projected: [")))
}

pub fn prepared(turbo: &TurboQuantizer, query: &[f32]) -> Answer<TurboProjectedQuery> {
    named(turbo.prepare_query(query))
}

/// A code from the parts of a record, unpacked and checked by packed.rs. `signs` is
/// None where the record has none.
#[allow(clippy::too_many_arguments)]
pub fn turbo_code(
    profile: RadiusCodecProfileV1,
    dim: usize,
    bits: u8,
    min: f32,
    max: f32,
    radii: &[u8],
    indices: &[u8],
    signs: Option<(usize, &[u8])>,
) -> Answer<TurboCode> {
    let (projections, packed_signs) = match signs {
        Some((projections, bytes)) => (projections, bytes.to_vec()),
        None => (0, Vec::new()),
    };
    let radii = CompressedRadiiV1 { profile, count: dim / 2, min, max, payload: radii.to_vec() };
    let packed = PackedTurboCode {
        polar_code: PackedPolarCode { dim, bits, radii, packed_angle_indices: indices.to_vec() },
        residual_sketch: PackedQjlSketch { dim, projections, packed_signs },
    };
    named(packed.unpack())
}

pub fn score(turbo: &TurboQuantizer, code: &TurboCode, query: &[f32]) -> Answer<f32> {
    named(turbo.inner_product_estimate(code, query))
}

pub fn score_prepared(
    turbo: &TurboQuantizer,
    code: &TurboCode,
    query: &TurboProjectedQuery,
) -> Answer<f32> {
    named(turbo.inner_product_estimate_prepared(code, query))
}

pub fn distance(turbo: &TurboQuantizer, code: &TurboCode, query: &[f32]) -> Answer<f32> {
    named(turbo.l2_distance_estimate(code, query))
}

/// The sum that `l2_distance_estimate` cuts to zero: the Rust's own score, and the very
/// expressions of turbo.rs.
pub fn distance_sum(turbo: &TurboQuantizer, code: &TurboCode, query: &[f32]) -> Answer<f32> {
    Ok(sum_with(score(turbo, code, query)?, code, query))
}

fn sum_with(ip: f32, code: &TurboCode, query: &[f32]) -> f32 {
    let query_norm_sq: f32 = query.iter().map(|x| x * x).sum();
    let code_norm_sq: f32 = code.polar_code.radii.iter().map(|r| r * r).sum();
    query_norm_sq + code_norm_sq - 2.0 * ip
}

// A source norm. turbo.rs scales every residual with the norm 1.0. With another norm a score is
// put together here as its `inner_product_estimate_prepared` does it: the Rust's polar estimate,
// document 02's reference for the residual, and one sum of the two.

/// The two halves of a quantizer in residual mode, with its own rotation and matrix.
pub struct Halves {
    pub polar: PolarQuantizer,
    pub qjl: QjlQuantizer,
}

/// The halves of a quantizer, from its own serialised form; none in `PolarOnly`.
pub fn halves(turbo: &TurboQuantizer) -> Option<Halves> {
    let mut form = serde_json::to_value(turbo).unwrap();
    let mut half = |name: &str| Some(form[name].take()).filter(|half| !half.is_null());
    let (polar, qjl) = (half("polar")?, half("qjl")?);
    let polar = serde_json::from_value(polar).unwrap();
    Some(Halves { polar, qjl: serde_json::from_value(qjl).unwrap() })
}

/// A query prepared for the two halves.
pub struct Prepared {
    polar: PolarProjectedQuery,
    qjl: QjlProjectedQuery,
}

fn finite(value: f32) -> Answer<f32> {
    match value.is_finite() {
        true => Ok(value),
        false => Err(Fault { variant: "MalformedCode", index: None }),
    }
}

impl Halves {
    pub fn prepared(&self, query: &[f32]) -> Answer<Prepared> {
        let polar = named(self.polar.project_query(query))?;
        Ok(Prepared { polar, qjl: named(self.qjl.project_query(query))? })
    }

    pub fn score_prepared(&self, code: &TurboCode, norm: f32, query: &Prepared) -> Answer<f32> {
        let polar = &self.polar;
        let polar_estimate = named(
            polar.inner_product_estimate_with_projected_query(&code.polar_code, &query.polar),
        )?;
        let qjl_correction = with_norm(&self.qjl, &code.residual_sketch, norm, &query.qjl)?;
        finite(polar_estimate + qjl_correction)
    }

    pub fn score(&self, code: &TurboCode, norm: f32, query: &[f32]) -> Answer<f32> {
        self.score_prepared(code, norm, &self.prepared(query)?)
    }

    /// The sum of a distance before its cut to zero.
    pub fn distance_sum(&self, code: &TurboCode, norm: f32, query: &[f32]) -> Answer<f32> {
        Ok(sum_with(self.score(code, norm, query)?, code, query))
    }

    pub fn distance(&self, code: &TurboCode, norm: f32, query: &[f32]) -> Answer<f32> {
        finite(self.distance_sum(code, norm, query)?.max(0.0))
    }
}

pub fn decode(turbo: &TurboQuantizer, code: &TurboCode) -> Answer<Vec<f32>> {
    named(turbo.decode_approximate(code))
}

pub fn encode(turbo: &TurboQuantizer, vector: &[f32]) -> Answer<TurboCode> {
    named(turbo.encode(vector))
}

// Reading serialised and printed values back. A serde_json `Value` holds an f32 as the
// f64 of the same value, so this loses nothing; `Debug` prints the shortest decimal
// that reads back as the same f32.

fn floats(value: &Value) -> Vec<f32> {
    match value {
        Value::Array(items) => items.iter().map(|item| item.as_f64().unwrap() as f32).collect(),
        _ => Vec::new(),
    }
}

fn floats_in(text: &str, label: &str) -> Vec<f32> {
    let Some(start) = text.find(label) else {
        return Vec::new();
    };
    let rest = &text[start + label.len()..];
    let list = &rest[..rest.find(']').unwrap()];
    list.split(", ").filter(|item| !item.is_empty()).map(|item| item.parse().unwrap()).collect()
}
