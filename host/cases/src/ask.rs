//! The oracle's answer to a case, a panic caught.

use std::{
    cell::Cell,
    panic::{catch_unwind, set_hook, take_hook, AssertUnwindSafe},
};

use oracle::{
    packed::{PackedPolarCode, PackedQjlSketch},
    qjl::QjlSketch,
    thin::{self, Answer as Rust, Halves},
    turbo::TurboCode,
};

use crate::{
    case::{Answer, Case, Kind, Mode, Profile, Setup, Value, LARGEST_STORED},
    record,
};

thread_local! {
    static ASKING: Cell<bool> = const { Cell::new(false) };
}

/// Keeps panics that `ask` catches off the screen; others are told as ever.
pub fn hush() {
    let told = take_hook();
    set_hook(Box::new(move |cause| {
        if !ASKING.get() {
            told(cause);
        }
    }));
}

/// What the Rust answers.
pub fn ask(case: &Case) -> Answer {
    caught(|| answer(case))
}

fn caught(call: impl FnOnce() -> Answer) -> Answer {
    ASKING.set(true);
    let answer = catch_unwind(AssertUnwindSafe(call));
    ASKING.set(false);
    match answer {
        Ok(answer) => answer,
        Err(cause) => Answer::Panic(match cause.downcast_ref::<String>() {
            Some(text) => text.clone(),
            None => (*cause.downcast_ref::<&str>().unwrap_or(&"")).to_string(),
        }),
    }
}

/// The Rust's sum of a distance before its cut to zero; its error where the score has one.
pub fn distance_sum(case: &Case) -> Answer {
    let Case::Distance { setup, query, record } = case else {
        return Answer::Absent;
    };
    caught(|| {
        with_code(setup, record, |turbo, code| {
            let sum = match normed(setup, record) {
                None => thin::distance_sum(turbo, code, query),
                Some((halves, norm)) => halves.distance_sum(code, norm, query),
            };
            told(sum, Value::Float)
        })
    })
}

fn told<T>(answer: Rust<T>, value: impl FnOnce(T) -> Value) -> Answer {
    match answer {
        Ok(found) => Answer::Value(value(found)),
        Err(fault) => Answer::Error(fault),
    }
}

fn answer(case: &Case) -> Answer {
    match case {
        Case::PackedLen { count, bits } => {
            told(thin::packed_len(*count, *bits), |len| Value::Number(len as u64))
        }
        Case::PackIndices { indices, bits, .. } => {
            told(thin::pack_indices(indices, *bits), Value::Bytes)
        }
        Case::UnpackIndices { bytes, count, bits, .. } => {
            told(thin::unpack_indices(bytes, *count, *bits), Value::Numbers)
        }
        Case::PackSigns { signs, .. } => told(thin::pack_signs(signs), Value::Bytes),
        Case::UnpackSigns { bytes, count, .. } => {
            told(thin::unpack_signs(bytes, *count), Value::Signs)
        }
        Case::ValidatePadding { bytes, used_bits } => {
            told(thin::validate_padding_zero(bytes, *used_bits), |()| Value::Done)
        }
        Case::CodebookUniform { bits, min, max } => {
            told(thin::codebook_uniform(*bits, *min, *max), |book| Value::Codebook {
                bits: book.bits,
                min: book.min,
                max: book.max,
            })
        }
        Case::CodebookLevels { bits, min, max } => {
            Answer::Value(Value::Number(u64::from(thin::codebook_levels(*bits, *min, *max))))
        }
        Case::CodebookQuantize { bits, min, max, value } => {
            told(thin::codebook_quantize(*bits, *min, *max, *value), |index| {
                Value::Number(u64::from(index))
            })
        }
        Case::CodebookMidpoint { bits, min, max, index } => {
            told(thin::codebook_midpoint(*bits, *min, *max, *index), Value::Float)
        }
        Case::Compress { radii, profile, .. } => told(thin::compress(radii, *profile), |found| {
            Value::Radii { min: found.min, max: found.max, payload: found.payload }
        }),
        Case::Decompress { profile, count, min, max, payload, .. } => {
            told(thin::decompress(*profile, *count, *min, *max, payload), Value::Floats)
        }
        Case::EncodedBytes { profile, payload } => {
            Answer::Value(Value::Number(thin::encoded_bytes(*profile, payload) as u64))
        }
        Case::Root { value } => Answer::Value(Value::Float(std::hint::black_box(*value).sqrt())),
        Case::Angle { bits, index } => told(thin::dequantize_angle(*bits, *index), Value::Float),
        Case::Seeds { seed } => Answer::Value(Value::Seeds {
            rotation: seed.wrapping_add(0xA11C_E55E_D5A5_EED5),
            matrix: seed.wrapping_add(0xCAFE_BABE_0000_0001).wrapping_add(0xDEAD_BEEF_1234_5678),
        }),
        Case::Apply { inverse, dim, signs, input, .. } => apply(*inverse, *dim, signs, input),
        Case::StoredApply { inverse, dim, matrix, input, .. } => {
            stored_apply(*inverse, *dim, matrix, input)
        }
        Case::SetupCheck { setup } => match &setup.rust {
            None => Answer::Absent,
            Some(Ok(_)) => Answer::Value(Value::Done),
            Some(Err(fault)) => Answer::Error(*fault),
        },
        Case::Sketch { setup, vector, .. } => with_qjl(setup, Value::Signs(Vec::new()), |qjl| {
            told(thin::sketch(qjl, vector), Value::Signs)
        }),
        Case::Prepare { setup, query, .. } => with(setup, |turbo| {
            told(thin::prepare_query(turbo, query), |(rotated, projected)| Value::Prepared {
                rotated,
                projected,
            })
        }),
        Case::SketchScore { setup, query, signs, norm } => {
            with_qjl(setup, Value::Float(0.0), |qjl| {
                let score = match *norm {
                    1.0 => thin::sketch_score(qjl, signs, query),
                    norm => thin::sketch_score_with_norm(qjl, signs, norm, query),
                };
                told(score, Value::Float)
            })
        }
        Case::WriteRecord { .. } => write(case),
        Case::ReadRecord { record } => match code(record) {
            None => Answer::Absent,
            Some(found) => told(found.and_then(|code| Ok((code, norm(record)?))), read),
        },
        Case::Score { setup, query, record } => with_code(setup, record, |turbo, code| {
            let score = match normed(setup, record) {
                None => thin::score(turbo, code, query),
                Some((halves, norm)) => halves.score(code, norm, query),
            };
            told(score, Value::Float)
        }),
        Case::Distance { setup, query, record } => with_code(setup, record, |turbo, code| {
            let distance = match normed(setup, record) {
                None => thin::distance(turbo, code, query),
                Some((halves, norm)) => halves.distance(code, norm, query),
            };
            told(distance, Value::Float)
        }),
        Case::Decode { setup, record, .. } => {
            with_code(setup, record, |turbo, code| told(thin::decode(turbo, code), Value::Floats))
        }
        Case::ScorePrepared { query: None, .. } => Answer::Absent,
        Case::ScorePrepared { setup, query: Some(query), record, .. } => {
            with_code(setup, record, |turbo, code| {
                let score = match normed(setup, record) {
                    None => thin::prepared(turbo, query)
                        .and_then(|query| thin::score_prepared(turbo, code, &query)),
                    Some((halves, norm)) => halves
                        .prepared(query)
                        .and_then(|query| halves.score_prepared(code, norm, &query)),
                };
                told(score, Value::Float)
            })
        }
    }
}

/// What a record holds, with its norm where one stands.
fn read((code, norm): (TurboCode, Option<f32>)) -> Value {
    Value::Record {
        radii: code.polar_code.radii,
        indices: code.polar_code.angle_indices,
        signs: code.residual_sketch.signs,
        norm,
    }
}

/// A record's norm, if the Rust keeps it as one; None where none stands.
fn norm(bytes: &[u8]) -> Rust<Option<f32>> {
    record::header(bytes).and_then(|head| head.given_norm()).map(thin::source_norm).transpose()
}

/// The halves that a record is scored with, and its norm; None where the norm is 1.0, given
/// or absent, and turbo.rs's own calls score it.
fn normed<'a>(setup: &'a Setup, record: &[u8]) -> Option<(&'a Halves, f32)> {
    let norm = record::header(record)?.norm;
    setup.halves.as_ref().filter(|_| norm != 1.0).map(|halves| (halves, norm))
}

fn apply(inverse: bool, dim: usize, signs: &[f32], input: &[f32]) -> Answer {
    // The serialised form has only finite numbers.
    if signs.iter().any(|sign| !sign.is_finite()) {
        return Answer::Absent;
    }
    let rotation = match thin::rotation(dim, signs) {
        Ok(rotation) => rotation,
        Err(fault) => return Answer::Error(fault),
    };
    let turned =
        if inverse { thin::apply_inverse(&rotation, input) } else { thin::apply(&rotation, input) };
    told(turned, Value::Floats)
}

fn stored_apply(inverse: bool, dim: usize, matrix: &[f32], input: &[f32]) -> Answer {
    // The matrix must be one of this dimension, and a large one is not worth reading.
    let fits = matrix.len() == Kind::Stored.needed(dim) && dim <= LARGEST_STORED;
    if !fits || matrix.iter().any(|entry| !entry.is_finite()) {
        return Answer::Absent;
    }
    let rotation = match thin::stored_rotation(dim, matrix) {
        Ok(rotation) => rotation,
        Err(fault) => return Answer::Error(fault),
    };
    let turned =
        if inverse { thin::apply_inverse(&rotation, input) } else { thin::apply(&rotation, input) };
    told(turned, Value::Floats)
}

fn with(setup: &Setup, call: impl FnOnce(&oracle::turbo::TurboQuantizer) -> Answer) -> Answer {
    match &setup.rust {
        None => Answer::Absent,
        Some(Err(fault)) => Answer::Error(*fault),
        Some(Ok(turbo)) => call(turbo),
    }
}

/// The quantizer's QJL half with the setup's own matrix; `other` in `PolarOnly`, where
/// the Rust has none.
fn with_qjl(
    setup: &Setup,
    other: Value,
    call: impl FnOnce(&oracle::qjl::QjlQuantizer) -> Answer,
) -> Answer {
    with(setup, |_| match setup.mode {
        Mode::PolarOnly => Answer::Value(other),
        Mode::PolarWithQjl => match &setup.halves {
            Some(halves) => call(&halves.qjl),
            None => Answer::Absent,
        },
    })
}

/// The code in a record; None where the record can't be taken apart, and so for no bytes:
/// the Rust knows no withdrawn position.
pub fn code(bytes: &[u8]) -> Option<Rust<TurboCode>> {
    let parts = record::split(bytes)?;
    if !record::defined(parts.map) {
        return None;
    }
    let profile = if parts.linear() { Profile::BlockLinearU16 } else { Profile::F32 };
    let signs = parts.has_signs().then_some((parts.projections as usize, parts.signs.as_slice()));
    Some(thin::turbo_code(
        profile,
        parts.dim as usize,
        parts.bits,
        parts.min,
        parts.max,
        &parts.radii,
        &parts.indices,
        signs,
    ))
}

/// The Rust works out its own directions, so with another table there is no answer.
fn with_code(
    setup: &Setup,
    record: &[u8],
    call: impl FnOnce(&oracle::turbo::TurboQuantizer, &TurboCode) -> Answer,
) -> Answer {
    with(setup, |turbo| match code(record) {
        _ if !setup.own_table => Answer::Absent,
        None => Answer::Absent,
        Some(Err(fault)) => Answer::Error(fault),
        Some(Ok(code)) => call(turbo, &code),
    })
}

fn fault(error: &oracle::error::TurboQuantError) -> Answer {
    Answer::Error(thin::Fault { variant: thin::variant(error), index: None })
}

/// The record of these parts, its payloads packed by packed.rs, its norm judged by qjl.rs. For
/// a norm without signs the Rust has no form.
fn write(case: &Case) -> Answer {
    let Case::WriteRecord {
        profile,
        dim,
        bits,
        mode,
        projections,
        norm,
        radii,
        indices,
        signs,
        ..
    } = case
    else {
        unreachable!()
    };
    if *mode == Mode::PolarOnly && norm.is_some() {
        return Answer::Absent;
    }
    let polar = match thin::polar_code(*dim, *bits, radii, indices) {
        Ok(polar) => polar,
        Err(fault) => return Answer::Error(fault),
    };
    let packed = match PackedPolarCode::from_polar(&polar, *profile) {
        Ok(packed) => packed,
        Err(error) => return fault(&error),
    };
    let mut parts = record::Parts {
        map: 0,
        dim: *dim as u32,
        bits: *bits,
        min: packed.radii.min,
        max: packed.radii.max,
        projections: 0,
        norm: 1.0,
        radii: packed.radii.payload,
        indices: packed.packed_angle_indices,
        signs: Vec::new(),
    };
    if *profile == Profile::BlockLinearU16 {
        parts.map |= record::LINEAR;
    }
    if *mode == Mode::PolarWithQjl {
        let sketch = QjlSketch { dim: *dim, projections: *projections, signs: signs.clone() };
        let packed = match PackedQjlSketch::from_qjl(&sketch) {
            Ok(packed) => packed,
            Err(error) => return fault(&error),
        };
        parts.map |= record::SIGNS;
        parts.projections = *projections as u32;
        parts.signs = packed.packed_signs;
    }
    match norm.map(thin::source_norm) {
        None => {}
        Some(Err(fault)) => return Answer::Error(fault),
        Some(Ok(norm)) => {
            parts.map |= record::NORM;
            parts.norm = norm;
        }
    }
    Answer::Value(Value::Bytes(parts.bytes()))
}
