//! Document 01's formulas as plain f32 loops, with document 02's norm in K and its stored
//! rotation, sums from +0.0, with the lent direction table. It answers where the Rust can't:
//! other tables, and prepared values that were not prepared. Wherever the Rust does answer,
//! `cases run` holds the two together.

use crate::{
    case::{Case, Kind, Mode, Setup, Value},
    record,
};

fn butterflies(values: &mut [f32]) {
    let n = values.len();
    let mut step = 1;
    while step < n {
        for start in (0..n).step_by(2 * step) {
            for i in start..start + step {
                let (a, b) = (values[i], values[i + step]);
                values[i] = a + b;
                values[i + step] = a - b;
            }
        }
        step *= 2;
    }
    let scale = 1.0 / (n as f32).sqrt();
    for value in values {
        *value *= scale;
    }
}

fn rotate(inverse: bool, signs: &[f32], input: &[f32]) -> Vec<f32> {
    let mut values = input.to_vec();
    let turn = |values: &mut Vec<f32>| {
        for (value, sign) in values.iter_mut().zip(signs) {
            *value *= sign;
        }
    };
    if !inverse {
        turn(&mut values);
    }
    butterflies(&mut values);
    if inverse {
        turn(&mut values);
    }
    values
}

/// Sums along the rows of a matrix that stands column by column, or along its columns.
fn stored(inverse: bool, matrix: &[f32], input: &[f32]) -> Vec<f32> {
    let n = input.len();
    let entry = |i: usize, j: usize| if inverse { matrix[i * n + j] } else { matrix[j * n + i] };
    (0..n).map(|i| (0..n).fold(0.0, |sum, j| sum + entry(i, j) * input[j])).collect()
}

/// A setup's own rotation.
pub(crate) fn turn(inverse: bool, setup: &Setup, input: &[f32]) -> Vec<f32> {
    match setup.kind {
        Kind::FastHadamard => rotate(inverse, &setup.rotation, input),
        Kind::Stored => stored(inverse, &setup.rotation, input),
    }
}

pub(crate) fn dots(setup: &Setup, vector: &[f32]) -> Vec<f32> {
    if setup.counted() == 0 {
        return Vec::new();
    }
    setup
        .matrix
        .chunks_exact(setup.dim)
        .map(|row| row.iter().zip(vector).fold(0.0, |sum, (g, x)| sum + g * x))
        .collect()
}

fn residual(signs: &[i8], norm: f32, projected: &[f32]) -> f32 {
    let scale = (std::f32::consts::PI / 2.0).sqrt() * norm / projected.len() as f32;
    let sum = projected.iter().zip(signs).fold(0.0, |sum, (p, sign)| sum + f32::from(*sign) * p);
    scale * sum
}

struct Content {
    radii: Vec<f32>,
    indices: Vec<u16>,
    signs: Vec<i8>,
    norm: f32,
}

fn content(bytes: &[u8]) -> Option<Content> {
    let code = crate::ask::code(bytes)?.ok()?;
    Some(Content {
        radii: code.polar_code.radii,
        indices: code.polar_code.angle_indices,
        signs: code.residual_sketch.signs,
        norm: record::header(bytes)?.norm,
    })
}

fn score(setup: &Setup, content: &Content, rotated: &[f32], projected: &[f32]) -> f32 {
    let mut sum = 0.0;
    for (i, (r, index)) in content.radii.iter().zip(&content.indices).enumerate() {
        let (c, s) = direction(setup, *index);
        sum += r * (rotated[2 * i] * c + rotated[2 * i + 1] * s);
    }
    match setup.mode {
        Mode::PolarOnly => sum,
        Mode::PolarWithQjl => sum + residual(&content.signs, content.norm, projected),
    }
}

fn direction(setup: &Setup, index: u16) -> (f32, f32) {
    let at = 2 * usize::from(index);
    (setup.directions[at], setup.directions[at + 1])
}

fn squares(values: &[f32]) -> f32 {
    values.iter().fold(0.0, |sum, value| sum + value * value)
}

fn query_score(setup: &Setup, content: &Content, query: &[f32]) -> f32 {
    let rotated = turn(false, setup, query);
    score(setup, content, &rotated, &dots(setup, query))
}

/// The score of a record by a query.
pub fn record_score(setup: &Setup, query: &[f32], record: &[u8]) -> Option<f32> {
    Some(query_score(setup, &content(record)?, query))
}

/// The sum of a distance before its cut to zero; None where the record can't be taken
/// apart or the score is not finite.
pub fn distance_sum(setup: &Setup, query: &[f32], record: &[u8]) -> Option<f32> {
    let content = content(record)?;
    let score = query_score(setup, &content, query);
    let norms = squares(query) + squares(&content.radii);
    score.is_finite().then_some(norms - 2.0 * score)
}

/// The value of a case that document 01 does not refuse before its sums; None where
/// the call has no sums. A score or distance that is refused comes out as not finite.
pub fn value(case: &Case) -> Option<Value> {
    Some(match case {
        Case::Apply { inverse, signs, input, .. } => Value::Floats(rotate(*inverse, signs, input)),
        Case::StoredApply { inverse, matrix, input, .. } => {
            Value::Floats(stored(*inverse, matrix, input))
        }
        Case::Sketch { setup, vector, .. } => Value::Signs(
            dots(setup, vector).iter().map(|dot| if *dot >= 0.0 { 1 } else { -1 }).collect(),
        ),
        Case::Prepare { setup, query, .. } => {
            Value::Prepared { rotated: turn(false, setup, query), projected: dots(setup, query) }
        }
        Case::SketchScore { setup, query, signs, norm } => Value::Float(match setup.mode {
            Mode::PolarOnly => 0.0,
            Mode::PolarWithQjl => residual(signs, *norm, &dots(setup, query)),
        }),
        Case::Score { setup, query, record } => Value::Float(record_score(setup, query, record)?),
        Case::Distance { setup, query, record } => {
            let sum = distance_sum(setup, query, record).unwrap_or(f32::NAN);
            // A sum that is NaN stays.
            Value::Float(if sum <= 0.0 { 0.0 } else { sum })
        }
        Case::Decode { setup, record, .. } => {
            let content = content(record)?;
            let mut turned = Vec::with_capacity(setup.dim);
            for (r, index) in content.radii.iter().zip(&content.indices) {
                let (c, s) = direction(setup, *index);
                turned.extend([r * c, r * s]);
            }
            Value::Floats(turn(true, setup, &turned))
        }
        Case::ScorePrepared { setup, rotated, projected, record, .. } => {
            Value::Float(score(setup, &content(record)?, rotated, projected))
        }
        _ => return None,
    })
}

/// A linear range: an equal value doesn't replace the earlier one; no radii give 0, 0.
pub fn range(radii: &[f32]) -> (f32, f32) {
    let Some(&first) = radii.first() else {
        return (0.0, 0.0);
    };
    radii.iter().fold((first, first), |(min, max), &radius| {
        (if radius < min { radius } else { min }, if radius > max { radius } else { max })
    })
}
