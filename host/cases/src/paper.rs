//! The refusals of document 01, read off its lists: what number and place a case must
//! be refused with, or none. Only two things are taken from the oracle: the index of a
//! value that is not finite after rotation or projection (11), and whether a score or
//! a distance's sum is to be refused (12), since both need the sums themselves. The Rust
//! answers 0 for a distance whose sum is NaN; document 01 as amended refuses it.
//!
//! Document 02 has a record of no bytes as a withdrawn position, which the Rust doesn't
//! know: the reader says so before its first check, and so after all that a call checks
//! before it reads the record. It has a record's norm too, with the number 23 in three lists;
//! and a stored rotation, whose matrix is checked where the signs are, with 26 in the place of
//! 4 and 9 in that of 10. A record has any even dimension to 4,096.

use crate::{
    ask,
    case::{Answer, Case, Kind, Mode, Profile, Setup, Value, LARGEST_STORED},
    plain, record,
};

/// A refusal's number and place.
#[derive(Debug, Clone, Copy, PartialEq, Eq, Hash, PartialOrd, Ord)]
pub struct Refusal {
    pub number: u32,
    pub place: u64,
}

/// Why a call has no value.
#[derive(Debug, Clone, Copy, PartialEq, Eq)]
pub enum Ended {
    Refused(Refusal),
    Withdrawn,
}

type Checked = Result<(), Ended>;

const LARGEST: usize = 4096;

fn refuse<T>(number: u32, place: usize) -> Result<T, Ended> {
    Err(Ended::Refused(Refusal { number, place: place as u64 }))
}

fn need(holds: bool, number: u32, place: usize) -> Checked {
    if holds {
        Ok(())
    } else {
        refuse(number, place)
    }
}

/// The first item that offends, by its index.
fn each<T>(items: &[T], number: u32, good: impl Fn(&T) -> bool) -> Checked {
    match items.iter().position(|item| !good(item)) {
        Some(place) => refuse(number, place),
        None => Ok(()),
    }
}

fn width(bits: u8) -> Checked {
    need((1..=16).contains(&bits), 1, bits as usize)
}

fn bit_len(count: usize, bits: usize) -> Result<usize, Ended> {
    match count.checked_mul(bits) {
        Some(total) => Ok(total.div_ceil(8)),
        None => refuse(19, 0),
    }
}

fn padding(bytes: &[u8], used_bits: usize) -> Checked {
    let kept = used_bits % 8;
    if kept != 0 && bytes[bytes.len() - 1] >> kept != 0 {
        return refuse(14, bytes.len() - 1);
    }
    Ok(())
}

fn sign(sign: &i8) -> bool {
    *sign == 1 || *sign == -1
}

fn turn(sign: &f32) -> bool {
    *sign == 1.0 || *sign == -1.0
}

fn radius(radius: &f32) -> bool {
    radius.is_finite() && *radius >= 0.0
}

/// A source norm: finite and not below zero, −0.0 among them.
fn norm(norm: f32) -> Checked {
    need(norm.is_finite() && norm >= 0.0, 23, 0)
}

fn dimension(dim: usize) -> Checked {
    need(dim != 0, 2, 0)?;
    need(dim % 2 == 0, 3, dim)
}

fn power(dim: usize) -> Checked {
    need(dim.count_ones() == 1 && dim <= LARGEST, 4, dim)
}

/// A stored rotation's dimension.
fn stored(dim: usize) -> Checked {
    need(dim <= LARGEST_STORED, 26, 0)
}

/// A record's dimension: even, and no power of two need it be.
fn record_dimension(dim: usize) -> Checked {
    dimension(dim)?;
    need(dim <= LARGEST, 4, dim)
}

fn scalars(setup: &Setup) -> Checked {
    dimension(setup.dim)?;
    let least = if setup.mode == Mode::PolarOnly { 1 } else { 2 };
    need((least..=16).contains(&setup.bits), 1, setup.bits as usize)?;
    if setup.mode == Mode::PolarWithQjl {
        need((1..=LARGEST).contains(&setup.projections), 8, setup.projections)?;
    }
    match setup.kind {
        Kind::FastHadamard => power(setup.dim),
        Kind::Stored => stored(setup.dim),
    }
}

fn direction(entry: &f32) -> bool {
    (-1.0..=1.0).contains(entry)
}

fn setup(setup: &Setup) -> Checked {
    scalars(setup)?;
    let rotation = &setup.rotation;
    need(rotation.len() == setup.kind.needed(setup.dim), 5, rotation.len())?;
    need(setup.directions.len() == 2 << setup.polar_bits(), 5, setup.directions.len())?;
    need(setup.matrix.len() == setup.counted() * setup.dim, 5, setup.matrix.len())?;
    match setup.kind {
        Kind::FastHadamard => each(rotation, 10, turn)?,
        Kind::Stored => each(rotation, 9, |entry| entry.is_finite())?,
    }
    each(&setup.directions, 7, direction)?;
    each(&setup.matrix, 9, |entry| entry.is_finite())
}

/// What a record says, once it is accepted.
struct Header {
    dim: usize,
    bits: u8,
    projections: usize,
}

fn read(bytes: &[u8]) -> Result<Header, Ended> {
    let len = bytes.len();
    if len == 0 {
        return Err(Ended::Withdrawn);
    }
    need(len >= 6, 13, len)?;
    let map = bytes[0];
    need(record::defined(map), 18, map as usize)?;
    let dim = u32::from_le_bytes([bytes[1], bytes[2], bytes[3], bytes[4]]) as usize;
    let bits = bytes[5];
    record_dimension(dim)?;
    width(bits)?;
    need(!(bits == 16 && map & record::SIGNS != 0), 1, 16)?;
    need(len >= record::header_len(map), 13, len)?;
    let head = record::header(bytes).unwrap();
    let projections = head.projections as usize;
    if head.has_signs() {
        need((1..=LARGEST).contains(&projections), 8, projections)?;
    }
    let Some(parts) = record::split(bytes) else {
        return refuse(13, len);
    };
    range(&parts)?;
    norm(parts.norm)?;
    radii(&parts)?;
    padding(&parts.indices, dim / 2 * bits as usize)?;
    padding(&parts.signs, projections)?;
    Ok(Header { dim, bits, projections })
}

/// The range of a linear record; without one there is nothing to check.
fn range(parts: &record::Parts) -> Checked {
    need(radius(&parts.min) && radius(&parts.max) && parts.min <= parts.max, 17, 0)
}

/// The radii of a record, as read.
fn radii(parts: &record::Parts) -> Checked {
    if parts.linear() {
        let span = parts.max - parts.min;
        let values: Vec<f32> = parts
            .radii
            .chunks_exact(2)
            .map(|two| {
                parts.min + span * (f32::from(u16::from_le_bytes([two[0], two[1]])) / 65535.0)
            })
            .collect();
        return each(&values, 16, |value| value.is_finite());
    }
    let values: Vec<f32> = parts
        .radii
        .chunks_exact(4)
        .map(|four| f32::from_le_bytes([four[0], four[1], four[2], four[3]]))
        .collect();
    each(&values, 16, radius)
}

fn matches(setup: &Setup, header: &Header) -> Checked {
    need(header.dim == setup.dim, 5, header.dim)?;
    let same = header.bits == setup.polar_bits() && header.projections == setup.counted();
    need(same, 20, 0)
}

fn vector(setup: &Setup, values: &[f32]) -> Checked {
    need(values.len() == setup.dim, 5, values.len())?;
    each(values, 11, |value| value.is_finite())
}

/// The oracle's `NonFiniteInput`, once the vector itself was found finite: a rotated or
/// projected value.
fn later(setup: &Setup, query: &[f32]) -> Checked {
    let Some(Ok(turbo)) = &setup.rust else {
        return Ok(());
    };
    match oracle::thin::prepared(turbo, query) {
        Err(fault) => refuse(11, fault.index.unwrap()),
        Ok(_) => Ok(()),
    }
}

/// Whether the oracle's sum of a distance is NaN before it is cut to zero.
fn nan_sum(case: &Case) -> bool {
    matches!(ask::distance_sum(case), Answer::Value(Value::Float(sum)) if sum.is_nan())
}

/// The last check of a score or distance: by the oracle where it can tell, else by the
/// plain sums.
fn finite(case: &Case, answer: &Answer) -> Checked {
    let good = match answer {
        Answer::Value(_) => !nan_sum(case),
        Answer::Error(_) => false,
        _ => matches!(plain::value(case), Some(Value::Float(value)) if value.is_finite()),
    };
    need(good, 12, 0)
}

fn codebook(bits: u8, min: f32, max: f32) -> Checked {
    width(bits)?;
    need(min.is_finite() && max.is_finite() && min < max, 17, 0)
}

/// The refusal that document 01 asks for, or that the position is withdrawn; none where
/// a value is asked for.
pub fn ended(case: &Case, answer: &Answer) -> Option<Ended> {
    judge(case, answer).err()
}

fn judge(case: &Case, answer: &Answer) -> Checked {
    match case {
        Case::PackedLen { count, bits } => {
            width(*bits)?;
            bit_len(*count, *bits as usize).map(|_| ())
        }
        Case::PackIndices { indices, bits, out } => {
            width(*bits)?;
            let len = bit_len(indices.len(), *bits as usize)?;
            each(indices, 15, |index| u32::from(*index) < 1 << bits)?;
            need(*out == len, 6, len)
        }
        Case::UnpackIndices { bytes, count, bits, out } => {
            width(*bits)?;
            let len = bit_len(*count, *bits as usize)?;
            need(bytes.len() == len, 13, bytes.len())?;
            padding(bytes, count * *bits as usize)?;
            need(out == count, 6, *count)
        }
        Case::PackSigns { signs, out } => {
            each(signs, 10, sign)?;
            let len = signs.len().div_ceil(8);
            need(*out == len, 6, len)
        }
        Case::UnpackSigns { bytes, count, out } => {
            need(bytes.len() == count.div_ceil(8), 13, bytes.len())?;
            padding(bytes, *count)?;
            need(out == count, 6, *count)
        }
        Case::ValidatePadding { bytes, used_bits } => {
            need(bytes.len() == used_bits.div_ceil(8), 13, bytes.len())?;
            padding(bytes, *used_bits)
        }
        Case::CodebookUniform { bits, min, max } | Case::CodebookLevels { bits, min, max } => {
            codebook(*bits, *min, *max)
        }
        Case::CodebookQuantize { bits, min, max, value } => {
            codebook(*bits, *min, *max)?;
            need(value.is_finite(), 11, 0)
        }
        Case::CodebookMidpoint { bits, min, max, index } => {
            codebook(*bits, *min, *max)?;
            need(u32::from(*index) < 1 << bits, 15, 0)
        }
        Case::Compress { radii, profile, out } => {
            each(radii, 16, radius)?;
            need(*profile != Profile::BlockLogU8, 18, 0)?;
            let len = radii.len() * if *profile == Profile::F32 { 4 } else { 2 };
            need(*out == len, 6, len)
        }
        Case::Decompress { profile, count, min, max, payload, out } => {
            need(*profile != Profile::BlockLogU8, 18, 0)?;
            let each_len = if *profile == Profile::F32 { 4 } else { 2 };
            need(count.checked_mul(each_len) == Some(payload.len()), 13, payload.len())?;
            if *profile == Profile::F32 {
                let values: Vec<f32> = payload
                    .chunks_exact(4)
                    .map(|four| f32::from_le_bytes([four[0], four[1], four[2], four[3]]))
                    .collect();
                each(&values, 16, radius)?;
            } else {
                need(min.is_finite() && max.is_finite() && min <= max, 17, 0)?;
            }
            need(out == count, 6, *count)
        }
        Case::EncodedBytes { profile, .. } => need(*profile != Profile::BlockLogU8, 18, 0),
        Case::Root { .. } | Case::Seeds { .. } => Ok(()),
        Case::Angle { bits, index } => {
            width(*bits)?;
            need(u32::from(*index) < 1 << bits, 15, 0)
        }
        Case::Apply { dim, signs, input, out, .. } => {
            dimension(*dim)?;
            power(*dim)?;
            need(signs.len() == *dim, 5, signs.len())?;
            each(signs, 10, turn)?;
            need(input.len() == *dim, 5, input.len())?;
            need(out == dim, 6, *dim)
        }
        Case::StoredApply { dim, matrix, input, out, .. } => {
            dimension(*dim)?;
            stored(*dim)?;
            need(matrix.len() == dim * dim, 5, matrix.len())?;
            each(matrix, 9, |entry| entry.is_finite())?;
            need(input.len() == *dim, 5, input.len())?;
            need(out == dim, 6, *dim)
        }
        Case::SetupCheck { setup: lent } => setup(lent),
        Case::Sketch { setup: lent, vector: values, out } => {
            setup(lent)?;
            vector(lent, values)?;
            need(*out == lent.counted(), 6, lent.counted())
        }
        Case::Prepare { setup: lent, query, rotated, projected } => {
            setup(lent)?;
            vector(lent, query)?;
            later(lent, query)?;
            need(*rotated == lent.dim, 6, lent.dim)?;
            need(*projected == lent.counted(), 6, lent.counted())
        }
        Case::SketchScore { setup: lent, query, signs, norm: given } => {
            setup(lent)?;
            vector(lent, query)?;
            if let Answer::Error(oracle::thin::Fault { index: Some(index), .. }) = answer {
                return refuse(11, *index);
            }
            need(signs.len() == lent.counted(), 5, signs.len())?;
            each(signs, 10, sign)?;
            norm(*given)?;
            finite(case, answer)
        }
        Case::WriteRecord { .. } => write(case),
        Case::ReadRecord { record } => read(record).map(|_| ()),
        Case::Score { setup: lent, query, record }
        | Case::Distance { setup: lent, query, record } => {
            setup(lent)?;
            vector(lent, query)?;
            later(lent, query)?;
            matches(lent, &read(record)?)?;
            finite(case, answer)
        }
        Case::Decode { setup: lent, record, out } => {
            setup(lent)?;
            matches(lent, &read(record)?)?;
            need(*out == lent.dim, 6, lent.dim)
        }
        Case::ScorePrepared { setup: lent, rotated, projected, record, .. } => {
            scalars(lent)?;
            need(lent.directions.len() == 2 << lent.polar_bits(), 5, lent.directions.len())?;
            each(&lent.directions, 7, direction)?;
            need(rotated.len() == lent.dim, 5, rotated.len())?;
            need(projected.len() == lent.counted(), 5, projected.len())?;
            each(rotated, 11, |value| value.is_finite())?;
            each(projected, 11, |value| value.is_finite())?;
            matches(lent, &read(record)?)?;
            finite(case, answer)
        }
    }
}

fn write(case: &Case) -> Checked {
    let Case::WriteRecord {
        profile,
        dim,
        bits,
        mode,
        projections,
        norm: given,
        radii,
        indices,
        signs,
        out,
    } = case
    else {
        unreachable!()
    };
    let residual = *mode == Mode::PolarWithQjl;
    need(*profile != Profile::BlockLogU8, 18, 0)?;
    need(residual || given.is_none(), 18, 0)?;
    record_dimension(*dim)?;
    width(*bits)?;
    need(!(*bits == 16 && residual), 1, 16)?;
    if residual {
        need((1..=LARGEST).contains(projections), 8, *projections)?;
    }
    let pairs = dim / 2;
    need(radii.len() == pairs, 5, radii.len())?;
    need(indices.len() == pairs, 5, indices.len())?;
    let counted = if residual { *projections } else { 0 };
    need(signs.len() == counted, 5, signs.len())?;
    norm(given.unwrap_or(1.0))?;
    each(radii, 16, radius)?;
    let mut map = if residual { record::SIGNS } else { 0 };
    map |= if given.is_some() { record::NORM } else { 0 };
    if *profile == Profile::BlockLinearU16 {
        map |= record::LINEAR;
        let packed = oracle::thin::compress(radii, *profile).unwrap();
        let values = packed.decompress().unwrap();
        each(&values, 16, |value| value.is_finite())?;
    }
    each(indices, 15, |index| u32::from(*index) < 1 << bits)?;
    each(signs, 10, sign)?;
    let lens = record::payload_lens(map, *dim as u32, *bits, counted as u32);
    let total = record::header_len(map) + lens.iter().sum::<u64>() as usize;
    need(*out == total, 6, total)
}
