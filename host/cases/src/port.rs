//! The port's answer to a case, through the C functions of `libcapi.a`. Built only with
//! the feature `capi`.
//!
//! Every output is lent between two guards and filled with a known item. After a value
//! the guards must have kept it; after a refusal or a withdrawn position all of the output
//! must have, and the place of a scalar too. A record that was written is read back, and its
//! length asked for.

use foldrima::{call, call_under, raw};

use crate::{
    case::{strictly_same, Case, Kind, Mode, Profile, Setup, Value},
    expect::Given,
    paper::{Ended, Refusal},
    record,
};

/// Items before and after a lent output.
const GUARD: usize = 8;
const BYTE: u8 = 0xA5;
const SHORT: u16 = 0xA5A5;
const SIGN: i8 = 0x5A;
const FLOAT: f32 = -1234.5678;

/// An output filled with a known item, so that a write to it shows. For floats the item
/// must not be NaN.
struct Lent<T> {
    items: Vec<T>,
    fill: T,
}

impl<T: Copy + PartialEq> Lent<T> {
    fn new(len: usize, fill: T) -> Self {
        Self { items: vec![fill; len + 2 * GUARD], fill }
    }

    fn as_mut_ptr(&mut self) -> *mut T {
        self.items[GUARD..].as_mut_ptr()
    }

    fn len(&self) -> usize {
        self.items.len() - 2 * GUARD
    }

    fn found(&self) -> &[T] {
        &self.items[GUARD..GUARD + self.len()]
    }

    fn first(&self) -> T {
        self.items[GUARD]
    }
}

trait Kept {
    /// Whether no item was written.
    fn whole(&self) -> bool;
    /// Whether no item was written before or after the output.
    fn around(&self) -> bool;
}

impl<T: Copy + PartialEq> Kept for Lent<T> {
    fn whole(&self) -> bool {
        self.items.iter().all(|item| *item == self.fill)
    }

    fn around(&self) -> bool {
        let end = GUARD + self.len();
        self.items[..GUARD].iter().chain(&self.items[end..]).all(|item| *item == self.fill)
    }
}

/// The lent number and place.
struct Told {
    number: Lent<u32>,
    place: Lent<usize>,
}

impl Told {
    fn new() -> Self {
        Self { number: Lent::new(1, 0xA5A5_A5A5), place: Lent::new(1, usize::MAX - 90) }
    }

    /// The answer: number 0 stands for a value and another one for a withdrawn position;
    /// the place of both must be 0.
    fn given(&self, lent: &[&dyn Kept], value: impl FnOnce() -> Value) -> Given {
        let (number, place) = (self.number.first(), self.place.first());
        let around = self.number.around() && self.place.around();
        let whole = around && lent.iter().all(|one| one.whole());
        let (answer, untouched) = match number {
            0 => (Ok(value()), around && place == 0 && lent.iter().all(|one| one.around())),
            raw::WITHDRAWN => (Err(Ended::Withdrawn), whole && place == 0),
            _ => (Err(Ended::Refused(Refusal { number, place: place as u64 })), whole),
        };
        Given { answer, untouched }
    }
}

fn mode_code(mode: Mode) -> u8 {
    match mode {
        Mode::PolarOnly => 0,
        Mode::PolarWithQjl => 1,
    }
}

/// A setup's mode, and its kind as one of the numbers that say so.
fn codes(setup: &Setup) -> (u8, u8) {
    let kind = match setup.kind {
        Kind::FastHadamard => 0,
        Kind::Stored => (setup.rotation.len() as u8).max(1),
    };
    (mode_code(setup.mode), kind)
}

fn profile_code(profile: Profile) -> u8 {
    match profile {
        Profile::F32 => 0,
        Profile::BlockLinearU16 => 1,
        Profile::BlockLogU8 => 2,
    }
}

/// Whether a norm is given, as one of the numbers that say so, and its value; where it is
/// absent, a value that would be refused.
fn norm_code(norm: Option<f32>) -> (u8, f32) {
    match norm {
        Some(norm) => ((norm.to_bits() as u8).max(1), norm),
        None => (0, f32::NAN),
    }
}

/// What the port answers.
pub fn answer(case: &Case) -> Given {
    let mut told = Told::new();
    let (number, place) = (told.number.as_mut_ptr(), told.place.as_mut_ptr());
    match case {
        Case::PackedLen { count, bits } => {
            let mut value = Lent::new(1, usize::MAX);
            let to = value.as_mut_ptr();
            unsafe { call!(foldrima_packed_len(*count, *bits, number, place, to)) };
            told.given(&[&value], || Value::Number(value.first() as u64))
        }
        Case::PackIndices { indices, bits, out } => {
            let mut out = Lent::new(*out, BYTE);
            unsafe { call!(foldrima_pack_indices([indices], *bits, [mut out], number, place)) };
            told.given(&[&out], || Value::Bytes(out.found().to_vec()))
        }
        Case::UnpackIndices { bytes, count, bits, out } => {
            let mut out = Lent::new(*out, SHORT);
            unsafe {
                call!(foldrima_unpack_indices([bytes], *count, *bits, [mut out], number, place))
            };
            told.given(&[&out], || Value::Numbers(out.found().to_vec()))
        }
        Case::PackSigns { signs, out } => {
            let mut out = Lent::new(*out, BYTE);
            unsafe { call!(foldrima_pack_signs([signs], [mut out], number, place)) };
            told.given(&[&out], || Value::Bytes(out.found().to_vec()))
        }
        Case::UnpackSigns { bytes, count, out } => {
            let mut out = Lent::new(*out, SIGN);
            unsafe { call!(foldrima_unpack_signs([bytes], *count, [mut out], number, place)) };
            told.given(&[&out], || Value::Signs(out.found().to_vec()))
        }
        Case::ValidatePadding { bytes, used_bits } => {
            unsafe { call!(foldrima_validate_padding_zero([bytes], *used_bits, number, place)) };
            told.given(&[], || Value::Done)
        }
        Case::CodebookUniform { bits, min, max } => {
            unsafe { call!(foldrima_uniform(*bits, *min, *max, number, place)) };
            told.given(&[], || Value::Codebook { bits: *bits, min: *min, max: *max })
        }
        Case::CodebookLevels { bits, min, max } => {
            let mut value = Lent::new(1, u32::MAX);
            let to = value.as_mut_ptr();
            unsafe { call!(foldrima_levels(*bits, *min, *max, number, place, to)) };
            told.given(&[&value], || Value::Number(value.first().into()))
        }
        Case::CodebookQuantize { bits, min, max, value: x } => {
            let mut value = Lent::new(1, SHORT);
            let to = value.as_mut_ptr();
            unsafe { call!(foldrima_quantize(*bits, *min, *max, *x, number, place, to)) };
            told.given(&[&value], || Value::Number(value.first().into()))
        }
        Case::CodebookMidpoint { bits, min, max, index } => float(&mut told, |to| unsafe {
            call!(foldrima_dequantize_midpoint(*bits, *min, *max, *index, number, place, to))
        }),
        Case::Compress { radii, profile, out } => {
            let (profile, mut out) = (profile_code(*profile), Lent::new(*out, BYTE));
            let (mut min, mut max) = (Lent::new(1, FLOAT), Lent::new(1, FLOAT));
            let (least, most) = (min.as_mut_ptr(), max.as_mut_ptr());
            unsafe {
                call!(foldrima_compress([radii], profile, [mut out], number, place, least, most))
            };
            told.given(&[&out, &min, &max], || Value::Radii {
                min: min.first(),
                max: max.first(),
                payload: out.found().to_vec(),
            })
        }
        Case::Decompress { profile, count, min, max, payload, out } => {
            let (profile, mut out) = (profile_code(*profile), Lent::new(*out, FLOAT));
            unsafe {
                call!(foldrima_decompress(
                    profile,
                    *count,
                    *min,
                    *max,
                    [payload],
                    [mut out],
                    number,
                    place
                ))
            };
            told.given(&[&out], || Value::Floats(out.found().to_vec()))
        }
        Case::EncodedBytes { profile, payload } => {
            let mut value = Lent::new(1, usize::MAX);
            let (profile, to) = (profile_code(*profile), value.as_mut_ptr());
            unsafe { call!(foldrima_encoded_bytes(profile, [payload], number, place, to)) };
            told.given(&[&value], || Value::Number(value.first() as u64))
        }
        Case::Root { value } => plain(Value::Float(unsafe { raw::foldrima_sqrt(*value) })),
        Case::Angle { bits, index } => float(&mut told, |to| unsafe {
            call!(foldrima_dequantize_angle(*bits, *index, number, place, to))
        }),
        Case::Seeds { seed } => plain(Value::Seeds {
            rotation: unsafe { raw::foldrima_hadamard_seed(*seed) },
            matrix: unsafe { raw::foldrima_matrix_seed(*seed) },
        }),
        Case::Apply { inverse, dim, signs, input, out } => {
            let mut out = Lent::new(*out, FLOAT);
            unsafe {
                if *inverse {
                    call!(foldrima_apply_inverse(*dim, [signs], [input], [mut out], number, place))
                } else {
                    call!(foldrima_apply(*dim, [signs], [input], [mut out], number, place))
                }
            };
            told.given(&[&out], || Value::Floats(out.found().to_vec()))
        }
        Case::StoredApply { inverse, dim, matrix, input, out } => {
            let mut out = Lent::new(*out, FLOAT);
            let find = match inverse {
                false => raw::foldrima_stored_apply,
                true => raw::foldrima_stored_apply_inverse,
            };
            let (lent, count) = (input.as_ptr(), input.len());
            let (to, room) = (out.as_mut_ptr(), out.len());
            unsafe {
                find(*dim, matrix.as_ptr(), matrix.len(), lent, count, to, room, number, place)
            };
            told.given(&[&out], || Value::Floats(out.found().to_vec()))
        }
        Case::SetupCheck { setup } => {
            let codes = codes(setup);
            unsafe { call_under!(setup, codes, foldrima_check_setup(number, place)) };
            told.given(&[], || Value::Done)
        }
        Case::Sketch { setup, vector, out } => {
            let (codes, mut out) = (codes(setup), Lent::new(*out, SIGN));
            unsafe {
                call_under!(setup, codes, foldrima_sketch([vector], [mut out], number, place))
            };
            told.given(&[&out], || Value::Signs(out.found().to_vec()))
        }
        Case::Prepare { setup, query, rotated, projected } => {
            let codes = codes(setup);
            let mut rotated = Lent::new(*rotated, FLOAT);
            let mut projected = Lent::new(*projected, FLOAT);
            unsafe {
                call_under!(
                    setup,
                    codes,
                    foldrima_prepare_query([query], [mut rotated], [mut projected], number, place)
                )
            };
            told.given(&[&rotated, &projected], || Value::Prepared {
                rotated: rotated.found().to_vec(),
                projected: projected.found().to_vec(),
            })
        }
        Case::SketchScore { setup, query, signs, norm } => float(&mut told, |to| unsafe {
            call_under!(
                setup,
                codes(setup),
                foldrima_sketch_score([query], [signs], *norm, number, place, to)
            )
        }),
        Case::WriteRecord {
            profile,
            dim,
            bits,
            mode,
            projections,
            norm,
            radii,
            indices,
            signs,
            out,
        } => {
            let mut out = Lent::new(*out, BYTE);
            let (has_norm, norm) = norm_code(*norm);
            unsafe {
                call!(foldrima_write_record(
                    profile_code(*profile),
                    *dim,
                    *bits,
                    mode_code(*mode),
                    *projections,
                    has_norm,
                    norm,
                    [radii],
                    [indices],
                    [signs],
                    [mut out],
                    number,
                    place
                ))
            };
            let given = told.given(&[&out], || Value::Bytes(out.found().to_vec()));
            let back = given.answer.is_err() || reads_back(case, out.found());
            Given { untouched: given.untouched && back && size_fits(case, &given), ..given }
        }
        Case::ReadRecord { record } => read(record),
        Case::Score { setup, query, record } => float(&mut told, |to| unsafe {
            call_under!(
                setup,
                codes(setup),
                foldrima_inner_product_estimate([query], [record], number, place, to)
            )
        }),
        Case::Distance { setup, query, record } => float(&mut told, |to| unsafe {
            call_under!(
                setup,
                codes(setup),
                foldrima_l2_distance_estimate([query], [record], number, place, to)
            )
        }),
        Case::Decode { setup, record, out } => {
            let (codes, mut out) = (codes(setup), Lent::new(*out, FLOAT));
            unsafe {
                call_under!(
                    setup,
                    codes,
                    foldrima_decode_approximate([record], [mut out], number, place)
                )
            };
            told.given(&[&out], || Value::Floats(out.found().to_vec()))
        }
        Case::ScorePrepared { setup, rotated, projected, record, .. } => {
            float(&mut told, |to| unsafe {
                call!(foldrima_inner_product_estimate_prepared(
                    codes(setup).0,
                    setup.dim,
                    setup.bits,
                    setup.projections,
                    codes(setup).1,
                    [setup.directions],
                    [rotated],
                    [projected],
                    [record],
                    number,
                    place,
                    to
                ))
            })
        }
    }
}

/// A call whose value is one float.
fn float(told: &mut Told, call: impl FnOnce(*mut f32)) -> Given {
    let mut value = Lent::new(1, FLOAT);
    call(value.as_mut_ptr());
    told.given(&[&value], || Value::Float(value.first()))
}

/// A call that refuses nothing.
fn plain(value: Value) -> Given {
    Given { answer: Ok(value), untouched: true }
}

/// Whether a record that was written for a case reads as what it was written from; linear
/// radii may read as others.
fn reads_back(case: &Case, bytes: &[u8]) -> bool {
    let Case::WriteRecord { profile, dim, norm, radii, indices, signs, .. } = case else {
        unreachable!()
    };
    let (header, head) = header(bytes);
    let (given, value) = values(bytes, (dim / 2, dim / 2, signs.len()));
    let Value::Record { radii: found, .. } = &value else { unreachable!() };
    let radii = if *profile == Profile::F32 { radii.clone() } else { found.clone() };
    let norm = norm.map_or((0, 1.0), |norm| (1, norm));
    let wanted = Value::Record {
        radii,
        indices: indices.clone(),
        signs: signs.clone(),
        norm: head.given_norm(),
    };
    header.answer.is_ok()
        && given.iter().all(|given| given.answer.is_ok())
        && (head.has_norm, head.norm.to_bits()) == (norm.0, norm.1.to_bits())
        && head.fits(bytes, parts(bytes))
        && strictly_same(&value_with(value, head.given_norm()), &wanted)
}

/// Whether `record_size` answers as the writing of the same record did: with its refusal
/// where a scalar is refused, else with its length, whatever the norm is.
fn size_fits(case: &Case, written: &Given) -> bool {
    let Case::WriteRecord { profile, dim, bits, mode, projections, norm, .. } = case else {
        unreachable!()
    };
    let mut told = Told::new();
    let (number, place) = (told.number.as_mut_ptr(), told.place.as_mut_ptr());
    let mut value = Lent::new(1, usize::MAX);
    let to = value.as_mut_ptr();
    let (has_norm, _) = norm_code(*norm);
    unsafe {
        call!(foldrima_record_size(
            profile_code(*profile),
            *dim,
            *bits,
            mode_code(*mode),
            *projections,
            has_norm,
            number,
            place,
            to
        ))
    };
    let size = told.given(&[&value], || Value::Number(value.first() as u64));
    let wanted = match written.answer {
        Err(Ended::Refused(Refusal { number: 1..=4 | 8 | 18, .. })) => written.answer.clone(),
        _ => {
            let bit = |holds: bool, bit: u8| if holds { bit } else { 0 };
            let map = bit(*profile == Profile::BlockLinearU16, record::LINEAR)
                | bit(*mode == Mode::PolarWithQjl, record::SIGNS)
                | bit(norm.is_some(), record::NORM);
            let lens = record::payload_lens(map, *dim as u32, *bits, *projections as u32);
            Ok(Value::Number(record::header_len(map) as u64 + lens.iter().sum::<u64>()))
        }
    };
    size == Given { answer: wanted, untouched: true }
}

/// A record's header, parts and values. The seven calls must agree: with each other where
/// there is no value, and with the record's layout on its header and parts.
fn read(bytes: &[u8]) -> Given {
    let (header, head) = header(bytes);
    let parts = parts(bytes);
    if header.answer.is_err() {
        // For no length of an output is there another answer.
        let said = [0, 1, 3].map(|len| values(bytes, (len, len, len)).0);
        let same = said.iter().flatten().all(|given| *given == header);
        return Given { untouched: header.untouched && same && parts == [(0, 0); 3], ..header };
    }
    let lens = (head.dim / 2, head.dim / 2, head.projections);
    let (exact, value) = values(bytes, lens);
    let longer = values(bytes, (lens.0 + 1, lens.1 + 1, lens.2 + 1)).0;
    let needed = [lens.0, lens.1, lens.2];
    let refused = longer.iter().zip(needed).all(|(given, needed)| {
        let wanted = Ended::Refused(Refusal { number: 6, place: needed as u64 });
        given.answer == Err(wanted) && given.untouched
    });
    let done = exact.iter().all(|given| given.answer.is_ok() && given.untouched);
    let untouched = header.untouched && head.fits(bytes, parts) && refused && done;
    Given { answer: Ok(value_with(value, head.given_norm())), untouched }
}

/// What a record's header hands back.
struct Head {
    mode: u8,
    profile: u8,
    dim: usize,
    bits: u8,
    projections: usize,
    min: f32,
    max: f32,
    has_norm: u8,
    norm: f32,
}

impl Head {
    fn given_norm(&self) -> Option<f32> {
        (self.has_norm != 0).then_some(self.norm)
    }

    /// Whether header and parts are the record's own, by its layout.
    fn fits(&self, bytes: &[u8], parts: [(usize, usize); 3]) -> bool {
        record::split(bytes).is_some_and(|wanted| {
            let map = wanted.map;
            let counted = if wanted.has_signs() { wanted.projections as usize } else { 0 };
            let (a, b) = (wanted.radii.len(), wanted.indices.len());
            let start = record::header_len(map);
            let found = (self.mode, self.profile, self.dim, self.bits, self.projections);
            let mode = wanted.has_signs() as u8;
            found == (mode, map & 1, wanted.dim as usize, wanted.bits, counted)
                && self.has_norm == wanted.has_norm() as u8
                && self.norm.to_bits() == wanted.norm.to_bits()
                && self.min.to_bits() == wanted.min.to_bits()
                && self.max.to_bits() == wanted.max.to_bits()
                && parts == [(start, a), (start + a, b), (start + a + b, wanted.signs.len())]
        })
    }
}

/// Where the three parts of a record start, and how long they are.
fn parts(bytes: &[u8]) -> [(usize, usize); 3] {
    [raw::foldrima_radii_part, raw::foldrima_indices_part, raw::foldrima_signs_part].map(|part| {
        let (mut start, mut count) = (Lent::new(1, usize::MAX), Lent::new(1, usize::MAX));
        unsafe { part(bytes.as_ptr(), bytes.len(), start.as_mut_ptr(), count.as_mut_ptr()) };
        (start.first(), count.first())
    })
}

/// The answer of `read_record`, and what it left in its outputs.
fn header(bytes: &[u8]) -> (Given, Head) {
    let mut told = Told::new();
    let (mut mode, mut profile, mut bits) =
        (Lent::new(1, BYTE), Lent::new(1, BYTE), Lent::new(1, BYTE));
    let (mut dim, mut projections) = (Lent::new(1, usize::MAX), Lent::new(1, usize::MAX));
    let (mut min, mut max) = (Lent::new(1, FLOAT), Lent::new(1, FLOAT));
    let (mut has_norm, mut norm) = (Lent::new(1, BYTE), Lent::new(1, FLOAT));
    unsafe {
        call!(foldrima_read_record(
            [bytes],
            told.number.as_mut_ptr(),
            told.place.as_mut_ptr(),
            mode.as_mut_ptr(),
            profile.as_mut_ptr(),
            dim.as_mut_ptr(),
            bits.as_mut_ptr(),
            projections.as_mut_ptr(),
            min.as_mut_ptr(),
            max.as_mut_ptr(),
            has_norm.as_mut_ptr(),
            norm.as_mut_ptr()
        ))
    };
    let lent: [&dyn Kept; 9] =
        [&mode, &profile, &dim, &bits, &projections, &min, &max, &has_norm, &norm];
    let head = Head {
        mode: mode.first(),
        profile: profile.first(),
        dim: dim.first(),
        bits: bits.first(),
        projections: projections.first(),
        min: min.first(),
        max: max.first(),
        has_norm: has_norm.first(),
        norm: norm.first(),
    };
    (told.given(&lent, || Value::Done), head)
}

/// The three lists of a record, read into outputs of these lengths.
fn values(bytes: &[u8], lens: (usize, usize, usize)) -> ([Given; 3], Value) {
    let mut radii = Lent::new(lens.0, FLOAT);
    let mut indices = Lent::new(lens.1, SHORT);
    let mut signs = Lent::new(lens.2, SIGN);
    let mut told = [Told::new(), Told::new(), Told::new()];
    let [a, b, c] = &mut told;
    let [x, y, z] = [a, b, c].map(|told| (told.number.as_mut_ptr(), told.place.as_mut_ptr()));
    unsafe {
        call!(foldrima_read_radii([bytes], [mut radii], x.0, x.1));
        call!(foldrima_read_indices([bytes], [mut indices], y.0, y.1));
        call!(foldrima_read_signs([bytes], [mut signs], z.0, z.1));
    }
    let [a, b, c] = &told;
    let given = [
        a.given(&[&radii], || Value::Done),
        b.given(&[&indices], || Value::Done),
        c.given(&[&signs], || Value::Done),
    ];
    let value = Value::Record {
        radii: radii.found().to_vec(),
        indices: indices.found().to_vec(),
        signs: signs.found().to_vec(),
        norm: None,
    };
    (given, value)
}

/// What a record holds, with the norm that its header told.
fn value_with(value: Value, norm: Option<f32>) -> Value {
    match value {
        Value::Record { radii, indices, signs, .. } => {
            Value::Record { radii, indices, signs, norm }
        }
        other => other,
    }
}

#[cfg(test)]
mod tests {
    use super::*;

    fn told(number: u32, place: usize) -> Told {
        let mut told = Told::new();
        told.number.items[GUARD] = number;
        told.place.items[GUARD] = place;
        told
    }

    #[test]
    fn a_write_beside_the_output_is_seen() {
        for at in [0, GUARD - 1, GUARD + 3, 2 * GUARD + 2] {
            let mut out = Lent::new(3, BYTE);
            out.items[at] = 0;
            let given = told(0, 0).given(&[&out], || Value::Done);
            assert!(!given.untouched, "{at}");
        }
        let mut out = Lent::new(3, BYTE);
        out.items[GUARD..GUARD + 3].fill(0);
        assert!(told(0, 0).given(&[&out], || Value::Done).untouched);
    }

    #[test]
    fn a_write_on_a_refusal_is_seen() {
        for at in 0..2 * GUARD + 3 {
            let mut out = Lent::new(3, FLOAT);
            out.items[at] = 0.0;
            assert!(!told(6, 3).given(&[&out], || Value::Done).untouched, "{at}");
        }
        let out = Lent::new(3, FLOAT);
        let given = told(6, 3).given(&[&out], || Value::Done);
        let refusal = Ended::Refused(Refusal { number: 6, place: 3 });
        assert_eq!(given, Given { answer: Err(refusal), untouched: true });
    }

    #[test]
    fn a_write_on_a_withdrawn_position_is_seen() {
        for at in 0..2 * GUARD + 3 {
            let mut out = Lent::new(3, FLOAT);
            out.items[at] = 0.0;
            assert!(!told(255, 0).given(&[&out], || Value::Done).untouched, "{at}");
        }
        let out = Lent::new(3, FLOAT);
        let given = told(255, 0).given(&[&out], || Value::Done);
        assert_eq!(given, Given { answer: Err(Ended::Withdrawn), untouched: true });
        assert!(!told(255, 1).given(&[&out], || Value::Done).untouched);
    }

    #[test]
    fn number_and_place_must_be_written() {
        assert!(Told::new().given(&[], || Value::Done).answer.is_err());
        assert!(!told(0, 1).given(&[], || Value::Done).untouched);
    }
}
