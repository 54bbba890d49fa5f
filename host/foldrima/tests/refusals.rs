//! A refusal of each kind, with its place; outputs stay as they were. Those of norms are in
//! `norms`, those of stored rotations in `boards` and those of scans in `scan`.

use foldrima::{
    refusal, Position, RadiusCodecProfileV1 as Profile, Range, Refusal, RotationKind,
    ScalarCodebook, Setup, TurboMode as Mode,
};
use one_pair::RECORD;

mod one_pair;

fn refused<T>(number: u32, place: usize) -> Result<T, Refusal> {
    Err(Refusal { number, place })
}

const SETUP: Setup = Setup {
    mode: Mode::PolarWithQjl,
    dim: 2,
    bits: 2,
    projections: 3,
    kind: RotationKind::FastHadamard,
    rotation: &[1.0, -1.0],
    directions: &[-1.0, 0.0, 1.0, 0.0],
    matrix: &[1.0, 0.0, 0.0, 1.0, 1.0, 1.0],
};

const ONLY: Setup = Setup { rotation: &[1.0, -1.0], ..one_pair::SETUP };

#[test]
fn by_whoever_sets_up() {
    assert_eq!(foldrima::packed_len(1, 0), refused(1, 0));
    assert_eq!(foldrima::packed_len(1, 17), refused(1, 17));
    assert_eq!(Setup { bits: 1, ..SETUP }.check(), refused(1, 1));
    assert_eq!(Setup { dim: 0, ..SETUP }.check(), refused(2, 0));
    assert_eq!(Setup { dim: 3, ..SETUP }.check(), refused(3, 3));
    assert_eq!(Setup { dim: 6, ..SETUP }.check(), refused(4, 6));
    assert_eq!(Setup { dim: 8192, ..SETUP }.check(), refused(4, 8192));
    assert_eq!(Setup { rotation: &[1.0], ..SETUP }.check(), refused(5, 1));
    assert_eq!(Setup { directions: &[1.0; 3], ..SETUP }.check(), refused(5, 3));
    assert_eq!(Setup { matrix: &[1.0; 7], ..SETUP }.check(), refused(5, 7));
    let table = [-1.0, 0.0, 1.0, 1.5];
    assert_eq!(Setup { directions: &table, ..SETUP }.check(), refused(7, 3));
    assert_eq!(Setup { projections: 0, ..SETUP }.check(), refused(8, 0));
    assert_eq!(Setup { projections: 4097, ..SETUP }.check(), refused(8, 4097));
    let matrix = [1.0, 0.0, f32::NAN, 1.0, f32::INFINITY, 1.0];
    assert_eq!(Setup { matrix: &matrix, ..SETUP }.check(), refused(9, 2));
    assert_eq!(Setup { rotation: &[1.0, 0.5], ..SETUP }.check(), refused(10, 1));
    let mut out = [0xA5];
    assert_eq!(foldrima::pack_signs(&[1, -1, 0], &mut out), refused(10, 2));
    assert_eq!(foldrima::packed_len(usize::MAX / 2, 3), refused(19, 0));
    assert_eq!(out, [0xA5]);
}

#[test]
fn by_an_output_of_another_length() {
    let mut bytes = [0xA5; 2];
    assert_eq!(foldrima::pack_indices(&[1, 2, 3], 2, &mut bytes), refused(6, 1));
    assert_eq!(foldrima::pack_signs(&[1, -1], &mut bytes), refused(6, 1));
    assert_eq!(foldrima::compress(&[1.0], Profile::F32, &mut bytes), refused(6, 4));
    let (f32s, only) = (Profile::F32, Mode::PolarOnly);
    let written = foldrima::write_record(f32s, 2, 1, only, 0, None, &[1.0], &[1], &[], &mut bytes);
    assert_eq!(written, refused(6, 11));
    assert_eq!(bytes, [0xA5; 2]);
    let mut floats = [7.5; 5];
    let range = Range { min: 0.0, max: 1.0 };
    assert_eq!(foldrima::decompress(f32s, 1, range, &[0; 4], &mut floats), refused(6, 1));
    assert_eq!(foldrima::apply(2, &[1.0; 2], &[1.0; 2], &mut floats), refused(6, 2));
    assert_eq!(foldrima::apply_inverse(2, &[1.0; 2], &[1.0; 2], &mut floats), refused(6, 2));
    assert_eq!(foldrima::read_radii(&RECORD, &mut floats), refused(6, 1));
    assert_eq!(ONLY.decode_approximate(&RECORD, &mut floats), refused(6, 2));
    let (rotated, projected) = floats.split_at_mut(2);
    assert_eq!(SETUP.prepare_query(&[1.0; 2], &mut projected[..1], rotated), refused(6, 2));
    assert_eq!(SETUP.prepare_query(&[1.0; 2], rotated, &mut projected[..2]), refused(6, 3));
    assert_eq!(floats, [7.5; 5]);
    let mut signs = [9; 4];
    assert_eq!(foldrima::unpack_signs(&[0], 3, &mut signs), refused(6, 3));
    assert_eq!(foldrima::read_signs(&RECORD, &mut signs), refused(6, 0));
    assert_eq!(SETUP.sketch(&[1.0; 2], &mut signs), refused(6, 3));
    assert_eq!(signs, [9; 4]);
    let mut indices = [9; 4];
    assert_eq!(foldrima::unpack_indices(&[0], 2, 4, &mut indices), refused(6, 2));
    assert_eq!(foldrima::read_indices(&RECORD, &mut indices), refused(6, 1));
    assert_eq!(indices, [9; 4]);
}

#[test]
fn by_the_author_of_a_query() {
    let (infinite, largest) = (f32::INFINITY, f32::MAX);
    let (mut rotated, mut projected) = ([7.5; 2], [7.5; 3]);
    let bad = SETUP.prepare_query(&[1.0, infinite], &mut rotated, &mut projected);
    assert_eq!(bad, refused(11, 1));
    let turned = SETUP.prepare_query(&[largest, largest], &mut rotated, &mut projected);
    assert_eq!(turned, refused(11, 1));
    let plus = Setup { rotation: &[1.0, 1.0], matrix: &[2.0, 0.0, 0.0, 1.0, 1.0, 1.0], ..SETUP };
    let summed = plus.prepare_query(&[0.75 * largest, 0.0], &mut rotated, &mut projected);
    assert_eq!(summed, refused(11, 0));
    assert_eq!((rotated, projected), ([7.5; 2], [7.5; 3]));
    assert_eq!(SETUP.sketch(&[f32::NAN, 1.0], &mut [9; 3]), refused(11, 0));
    assert_eq!(ScalarCodebook { bits: 2, min: 0.0, max: 1.0 }.quantize(infinite), refused(11, 0));
    assert_eq!(ONLY.inner_product_estimate(&[1.0; 3], &RECORD), refused(5, 3));
    let mut wide = RECORD;
    wide[6..10].copy_from_slice(&largest.to_le_bytes());
    let query = [largest / 2.0, largest / 4.0];
    let plus = Setup { rotation: &[1.0, 1.0], ..ONLY };
    assert_eq!(plus.inner_product_estimate(&query, &wide), refused(12, 0));
    assert_eq!(plus.l2_distance_estimate(&[1.0e30, 0.0], &RECORD), refused(12, 0));
    assert_eq!(plus.inner_product_estimate_prepared(&query, &[], &wide), refused(12, 0));
}

/// A distance's sum that is NaN or plus infinity is refused, minus infinity is cut to zero;
/// the score's own refusal comes first.
#[test]
fn by_a_distance_whose_sum_overflows() {
    let setup = one_pair::SETUP;
    let record = |radius: [u8; 4], index| {
        let mut record = RECORD;
        record[6..10].copy_from_slice(&radius);
        record[10] = index;
        record
    };
    let (power, higher) = ([0, 0, 0x80, 0x5F], [0, 0, 0, 0x60]);
    let query = [2f32.powi(64), 0.0];
    let nan = record(power, 1);
    let score = Position::Kept(f32::from_bits(0x7F35_04F3));
    assert_eq!(setup.inner_product_estimate(&query, &nan), Ok(score));
    assert_eq!(setup.l2_distance_estimate(&query, &nan), refused(12, 0));
    assert_eq!(setup.l2_distance_estimate(&query, &record(power, 0)), refused(12, 0));
    let own = record(higher, 1);
    assert_eq!(setup.inner_product_estimate(&query, &own), refused(12, 0));
    assert_eq!(setup.l2_distance_estimate(&query, &own), refused(12, 0));
    // Beside finite norms a score of plus infinity would give a sum that is cut to zero.
    let matrix = [2f32.powi(100), 0.0];
    let row = Setup { projections: 1, rotation: &[1.0, 1.0], matrix: &matrix, ..SETUP };
    let signed = [2, 2, 0, 0, 0, 1, 1, 0, 0, 0, 0, 0, 0x80, 0x3F, 1, 1];
    let query = [1.75 * 2f32.powi(27), 0.0];
    assert_eq!(row.inner_product_estimate(&query, &signed), refused(12, 0));
    assert_eq!(row.l2_distance_estimate(&query, &signed), refused(12, 0));
    let long = Setup { directions: &[-1.0, 0.0, 1.0, 1.0], ..setup };
    let below = record([0, 0, 0x20, 0x5F], 1);
    let cut = long.l2_distance_estimate(&[1.25 * 2f32.powi(63), 0.0], &below);
    assert_eq!(cut, Ok(Position::Kept(0.0)));
}

#[test]
fn by_the_writer_of_a_code() {
    let (f32s, linear, log) = (Profile::F32, Profile::BlockLinearU16, Profile::BlockLogU8);
    let mut indices = [9; 3];
    assert_eq!(foldrima::unpack_indices(&[0; 2], 3, 2, &mut indices), refused(13, 2));
    assert_eq!(foldrima::unpack_indices(&[0x40], 3, 2, &mut indices), refused(14, 0));
    assert_eq!(indices, [9; 3]);
    assert_eq!(foldrima::validate_padding_zero(&[0, 0x10], 12), refused(14, 1));
    assert_eq!(foldrima::pack_indices(&[3, 4], 2, &mut [0]), refused(15, 1));
    assert_eq!(foldrima::dequantize_angle(1, 2), refused(15, 0));
    assert_eq!(foldrima::compress(&[1.0, -1.0], f32s, &mut [0; 8]), refused(16, 1));
    let range = Range { min: 1.0, max: 0.5 };
    assert_eq!(foldrima::decompress(linear, 1, range, &[0; 2], &mut [0.0]), refused(17, 0));
    assert_eq!(ScalarCodebook::uniform(2, 1.0, 1.0), refused(17, 0));
    assert_eq!(foldrima::compress(&[1.0], log, &mut [0; 9]), refused(18, 0));
    assert_eq!(foldrima::encoded_bytes(log, &[]), refused(18, 0));
    let only = Mode::PolarOnly;
    assert_eq!(foldrima::record_size(log, 0, 0, only, 0, None), refused(18, 0));
    assert_eq!(foldrima::record_size(f32s, 3, 0, only, 0, None), refused(3, 3));
    assert_eq!(foldrima::record_size(f32s, 2, 17, only, 0, None), refused(1, 17));
    assert_eq!(foldrima::record_size(f32s, 2, 1, Mode::PolarWithQjl, 0, None), refused(8, 0));
    let mut odd = RECORD;
    odd[0] = 8;
    assert_eq!(foldrima::read_record(&odd), refused(18, 8));
    assert_eq!(foldrima::read_record(&RECORD[..5]), refused(13, 5));
    assert_eq!(foldrima::radii_part(&odd), []);
    let wider = Setup { bits: 2, directions: &[0.5; 8], ..ONLY };
    assert_eq!(wider.inner_product_estimate(&[1.0; 2], &RECORD), refused(20, 0));
    assert_eq!(wider.decode_approximate(&RECORD, &mut [0.0; 2]), refused(20, 0));
}

#[test]
fn in_words() {
    let said = |number, place| Refusal { number, place }.to_string();
    for ((name, number), wanted) in refusal::NAMES.into_iter().zip((1..=23).chain([25, 26])) {
        assert_eq!(number, wanted, "{name}");
        assert!(said(number, 0).starts_with(&format!("refused ({number}): ")), "{name}");
    }
    let odd = "refused (3): odd dimension; the dimension: 7";
    assert_eq!(said(refusal::ODD_DIMENSION, 7), odd);
    assert_eq!(said(refusal::ZERO_DIMENSION, 0), "refused (2): dimension 0");
    assert_eq!(said(24, 5), "refused with the unknown number 24 at 5");
    let mismatch = "refused (5): an input's length, or a record's dimension, is not the setup's, \
                    or an end lies before the one in front of it or behind the bytes; \
                    what was found: 34";
    assert_eq!(said(refusal::DIMENSION_MISMATCH, 34), mismatch);
    assert_eq!(said(21, 0), "refused (21): a scan's length is 0 or above 64");
    let full = "refused (22): a scan has taken 4,294,967,295 records, \
                or has fewer numbers left than there are records";
    assert_eq!(said(refusal::SCAN_FULL, 0), full);
    assert_eq!(said(23, 0), "refused (23): a norm is not finite or below zero");
    assert_eq!(said(25, 0), "refused (25): a scan's new length is 0 or above its present one");
    assert_eq!(said(26, 0), "refused (26): a stored rotation's dimension is above 512");
}

/// The radii of an accepted linear record, as read, have a range that starts higher; within
/// it the largest would read as infinite. As F32 they can always be written.
#[test]
fn a_linear_record_that_is_not_written_again() {
    let linear = [1, 4, 0, 0, 0, 1, 0, 0, 0, 0, 0xFF, 0xFF, 0x7F, 0x7F, 0x81, 1, 0xFF, 0xFF, 0];
    let header = foldrima::read_record(&linear).unwrap().kept().unwrap();
    assert_eq!((header.profile, header.dim, header.bits), (Profile::BlockLinearU16, 4, 1));
    let (mut radii, mut indices) = ([0.0; 2], [9; 2]);
    foldrima::read_radii(&linear, &mut radii).unwrap().kept().unwrap();
    foldrima::read_indices(&linear, &mut indices).unwrap().kept().unwrap();
    assert_eq!(radii[1], f32::MAX);
    let again = |profile, out: &mut [u8]| {
        foldrima::write_record(profile, 4, 1, header.mode, 0, None, &radii, &indices, &[], out)
    };
    assert_eq!(again(header.profile, &mut [0xA5; 19]), refused(16, 1));
    assert_eq!(again(Profile::F32, &mut [0xA5; 15]), Ok(()));
}
