//! Source norms: written where they are given, read as they stand, and scaling the residual.

use foldrima::{
    call, call_under, raw, refusal, Position, RadiusCodecProfileV1 as Profile, Refusal, Setup,
    TurboMode as Mode,
};
use one_pair::{RECORD, SETUP};

mod one_pair;

/// One pair and three projections.
const BOTH: Setup = Setup {
    mode: Mode::PolarWithQjl,
    bits: 2,
    projections: 3,
    matrix: &[1.0, 0.0, 0.0, 1.0, 1.0, 1.0],
    ..SETUP
};
const QUERY: [f32; 2] = [1.0, 3.0];
/// (1, 3, 4) is what the query projects to: with these signs the sum is 2.
const SKETCH: [i8; 3] = [1, -1, 1];

/// The largest norm whose product with root(PI / 2) is finite.
const EDGE: u32 = 0x7F4C_4229;

const GOOD: [f32; 12] = [
    1.0,
    0.0,
    -0.0,
    2.5,
    0.1,
    1.0e-30,
    f32::from_bits(1),
    f32::from_bits(0x007F_FFFF),
    f32::MIN_POSITIVE,
    1.0e30,
    2.7e38,
    f32::MAX,
];
const BAD: [f32; 10] = [
    f32::INFINITY,
    f32::NEG_INFINITY,
    f32::from_bits(0x7FC0_0000),
    f32::from_bits(0xFFC0_0000),
    f32::from_bits(0x7F80_0001),
    f32::from_bits(0xFFFF_FFFF),
    -f32::from_bits(1),
    -f32::MIN_POSITIVE,
    -1.0,
    -f32::MAX,
];

fn refused<T>(number: u32, place: usize) -> Result<T, Refusal> {
    Err(Refusal { number, place })
}

/// P13 with this norm.
fn normed(norm: f32) -> [u8; 20] {
    let mut record = [6, 2, 0, 0, 0, 1, 3, 0, 0, 0, 9, 9, 9, 9, 0, 0, 0x80, 0x3F, 1, 5];
    record[10..14].copy_from_slice(&norm.to_le_bytes());
    record
}

/// The same in the linear form: a range, and a number within it.
fn linear(norm: f32, min: f32, max: f32, number: u16) -> [u8; 26] {
    let mut record = [0; 26];
    record[..6].copy_from_slice(&[7, 2, 0, 0, 0, 1]);
    record[6..10].copy_from_slice(&min.to_le_bytes());
    record[10..14].copy_from_slice(&max.to_le_bytes());
    record[14] = 3;
    record[18..22].copy_from_slice(&norm.to_le_bytes());
    record[22..24].copy_from_slice(&number.to_le_bytes());
    record[24..].copy_from_slice(&[1, 5]);
    record
}

fn write(
    profile: Profile,
    mode: Mode,
    norm: Option<f32>,
    radius: f32,
    out: &mut [u8],
) -> Result<(), Refusal> {
    let (projections, signs) =
        if mode == Mode::PolarOnly { (0, &[][..]) } else { (3, &SKETCH[..]) };
    foldrima::write_record(profile, 2, 1, mode, projections, norm, &[radius], &[1], signs, out)
}

#[test]
fn written_as_given_and_read_as_it_stands() {
    for norm in GOOD {
        for (profile, wanted) in [
            (Profile::F32, &normed(norm)[..]),
            (Profile::BlockLinearU16, &linear(norm, 1.0, 1.0, 0)),
        ] {
            let mut out = vec![0xA5; wanted.len()];
            assert_eq!(write(profile, BOTH.mode, Some(norm), 1.0, &mut out), Ok(()));
            assert_eq!(out, wanted);
            let header = foldrima::read_record(&out).unwrap().kept().unwrap();
            assert_eq!((header.mode, header.profile), (BOTH.mode, profile));
            assert_eq!((header.dim, header.bits, header.projections), (2, 1, 3));
            assert_eq!((header.has_norm, header.norm.to_bits()), (true, norm.to_bits()));
            let (radii, indices) = (foldrima::radii_part(&out), foldrima::indices_part(&out));
            let size = if profile == Profile::F32 { 4 } else { 2 };
            assert_eq!(
                (radii.len(), indices, foldrima::signs_part(&out)),
                (size, &[1][..], &[5][..])
            );
            assert_eq!(radii, &out[out.len() - 2 - size..out.len() - 2]);
            let (mut radii, mut indices, mut signs) = ([9.0], [9], [9; 3]);
            foldrima::read_radii(&out, &mut radii).unwrap().kept().unwrap();
            foldrima::read_indices(&out, &mut indices).unwrap().kept().unwrap();
            foldrima::read_signs(&out, &mut signs).unwrap().kept().unwrap();
            assert_eq!((radii, indices, signs), ([1.0], [1], SKETCH));
        }
    }
}

#[test]
fn absent() {
    let mut out = [0xA5; 16];
    assert_eq!(write(Profile::F32, BOTH.mode, None, 1.0, &mut out), Ok(()));
    assert_eq!(out, [2, 2, 0, 0, 0, 1, 3, 0, 0, 0, 0, 0, 0x80, 0x3F, 1, 5]);
    let header = foldrima::read_record(&out).unwrap().kept().unwrap();
    assert_eq!((header.has_norm, header.norm.to_bits()), (false, 0x3F80_0000));
    let header = foldrima::read_record(&RECORD).unwrap().kept().unwrap();
    assert_eq!((header.has_norm, header.norm.to_bits()), (false, 0x3F80_0000));
    // Whatever stands beside has_norm 0 is not looked at, and every other has_norm is given.
    let write = |has_norm: u8, norm: f32, out: &mut [u8]| {
        let (mut number, mut place) = (99, 99);
        let (radius, index) = ([1.0], [1]);
        let (a, b, c) = (radius.as_ptr(), index.as_ptr(), SKETCH.as_ptr());
        let (to, len, n, p) = (out.as_mut_ptr(), out.len(), &mut number, &mut place);
        unsafe {
            raw::foldrima_write_record(
                0, 2, 1, 1, 3, has_norm, norm, a, 1, b, 1, c, 3, to, len, n, p,
            )
        };
        (number, place)
    };
    let size = |mode: u8, has_norm: u8| {
        let (mut number, mut place, mut value) = (99, 99, 99);
        unsafe {
            let (n, p) = (&mut number, &mut place);
            raw::foldrima_record_size(0, 2, 1, mode, 3, has_norm, n, p, &mut value)
        };
        (number, place, value)
    };
    for norm in BAD {
        let mut again = [0xA5; 16];
        assert_eq!((write(0, norm, &mut again), again), ((0, 0), out));
    }
    assert_eq!((size(1, 0), size(0, 0)), ((0, 0, 16), (0, 0, 11)));
    for has_norm in 1..=255 {
        let mut out = [0xA5; 20];
        assert_eq!((write(has_norm, 2.5, &mut out), out), ((0, 0), normed(2.5)));
        assert_eq!(size(1, has_norm), (0, 0, 20));
        assert_eq!(size(0, has_norm), (18, 0, 99));
    }
}

#[test]
fn refused_in_writing() {
    let (f32s, linear, log) = (Profile::F32, Profile::BlockLinearU16, Profile::BlockLogU8);
    let mut out = [0xA5; 20];
    for norm in BAD {
        assert_eq!(write(f32s, BOTH.mode, Some(norm), 1.0, &mut out), refused(23, 0));
        // Before bad radii and an output of another length; a length of an input is before it.
        assert_eq!(write(f32s, BOTH.mode, Some(norm), -1.0, &mut out), refused(23, 0));
        assert_eq!(write(linear, BOTH.mode, Some(norm), f32::NAN, &mut []), refused(23, 0));
        let short = |signs: &[i8], out: &mut [u8]| {
            foldrima::write_record(f32s, 2, 1, BOTH.mode, 3, Some(norm), &[-1.0], &[9], signs, out)
        };
        assert_eq!(short(&SKETCH[..2], &mut out), refused(5, 2));
        assert_eq!(short(&[0; 3], &mut out), refused(23, 0));
    }
    for norm in GOOD.into_iter().chain(BAD) {
        let some = Some(norm);
        for profile in [f32s, linear, log] {
            assert_eq!(write(profile, SETUP.mode, some, -1.0, &mut out), refused(18, 0));
            let size = |dim| foldrima::record_size(profile, dim, 1, SETUP.mode, 0, some);
            assert_eq!((size(2), size(0)), (refused(18, 0), refused(18, 0)));
        }
        assert_eq!(write(log, BOTH.mode, some, 1.0, &mut out), refused(18, 0));
        // With signs the scalars come next.
        let size = |dim, bits, rows| foldrima::record_size(f32s, dim, bits, BOTH.mode, rows, some);
        assert_eq!((size(0, 0, 0), size(3, 0, 0)), (refused(2, 0), refused(3, 3)));
        assert_eq!((size(2, 16, 0), size(2, 1, 0)), (refused(1, 16), refused(8, 0)));
    }
    assert_eq!(write(f32s, BOTH.mode, Some(2.5), -1.0, &mut out), refused(16, 0));
    assert_eq!(write(f32s, BOTH.mode, Some(2.5), 1.0, &mut out[..16]), refused(6, 20));
    assert_eq!(out, [0xA5; 20]);
}

#[test]
fn refused_in_reading() {
    for norm in BAD {
        assert_eq!(foldrima::read_record(&normed(norm)), refused(23, 0));
        assert_eq!(foldrima::read_record(&linear(norm, 1.0, 1.0, 0)), refused(23, 0));
        assert_eq!(BOTH.inner_product_estimate(&QUERY, &normed(norm)), refused(23, 0));
        assert_eq!(BOTH.l2_distance_estimate(&QUERY, &normed(norm)), refused(23, 0));
        assert_eq!(BOTH.decode_approximate(&normed(norm), &mut [7.5; 2]), refused(23, 0));
        let prepared = BOTH.inner_product_estimate_prepared(&QUERY, &[1.0; 3], &normed(norm));
        assert_eq!(prepared, refused(23, 0));
        assert_eq!(foldrima::radii_part(&normed(norm)), []);
        assert_eq!(foldrima::read_signs(&normed(norm), &mut [9; 3]), refused(23, 0));
        // 17 comes before it, 16 and 14 behind it.
        assert_eq!(foldrima::read_record(&linear(norm, 1.0, 0.5, 0)), refused(17, 0));
        let infinite = linear(norm, f32::from_bits(0x73C0_0000), f32::MAX, 65535);
        assert_eq!(foldrima::read_record(&infinite), refused(23, 0));
        let mut radius = normed(norm);
        radius[14..18].copy_from_slice(&f32::NAN.to_le_bytes());
        assert_eq!(foldrima::read_record(&radius), refused(23, 0));
        let mut padded = normed(norm);
        (padded[18], padded[19]) = (0x81, 0x85);
        assert_eq!(foldrima::read_record(&padded), refused(23, 0));
    }
    // The norm's bit stands only beside that of signs.
    for map in 0..=255u8 {
        let mut record = normed(2.5);
        record[0] = map;
        let read = foldrima::read_record(&record);
        let undefined = read == refused(refusal::UNDEFINED_PROFILE, map.into());
        assert_eq!(undefined, !matches!(map, 0..=3 | 6 | 7), "{map}");
    }
    // The header has four bytes more.
    for (record, head) in [(&normed(2.5)[..], 14), (&linear(2.5, 1.0, 1.0, 0), 22)] {
        for len in 6..record.len() {
            assert_eq!(foldrima::read_record(&record[..len]), refused(13, len));
        }
        let mut none = record.to_vec();
        none[head - 8] = 0;
        assert_eq!(foldrima::read_record(&none[..head - 1]), refused(13, head - 1));
        assert_eq!(foldrima::read_record(&none[..head]), refused(8, 0));
    }
}

#[test]
fn a_refused_reading_keeps_what_its_header_held() {
    for record in [&normed(-1.0)[..], &normed(2.5)[..13]] {
        let (mut number, mut place) = (99, 99);
        let (mut mode, mut profile, mut dim, mut bits, mut rows) = (91, 92, 93, 94, 95);
        let (mut min, mut max, mut has_norm, mut norm) = (7.5, 8.5, 96, 9.5);
        unsafe {
            let (a, b, c, d, e) = (&mut mode, &mut profile, &mut dim, &mut bits, &mut rows);
            let (f, g, h, i) = (&mut min, &mut max, &mut has_norm, &mut norm);
            let (n, p) = (&mut number, &mut place);
            call!(foldrima_read_record([record], n, p, a, b, c, d, e, f, g, h, i))
        };
        assert!(number == 23 || number == 13);
        assert_eq!((mode, profile, dim, bits, rows), (91, 92, 93, 94, 95));
        assert_eq!((min, max, has_norm, norm), (7.5, 8.5, 96, 9.5));
    }
}

/// K is root(PI / 2) × norm / m, in that order, each step rounded.
#[test]
fn in_scores() {
    let root = 1.0 / 2.0f32.sqrt();
    let (mut rotated, mut projected) = ([9.0; 2], [9.0; 3]);
    BOTH.prepare_query(&QUERY, &mut rotated, &mut projected).unwrap();
    let mut other = 0;
    for norm in GOOD {
        let half = (std::f32::consts::PI / 2.0).sqrt();
        let residual = half * norm / 3.0 * 2.0;
        other += (half / 3.0 * norm * 2.0 != residual) as usize;
        let value = |value: f32| match value.is_finite() {
            true => Ok(Position::Kept(value)),
            false => refused(12, 0),
        };
        let (record, score) = (normed(norm), 4.0 * root + residual);
        let sketch = BOTH.sketch_score(&QUERY, &SKETCH, norm).map(Position::Kept);
        assert_eq!(sketch, value(residual), "{norm}");
        assert_eq!(BOTH.inner_product_estimate(&QUERY, &record), value(score), "{norm}");
        let prepared = BOTH.inner_product_estimate_prepared(&rotated, &projected, &record);
        assert_eq!(prepared, value(score), "{norm}");
        let sum = 11.0 - 2.0 * score;
        let distance = match score.is_finite() {
            true => value(sum.max(0.0)),
            false => refused(12, 0),
        };
        assert_eq!(BOTH.l2_distance_estimate(&QUERY, &record), distance, "{norm}");
        // Decoding doesn't look at it.
        let mut out = [9.0; 2];
        BOTH.decode_approximate(&record, &mut out).unwrap().kept().unwrap();
        assert_eq!(out, [root, root]);
    }
    assert!(other > 0);
}

#[test]
fn in_a_sketch_score() {
    let largest = f32::MAX;
    for norm in BAD {
        assert_eq!(BOTH.sketch_score(&QUERY, &SKETCH, norm), refused(23, 0));
        assert_eq!(SETUP.sketch_score(&QUERY, &[], norm), refused(23, 0));
        // 11 and 5 come before it, and 10; 12 comes behind it.
        assert_eq!(BOTH.sketch_score(&[1.0, f32::NAN], &[], norm), refused(11, 1));
        assert_eq!(BOTH.sketch_score(&[largest, largest], &[], norm), refused(11, 2));
        assert_eq!(BOTH.sketch_score(&QUERY, &SKETCH[..2], norm), refused(5, 2));
        assert_eq!(BOTH.sketch_score(&QUERY, &[1, 0, 1], norm), refused(10, 1));
        assert_eq!(BOTH.sketch_score(&[largest, 0.0], &[1; 3], norm), refused(23, 0));
        assert_eq!(SETUP.sketch_score(&QUERY, &[1], norm), refused(5, 1));
        assert_eq!(SETUP.sketch_score(&QUERY[..1], &[], norm), refused(5, 1));
    }
    assert_eq!(BOTH.sketch_score(&[largest, 0.0], &[1; 3], 1.0), refused(12, 0));
    // Above the largest f32 / root(PI / 2) the scale is infinite, also for a sum of zero.
    assert_eq!(BOTH.sketch_score(&QUERY, &SKETCH, largest), refused(12, 0));
    assert_eq!(BOTH.sketch_score(&[0.0; 2], &SKETCH, largest), refused(12, 0));
    let edge = f32::from_bits(EDGE);
    assert!(BOTH.sketch_score(&QUERY, &SKETCH, edge).is_ok());
    assert_eq!(BOTH.sketch_score(&QUERY, &SKETCH, f32::from_bits(EDGE + 1)), refused(12, 0));
    for norm in GOOD {
        assert_eq!(SETUP.sketch_score(&QUERY, &[], norm).map(f32::to_bits), Ok(0));
    }
    // The value keeps what it held.
    let (mut number, mut place, mut value) = (99, 99, 7.5);
    unsafe {
        let (n, p, v) = (&mut number, &mut place, &mut value);
        call_under!(BOTH, (1, 0), foldrima_sketch_score([QUERY], [SKETCH], -1.0, n, p, v))
    };
    assert_eq!((number, place, value), (23, 0, 7.5));
}
