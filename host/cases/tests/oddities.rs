//! Answers of the Rust that surprise, each with a smallest input. They belong into the
//! list of differences: document 01 refuses most of these inputs. `debug_assertions`
//! stands for a build that checks for overflow.

use cases::{
    ask::ask,
    case::{Answer, Case, Profile, Value},
};
use oracle::{
    codebook::ScalarCodebook, packed::PackedPolarCode, polar::PolarCode, thin, turbo::TurboMode,
};

fn panics(case: Case) -> bool {
    matches!(ask(&case), Answer::Panic(_))
}

#[test]
fn a_codebook_panics_on_min_above_max_or_nan() {
    let quantize = |min, max| Case::CodebookQuantize { bits: 1, min, max, value: 0.0 };
    assert!(panics(quantize(1.0, 0.0)));
    assert!(panics(quantize(f32::NAN, 0.0)));
    assert!(panics(quantize(0.0, f32::NAN)));
    // Equal bounds do not: the quotient is NaN, and its index is 0.
    assert_eq!(ask(&quantize(0.0, 0.0)), Answer::Value(Value::Number(0)));
}

#[test]
fn a_codebook_of_full_width_reads_a_nan_quotient_as_zero() {
    let book = ScalarCodebook::uniform(8, -f32::MAX, f32::MAX).unwrap();
    assert_eq!(book.quantize(f32::MAX).unwrap(), 0);
    assert_eq!(book.quantize(0.0).unwrap(), 0);
    assert_eq!(book.dequantize_midpoint(0).unwrap(), f32::INFINITY);
}

#[test]
fn a_codebook_of_other_bits_is_not_checked() {
    let book = |bits| ScalarCodebook { bits, min: 0.0, max: 1.0 };
    // 2^17 levels in a u16: two values of the interval share an index.
    assert_eq!(book(17).quantize(0.25).unwrap(), 32768);
    assert_eq!(book(17).quantize(0.75).unwrap(), 32768);
    if !cfg!(debug_assertions) {
        assert_eq!(book(32).levels(), 1);
    } else {
        assert!(panics(Case::CodebookLevels { bits: 32, min: 0.0, max: 1.0 }));
    }
}

#[test]
fn an_angle_is_not_checked() {
    assert_eq!(thin::dequantize_angle(1, 2).unwrap(), std::f32::consts::PI);
    assert!(thin::dequantize_angle(1, 65535).unwrap() > 200_000.0);
    assert_eq!(panics(Case::Angle { bits: 32, index: 0 }), cfg!(debug_assertions));
}

#[test]
fn a_decompressed_length_wraps() {
    let case = |profile, count| Case::Decompress {
        profile,
        count,
        min: 0.0,
        max: 0.0,
        payload: vec![],
        out: 0,
    };
    for (profile, count) in [(Profile::F32, 1 << 62), (Profile::BlockLinearU16, 1 << 63)] {
        if cfg!(debug_assertions) {
            assert!(panics(case(profile, count)));
        } else {
            assert_eq!(ask(&case(profile, count)), Answer::Value(Value::Floats(vec![])));
        }
    }
}

#[test]
fn a_hostile_range_reads_as_nan_or_infinite() {
    let read = |value: u16, min, max| {
        let payload = value.to_le_bytes();
        thin::decompress(Profile::BlockLinearU16, 1, min, max, &payload).unwrap()[0]
    };
    assert!(read(0, -f32::MAX, f32::MAX).is_nan());
    assert_eq!(read(1, -f32::MAX, f32::MAX), f32::INFINITY);
    // Bounds that are not below zero can do it too, once.
    assert_eq!(read(65535, f32::from_bits(0x73C0_0000), f32::MAX), f32::INFINITY);
    assert_eq!(read(65535, f32::from_bits(0x73BF_FFFF), f32::MAX), f32::MAX);
}

#[test]
fn packing_accepts_what_unpacking_refuses() {
    let radii = vec![f32::from_bits(0x73C0_0000), f32::MAX];
    let code = PolarCode::from_parts(4, 1, radii, &[0, 0]).unwrap();
    let packed = PackedPolarCode::from_polar(&code, Profile::BlockLinearU16).unwrap();
    assert!(packed.unpack().is_err());
    // So a code that unpacks may be packed again and then refused.
    let linear = Profile::BlockLinearU16;
    let payload = [0x81, 1, 0xFF, 0xFF];
    let code = thin::turbo_code(linear, 4, 1, 0.0, f32::MAX, &payload, &[0], None).unwrap();
    let again = PackedPolarCode::from_polar(&code.polar_code, linear).unwrap();
    assert!(again.unpack().is_err());
}

#[test]
fn a_negative_range_is_admitted_where_no_radius_reads_below_zero() {
    let code = |value: u16| {
        let radii = value.to_le_bytes();
        thin::turbo_code(Profile::BlockLinearU16, 2, 1, -1.0, 1.0, &radii, &[0], None)
    };
    assert!(code(65535).is_ok());
    assert!(code(0).is_err());
}

#[test]
fn too_few_signs_leave_the_callers_values_in() {
    use oracle::rotation::Rotation;
    let rotation = thin::rotation(2, &[1.0]).unwrap();
    let mut output = [7.0, 7.0];
    rotation.apply(&[1.0, 1.0], &mut output).unwrap();
    // (1, 7) was rotated: the second entry is the output's own old value.
    assert_eq!(output[0], 8.0 * (1.0 / 2.0f32.sqrt()));
}

#[test]
fn a_matrix_length_wraps() {
    if !cfg!(debug_assertions) {
        let turbo = thin::turbo(TurboMode::PolarWithQjl, 2, 2, 1 << 63, 0).unwrap();
        assert!(thin::turbo_matrix(&turbo).is_empty());
        assert!(thin::prepare_query(&turbo, &[1.0, 1.0]).unwrap().1.is_empty());
    }
}

#[test]
fn a_distance_that_overflows_both_ways_is_zero() {
    // Both squared norms are infinite, and so is twice the score: the difference is NaN,
    // and `max` makes it 0. The port refuses it with 12. With the other sign, or with a
    // score that is infinite itself, the Rust refuses too.
    let turbo = thin::turbo(TurboMode::PolarOnly, 2, 1, 0, 0).unwrap();
    let turbo = thin::turbo_with(&turbo, &[1.0, 1.0], &[]);
    let code = |exponent, index| {
        let radius = 2f32.powi(exponent).to_le_bytes();
        thin::turbo_code(Profile::F32, 2, 1, 0.0, 0.0, &radius, &[index], None).unwrap()
    };
    let query = [2f32.powi(64), 0.0];
    let both = code(64, 1);
    assert_eq!(thin::score(&turbo, &both, &query), Ok(f32::from_bits(0x7F35_04F3)));
    assert!(thin::distance_sum(&turbo, &both, &query).unwrap().is_nan());
    assert_eq!(thin::distance(&turbo, &both, &query), Ok(0.0));
    let other = code(64, 0);
    assert_eq!(thin::distance_sum(&turbo, &other, &query), Ok(f32::INFINITY));
    assert!(thin::distance(&turbo, &other, &query).is_err());
    let higher = code(65, 1);
    assert!(thin::score(&turbo, &higher, &query).is_err());
    assert!(thin::distance(&turbo, &higher, &query).is_err());
}

#[test]
fn a_sum_of_minus_zeros_is_minus_zero() {
    // With rustc 1.95 `sum` starts at -0.0. Only the sign of a zero shows it.
    let qjl = thin::qjl(1, 1, &[-0.0]).unwrap();
    let projected = thin::project_query(&qjl, &[0.0]).unwrap();
    assert_eq!(projected, [0.0]);
    println!("a sum of one -0.0 is {:?}", projected[0]);
    // The sketch reads either zero as +1.
    assert_eq!(thin::sketch(&qjl, &[0.0]).unwrap(), [1]);
    // The score's polar sum starts at +0.0, so a score is never -0.0.
}

#[test]
fn a_sketch_reads_a_nan_dot_as_minus_one() {
    let qjl = thin::qjl(2, 1, &[f32::MAX, -f32::MAX]).unwrap();
    assert_eq!(thin::sketch(&qjl, &[2.0, 2.0]).unwrap(), [-1]);
    assert!(thin::project_query(&qjl, &[2.0, 2.0]).is_err());
}
