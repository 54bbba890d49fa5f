//! Document 01's worked cases P1 to P13, put to the oracle, to the list of refusals and
//! to the plain sums.

use cases::{
    ask::ask,
    case::{Answer, Case, Mode, Profile, Setup, Value},
    expect::{expected, Expected},
    paper::Refusal,
};

fn value(case: Case) -> Value {
    match expected(&case) {
        Expected::Value { value, by_rust: true, .. } => value,
        other => panic!("{case}: {other:?}"),
    }
}

fn refused(case: Case) -> (u32, u64) {
    assert!(matches!(ask(&case), Answer::Error(_)), "{case}: the Rust does not refuse");
    match expected(&case) {
        Expected::Refused(Refusal { number, place }) => (number, place),
        other => panic!("{case}: {other:?}"),
    }
}

#[test]
fn bits() {
    let pack =
        |indices: &[u16], bits, out| Case::PackIndices { indices: indices.into(), bits, out };
    let unpack = |bytes: &[u8], count, bits| Case::UnpackIndices {
        bytes: bytes.into(),
        count,
        bits,
        out: count,
    };
    assert_eq!(value(pack(&[1, 2, 3], 2, 1)), Value::Bytes(vec![0x39]));
    assert_eq!(refused(unpack(&[0x79], 3, 2)), (14, 0));
    assert_eq!(value(pack(&[5, 2], 3, 1)), Value::Bytes(vec![0x15]));
    assert_eq!(value(pack(&[256, 1], 9, 3)), Value::Bytes(vec![0, 3, 0]));
    let signs = Case::PackSigns { signs: vec![1, -1, 1], out: 1 };
    assert_eq!(value(signs), Value::Bytes(vec![5]));
    let padded = Case::UnpackSigns { bytes: vec![0x0D], count: 3, out: 3 };
    assert_eq!(refused(padded), (14, 0));
    assert_eq!(value(pack(&[], 7, 0)), Value::Bytes(vec![]));
    assert_eq!(refused(Case::PackedLen { count: 1 << 60, bits: 16 }), (19, 0));
    let fewer = Case::PackedLen { count: (1 << 60) - 1, bits: 16 };
    assert_eq!(value(fewer), Value::Number((1 << 61) - 2));
}

#[test]
fn rotation_root_and_angle() {
    let apply = Case::Apply {
        inverse: false,
        dim: 4,
        signs: vec![1.0; 4],
        input: vec![1.0, 2.0, 3.0, 4.0],
        out: 4,
    };
    assert_eq!(value(apply), Value::Floats(vec![5.0, -1.0, -2.0, 0.0]));
    let root = Case::Root { value: 2.0 };
    assert_eq!(value(root), Value::Float(f32::from_bits(0x3FB5_04F3)));
    assert_eq!(std::f32::consts::PI.to_bits(), 0x4049_0FDB);
    assert_eq!((std::f32::consts::PI / 2.0).sqrt().to_bits(), 0x3FA0_6C99);
    assert_eq!(value(Case::Angle { bits: 1, index: 1 }), Value::Float(0.0));
}

#[test]
fn radii() {
    let compress =
        Case::Compress { radii: vec![0.0, 0.5, 1.0], profile: Profile::BlockLinearU16, out: 6 };
    let payload = vec![0, 0, 0, 0x80, 0xFF, 0xFF];
    assert_eq!(value(compress), Value::Radii { min: 0.0, max: 1.0, payload });
    let small = f32::EPSILON / 2.0;
    let floor =
        Case::Compress { radii: vec![0.0, small], profile: Profile::BlockLinearU16, out: 4 };
    let payload = vec![0, 0, 0, 0x80];
    assert_eq!(value(floor), Value::Radii { min: 0.0, max: small, payload: payload.clone() });
    let back = Case::Decompress {
        profile: Profile::BlockLinearU16,
        count: 2,
        min: 0.0,
        max: small,
        payload,
        out: 2,
    };
    let Value::Floats(back) = value(back) else { panic!() };
    assert!((back[1] - small / 2.0).abs() < small / 1000.0);
}

#[test]
fn records() {
    let write = |mode, projections, signs: &[i8], out| Case::WriteRecord {
        profile: Profile::F32,
        dim: 2,
        bits: 1,
        mode,
        projections,
        norm: None,
        radii: vec![1.0],
        indices: vec![1],
        signs: signs.into(),
        out,
    };
    let plain = vec![0, 2, 0, 0, 0, 1, 0, 0, 0x80, 0x3F, 1];
    assert_eq!(value(write(Mode::PolarOnly, 0, &[], 11)), Value::Bytes(plain.clone()));
    let signed = vec![2, 2, 0, 0, 0, 1, 3, 0, 0, 0, 0, 0, 0x80, 0x3F, 1, 5];
    let signs = [1, -1, 1];
    assert_eq!(value(write(Mode::PolarWithQjl, 3, &signs, 16)), Value::Bytes(signed.clone()));
    let (radii, indices, norm) = (vec![1.0], vec![1], None);
    let read = Value::Record { radii, indices, signs: vec![], norm };
    assert_eq!(value(Case::ReadRecord { record: plain }), read);
    let (radii, indices) = (vec![1.0], vec![1]);
    let read = Value::Record { radii, indices, signs: signs.to_vec(), norm };
    assert_eq!(value(Case::ReadRecord { record: signed }), read);
}

#[test]
fn score_of_one_pair() {
    // Index 1 of 1 bit points along (1, 0), so the score is the first rotated value.
    let setup = Setup::of_one_pair(Mode::PolarOnly, 0, vec![1.0, 1.0], vec![]);
    let record = vec![0, 2, 0, 0, 0, 1, 0, 0, 0x80, 0x3F, 1];
    let case = Case::Score { setup, query: vec![1.0, 3.0], record };
    let root = 1.0 / 2.0f32.sqrt();
    assert_eq!(value(case), Value::Float(4.0 * root));
}
