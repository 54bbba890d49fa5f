//! Document 01's worked cases P1 to P13, through the safe calls.

use foldrima::{
    Position, RadiusCodecProfileV1 as Profile, Range, Refusal, Setup, TurboMode as Mode,
};
use one_pair::{RECORD as P12, SETUP};

mod one_pair;

const P13: [u8; 16] = [2, 2, 0, 0, 0, 1, 3, 0, 0, 0, 0, 0, 0x80, 0x3F, 1, 5];

fn packed(indices: &[u16], bits: u8) -> Vec<u8> {
    let mut out = vec![0xA5; foldrima::packed_len(indices.len(), bits).unwrap()];
    foldrima::pack_indices(indices, bits, &mut out).unwrap();
    let mut back = vec![7; indices.len()];
    foldrima::unpack_indices(&out, indices.len(), bits, &mut back).unwrap();
    assert_eq!(back, indices);
    out
}

#[test]
fn p1_to_p7_bits() {
    assert_eq!(packed(&[1, 2, 3], 2), [0x39]);
    let mut out = [9; 3];
    let refused = foldrima::unpack_indices(&[0x79], 3, 2, &mut out);
    assert_eq!((refused, out), (Err(Refusal { number: 14, place: 0 }), [9; 3]));
    assert_eq!(packed(&[5, 2], 3), [0x15]);
    assert_eq!(packed(&[256, 1], 9), [0, 3, 0]);
    let mut out = [0xA5];
    foldrima::pack_signs(&[1, -1, 1], &mut out).unwrap();
    assert_eq!(out, [5]);
    let mut out = [9; 3];
    foldrima::unpack_signs(&[5], 3, &mut out).unwrap();
    assert_eq!(out, [1, -1, 1]);
    let mut out = [9; 3];
    let refused = foldrima::unpack_signs(&[0x0D], 3, &mut out);
    assert_eq!((refused, out), (Err(Refusal { number: 14, place: 0 }), [9; 3]));
    assert_eq!(foldrima::validate_padding_zero(&[5], 3), Ok(()));
    assert_eq!(packed(&[], 7), []);
    assert_eq!(foldrima::packed_len(1 << 60, 16), Err(Refusal { number: 19, place: 0 }));
    assert_eq!(foldrima::packed_len((1 << 60) - 1, 16), Ok((1 << 61) - 2));
}

#[test]
fn p8_to_p10_rotation_root_and_angle() {
    let (signs, input) = ([1.0; 4], [1.0, 2.0, 3.0, 4.0]);
    let mut turned = [9.0; 4];
    foldrima::apply(4, &signs, &input, &mut turned).unwrap();
    assert_eq!(turned, [5.0, -1.0, -2.0, 0.0]);
    let mut back = [9.0; 4];
    foldrima::apply_inverse(4, &signs, &turned, &mut back).unwrap();
    assert_eq!(back, input);
    assert_eq!(foldrima::sqrt(2.0).to_bits(), 0x3FB5_04F3);
    assert_eq!(foldrima::sqrt(-0.0).to_bits(), 0x8000_0000);
    assert!(foldrima::sqrt(-1.0).is_nan());
    assert_eq!(foldrima::dequantize_angle(1, 1), Ok(0.0));
    assert_eq!(foldrima::dequantize_angle(1, 0), Ok(-std::f32::consts::PI));
}

#[test]
fn p11_radii() {
    let linear = Profile::BlockLinearU16;
    let mut out = [0xA5; 6];
    let range = foldrima::compress(&[0.0, 0.5, 1.0], linear, &mut out).unwrap();
    assert_eq!((range, out), (Range { min: 0.0, max: 1.0 }, [0, 0, 0, 0x80, 0xFF, 0xFF]));
    assert_eq!(foldrima::encoded_bytes(linear, &out), Ok(14));
    let mut back = [9.0; 3];
    foldrima::decompress(linear, 3, range, &out, &mut back).unwrap();
    assert_eq!((back[0], back[2]), (0.0, 1.0));
    assert_eq!(back[1], 32768.0 / 65535.0);
}

#[test]
fn p12_and_p13_records() {
    let mut out = [0xA5; 11];
    let only = Mode::PolarOnly;
    let (f32s, radii, indices) = (Profile::F32, [1.0], [1]);
    foldrima::write_record(f32s, 2, 1, only, 0, None, &radii, &indices, &[], &mut out).unwrap();
    assert_eq!(out, P12);
    let mut out = [0xA5; 16];
    let (both, signs) = (Mode::PolarWithQjl, [1, -1, 1]);
    foldrima::write_record(f32s, 2, 1, both, 3, None, &radii, &indices, &signs, &mut out).unwrap();
    assert_eq!(out, P13);
    for (record, mode, projections) in [(&P12[..], only, 0), (&P13[..], both, 3)] {
        let header = foldrima::read_record(record).unwrap().kept().unwrap();
        assert_eq!((header.mode, header.profile), (mode, Profile::F32));
        assert_eq!((header.dim, header.bits, header.projections), (2, 1, projections));
        assert_eq!((header.has_norm, header.norm), (false, 1.0));
        let (mut radii, mut indices, mut found) = ([9.0], [9], vec![9; projections]);
        foldrima::read_radii(record, &mut radii).unwrap().kept().unwrap();
        foldrima::read_indices(record, &mut indices).unwrap().kept().unwrap();
        foldrima::read_signs(record, &mut found).unwrap().kept().unwrap();
        assert_eq!((radii, indices, &found[..]), ([1.0], [1], &signs[..projections]));
        assert_eq!(foldrima::radii_part(record), [0, 0, 0x80, 0x3F]);
        assert_eq!(foldrima::indices_part(record), [1]);
    }
    assert_eq!(foldrima::signs_part(&P12), []);
    assert_eq!(foldrima::signs_part(&P13), [5]);
    assert_eq!(foldrima::radii_part(&P13[..15]), []);
}

#[test]
fn scores_of_one_pair() {
    // Index 1 of 1 bit points along (1, 0): the polar sum is the first rotated value.
    let root = 1.0 / 2.0f32.sqrt();
    let setup = SETUP;
    assert_eq!(setup.check(), Ok(()));
    let query = [1.0, 3.0];
    let kept = |value: f32| Ok(Position::Kept(value));
    assert_eq!(setup.inner_product_estimate(&query, &P12), kept(4.0 * root));
    assert_eq!(setup.l2_distance_estimate(&query, &P12), kept(11.0 - 2.0 * (4.0 * root)));
    let mut out = [9.0; 2];
    setup.decode_approximate(&P12, &mut out).unwrap().kept().unwrap();
    assert_eq!(out, [root, root]);

    // Projections (1, 3, 4) with signs (+, −, +) add up to 2.
    let residual = (std::f32::consts::PI / 2.0).sqrt() / 3.0 * 2.0;
    let matrix = [1.0, 0.0, 0.0, 1.0, 1.0, 1.0];
    let both =
        Setup { mode: Mode::PolarWithQjl, bits: 2, projections: 3, matrix: &matrix, ..setup };
    let (mut rotated, mut projected) = ([9.0; 2], [9.0; 3]);
    both.prepare_query(&query, &mut rotated, &mut projected).unwrap();
    assert_eq!((rotated, projected), ([4.0 * root, -2.0 * root], [1.0, 3.0, 4.0]));
    assert_eq!(both.sketch_score(&query, &[1, -1, 1], 1.0), Ok(residual));
    let score = 4.0 * root + residual;
    assert_eq!(both.inner_product_estimate(&query, &P13), kept(score));
    assert_eq!(both.inner_product_estimate_prepared(&rotated, &projected, &P13), kept(score));
    let mut sketch = [9; 3];
    both.sketch(&[1.0, -3.0], &mut sketch).unwrap();
    assert_eq!(sketch, [1, -1, -1]);
}

#[test]
fn codebook_and_seeds() {
    let book = foldrima::ScalarCodebook::uniform(2, 0.0, 4.0).unwrap();
    assert_eq!(book.levels(), Ok(4));
    assert_eq!(book.quantize(2.5), Ok(2));
    assert_eq!(book.dequantize_midpoint(2), Ok(2.5));
    assert_eq!(foldrima::hadamard_seed(u64::MAX), 0xA11C_E55E_D5A5_EED4);
    let matrix = 0xCAFE_BABE_0000_0001u64.wrapping_add(0xDEAD_BEEF_1234_5678);
    assert_eq!(foldrima::matrix_seed(1), matrix.wrapping_add(1));
}
