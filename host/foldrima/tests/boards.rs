//! Boards of other dimensions: stored rotations by themselves and under a setup, 26 with its
//! place and its order, and records of any even dimension to 4,096.

use foldrima::{
    call_under,
    refusal::STORED_DIMENSION,
    Position, RadiusCodecProfileV1 as Profile, Refusal,
    RotationKind::{FastHadamard, Stored},
    Setup, TurboMode as Mode,
};

fn refused<T>(number: u32, place: usize) -> Result<T, Refusal> {
    Err(Refusal { number, place })
}

/// The matrix that puts each value one place further: a 1 in row j + 1 of column j.
fn shift(dim: usize) -> Vec<f32> {
    let mut matrix = vec![0.0; dim * dim];
    (0..dim).for_each(|j| matrix[j * dim + (j + 1) % dim] = 1.0);
    matrix
}

/// Both ways, with one refusal for both, and where none is due the same values, NaNs being one.
fn both_ways(dim: usize, matrix: &[f32], input: &[f32], output: &mut [f32]) -> Result<(), Refusal> {
    let bits = |values: &[f32]| -> Vec<Option<u32>> {
        values.iter().map(|x| (!x.is_nan()).then_some(x.to_bits())).collect()
    };
    let mut turned = output.to_vec();
    let forward = foldrima::stored_apply(dim, matrix, input, &mut turned);
    assert_eq!(foldrima::stored_apply_inverse(dim, matrix, input, output), forward);
    assert_eq!(bits(&turned), bits(output));
    forward
}

#[test]
fn rows_one_way_and_columns_back() {
    // Row 0 is (1, 3) and row 1 is (2, 4).
    let (matrix, input) = ([1.0, 2.0, 3.0, 4.0], [5.0, 6.0]);
    let mut output = [9.0; 2];
    foldrima::stored_apply(2, &matrix, &input, &mut output).unwrap();
    assert_eq!(output, [23.0, 34.0]);
    foldrima::stored_apply_inverse(2, &matrix, &input, &mut output).unwrap();
    assert_eq!(output, [17.0, 39.0]);
    for dim in [2, 4, 6, 8, 10, 90, 300, 512] {
        let input: Vec<f32> = (0..dim).map(|i| i as f32).collect();
        let (mut turned, mut back) = (vec![9.0; dim], vec![9.0; dim]);
        foldrima::stored_apply(dim, &shift(dim), &input, &mut turned).unwrap();
        assert!((0..dim).all(|i| turned[(i + 1) % dim] == input[i]), "{dim}");
        foldrima::stored_apply_inverse(dim, &shift(dim), &turned, &mut back).unwrap();
        assert_eq!(back, input);
    }
}

#[test]
fn sums_run_along_the_index_from_plus_zero() {
    // The first 1 is lost beside 2^24, and the second comes when the sum is 0 again.
    let large = 16777216.0;
    let along = [large, 1.0, -large, 1.0];
    let (mut row, mut column, mut output) = ([0.0; 16], [0.0; 16], [9.0; 4]);
    for (j, entry) in along.into_iter().enumerate() {
        row[4 * j + 2] = entry;
        column[4 * 3 + j] = entry;
    }
    foldrima::stored_apply(4, &row, &[1.0; 4], &mut output).unwrap();
    assert_eq!(output, [0.0, 0.0, 1.0, 0.0]);
    foldrima::stored_apply_inverse(4, &column, &[1.0; 4], &mut output).unwrap();
    assert_eq!(output, [0.0, 0.0, 0.0, 1.0]);
    let zeros = [-0.0; 4];
    both_ways(4, &[1.0; 16], &zeros, &mut output).unwrap();
    assert!(output.iter().all(|zero| zero.to_bits() == 0));
}

#[test]
fn values_that_are_not_finite_pass_through() {
    let mut output = [9.0; 6];
    let input = [f32::INFINITY, 1.0, f32::NAN, 1.0, 1.0, 1.0];
    both_ways(6, &[1.0; 36], &input, &mut output).unwrap();
    assert!(output.iter().all(|value| value.is_nan()));
    let largest = [f32::MAX, f32::MAX, 0.0, 0.0, 0.0, 0.0];
    both_ways(6, &[1.0; 36], &largest, &mut output).unwrap();
    assert_eq!(output, [f32::INFINITY; 6]);
}

#[test]
fn refusals_of_a_stored_rotation() {
    let mut output = [7.5; 6];
    let out = &mut output;
    assert_eq!(both_ways(0, &[], &[], out), refused(2, 0));
    for dim in [1, 5, 513, 4097, usize::MAX] {
        assert_eq!(both_ways(dim, &[f32::NAN], &[], out), refused(3, dim));
    }
    // 26 comes before all that is lent, and where all of it would fit.
    for dim in [514, 600, 1024, 4096, 8192, 1 << 32, usize::MAX - 1] {
        assert_eq!(both_ways(dim, &[f32::NAN], &[1.0; 6], out), refused(STORED_DIMENSION, 0));
    }
    let (fitting, mut room) = (shift(514), vec![7.5; 514]);
    assert_eq!(both_ways(514, &fitting, &[1.0; 514], &mut room), refused(26, 0));
    assert_eq!(room, [7.5; 514]);
    assert_eq!(both_ways(512, &shift(512), &[1.0; 512], &mut room[..512]), Ok(()));
    for length in [0, 6, 35, 37] {
        assert_eq!(both_ways(6, &vec![f32::NAN; length], &[1.0; 5], out), refused(5, length));
    }
    // Row 1 of column 2 comes before row 0 of column 3.
    let mut matrix = shift(6);
    matrix[3 * 6] = f32::NEG_INFINITY;
    matrix[2 * 6 + 1] = f32::NAN;
    assert_eq!(both_ways(6, &matrix, &[1.0; 5], &mut out[..5]), refused(9, 13));
    matrix[2 * 6 + 1] = 0.0;
    assert_eq!(both_ways(6, &matrix, &[1.0; 5], &mut out[..5]), refused(9, 18));
    assert_eq!(both_ways(6, &shift(6), &[1.0; 5], &mut out[..5]), refused(5, 5));
    assert_eq!(both_ways(6, &shift(6), &[f32::NAN; 6], &mut out[..5]), refused(6, 6));
    assert_eq!(output, [7.5; 6]);
}

/// All that can be wrong with a stored setup, put right one by one in the order of the checks.
#[test]
fn the_order_of_a_stored_setup() {
    let mut flawed = shift(6);
    flawed[8] = f32::NAN;
    flawed[13] = f32::INFINITY;
    let row = [1.0, 1.0, 1.0, 1.0, f32::NAN, 1.0];
    let setup = Setup {
        mode: Mode::PolarWithQjl,
        dim: 0,
        bits: 1,
        projections: 0,
        kind: Stored,
        rotation: &[f32::NAN],
        directions: &[2.0; 3],
        matrix: &[f32::NAN; 2],
    };
    assert_eq!(setup.check(), refused(2, 0));
    assert_eq!(Setup { dim: 3, ..setup }.check(), refused(3, 3));
    let setup = Setup { dim: 514, ..setup };
    assert_eq!(setup.check(), refused(1, 1));
    let setup = Setup { bits: 2, ..setup };
    assert_eq!(setup.check(), refused(8, 0));
    let setup = Setup { projections: 1, ..setup };
    assert_eq!(setup.check(), refused(26, 0));
    let setup = Setup { dim: 6, ..setup };
    assert_eq!(setup.check(), refused(5, 1));
    let setup = Setup { rotation: &flawed, ..setup };
    assert_eq!(setup.check(), refused(5, 3));
    let setup = Setup { directions: &[-1.0, 0.0, 1.0, 1.5], ..setup };
    assert_eq!(setup.check(), refused(5, 2));
    let setup = Setup { matrix: &row, ..setup };
    assert_eq!(setup.check(), refused(9, 8));
    let good = shift(6);
    let setup = Setup { rotation: &good, ..setup };
    assert_eq!(setup.check(), refused(7, 3));
    let setup = Setup { directions: &[-1.0, 0.0, 1.0, 0.0], ..setup };
    assert_eq!(setup.check(), refused(9, 4));
    let setup = Setup { matrix: &[1.0; 6], ..setup };
    assert_eq!(setup.check(), Ok(()));
    // The same dimension under signs, and a power of two under a matrix.
    assert_eq!(Setup { kind: FastHadamard, ..setup }.check(), refused(4, 6));
    let (four, ones) = (shift(4), [1.0; 4]);
    let setup = Setup { dim: 4, matrix: &ones, ..setup };
    assert_eq!(Setup { rotation: &four, ..setup }.check(), Ok(()));
    assert_eq!(Setup { rotation: &ones, ..setup }.check(), refused(5, 4));
    assert_eq!(Setup { rotation: &ones, kind: FastHadamard, ..setup }.check(), Ok(()));
}

#[test]
fn every_number_but_zero_is_stored() {
    let rotation = shift(6);
    let setup = polar_only(6, &rotation);
    for kind in [0, 1, 2, 128, 255] {
        let (mut number, mut place) = (99, 99);
        let (n, p) = (&mut number, &mut place);
        unsafe { call_under!(setup, (0, kind), foldrima_check_setup(n, p)) };
        assert_eq!((number, place), if kind == 0 { (4, 6) } else { (0, 0) }, "{kind}");
    }
}

/// One polar bit, so that index 1 stands for the direction (1, 0), under a stored rotation.
fn polar_only(dim: usize, rotation: &[f32]) -> Setup<'_> {
    Setup {
        mode: Mode::PolarOnly,
        dim,
        bits: 1,
        projections: 0,
        kind: Stored,
        rotation,
        directions: &[-1.0, 0.0, 1.0, 0.0],
        matrix: &[],
    }
}

fn written(dim: usize, radius: impl Fn(usize) -> f32) -> Vec<u8> {
    let (f32s, mode) = (Profile::F32, Mode::PolarOnly);
    let size = foldrima::record_size(f32s, dim, 1, mode, 0, None).unwrap();
    let (mut record, radii) = (vec![0xA5; size], (0..dim / 2).map(radius).collect::<Vec<f32>>());
    let indices = vec![1; dim / 2];
    foldrima::write_record(f32s, dim, 1, mode, 0, None, &radii, &indices, &[], &mut record)
        .unwrap();
    record
}

#[test]
fn records_of_any_even_dimension() {
    for dim in [2, 6, 10, 90, 300, 510, 514, 1000, 4094, 4096] {
        let record = written(dim, |i| i as f32);
        assert_eq!(record.len(), 6 + 2 * dim + (dim / 2).div_ceil(8));
        let header = foldrima::read_record(&record).unwrap().kept().unwrap();
        assert_eq!((header.dim, header.bits, header.mode), (dim, 1, Mode::PolarOnly));
        let (mut radii, mut indices) = (vec![9.0; dim / 2], vec![9; dim / 2]);
        foldrima::read_radii(&record, &mut radii).unwrap().kept().unwrap();
        foldrima::read_indices(&record, &mut indices).unwrap().kept().unwrap();
        assert!(radii.iter().enumerate().all(|(i, radius)| *radius == i as f32));
        assert_eq!(indices, vec![1; dim / 2]);
        assert_eq!(foldrima::radii_part(&record).len(), 2 * dim);
        assert_eq!(foldrima::indices_part(&record).len(), (dim / 2).div_ceil(8));
    }
    let (f32s, mode) = (Profile::F32, Mode::PolarOnly);
    for dim in [4098, 8192, 1 << 20] {
        assert_eq!(foldrima::record_size(f32s, dim, 1, mode, 0, None), refused(4, dim));
        let mut record = written(6, |_| 1.0);
        record[1..5].copy_from_slice(&(dim as u32).to_le_bytes());
        assert_eq!(foldrima::read_record(&record), refused(4, dim));
        assert_eq!(foldrima::radii_part(&record), []);
    }
    assert_eq!(foldrima::record_size(f32s, 4097, 1, mode, 0, None), refused(3, 4097));
}

/// A record is scored and decoded under a setup of its own dimension only, and there is none of
/// 514 at all.
#[test]
fn records_of_six_and_514_under_setups() {
    let (eight, wide) = (shift(8), shift(512));
    let (plus, signs) = ([1.0; 8], [1.0; 512]);
    let hadamard = |dim, rotation| Setup { kind: FastHadamard, ..polar_only(dim, rotation) };
    for (record, setups) in [
        (written(6, |_| 1.0), [polar_only(8, &eight), hadamard(8, &plus)]),
        (written(514, |_| 1.0), [polar_only(512, &wide), hadamard(512, &signs)]),
    ] {
        let dim = foldrima::read_record(&record).unwrap().kept().unwrap().dim;
        for setup in setups {
            let (query, mut out) = (vec![1.0; setup.dim], vec![7.5; setup.dim]);
            assert_eq!(setup.inner_product_estimate(&query, &record), refused(5, dim));
            let prepared = setup.inner_product_estimate_prepared(&query, &[], &record);
            assert_eq!(prepared, refused(5, dim));
            assert_eq!(setup.l2_distance_estimate(&query, &record), refused(5, dim));
            assert_eq!(setup.decode_approximate(&record, &mut out), refused(5, dim));
            assert!(out.iter().all(|value| *value == 7.5));
        }
    }
    let (record, query, large) = (written(514, |_| 1.0), [1.0; 514], shift(514));
    for (setup, refusal) in [
        (polar_only(514, &large), Refusal { number: 26, place: 0 }),
        (hadamard(514, &query), Refusal { number: 4, place: 514 }),
    ] {
        assert_eq!(setup.inner_product_estimate(&query, &record), Err(refusal));
        let prepared = setup.inner_product_estimate_prepared(&query, &[], &record);
        assert_eq!(prepared, Err(refusal));
        assert_eq!(setup.decode_approximate(&record, &mut [0.0; 514]), Err(refusal));
    }
}

#[test]
fn a_board_of_90_features() {
    let rotation = shift(90);
    let setup = polar_only(90, &rotation);
    let record = written(90, |i| i as f32);
    let query: Vec<f32> = (0..90).map(|i| i as f32).collect();
    // The first value of pair i is that of feature 2i − 1.
    let wanted: usize = (1..45).map(|i| i * (2 * i - 1)).sum();
    let kept = |value| Ok(Position::Kept(value));
    assert_eq!(setup.inner_product_estimate(&query, &record), kept(wanted as f32));
    let mut rotated = [9.0; 90];
    setup.prepare_query(&query, &mut rotated, &mut []).unwrap();
    assert_eq!((rotated[0], rotated[1], rotated[89]), (89.0, 0.0, 88.0));
    let prepared = setup.inner_product_estimate_prepared(&rotated, &[], &record);
    assert_eq!(prepared, kept(wanted as f32));
    let squares: usize =
        (0..90).map(|i| i * i).sum::<usize>() + (0..45).map(|i| i * i).sum::<usize>();
    let distance = squares as f32 - 2.0 * wanted as f32;
    assert_eq!(setup.l2_distance_estimate(&query, &record), kept(distance));
    let mut out = [9.0; 90];
    setup.decode_approximate(&record, &mut out).unwrap().kept().unwrap();
    for (i, value) in out.into_iter().enumerate() {
        assert_eq!(value, if i % 2 == 1 && i < 89 { (i as f32 + 1.0) / 2.0 } else { 0.0 }, "{i}");
    }
    // A residual on top: one row that takes feature 7, with the norm 2.0.
    let mut row = [0.0; 90];
    row[7] = 1.0;
    let residual =
        Setup { mode: Mode::PolarWithQjl, bits: 2, projections: 1, matrix: &row, ..setup };
    let mut sketch = [9];
    residual.sketch(&query, &mut sketch).unwrap();
    assert_eq!(sketch, [1]);
    let alone = residual.sketch_score(&query, &sketch, 2.0).unwrap();
    assert_eq!(alone, (std::f32::consts::PI / 2.0).sqrt() * 2.0 / 1.0 * 7.0);
    let (f32s, mode) = (Profile::F32, Mode::PolarWithQjl);
    let mut signed = vec![0; foldrima::record_size(f32s, 90, 1, mode, 1, Some(2.0)).unwrap()];
    let (radii, indices) = ([1.0; 45], [1; 45]);
    let norm = Some(2.0);
    foldrima::write_record(f32s, 90, 1, mode, 1, norm, &radii, &indices, &sketch, &mut signed)
        .unwrap();
    let polar: f32 = (0..45).map(|i| rotated[2 * i]).sum();
    assert_eq!(residual.inner_product_estimate(&query, &signed), kept(polar + alone));
    assert_eq!(residual.inner_product_estimate(&query, &[]), Ok(Position::Withdrawn));
}

#[test]
fn a_score_by_a_prepared_query_tells_4_from_26() {
    let (record, query) = (written(6, |_| 1.0), [1.0; 6]);
    let rotation = shift(6);
    let stored = polar_only(6, &rotation);
    let under = |setup: Setup| setup.inner_product_estimate_prepared(&query, &[], &record);
    assert_eq!(under(stored), Ok(Position::Kept(3.0)));
    assert_eq!(under(Setup { kind: FastHadamard, ..stored }), refused(4, 6));
    assert_eq!(under(Setup { dim: 514, ..stored }), refused(26, 0));
    assert_eq!(under(Setup { dim: 514, kind: FastHadamard, ..stored }), refused(4, 514));
    // Before the directions, and after the bits.
    assert_eq!(under(Setup { dim: 514, directions: &[], ..stored }), refused(26, 0));
    assert_eq!(under(Setup { dim: 514, bits: 0, ..stored }), refused(1, 0));
    let gone = stored.inner_product_estimate_prepared(&query, &[], &[]);
    assert_eq!(gone, Ok(Position::Withdrawn));
    let large = Setup { dim: 514, ..stored }.inner_product_estimate_prepared(&query, &[], &[]);
    assert_eq!(large, refused(26, 0));
}
