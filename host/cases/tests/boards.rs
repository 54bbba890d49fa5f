//! What is expected of boards of other dimensions: the lent matrix is the Rust's own, its
//! refusals come in the place of the signs', records have any even dimension, and the generator
//! makes each of these in every call.

use std::rc::Rc;

use cases::{
    ask::{ask, hush},
    boards::{calls, classes_of, record, stored},
    case::{strictly_same_float, Answer, Case, Kind, Mode, Profile, Setup, Value, CALLS},
    expect::{expected, Expected},
    make::{Maker, Size},
    paper::Refusal,
    record::{Parts, NORM, SIGNS},
    rng::Rng,
};
use oracle::{rotation::RotationKind, thin};

fn bits(values: &[f32]) -> Vec<u32> {
    values.iter().map(|value| value.to_bits()).collect()
}

fn refused(number: u32, place: u64) -> Expected {
    Expected::Refused(Refusal { number, place })
}

/// A stored setup of this dimension with the host's own table of one polar bit and a row of
/// ones for each projection.
fn setup(mode: Mode, dim: usize, projections: usize, rotation: Vec<f32>) -> Setup {
    let counted = if mode == Mode::PolarOnly { 0 } else { projections };
    Setup {
        mode,
        dim,
        bits: 1 + (mode == Mode::PolarWithQjl) as u8,
        projections,
        kind: Kind::Stored,
        rotation,
        directions: Rc::new(thin::directions(1)),
        matrix: vec![1.0; counted * dim],
        own_table: true,
        rust: None,
        halves: None,
    }
}

/// Rows and columns are not mixed up anywhere between the lent list and the Rust's sums.
#[test]
fn the_serialised_matrix_is_the_lent_one() {
    // Row 0 is (1, 3) and row 1 is (2, 4).
    let rotation = thin::stored_rotation(2, &[1.0, 2.0, 3.0, 4.0]).unwrap();
    assert_eq!(thin::apply(&rotation, &[5.0, 6.0]).unwrap(), [23.0, 34.0]);
    assert_eq!(thin::apply_inverse(&rotation, &[5.0, 6.0]).unwrap(), [17.0, 39.0]);
    let mut rng = Rng(5);
    for mode in [Mode::PolarOnly, Mode::PolarWithQjl] {
        let drawn = thin::turbo_by(RotationKind::StoredQr, mode, 6, 4, 2, 0).unwrap();
        for _ in 0..500 {
            let matrix: Vec<f32> = (0..36).map(|_| rng.finite()).collect();
            let rows: Vec<f32> = (0..12).map(|_| rng.finite()).collect();
            let turbo = thin::turbo_with(&drawn, &matrix, &rows);
            assert_eq!(bits(&thin::turbo_stored_matrix(&turbo)), bits(&matrix));
            let mut unit = [0.0; 6];
            let j = rng.below(6);
            unit[j] = 1.0;
            let (turned, _) = thin::prepare_query(&turbo, &unit).unwrap();
            // Zeros are added to each entry of column j, so only the zeros' signs may differ.
            assert_eq!(turned, matrix[6 * j..6 * j + 6]);
        }
    }
}

/// Sums of the Rust start from −0.0, and those of the documents from +0.0.
#[test]
fn a_sum_of_zeros_below_zero() {
    let matrix = vec![-0.0; 4];
    let case = Case::StoredApply { inverse: false, dim: 2, matrix, input: vec![1.0; 2], out: 2 };
    let Answer::Value(Value::Floats(rust)) = ask(&case) else { panic!("{case}") };
    assert_eq!(bits(&rust), [0x8000_0000; 2]);
    let Expected::Value { exact: Some(Value::Floats(exact)), .. } = expected(&case) else {
        panic!("{case}")
    };
    assert_eq!(bits(&exact), [0; 2]);
}

#[test]
fn refusals_of_a_stored_rotation() {
    let rotate = |dim: usize, matrix: Vec<f32>, input: usize, out: usize| {
        let input = vec![f32::INFINITY; input];
        let [a, b] = [false, true].map(|inverse| {
            let (matrix, input) = (matrix.clone(), input.clone());
            expected(&Case::StoredApply { inverse, dim, matrix, input, out })
        });
        assert_eq!(a, b);
        a
    };
    let mut flawed = vec![1.0; 36];
    assert_eq!(rotate(0, vec![], 0, 0), refused(2, 0));
    assert_eq!(rotate(513, vec![f32::NAN], 0, 0), refused(3, 513));
    assert_eq!(rotate(514, vec![f32::NAN], 0, 0), refused(26, 0));
    assert_eq!(rotate(usize::MAX - 1, vec![], 0, 0), refused(26, 0));
    assert_eq!(rotate(6, vec![f32::NAN; 6], 0, 0), refused(5, 6));
    (flawed[13], flawed[18]) = (f32::NAN, f32::INFINITY);
    assert_eq!(rotate(6, flawed, 0, 0), refused(9, 13));
    assert_eq!(rotate(6, vec![1.0; 36], 5, 0), refused(5, 5));
    assert_eq!(rotate(6, vec![1.0; 36], 6, 0), refused(6, 6));
    assert!(matches!(rotate(6, vec![1.0; 36], 6, 6), Expected::Value { by_rust: true, .. }));
    // Of 512 the Rust takes all, and of 514 the port none, though the Rust does.
    let last = rotate(512, vec![1.0; 512 * 512], 512, 512);
    assert!(matches!(last, Expected::Value { by_rust: true, .. }));
    assert!(thin::stored_rotation(514, &vec![1.0; 514 * 514]).is_ok());
    assert_eq!(rotate(514, vec![1.0; 514 * 514], 514, 514), refused(26, 0));
}

#[test]
fn refusals_of_a_stored_setup() {
    let (both, nan) = (Mode::PolarWithQjl, f32::NAN);
    let check = |setup: Setup| expected(&Case::SetupCheck { setup: setup.with_rust() });
    let wrong = || setup(both, 514, 0, vec![nan]);
    assert_eq!(check(Setup { dim: 0, ..wrong() }), refused(2, 0));
    assert_eq!(check(Setup { dim: 515, ..wrong() }), refused(3, 515));
    assert_eq!(check(Setup { bits: 17, ..wrong() }), refused(1, 17));
    assert_eq!(check(wrong()), refused(8, 0));
    assert_eq!(check(Setup { projections: 1, ..wrong() }), refused(26, 0));
    let mut flawed = setup(both, 6, 1, vec![1.0; 36]);
    flawed.matrix[0] = nan;
    let table = Rc::new(vec![-1.0, 0.0, 1.0, 1.5]);
    assert_eq!(
        check(Setup { rotation: vec![nan; 6], directions: Rc::new(vec![]), ..flawed }),
        refused(5, 6)
    );
    let mut flawed = setup(both, 6, 1, vec![1.0; 36]);
    (flawed.rotation[7], flawed.rotation[8], flawed.matrix[2]) = (nan, nan, nan);
    assert_eq!(check(Setup { directions: table.clone(), ..flawed }), refused(9, 7));
    let mut flawed = setup(both, 6, 1, vec![1.0; 36]);
    flawed.matrix[2] = nan;
    assert_eq!(check(Setup { directions: table, ..flawed }), refused(7, 3));
    let mut flawed = setup(both, 6, 1, vec![1.0; 36]);
    flawed.matrix[2] = nan;
    assert_eq!(check(flawed), refused(9, 2));
    let good = check(setup(both, 6, 1, vec![1.0; 36]));
    assert!(matches!(good, Expected::Value { by_rust: true, .. }));
    let signs = Setup { kind: Kind::FastHadamard, ..setup(both, 6, 1, vec![1.0; 6]) };
    assert_eq!(check(signs), refused(4, 6));
}

/// A record of this dimension, all radii 1.0 and all indices 1.
fn whole(dim: usize, projections: u32, norm: Option<f32>) -> Vec<u8> {
    let pairs = dim / 2;
    let signs = vec![1; projections as usize];
    Parts {
        map: if projections > 0 { SIGNS } else { 0 } + if norm.is_some() { NORM } else { 0 },
        dim: dim as u32,
        bits: 1,
        min: 0.0,
        max: 0.0,
        projections,
        norm: norm.unwrap_or(1.0),
        radii: vec![1.0f32; pairs].iter().flat_map(|radius| radius.to_le_bytes()).collect(),
        indices: thin::pack_indices(&vec![1; pairs], 1).unwrap(),
        signs: thin::pack_signs(&signs).unwrap(),
    }
    .bytes()
}

#[test]
fn records_of_any_even_dimension() {
    for dim in [6, 90, 514, 4094, 4096] {
        let read = expected(&Case::ReadRecord { record: whole(dim, 0, None) });
        assert!(matches!(read, Expected::Value { by_rust: true, .. }), "{dim}");
        let (radii, indices, out) =
            (vec![1.0; dim / 2], vec![1; dim / 2], whole(dim, 0, None).len());
        let write = Case::WriteRecord {
            profile: Profile::F32,
            dim,
            bits: 1,
            mode: Mode::PolarOnly,
            projections: 0,
            norm: None,
            radii,
            indices,
            signs: vec![],
            out,
        };
        let Expected::Value { value: Value::Bytes(bytes), by_rust: true, .. } = expected(&write)
        else {
            panic!("{dim}")
        };
        assert_eq!(bytes, whole(dim, 0, None));
    }
    assert_eq!(expected(&Case::ReadRecord { record: whole(4098, 0, None) }), refused(4, 4098));
    let mut odd = whole(6, 0, None);
    odd[1] = 7;
    assert_eq!(expected(&Case::ReadRecord { record: odd }), refused(3, 7));
}

#[test]
fn a_record_of_another_board() {
    let only = Mode::PolarOnly;
    let stored = setup(only, 8, 0, vec![1.0; 64]).with_rust();
    let signs = Setup { kind: Kind::FastHadamard, ..setup(only, 8, 0, vec![1.0; 8]) }.with_rust();
    for lent in [stored, signs] {
        for dim in [6, 90, 514, 4094] {
            let (setup, query, record) = (lent.clone(), vec![1.0; 8], whole(dim, 0, None));
            assert_eq!(expected(&Case::Score { setup, query, record }), refused(5, dim as u64));
        }
    }
    let setup = setup(only, 6, 0, vec![1.0; 36]).with_rust();
    let case = Case::Score { setup, query: vec![1.0; 6], record: whole(6, 0, None) };
    let Expected::Value { value, by_rust: true, .. } = expected(&case) else { panic!("{case}") };
    // Each of the six sums is 6, and index 1 stands for (1, 0).
    assert_eq!(value, Value::Float(18.0));
}

/// With the norm 1.0 turbo.rs's own calls and its two halves agree under a stored rotation, bit
/// for bit.
#[test]
fn the_halves_are_the_whole() {
    let mut rng = Rng(6);
    let (mut scored, mut finite) = (0, 0);
    for _ in 0..2000 {
        let dim = rng.pick(&[2, 4, 6, 8, 10, 30]);
        let projections = 1 + rng.below(4);
        let mut lent = setup(Mode::PolarWithQjl, dim, projections, rng.vector(dim * dim));
        lent.matrix = rng.vector(dim * projections);
        let lent = lent.with_rust();
        let (query, record) = (rng.vector(dim), whole(dim, projections as u32, None));
        let (Some(Ok(turbo)), Some(halves)) = (&lent.rust, &lent.halves) else { panic!() };
        let code = cases::ask::code(&record).unwrap().unwrap();
        let pairs = [
            (thin::score(turbo, &code, &query), halves.score(&code, 1.0, &query)),
            (thin::distance(turbo, &code, &query), halves.distance(&code, 1.0, &query)),
        ];
        for (own, by_halves) in pairs {
            scored += 1;
            match (own, by_halves) {
                (Ok(own), Ok(by_halves)) => {
                    finite += 1;
                    assert!(strictly_same_float(own, by_halves), "{own} {by_halves}");
                }
                (own, by_halves) => assert_eq!(own, by_halves),
            }
        }
    }
    assert!(finite > scored / 3, "{finite} of {scored}");
}

#[test]
fn every_call_has_each_class() {
    hush();
    for (call, name) in CALLS.into_iter().enumerate().filter(|(_, name)| calls().contains(name)) {
        let mut maker = Maker::new(31, Size::Small);
        let mut missing = classes_of(name);
        for _ in 0..20_000 {
            let case = maker.make(call);
            let wanted = expected(&case);
            for class in stored(&case, &wanted).into_iter().chain(record(&case, &wanted)) {
                assert!(classes_of(name).contains(&class), "{name}: {class}, {case}");
                missing.retain(|other| *other != class);
            }
            if missing.is_empty() {
                break;
            }
        }
        assert!(missing.is_empty(), "{name}: {missing:?}");
    }
}
