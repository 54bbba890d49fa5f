//! Refusals that no sum need show: what is expected of them one by one, that the generator makes
//! each class in every call, and the port at every place of a block.

use std::rc::Rc;

use cases::{
    ask::hush,
    case::{Case, Kind, Mode, Setup, Value, CALLS},
    expect::{expected, Expected},
    hidden::{classes, classes_of, HIDDEN},
    make::{Maker, Size},
    paper::Refusal,
    record::{Parts, SIGNS},
};
use oracle::thin;

const INF: f32 = f32::INFINITY;

fn refused(number: u32, place: u64) -> Expected {
    Expected::Refused(Refusal { number, place })
}

/// A setup of four entries and two rows, one polar bit, so that index 1 stands for (1, 0).
fn setup(kind: Kind, rotation: Vec<f32>, matrix: Vec<f32>) -> Rc<Setup> {
    Setup {
        mode: Mode::PolarWithQjl,
        dim: 4,
        bits: 2,
        projections: 2,
        kind,
        rotation,
        directions: Rc::new(thin::directions(1)),
        matrix,
        own_table: true,
        rust: None,
        halves: None,
    }
    .with_rust()
}

fn signs(rotation: [f32; 4], matrix: [f32; 8]) -> Rc<Setup> {
    setup(Kind::FastHadamard, rotation.to_vec(), matrix.to_vec())
}

/// A record under such a setup: these radii, index 1 everywhere, both signs +.
fn record(radii: &[f32]) -> Vec<u8> {
    Parts {
        map: SIGNS,
        dim: 2 * radii.len() as u32,
        bits: 1,
        min: 0.0,
        max: 0.0,
        projections: 2,
        norm: 1.0,
        radii: radii.iter().flat_map(|radius| radius.to_le_bytes()).collect(),
        indices: thin::pack_indices(&vec![1; radii.len()], 1).unwrap(),
        signs: vec![3],
    }
    .bytes()
}

/// What is expected of all calls that take a query.
fn asked(setup: &Rc<Setup>, query: &[f32], radii: &[f32]) -> [Expected; 5] {
    let (again, query, record) = (|| setup.clone(), || query.to_vec(), || record(radii));
    let (rotated, projected, signs, norm) = (4, 2, vec![1, 1], 1.0);
    [
        Case::Sketch { setup: again(), vector: query(), out: 2 },
        Case::Prepare { setup: again(), query: query(), rotated, projected },
        Case::SketchScore { setup: again(), query: query(), signs, norm },
        Case::Score { setup: again(), query: query(), record: record() },
        Case::Distance { setup: again(), query: query(), record: record() },
    ]
    .map(|case| expected(&case))
}

fn decoded(setup: &Rc<Setup>, radii: &[f32]) -> Expected {
    expected(&Case::Decode { setup: setup.clone(), record: record(radii), out: 4 })
}

#[test]
fn an_entry_under_a_zero() {
    for bad in [INF, -INF, f32::NAN] {
        let under = signs([1.0; 4], [1.0, 1.0, 1.0, 1.0, 1.0, bad, 1.0, 1.0]);
        for query in [[1.0, 0.0, 1.0, 1.0], [1.0, -0.0, 1.0, 1.0], [0.0; 4]] {
            assert_eq!(asked(&under, &query, &[1.0, 1.0]), [(); 5].map(|_| refused(9, 5)));
        }
        assert_eq!(decoded(&under, &[1.0, 1.0]), refused(9, 5));
        assert_eq!(decoded(&under, &[-1.0, 1.0]), refused(9, 5));
        // Column by column: the entry of row 3 and column 1.
        let mut matrix = vec![0.5; 16];
        matrix[7] = bad;
        let stored = setup(Kind::Stored, matrix.clone(), vec![1.0; 8]);
        let query = [1.0, 0.0, 1.0, 1.0];
        assert_eq!(asked(&stored, &query, &[1.0, 1.0]), [(); 5].map(|_| refused(9, 7)));
        assert_eq!(decoded(&stored, &[1.0, 0.0]), refused(9, 7));
        for inverse in [false, true] {
            let (matrix, input) = (matrix.clone(), vec![1.0, 0.0, 1.0, 0.0]);
            let turned = Case::StoredApply { inverse, dim: 4, matrix, input, out: 4 };
            assert_eq!(expected(&turned), refused(9, 7));
        }
    }
}

#[test]
fn a_sign_that_keeps_sums_finite() {
    for bad in [0.0, 2.0, f32::NAN] {
        let under = signs([1.0, bad, 1.0, 1.0], [1.0; 8]);
        for entry in [0.0, 1.0, INF] {
            let query = [1.0, entry, 1.0, 1.0];
            assert_eq!(asked(&under, &query, &[1.0, 1.0]), [(); 5].map(|_| refused(10, 1)));
        }
        assert_eq!(decoded(&under, &[1.0, 1.0]), refused(10, 1));
    }
}

#[test]
fn a_direction_that_no_index_names() {
    for bad in [2.0, 1.0000001, f32::NAN] {
        let good = signs([1.0; 4], [1.0; 8]);
        let under = Rc::new(Setup {
            rotation: vec![1.0; 4],
            directions: Rc::new(vec![0.0, bad, 1.0, 0.0]),
            matrix: vec![1.0, 1.0, 1.0, 1.0, 1.0, 1.0, 1.0, INF],
            own_table: false,
            rust: None,
            halves: None,
            ..*good
        });
        assert_eq!(asked(&under, &[1.0; 4], &[1.0, 1.0]), [(); 5].map(|_| refused(7, 1)));
        assert_eq!(decoded(&under, &[1.0, -1.0]), refused(7, 1));
        let (rotated, projected, record) = (vec![1.0; 4], vec![1.0; 2], record(&[1.0, 1.0]));
        let case = Case::ScorePrepared { setup: under, query: None, rotated, projected, record };
        assert_eq!(expected(&case), refused(7, 1));
    }
}

#[test]
fn values_that_are_not_finite_after_all() {
    let large = f32::MAX;
    let good = signs([1.0; 4], [1.0; 8]);
    // After the rotation, though no radius takes it up; the sketch has its signs.
    let [sketch, rest @ ..] = asked(&good, &[large; 4], &[0.0, 0.0]);
    assert!(
        matches!(sketch, Expected::Value { value: Value::Signs(found), .. } if found == [1, 1])
    );
    assert_eq!(rest, [refused(11, 0), refused(11, 0), refused(11, 0), refused(11, 0)]);
    // In a projection alone: infinite, and NaN in the second row.
    let steep = signs([1.0; 4], [0.0, 0.0, 0.0, 0.0, large, large, -large, -large]);
    let [sketch, rest @ ..] = asked(&steep, &[2.0; 4], &[1.0, 1.0]);
    assert!(
        matches!(sketch, Expected::Value { value: Value::Signs(found), .. } if found == [1, -1])
    );
    assert_eq!(rest, [refused(11, 1), refused(11, 1), refused(11, 1), refused(11, 1)]);
    // In the query, under a column of zeros.
    let zeros = signs([1.0; 4], [1.0, 0.0, 1.0, 1.0, 1.0, 0.0, 1.0, 1.0]);
    for bad in [INF, f32::NAN] {
        let query = [1.0, bad, 1.0, 1.0];
        assert_eq!(asked(&zeros, &query, &[0.0, 0.0]), [(); 5].map(|_| refused(11, 1)));
    }
}

#[test]
fn a_radius_beside_a_finite_score() {
    let good = signs([1.0; 4], [1.0; 8]);
    for bad in [-1.0, -f32::from_bits(1), INF, f32::NAN] {
        let radii = [1.0, bad];
        let [.., score, distance] = asked(&good, &[1.0; 4], &radii);
        assert_eq!([score, distance, decoded(&good, &radii)], [(); 3].map(|_| refused(16, 1)));
        let mut both = record(&radii);
        // The indices' bytes are the last but one.
        let at = both.len() - 2;
        both[at] |= 0x80;
        assert_eq!(expected(&Case::ReadRecord { record: both }), refused(16, 1));
    }
    let [.., score, _] = asked(&good, &[1.0; 4], &[1.0, -0.0]);
    assert!(matches!(score, Expected::Value { by_rust: true, .. }));
}

#[test]
fn every_call_has_each_class() {
    hush();
    for (call, name) in CALLS.into_iter().enumerate().filter(|(_, name)| HIDDEN.contains(name)) {
        let mut maker = Maker::new(37, Size::Full);
        let mut missing = classes_of(name);
        for _ in 0..20_000 {
            let case = maker.make(call);
            let found = classes(&case, &expected(&case));
            missing.retain(|class| !found.contains(class));
            if missing.is_empty() {
                break;
            }
        }
        assert!(missing.is_empty(), "{name}: {missing:?}");
    }
}

/// The port on lists of every length around two blocks, with one item that offends or is
/// particular at every place.
#[cfg(feature = "capi")]
mod at_every_place {
    use super::*;
    use cases::{case::Profile, port};

    const LENGTHS: [usize; 14] = [1, 2, 7, 8, 9, 31, 32, 33, 63, 64, 65, 127, 128, 129];

    fn held(case: &Case) {
        let (given, wanted) = (port::answer(case), expected(case));
        assert!(given.agrees(&wanted), "{case}: {given:?}, {wanted:?}");
        assert!(given.agrees_in_zeros(&wanted), "{case}: {given:?}, {wanted:?}");
    }

    fn places() -> impl Iterator<Item = (usize, usize)> {
        LENGTHS.into_iter().flat_map(|count| (0..count).map(move |at| (count, at)))
    }

    #[test]
    fn signs() {
        for (count, at) in places() {
            for bad in [-128, -2, 0, 2, 3, 127] {
                let mut signs: Vec<i8> = (0..count).map(|i| [1, -1][i % 3 % 2]).collect();
                signs[at] = bad;
                let case = Case::PackSigns { signs, out: count.div_ceil(8) };
                assert_eq!(expected(&case), refused(10, at as u64));
                held(&case);
            }
        }
    }

    #[test]
    fn radii() {
        for (count, at) in places() {
            for bad in [-0.0, 0.0, -1.0, -f32::from_bits(1), INF, f32::NAN, f32::MAX] {
                let mut radii: Vec<f32> = (0..count).map(|i| (i % 5) as f32 * 0.5).collect();
                radii[at] = bad;
                for (profile, width) in [(Profile::F32, 4), (Profile::BlockLinearU16, 2)] {
                    let (radii, out) = (radii.clone(), width * count);
                    held(&Case::Compress { radii, profile, out });
                }
                held(&Case::ReadRecord { record: record(&radii) });
            }
        }
    }

    /// Records of every such length under a stored rotation that is the identity.
    #[test]
    fn records() {
        for count in LENGTHS {
            let dim = 2 * count;
            let identity = (0..dim * dim).map(|at| (at % dim == at / dim) as u8 as f32);
            let lent = Setup {
                mode: Mode::PolarWithQjl,
                dim,
                bits: 2,
                projections: 2,
                kind: Kind::Stored,
                rotation: identity.collect(),
                directions: Rc::new(thin::directions(1)),
                matrix: vec![0.5; 2 * dim],
                own_table: true,
                rust: None,
                halves: None,
            };
            let setup = lent.with_rust();
            for at in 0..count {
                for bad in [-0.0, -1.0, INF] {
                    let mut radii = vec![1.0; count];
                    radii[at] = bad;
                    let (setup, record) = (setup.clone(), record(&radii));
                    let (rotated, projected) = (vec![0.25; dim], vec![1.0; 2]);
                    held(&Case::Decode { setup: setup.clone(), record: record.clone(), out: dim });
                    held(&Case::ScorePrepared { setup, query: None, rotated, projected, record });
                }
            }
        }
    }
}
