//! A record of no bytes is a withdrawn position: no refusal and no value, in every call that
//! takes a record. Nothing is written for it, and a record of 1 to 5 bytes is refused.

use std::ptr::null;

use foldrima::{call, call_under, raw, refusal, Position, Refusal, Setup, TurboMode};
use one_pair::{RECORD, SETUP};

mod one_pair;

const QUERY: [f32; 2] = [1.0, 3.0];
const PROJECTED: [f32; 3] = [1.0, 3.0, 4.0];

/// The same with three projections.
const BOTH: Setup = Setup {
    mode: TurboMode::PolarWithQjl,
    bits: 2,
    projections: 3,
    matrix: &[1.0, 0.0, 0.0, 1.0, 1.0, 1.0],
    ..SETUP
};

type Answered = Result<Position<()>, Refusal>;

fn without_value<T>(answer: Result<Position<T>, Refusal>) -> Answered {
    answer.map(|position| position.map(|_| ()))
}

/// What each call says of a record; its outputs, of this length, must stay as they were.
fn said(record: &[u8], len: usize) -> Vec<Answered> {
    let (mut floats, mut indices, mut signs) = (vec![7.5; len], vec![9; len], vec![9; len]);
    let mut all = vec![
        without_value(foldrima::read_record(record)),
        foldrima::read_radii(record, &mut floats),
        foldrima::read_indices(record, &mut indices),
        foldrima::read_signs(record, &mut signs),
    ];
    for (setup, projected) in [(SETUP, &[][..]), (BOTH, &PROJECTED[..])] {
        let prepared = setup.inner_product_estimate_prepared(&QUERY, projected, record);
        all.extend([
            without_value(setup.inner_product_estimate(&QUERY, record)),
            without_value(prepared),
            without_value(setup.l2_distance_estimate(&QUERY, record)),
            setup.decode_approximate(record, &mut floats),
        ]);
    }
    assert_eq!((floats, indices, signs), (vec![7.5; len], vec![9; len], vec![9; len]));
    all
}

#[test]
fn in_every_call() {
    // Decoding needs two floats, and is withdrawn for any other number of them too.
    for len in [0, 1, 2, 3, 64] {
        assert_eq!(said(&[], len), [Ok(Position::Withdrawn); 12], "{len}");
    }
    assert_eq!(foldrima::radii_part(&[]), []);
    assert_eq!(foldrima::indices_part(&[]), []);
    assert_eq!(foldrima::signs_part(&[]), []);
}

#[test]
fn not_with_one_to_five_bytes() {
    for len in 1..=5 {
        let refused = Err(Refusal { number: refusal::MALFORMED_LENGTH, place: len });
        assert_eq!(said(&RECORD[..len], 1), [refused; 12], "{len}");
    }
}

#[test]
fn after_the_checks_of_a_setup() {
    let refused = |number, place| Err(Refusal { number, place });
    let table = [-1.0, 0.0, 1.0, 1.5];
    let mut out = [7.5; 3];
    for (setup, refused) in [
        (Setup { dim: 0, ..BOTH }, refused(2, 0)),
        (Setup { bits: 1, ..BOTH }, refused(1, 1)),
        (Setup { directions: &table, ..BOTH }, refused(7, 3)),
    ] {
        let prepared = setup.inner_product_estimate_prepared(&QUERY, &PROJECTED, &[]);
        assert_eq!(without_value(prepared), refused);
        assert_eq!(without_value(setup.inner_product_estimate(&QUERY, &[])), refused);
        assert_eq!(without_value(setup.l2_distance_estimate(&QUERY, &[])), refused);
        assert_eq!(setup.decode_approximate(&[], &mut out), refused);
    }
    // What a prepared score is not lent can't refuse it.
    let matrix = [1.0, 0.0, f32::NAN, 1.0, 1.0, 1.0];
    for (setup, refused) in [
        (Setup { rotation: &[1.0, 0.5], ..BOTH }, refused(10, 1)),
        (Setup { matrix: &matrix, ..BOTH }, refused(9, 2)),
    ] {
        assert_eq!(without_value(setup.inner_product_estimate(&QUERY, &[])), refused);
        assert_eq!(without_value(setup.l2_distance_estimate(&QUERY, &[])), refused);
        assert_eq!(setup.decode_approximate(&[], &mut out), refused);
        let prepared = setup.inner_product_estimate_prepared(&QUERY, &PROJECTED, &[]);
        assert_eq!(prepared, Ok(Position::Withdrawn));
    }
    assert_eq!(out, [7.5; 3]);
}

#[test]
fn after_the_checks_of_a_query() {
    let (infinite, largest) = (f32::INFINITY, f32::MAX);
    let steep = Setup { matrix: &[2.0, 0.0, 0.0, 1.0, 1.0, 1.0], ..BOTH };
    let refused = |number, place| Err(Refusal { number, place });
    for (setup, query, refused) in [
        (BOTH, &[1.0; 3][..], refused(5, 3)),
        (BOTH, &[1.0, infinite], refused(11, 1)),
        (BOTH, &[largest, largest], refused(11, 0)),
        (steep, &[0.75 * largest, 0.0], refused(11, 0)),
    ] {
        assert_eq!(setup.inner_product_estimate(query, &[]), refused);
        assert_eq!(setup.l2_distance_estimate(query, &[]), refused);
    }
    let prepared = |rotated: &[f32], projected: &[f32]| {
        BOTH.inner_product_estimate_prepared(rotated, projected, &[])
    };
    assert_eq!(prepared(&QUERY[..1], &PROJECTED), refused(5, 1));
    assert_eq!(prepared(&QUERY, &PROJECTED[..2]), refused(5, 2));
    assert_eq!(prepared(&[1.0, infinite], &PROJECTED), refused(11, 1));
    assert_eq!(prepared(&QUERY, &[1.0, f32::NAN, 1.0]), refused(11, 1));
}

/// Makes a call, whose number and place must say withdrawn.
fn withdrawn(call: impl FnOnce(*mut u32, *mut usize)) {
    let (mut number, mut place) = (99, 99);
    call(&mut number, &mut place);
    assert_eq!((number, place), (255, 0));
}

#[test]
fn a_score_keeps_what_its_value_held() {
    let mut value = 7.5;
    for (setup, mode, projected) in [(SETUP, 0, &[][..]), (BOTH, 1, &PROJECTED[..])] {
        let Setup { dim, bits, projections, directions, .. } = setup;
        let to: *mut f32 = &mut value;
        withdrawn(|n, p| unsafe {
            call_under!(
                setup,
                (mode, 0),
                foldrima_inner_product_estimate([QUERY], null(), 0, n, p, to)
            )
        });
        withdrawn(|n, p| unsafe {
            call_under!(
                setup,
                (mode, 0),
                foldrima_l2_distance_estimate([QUERY], null(), 0, n, p, to)
            )
        });
        withdrawn(|n, p| unsafe {
            call!(foldrima_inner_product_estimate_prepared(
                mode,
                dim,
                bits,
                projections,
                0,
                [directions],
                [QUERY],
                [projected],
                null(),
                0,
                n,
                p,
                to
            ))
        });
    }
    assert_eq!(value, 7.5);
}

#[test]
fn a_reading_keeps_what_its_header_held() {
    let (mut mode, mut profile, mut dim, mut bits, mut projections) = (91, 92, 93, 94, 95);
    let (mut min, mut max, mut has_norm, mut norm) = (7.5, 8.5, 96, 9.5);
    withdrawn(|n, p| unsafe {
        raw::foldrima_read_record(
            null(),
            0,
            n,
            p,
            &mut mode,
            &mut profile,
            &mut dim,
            &mut bits,
            &mut projections,
            &mut min,
            &mut max,
            &mut has_norm,
            &mut norm,
        )
    });
    assert_eq!((mode, profile, dim, bits, projections), (91, 92, 93, 94, 95));
    assert_eq!((min, max, has_norm, norm), (7.5, 8.5, 96, 9.5));
}

#[test]
fn an_output_keeps_what_it_held() {
    let (mut floats, mut indices, mut signs) = ([7.5; 2], [9; 2], [9; 2]);
    withdrawn(|n, p| unsafe {
        call_under!(SETUP, (0, 0), foldrima_decode_approximate(null(), 0, [mut floats], n, p))
    });
    withdrawn(|n, p| unsafe { call!(foldrima_read_radii(null(), 0, [mut floats], n, p)) });
    withdrawn(|n, p| unsafe { call!(foldrima_read_indices(null(), 0, [mut indices], n, p)) });
    withdrawn(|n, p| unsafe { call!(foldrima_read_signs(null(), 0, [mut signs], n, p)) });
    assert_eq!((floats, indices, signs), ([7.5; 2], [9; 2], [9; 2]));
}

#[test]
fn no_refusal_has_its_number() {
    assert_eq!(raw::WITHDRAWN, 255);
    assert_eq!(refusal::NAMES.len(), 25);
    for (name, number) in refusal::NAMES {
        assert!(number != 0 && number != raw::WITHDRAWN, "{name}");
    }
}

#[test]
fn as_an_option() {
    assert_eq!(Position::Kept(1.5).kept(), Some(1.5));
    assert_eq!(Position::<f32>::Withdrawn.kept(), None);
    assert_eq!(Position::Kept(2).map(|two| two + 1), Position::Kept(3));
    assert_eq!(Position::<u8>::Withdrawn.map(u32::from), Position::Withdrawn);
}
