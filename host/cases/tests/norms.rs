//! Source norms: how the Rust is asked about them, what is expected of a record with one, of
//! its writing and of a sketch score, and that norms of every class are made.

use std::{collections::BTreeMap, rc::Rc};

use cases::{
    ask::{ask, code},
    case::{strictly_same_float, Answer, Case, Mode, Profile, Setup, Value, CALLS},
    expect::{expected, Expected},
    make::{Maker, Size},
    norms::{self, class_of, classes_of, flaw_of, place_of, BAD, FLAWED, GOOD, PLACES},
    paper::Refusal,
    record,
};
use oracle::thin;

fn refused(number: u32, place: u64) -> Expected {
    Expected::Refused(Refusal { number, place })
}

fn call(name: &str) -> usize {
    CALLS.iter().position(|call| *call == name).unwrap()
}

/// A norm of each class, and of each kind of NaN.
const NORMS: [f32; 26] = [
    1.0,
    0.0,
    -0.0,
    f32::from_bits(1),
    f32::from_bits(0x007F_FFFF),
    f32::MIN_POSITIVE,
    0.75,
    2.5,
    1.0e9,
    f32::from_bits(0x5D80_0001),
    f32::from_bits(0x7F4C_4229),
    f32::from_bits(0x7F4C_422A),
    f32::from_bits(0x7F4C_422B),
    f32::from_bits(0x7F4C_422C),
    f32::MAX,
    f32::INFINITY,
    f32::NEG_INFINITY,
    f32::from_bits(0x7FC0_0000),
    f32::from_bits(0xFFC0_0000),
    f32::from_bits(0x7F80_0001),
    f32::from_bits(0xFFBF_FFFF),
    f32::from_bits(0x7FFF_FFFF),
    -f32::from_bits(1),
    -f32::MIN_POSITIVE,
    -1.0,
    -f32::MAX,
];

#[test]
fn the_rust_refuses_the_same_norms() {
    for norm in NORMS {
        let bad = !norm.is_finite() || norm < 0.0;
        assert_eq!(norms::bad(norm), bad, "{norm:?}");
        assert_eq!(GOOD.contains(&norms::class(norm)), !bad, "{norm:?}");
        match thin::source_norm(norm) {
            Ok(kept) => assert!(!bad && kept.to_bits() == norm.to_bits(), "{norm:?}"),
            Err(fault) => assert!(bad && fault.variant == "MalformedCode", "{norm:?}"),
        }
    }
    let met: Vec<&str> = NORMS.map(norms::class).to_vec();
    assert!(GOOD[1..].iter().chain(&BAD).all(|class| met.contains(class)), "{met:?}");
}

/// With the norm 1.0 the halves answer what turbo.rs's own calls answer, bit for bit: so with
/// another norm they differ from them in the residual's scale alone.
#[test]
fn the_halves_with_one_are_the_quantizer() {
    cases::ask::hush();
    for name in ["score", "distance", "score_prepared"] {
        let (mut values, mut errors, mut given) = (0, 0, 0);
        let mut maker = Maker::new(29, Size::Full);
        for _ in 0..3000 {
            let case = maker.make(call(name));
            let (setup, query, record) = match &case {
                Case::Score { setup, query, record } | Case::Distance { setup, query, record } => {
                    (setup, query, record)
                }
                Case::ScorePrepared { setup, query: Some(query), record, .. } => {
                    (setup, query, record)
                }
                _ => continue,
            };
            let (Some(Ok(turbo)), Some(halves)) = (&setup.rust, &setup.halves) else { continue };
            let Some(Ok(code)) = code(record) else { continue };
            let both = match name {
                "distance" => [
                    (thin::distance(turbo, &code, query), halves.distance(&code, 1.0, query)),
                    (
                        thin::distance_sum(turbo, &code, query),
                        halves.distance_sum(&code, 1.0, query),
                    ),
                ],
                "score" => [(thin::score(turbo, &code, query), halves.score(&code, 1.0, query)); 2],
                _ => {
                    let own = thin::prepared(turbo, query)
                        .and_then(|query| thin::score_prepared(turbo, &code, &query));
                    let parts = halves.prepared(query);
                    [(own, parts.and_then(|query| halves.score_prepared(&code, 1.0, &query))); 2]
                }
            };
            for (own, halves) in both {
                match (own, halves) {
                    (Ok(own), Ok(halves)) => {
                        assert!(strictly_same_float(own, halves), "{case}: {own} {halves}");
                        values += 1;
                    }
                    (own, halves) => {
                        assert!(own.is_err() && halves.is_err(), "{case}: {own:?} {halves:?}");
                        errors += 1;
                    }
                }
            }
            given += (norms::given(&case) == Some(1.0)) as usize;
        }
        assert!(values > 500 && errors > 100 && given > 20, "{name}: {values} {errors} {given}");
    }
}

/// One pair of one bit; in `PolarWithQjl` three projections.
fn setup(mode: Mode) -> Rc<Setup> {
    let signs = vec![1.0, 1.0];
    match mode {
        Mode::PolarOnly => Setup::of_one_pair(mode, 0, signs, vec![]),
        Mode::PolarWithQjl => {
            Setup::of_one_pair(mode, 3, signs, vec![1.0, 0.0, 0.0, 1.0, 1.0, 1.0])
        }
    }
}

/// P13's record with this norm, in the F32 form.
fn normed(norm: f32) -> Vec<u8> {
    let mut record = vec![6, 2, 0, 0, 0, 1, 3, 0, 0, 0];
    record.extend(norm.to_le_bytes());
    record.extend([0, 0, 0x80, 0x3F, 1, 5]);
    record
}

/// The same in the linear form, with this range and this number for its radius.
fn linear(norm: f32, min: f32, max: f32, number: u16) -> Vec<u8> {
    let mut record = vec![7, 2, 0, 0, 0, 1];
    record.extend([min, max].iter().flat_map(|bound| bound.to_le_bytes()));
    record.extend([3, 0, 0, 0]);
    record.extend(norm.to_le_bytes());
    record.extend(number.to_le_bytes());
    record.extend([1, 5]);
    record
}

fn read(record: Vec<u8>) -> Expected {
    expected(&Case::ReadRecord { record })
}

#[test]
fn of_a_record_that_is_read() {
    for norm in NORMS {
        for record in [normed(norm), linear(norm, 1.0, 1.0, 0)] {
            let found = match read(record) {
                Expected::Value { value: Value::Record { norm, .. }, by_rust: true, .. } => norm,
                other => {
                    assert_eq!((other, norms::bad(norm)), (refused(23, 0), true), "{norm:?}");
                    continue;
                }
            };
            assert_eq!(found.map(f32::to_bits), Some(norm.to_bits()));
        }
    }
    // A map byte: bit 2 stands only beside bit 1.
    for map in 0..=255u8 {
        let mut record = normed(1.0);
        record[0] = map;
        let defined = matches!(map, 0..=3 | 6 | 7);
        assert_eq!(record::defined(map), defined, "{map}");
        assert_eq!(read(record) == refused(18, map.into()), !defined, "{map}");
    }
    // A header cut short counts the norm.
    for (record, head) in [(normed(1.0), 14), (linear(1.0, 1.0, 1.0, 0), 22)] {
        assert_eq!(record::header_len(record[0]), head);
        for len in 6..record.len() {
            assert_eq!(read(record[..len].to_vec()), refused(13, len as u64));
        }
        // So 13 comes before 8 where the norm is cut, and behind it where it is whole.
        let mut none = record.clone();
        none[head - 8..head - 4].fill(0);
        assert_eq!(read(none[..head - 1].to_vec()), refused(13, head as u64 - 1));
        assert_eq!(read(none[..head].to_vec()), refused(8, 0));
    }
    // 17, 23, 16, and 14 behind them; 13 of the whole length before.
    let (nan, huge) = (f32::NAN, f32::from_bits(0x73C0_0000));
    assert_eq!(read(linear(nan, 1.0, 0.5, 0)), refused(17, 0));
    assert_eq!(read(linear(nan, huge, f32::MAX, 65535)), refused(23, 0));
    assert_eq!(read(linear(1.0, huge, f32::MAX, 65535)), refused(16, 0));
    let mut bad = normed(-1.0);
    bad[14..18].copy_from_slice(&nan.to_le_bytes());
    assert_eq!(read(bad.clone()), refused(23, 0));
    bad.push(0);
    assert_eq!(read(bad), refused(13, 21));
    let mut padded = normed(nan);
    padded[18] |= 0x80;
    assert_eq!(read(padded), refused(23, 0));
}

/// K is root(PI / 2) × norm / m in that order, each step rounded.
#[test]
fn of_scores() {
    let both = setup(Mode::PolarWithQjl);
    let query = vec![1.0, 3.0];
    let root = (std::f32::consts::PI / 2.0).sqrt();
    let of = |case: Case| match expected(&case) {
        Expected::Value { value: Value::Float(value), by_rust: true, .. } => Some(value),
        Expected::Refused(Refusal { number: 12, place: 0 }) => None,
        other => panic!("{case}: {other:?}"),
    };
    let mut orders = 0;
    for norm in NORMS.into_iter().filter(|norm| !norms::bad(*norm)) {
        // Projections (1, 3, 4) with signs (+, −, +) add up to 2.
        let residual = root * norm / 3.0 * 2.0;
        orders += (root / 3.0 * norm * 2.0 != residual) as usize;
        let polar = 4.0 * (1.0 / 2.0f32.sqrt());
        let finite = |value: f32| value.is_finite().then_some(value);
        let (setup, query, record) = (both.clone(), query.clone(), normed(norm));
        let signs = vec![1, -1, 1];
        let sketch = Case::SketchScore { setup, query: query.clone(), signs, norm };
        assert_eq!(of(sketch), finite(residual), "{norm:?}");
        let (setup, asked, read) = (both.clone(), query.clone(), record.clone());
        let score = of(Case::Score { setup, query: asked, record: read });
        assert_eq!(score, finite(polar + residual), "{norm:?}");
        let (setup, asked, read) = (both.clone(), query.clone(), record.clone());
        let distance = of(Case::Distance { setup, query: asked, record: read });
        let sum = score.map(|score| 10.0 + 1.0 - 2.0 * score);
        let cut = sum.filter(|sum| *sum < f32::INFINITY).map(|sum| sum.max(0.0));
        assert_eq!(distance, cut, "{norm:?}");
        let (rotated, projected) =
            thin::prepare_query(both.rust.as_ref().unwrap().as_ref().unwrap(), &query).unwrap();
        let (setup, query) = (both.clone(), Some(query));
        let prepared = Case::ScorePrepared { setup, query, rotated, projected, record };
        assert_eq!(of(prepared), score, "{norm:?}");
    }
    assert!(orders > 1, "{orders}");
}

#[test]
fn of_a_sketch_score() {
    let score = |mode, query: &[f32], signs: &[i8], norm| {
        let (setup, query, signs) = (setup(mode), query.to_vec(), signs.to_vec());
        expected(&Case::SketchScore { setup, query, signs, norm })
    };
    let (both, only, large) = (Mode::PolarWithQjl, Mode::PolarOnly, f32::MAX);
    for norm in NORMS.into_iter().filter(|norm| norms::bad(*norm)) {
        assert_eq!(score(both, &[1.0, 3.0], &[1, -1, 1], norm), refused(23, 0));
        assert_eq!(score(only, &[1.0, 3.0], &[], norm), refused(23, 0));
        // 11, 11 projected, 5 and 10 come before, 12 behind.
        assert_eq!(score(both, &[1.0, f32::NAN], &[0], norm), refused(11, 1));
        assert_eq!(score(both, &[large, large], &[0], norm), refused(11, 2));
        assert_eq!(score(both, &[1.0, 3.0], &[1], norm), refused(5, 1));
        assert_eq!(score(both, &[1.0, 3.0], &[1, 1, 0], norm), refused(10, 2));
        assert_eq!(score(both, &[large, 0.0], &[1, 1, 1], norm), refused(23, 0));
        assert_eq!(score(only, &[1.0, 3.0], &[1], norm), refused(5, 1));
    }
    assert_eq!(score(both, &[large, 0.0], &[1, 1, 1], 1.0), refused(12, 0));
    for norm in NORMS.into_iter().filter(|norm| !norms::bad(*norm)) {
        let zero = score(only, &[1.0, 3.0], &[], norm);
        assert!(matches!(zero, Expected::Value { value: Value::Float(0.0), .. }), "{zero:?}");
    }
}

#[test]
fn of_a_record_that_is_written() {
    struct Write {
        profile: Profile,
        dim: usize,
        mode: Mode,
        projections: usize,
        norm: Option<f32>,
        radius: f32,
        index: u16,
        sign: i8,
        out: usize,
    }
    let good = || Write {
        profile: Profile::F32,
        dim: 2,
        mode: Mode::PolarWithQjl,
        projections: 1,
        norm: None,
        radius: 1.0,
        index: 1,
        sign: 1,
        out: 20,
    };
    let written = |write: Write| {
        let Write { profile, dim, mode, projections, norm, radius, index, sign, out } = write;
        let signs = if mode == Mode::PolarOnly { vec![] } else { vec![sign] };
        let (radii, indices, bits) = (vec![radius], vec![index], 1);
        let case = Case::WriteRecord {
            profile,
            dim,
            bits,
            mode,
            projections,
            norm,
            radii,
            indices,
            signs,
            out,
        };
        expected(&case)
    };
    let bytes = |norm: &[u8]| {
        let mut record = vec![if norm.is_empty() { 2 } else { 6 }, 2, 0, 0, 0, 1, 1, 0, 0, 0];
        record.extend(norm);
        record.extend([0, 0, 0x80, 0x3F, 1, 1]);
        Expected::Value { value: Value::Bytes(record), by_rust: true, exact: None }
    };
    assert_eq!(written(Write { out: 16, ..good() }), bytes(&[]));
    for norm in NORMS {
        let some = Some(norm);
        if norms::bad(norm) {
            // 5 before it, both 16s, 15, 10 and 6 behind it.
            assert_eq!(written(Write { norm: some, ..good() }), refused(23, 0));
            assert_eq!(written(Write { norm: some, projections: 2, ..good() }), refused(5, 1));
            assert_eq!(written(Write { norm: some, radius: -1.0, ..good() }), refused(23, 0));
            assert_eq!(written(Write { norm: some, index: 2, ..good() }), refused(23, 0));
            assert_eq!(written(Write { norm: some, sign: 0, ..good() }), refused(23, 0));
            assert_eq!(written(Write { norm: some, out: 9, ..good() }), refused(23, 0));
        } else {
            assert_eq!(written(Write { norm: some, ..good() }), bytes(&norm.to_le_bytes()));
            assert_eq!(written(Write { norm: some, radius: -1.0, ..good() }), refused(16, 0));
            assert_eq!(written(Write { norm: some, out: 16, ..good() }), refused(6, 20));
        }
        // Without signs it is 18, before 2 and whatever the norm is.
        let only = || Write { mode: Mode::PolarOnly, norm: some, out: 11, ..good() };
        assert_eq!(written(only()), refused(18, 0));
        assert_eq!(written(Write { dim: 0, ..only() }), refused(18, 0));
        assert_eq!(written(Write { norm: None, dim: 0, ..only() }), refused(2, 0));
        let log = Profile::BlockLogU8;
        assert_eq!(written(Write { profile: log, ..only() }), refused(18, 0));
        assert_eq!(written(Write { profile: log, norm: some, ..good() }), refused(18, 0));
    }
}

/// The numbers that a norm's flaw may be refused with, those of earlier checks among them, and
/// the one that it must come to.
fn numbers(flaw: &str, call: &str) -> (&'static [u32], u32) {
    match FLAWED.iter().position(|name| *name == flaw) {
        Some(0) => (&[18], 18),
        Some(1) => (&[1, 2, 3, 4, 13], 13),
        Some(2) => (&[1, 2, 3, 4, 8, 17], 17),
        _ if call == "write_record" => (&[1, 2, 3, 4, 5, 8, 18, 23], 23),
        _ => (&[1, 2, 3, 4, 8, 23], 23),
    }
}

#[test]
fn every_class_is_made_in_every_place() {
    cases::ask::hush();
    for size in [Size::Small, Size::Full] {
        let mut met: BTreeMap<(&str, &str), usize> = BTreeMap::new();
        let mut told: BTreeMap<(&str, &str), usize> = BTreeMap::new();
        for name in ["sketch_score", "write_record", "read_record", "score", "distance", "decode"]
            .into_iter()
            .chain(["score_prepared"])
        {
            let mut maker = Maker::new(31, size);
            for _ in 0..4000 {
                let case = maker.make(call(name));
                let place = place_of(&case).unwrap();
                let (class, flaw) = (class_of(&case), flaw_of(&case));
                for class in class.into_iter().chain(flaw) {
                    *met.entry((place, class)).or_default() += 1;
                }
                let wanted = expected(&case);
                assert_ne!(wanted, Expected::Open, "{case}");
                let number = match &wanted {
                    Expected::Refused(refused) => refused.number,
                    _ => 0,
                };
                let alone = ["read_record", "write_record"].contains(&name);
                if let (Some(flaw), true) = (flaw, alone) {
                    let (may, must) = numbers(flaw, name);
                    assert!(may.contains(&number), "{case}: {wanted:?}");
                    *told.entry((name, flaw)).or_default() += (number == must) as usize;
                }
                // A bad norm has no value; a good one is never refused with 23.
                let bad = class.is_some_and(|class| BAD.contains(&class));
                assert!(!bad || number != 0, "{case}: {wanted:?}");
                assert!(bad || number != 23, "{case}: {wanted:?}");
                let infinite = class == Some("K infinite") && name.contains("score");
                let polar = place.ends_with("PolarOnly");
                assert!(!infinite || polar || number != 0, "{case}: {wanted:?}");
            }
        }
        for place in PLACES {
            for class in classes_of(place) {
                let count = met.get(&(place, class)).copied().unwrap_or(0);
                assert!(count >= 3, "{place}, {class}: {count}");
            }
        }
        assert!(told.len() == 5 && told.values().all(|count| *count >= 3), "{told:?}");
    }
}

/// A record with a norm is asked of turbo.rs's own calls where the norm is 1.0.
#[test]
fn a_norm_of_one_is_as_none() {
    let both = setup(Mode::PolarWithQjl);
    let mut without = normed(1.0);
    without[0] = 2;
    without.drain(10..14);
    let of = |record: Vec<u8>| {
        let (setup, query) = (both.clone(), vec![1.0, 3.0]);
        ask(&Case::Score { setup, query, record })
    };
    assert!(matches!(of(without.clone()), Answer::Value(_)));
    assert_eq!(of(normed(1.0)), of(without));
    assert_ne!(of(normed(2.0)), of(normed(1.0)));
}
