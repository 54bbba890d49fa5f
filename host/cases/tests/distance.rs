//! What is expected of a distance, by its sum before the cut to zero: minus infinity is
//! 0, and NaN is refused as plus infinity is, though the Rust answers 0 there.

use std::collections::BTreeMap;

use cases::{
    ask::code,
    case::{Case, Value, CALLS},
    expect::{expected, sum_name, Expected},
    make::{Maker, Size},
    norms,
    paper::Refusal,
    plain,
};
use oracle::thin;

/// The Rust's distance and the port's, by the sum that the Rust comes to, if its score is
/// finite; None stands for a refusal since the score or the distance is not.
fn distances(sum: Option<f32>) -> (Option<f32>, Option<f32>) {
    match sum {
        None | Some(f32::INFINITY) => (None, None),
        Some(f32::NEG_INFINITY) => (Some(0.0), Some(0.0)),
        Some(sum) if sum.is_nan() => (Some(0.0), None),
        Some(sum) => (Some(sum.max(0.0)), Some(sum.max(0.0))),
    }
}

/// Holds a distance that the Rust answers against its sum, the Rust's and the expected one;
/// gives the sum's name, `score` where the score is not finite. None where the Rust knows no
/// such table, or document 01 has another number.
fn held(case: &Case) -> Option<&'static str> {
    let Case::Distance { setup, query, record } = case else { unreachable!() };
    let turbo = setup.rust.as_ref()?.as_ref().ok().filter(|_| setup.own_table)?;
    let code = code(record)?.ok()?;
    let expected = match expected(case) {
        Expected::Value { value: Value::Float(value), .. } => Some(value),
        Expected::Refused(Refusal { number: 12, place: 0 }) => None,
        Expected::Refused(Refusal { number, .. }) if number != 12 => return None,
        other => panic!("{case}: {other:?}"),
    };
    // With another norm than 1.0 the Rust's halves answer.
    let (answer, sum) = match norms::given(case) {
        None | Some(1.0) => {
            let answer = turbo.l2_distance_estimate(&code, query);
            if let Err(error) = &answer {
                assert!(error.to_string().ends_with("is not finite"), "{case}: {error}");
            }
            (answer.ok(), thin::distance_sum(turbo, &code, query).ok())
        }
        Some(norm) => {
            let halves = setup.halves.as_ref()?;
            let sum = halves.distance_sum(&code, norm, query).ok();
            (halves.distance(&code, norm, query).ok(), sum)
        }
    };
    assert_eq!((answer, expected), distances(sum), "{case}");
    // The plain sums come to the same.
    let Some(Value::Float(plain)) = plain::value(case) else { panic!("{case}") };
    assert_eq!(plain.is_finite().then_some(plain), expected, "{case}");
    let plain = plain::distance_sum(setup, query, record);
    assert_eq!(plain.map(sum_name), sum.map(sum_name), "{case}");
    Some(sum.map_or("score", sum_name))
}

#[test]
fn a_distance_is_refused_where_its_sum_is_nan_or_plus_infinity() {
    cases::ask::hush();
    let call = CALLS.iter().position(|name| *name == "distance").unwrap();
    for size in [Size::Small, Size::Full] {
        let mut maker = Maker::new(17, size);
        let mut met: BTreeMap<&str, usize> = BTreeMap::new();
        for _ in 0..4000 {
            if let Some(kind) = held(&maker.make(call)) {
                *met.entry(kind).or_default() += 1;
            }
        }
        for kind in ["score", "nan", "-inf", "+inf", "finite"] {
            assert!(met.get(kind).is_some_and(|count| *count >= 20), "{kind}: {met:?}");
        }
    }
}
