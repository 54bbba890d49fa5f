//! The comparison itself: what is expected agrees with itself, and every change to an
//! answer is seen.

use cases::{
    case::{Value, CALLS, TAKE_A_RECORD},
    expect::{expected, Expected, Given},
    make::{Maker, Size},
    paper::{Ended, Refusal},
};

fn changed(value: &Value) -> Option<Value> {
    let mut value = value.clone();
    match &mut value {
        Value::Done => return None,
        Value::Number(number) => *number ^= 1,
        Value::Float(float) => *float = next(*float),
        Value::Bytes(bytes) | Value::Radii { payload: bytes, .. } => *bytes.last_mut()? ^= 0x40,
        Value::Numbers(items) => *items.last_mut()? ^= 1,
        Value::Signs(items) => *items.last_mut()? *= -1,
        Value::Floats(items) | Value::Prepared { rotated: items, .. } => {
            let last = items.last_mut()?;
            *last = next(*last);
        }
        Value::Codebook { max, .. } => *max = next(*max),
        Value::Seeds { matrix, .. } => *matrix ^= 1,
        Value::Record { indices, .. } => *indices.last_mut()? ^= 1,
    }
    Some(value)
}

/// The same record with another norm: one more or none, or another pattern, that of the other
/// zero too.
fn other_norm(value: &Value) -> Option<Value> {
    let mut value = value.clone();
    let Value::Record { norm, .. } = &mut value else { return None };
    *norm = match *norm {
        None => Some(1.0),
        Some(norm) if norm == 0.0 => Some(-norm),
        Some(1.0) => None,
        Some(norm) => Some(next(norm)),
    };
    Some(value)
}

/// Another float, one pattern away where there is one.
fn next(value: f32) -> f32 {
    if value.is_nan() {
        return 1.0;
    }
    f32::from_bits(value.to_bits() ^ 1)
}

fn given(answer: Result<Value, Ended>) -> Given {
    Given { answer, untouched: true }
}

/// Any refusal but this one, a value, a withdrawn position and a write to an output differ.
fn a_refusal_differs(refusal: Refusal, wanted: &Expected) {
    let Refusal { number, place } = refusal;
    let answer = |refusal| Err(Ended::Refused(refusal));
    assert!(given(answer(refusal)).agrees(wanted));
    assert!(!given(answer(Refusal { number: number + 1, place })).agrees(wanted));
    assert!(!given(answer(Refusal { number, place: place + 1 })).agrees(wanted));
    assert!(!given(Ok(Value::Done)).agrees(wanted));
    assert!(!given(Err(Ended::Withdrawn)).agrees(wanted));
    assert!(!Given { answer: answer(refusal), untouched: false }.agrees(wanted));
}

/// A refusal differs, that of a length too; a value, and a write to an output.
fn withdrawn_differs(wanted: &Expected) {
    assert!(given(Err(Ended::Withdrawn)).agrees(wanted));
    for number in [1, 13, 255] {
        let refusal = Refusal { number, place: 0 };
        assert!(!given(Err(Ended::Refused(refusal))).agrees(wanted));
    }
    assert!(!given(Ok(Value::Done)).agrees(wanted));
    assert!(!given(Ok(Value::Float(0.0))).agrees(wanted));
    assert!(!Given { answer: Err(Ended::Withdrawn), untouched: false }.agrees(wanted));
}

#[test]
fn every_change_is_seen() {
    cases::ask::hush();
    for (call, name) in CALLS.into_iter().enumerate() {
        let mut maker = Maker::new(9, Size::Small);
        let mut withdrawn = 0;
        for _ in 0..300 {
            let case = maker.make(call);
            let wanted = expected(&case);
            match &wanted {
                Expected::Open => panic!("{case}: nothing to be held against"),
                Expected::Refused(refusal) => a_refusal_differs(*refusal, &wanted),
                Expected::Withdrawn => {
                    withdrawn += 1;
                    withdrawn_differs(&wanted);
                }
                Expected::Value { value, .. } => {
                    assert!(given(Ok(value.clone())).agrees(&wanted));
                    let refusal = Ended::Refused(Refusal { number: 1, place: 0 });
                    assert!(!given(Err(refusal)).agrees(&wanted));
                    assert!(!given(Err(Ended::Withdrawn)).agrees(&wanted));
                    let astray = Given { answer: Ok(value.clone()), untouched: false };
                    assert!(!astray.agrees(&wanted));
                    for other in changed(value).into_iter().chain(other_norm(value)) {
                        assert!(!given(Ok(other)).agrees(&wanted), "{case}: {value}");
                    }
                }
            }
        }
        assert_eq!(withdrawn > 0, TAKE_A_RECORD.contains(&name), "{name}");
    }
}
