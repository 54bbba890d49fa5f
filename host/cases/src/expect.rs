//! What the port must answer to a case: document 01's refusal, withdrawn by document 02,
//! or the Rust's value, or the plain sums' value where the Rust has none.

use crate::{
    ask::{self, ask},
    case::{same, same_float, strictly_same, Answer, Case, Profile, Value},
    paper::{ended, Ended, Refusal},
    plain, record,
};

/// What is expected of the port.
#[derive(Debug, Clone, PartialEq)]
pub enum Expected {
    Refused(Refusal),
    /// The record has no bytes, and nothing is refused before it would be read.
    Withdrawn,
    Value {
        value: Value,
        by_rust: bool,
        /// The same value with the signs of its zeros as document 01 gives them (sums
        /// from +0.0, ranges by their first zero), where the Rust's may be others.
        exact: Option<Value>,
    },
    /// Nothing to hold it against, or the Rust and the plain sums differ. None of the
    /// calls should come to this.
    Open,
}

pub fn expected(case: &Case) -> Expected {
    let answer = ask(case);
    match ended(case, &answer) {
        Some(Ended::Refused(refused)) => return Expected::Refused(refused),
        Some(Ended::Withdrawn) => return Expected::Withdrawn,
        None => {}
    }
    let exact = plain::value(case);
    match (answer, exact) {
        (Answer::Value(value), None) => {
            let value = ruled(case, value);
            Expected::Value { value, by_rust: true, exact: None }
        }
        (Answer::Value(value), Some(exact)) if same(&value, &exact) => {
            Expected::Value { value, by_rust: true, exact: Some(exact) }
        }
        (Answer::Absent, Some(value)) => {
            Expected::Value { value: value.clone(), by_rust: false, exact: Some(value) }
        }
        _ => Expected::Open,
    }
}

/// The sum of a distance before its cut to zero: the Rust's, or the plain sums' where it
/// has none. None where a refusal comes before, the score's own 12 among them, and where
/// the position is withdrawn.
pub fn distance_sum(case: &Case, wanted: &Expected) -> Option<f32> {
    let Case::Distance { setup, query, record } = case else {
        return None;
    };
    match wanted {
        Expected::Withdrawn => return None,
        Expected::Refused(refused) if refused.number != 12 => return None,
        _ => {}
    }
    match ask::distance_sum(case) {
        Answer::Value(Value::Float(sum)) => Some(sum),
        Answer::Absent => plain::distance_sum(setup, query, record),
        _ => None,
    }
}

/// What a distance's sum is.
pub fn sum_name(sum: f32) -> &'static str {
    match sum {
        f32::INFINITY => "+inf",
        f32::NEG_INFINITY => "-inf",
        _ if sum.is_nan() => "nan",
        _ => "finite",
    }
}

/// A linear range's zeros by document 01's rule, which the Rust leaves open.
fn ruled(case: &Case, value: Value) -> Value {
    match (case, value) {
        (
            Case::Compress { radii, profile: Profile::BlockLinearU16, .. },
            Value::Radii { min, max, payload },
        ) => {
            let (min, max) = ruled_range(radii, min, max);
            Value::Radii { min, max, payload }
        }
        (
            Case::WriteRecord { radii, profile: Profile::BlockLinearU16, .. },
            Value::Bytes(bytes),
        ) => {
            let mut parts = record::split(&bytes).unwrap();
            (parts.min, parts.max) = ruled_range(radii, parts.min, parts.max);
            Value::Bytes(parts.bytes())
        }
        (_, value) => value,
    }
}

fn ruled_range(radii: &[f32], min: f32, max: f32) -> (f32, f32) {
    let (low, high) = plain::range(radii);
    (if same_float(low, min) { low } else { min }, if same_float(high, max) { high } else { max })
}

/// What the port gave: its value, its refusal or withdrawn, and whether it left alone what
/// is not its to write: all around a lent output on a value, else all of it.
#[derive(Debug, Clone, PartialEq)]
pub struct Given {
    pub answer: Result<Value, Ended>,
    pub untouched: bool,
}

impl Given {
    /// Agreement by document 01's rule for zeros and NaNs.
    pub fn agrees(&self, wanted: &Expected) -> bool {
        match (&self.answer, wanted) {
            (Err(Ended::Refused(given)), Expected::Refused(wanted)) => {
                given == wanted && self.untouched
            }
            (Err(Ended::Withdrawn), Expected::Withdrawn) => self.untouched,
            (Ok(given), Expected::Value { value, .. }) => same(given, value) && self.untouched,
            _ => false,
        }
    }

    /// Agreement in the signs of zeros too.
    pub fn agrees_in_zeros(&self, wanted: &Expected) -> bool {
        match (&self.answer, wanted) {
            (Ok(given), Expected::Value { exact: Some(exact), .. }) => strictly_same(given, exact),
            (Ok(given), Expected::Value { value, exact: None, .. }) => strictly_same(given, value),
            _ => true,
        }
    }
}
