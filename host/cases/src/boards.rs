//! Boards of other dimensions, which document 02 adds: stored rotations, and records whose
//! dimension is no power of two. What a case has to do with them, so that it can be counted.

use crate::{
    case::{Case, Kind, OTHER_BOARDS, TAKE_A_RECORD},
    expect::Expected,
    norms, record,
};

/// What is expected of a case with a stored rotation. Values are the Rust's by one call of
/// its own, or by its parts where a norm is not 1.0, or those of plain sums.
pub const STORED: [&str; 8] = [
    "by the Rust's own calls",
    "by its parts",
    "plain",
    "withdrawn",
    "26",
    "9 for the rotation",
    "9 for the projections",
    "other refusals",
];

/// What is expected of a case with a record of an even dimension to 4,096 that is no power of
/// two.
pub const RECORDS: [&str; 5] = [
    "records read or written",
    "records scored or decoded",
    "records with 5 under signs",
    "records with 5 under a matrix",
    "records refused otherwise",
];

/// The calls that have a stored rotation: those under a setup, and the two by themselves.
pub fn calls() -> Vec<&'static str> {
    [&OTHER_BOARDS[..], &["stored_apply", "stored_apply_inverse"]].concat()
}

/// The classes that a call must have a case of.
pub fn classes_of(call: &str) -> Vec<&'static str> {
    let under = !["write_record", "read_record"].contains(&call);
    let alone = call.starts_with("stored_apply");
    let takes = TAKE_A_RECORD.contains(&call);
    let scores = ["score", "distance", "score_prepared"].contains(&call);
    let has = |class: &&&str| match **class {
        "by its parts" => scores || call == "sketch_score",
        "plain" => under && takes,
        "withdrawn" => under && takes,
        "9 for the rotation" => under && call != "score_prepared",
        "9 for the projections" => under && !alone && call != "score_prepared",
        "records read or written" => !under,
        "records scored or decoded" => under && takes,
        "records with 5 under signs" | "records with 5 under a matrix" => under && takes,
        "records refused otherwise" => takes || call == "write_record",
        _ => under,
    };
    STORED.iter().chain(&RECORDS).filter(has).copied().collect()
}

/// The matrix of a case with a stored rotation.
fn stored_matrix(case: &Case) -> Option<&[f32]> {
    match case {
        Case::StoredApply { matrix, .. } => Some(matrix),
        _ => {
            case.setup().filter(|setup| setup.kind == Kind::Stored).map(|setup| &setup.rotation[..])
        }
    }
}

/// Which of `STORED` a case is, if it has a stored rotation.
pub fn stored(case: &Case, wanted: &Expected) -> Option<&'static str> {
    let matrix = stored_matrix(case)?;
    // A prepared score is lent no rotation.
    let lent = !matches!(case, Case::ScorePrepared { .. });
    let flawed = lent && matrix.iter().any(|entry| !entry.is_finite());
    Some(match wanted {
        Expected::Value { by_rust: false, .. } => "plain",
        Expected::Value { .. } => match norms::given(case) {
            Some(norm) if norm != 1.0 && !matches!(case, Case::Decode { .. }) => "by its parts",
            _ => "by the Rust's own calls",
        },
        Expected::Withdrawn => "withdrawn",
        Expected::Refused(refused) => match refused.number {
            26 => "26",
            9 if flawed => "9 for the rotation",
            9 => "9 for the projections",
            _ => "other refusals",
        },
        Expected::Open => return None,
    })
}

/// The dimension of a case's record, to be read or written, where only document 02 has it.
fn record_dim(case: &Case) -> Option<u64> {
    let dim = match case {
        Case::WriteRecord { dim, .. } => *dim as u64,
        _ => u64::from(record::header(case.record()?)?.dim),
    };
    let other = dim % 2 == 0 && (1..=4096).contains(&dim) && dim.count_ones() != 1;
    other.then_some(dim)
}

/// Which of `RECORDS` a case is, if it has such a record.
pub fn record(case: &Case, wanted: &Expected) -> Option<&'static str> {
    let dim = record_dim(case)?;
    let kind = case.setup().map(|setup| (setup.kind, setup.dim as u64));
    Some(match (wanted, kind) {
        (Expected::Value { .. }, None) => "records read or written",
        (Expected::Value { .. }, Some(_)) => "records scored or decoded",
        (Expected::Refused(refused), Some((kind, own)))
            if (refused.number, refused.place) == (5, dim) && own != dim =>
        {
            match kind {
                Kind::FastHadamard => "records with 5 under signs",
                Kind::Stored => "records with 5 under a matrix",
            }
        }
        _ => "records refused otherwise",
    })
}
