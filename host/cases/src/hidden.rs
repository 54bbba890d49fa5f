//! Refusals that no sum need show, and sums that are not finite although nothing offends. A port
//! that sums first, and looks at single entries only where a sum is not finite, must still name the
//! first entry that offends: one that stands under a zero, is never used, or leaves the sums
//! finite. What a case has of this, so that it can be counted.

use oracle::thin;

use crate::{
    case::{Answer, Case, Kind, Mode, Profile, Setup, Value},
    expect::Expected,
    paper::{self, Ended, Refusal},
    plain,
    record::{self, Parts},
};

/// So many items are taken at once, as far as a class has to do with it.
pub const BLOCK: usize = 64;

/// The calls that have such cases.
pub const HIDDEN: [&str; 20] = [
    "pack_indices",
    "unpack_indices",
    "pack_signs",
    "unpack_signs",
    "compress",
    "decompress",
    "apply",
    "apply_inverse",
    "stored_apply",
    "stored_apply_inverse",
    "setup",
    "sketch",
    "prepare_query",
    "sketch_score",
    "write_record",
    "read_record",
    "score",
    "distance",
    "decode",
    "score_prepared",
];

const ITEMS: [&str; 6] =
    ["63 items", "64 items", "65 items", "127 items", "128 items", "129 items"];

const BLOCKS: [&str; 2] = ["whole blocks of pairs", "a last block that is short"];

/// Of a lent list of signs.
const SKETCH: [&str; 3] = ["10 in a first block", "10 in a whole block", "10 in a short block"];

/// Of radii that are lent or read.
const RADII: [&str; 3] = ["16 below zero", "16 below zero in a last block", "radii of -0.0"];

/// Of a range and what is rounded to it.
const RANGES: [&str; 6] = [
    "all equal",
    "zeros, +0.0 first",
    "zeros, -0.0 first",
    "halves",
    "just beside halves",
    "a span below 2^-23",
];

/// Of the parts of a setup that every call under one but a prepared score checks.
const PARTS: [&str; 5] = [
    "10 that keeps sums finite",
    "10 beside 7 and 9",
    "7 beside 9",
    "7 at the last entry",
    "9 at the last entry",
];

const TABLE: &str = "7 that no index names";

const ZEROS: [&str; 3] = ["9 under a zero", "10 under an infinity", "11 under zeros"];

const UNUSED: [&str; 2] = ["9 of a rotation that is not used", "11 without a sum"];

const TURNED: [&str; 4] = [
    "9 of a rotation under a zero",
    "10 under a zero",
    "11 after butterflies",
    "11 after a stored rotation",
];

const PROJECTED: [&str; 2] = ["11 by an infinite projection", "11 by a projection that is NaN"];

const SUMS: [&str; 2] = ["infinite sums", "sums that are NaN"];

/// Of a record that is read.
const READ: [&str; 4] =
    ["16 by a linear radius", "16 beside 14", "14 for indices alone", "14 for signs alone"];

const SCORED: [&str; 3] =
    ["12 by an infinite score", "12 by a score that is NaN", "16 under zeros"];

const PREPARED: [&str; 4] = [
    "11 under a radius of 0",
    "11 for a projected value",
    "5 beyond the dimension",
    "5 beyond the projections",
];

const WRITTEN: [&str; 3] = ["16 by a linear radius", "16 beside 15 and 10", "15 beside 10"];

/// The classes that a call must have a case of.
pub fn classes_of(call: &str) -> Vec<&'static str> {
    let bad_record = ["9 beside a bad record", "11 beside a bad record"];
    match call {
        "pack_indices" => [&ITEMS[..], &["15 in a last block"]].concat(),
        "unpack_indices" | "unpack_signs" => [&ITEMS[..], &["14 behind whole blocks"]].concat(),
        "pack_signs" => [&ITEMS[..], &SKETCH].concat(),
        "compress" => [&ITEMS[..], &RADII, &RANGES].concat(),
        "decompress" => [&ITEMS[..], &RADII, &["values not finite"]].concat(),
        "apply" => vec![PARTS[0], TURNED[1], ZEROS[1], "values not finite"],
        "apply_inverse" => vec![PARTS[0], "values not finite"],
        "stored_apply" | "stored_apply_inverse" => {
            [&SUMS[..], &[TURNED[0], "9 at the last entry", "values not finite"]].concat()
        }
        "setup" => PARTS.to_vec(),
        "sketch" => [&PARTS[..], &[TABLE], &ZEROS, &UNUSED, &SUMS].concat(),
        "prepare_query" => [&PARTS[..], &[TABLE], &ZEROS, &TURNED, &PROJECTED].concat(),
        "sketch_score" => {
            let by = [&PARTS[..], &[TABLE], &ZEROS, &UNUSED, &PROJECTED, &SKETCH].concat();
            [&by[..], &SCORED[..2]].concat()
        }
        "write_record" => [&ITEMS[..], &RADII, &RANGES, &WRITTEN].concat(),
        "read_record" => [&ITEMS[..], &RADII, &READ].concat(),
        "score" | "distance" => {
            let by = [&PARTS[..], &[TABLE], &ZEROS, &TURNED, &PROJECTED, &bad_record].concat();
            let sum: &[&str] = if call == "distance" { &["12 by its sum"] } else { &[] };
            [&by[..], &RADII, &READ, &SCORED, sum, &BLOCKS].concat()
        }
        "decode" => {
            let by = [&PARTS[..], &[TABLE, TURNED[0]], &bad_record[..1]].concat();
            let passes = ["matrix sums that overflow", "values not finite"];
            [&by[..], &RADII, &READ, &passes, &BLOCKS].concat()
        }
        "score_prepared" => {
            let by = [&[TABLE, "7 at the last entry"], &PREPARED[..], &bad_record[1..]].concat();
            [&by[..], &RADII, &READ, &SCORED, &BLOCKS].concat()
        }
        _ => Vec::new(),
    }
}

/// The classes that a case belongs to.
pub fn classes(case: &Case, wanted: &Expected) -> Vec<&'static str> {
    if !HIDDEN.contains(&case.call()) {
        return Vec::new();
    }
    let mut found = match wanted {
        Expected::Refused(refused) => refused_classes(case, *refused),
        Expected::Value { value, .. } => value_classes(case, value),
        Expected::Withdrawn | Expected::Open => Vec::new(),
    };
    let known = classes_of(case.call());
    found.retain(|class| known.contains(class));
    found
}

/// The query of a call under a setup.
fn query(case: &Case) -> Option<&[f32]> {
    match case {
        Case::Sketch { vector, .. } => Some(vector),
        Case::Prepare { query, .. }
        | Case::SketchScore { query, .. }
        | Case::Score { query, .. }
        | Case::Distance { query, .. } => Some(query),
        _ => None,
    }
}

fn finite(values: &[f32]) -> bool {
    values.iter().all(|value| value.is_finite())
}

fn zero(values: &[f32], at: usize) -> bool {
    values.get(at) == Some(&0.0)
}

fn in_table(entry: &f32) -> bool {
    (-1.0..=1.0).contains(entry)
}

/// Whether a place lies in the last of several blocks.
fn in_last_block(place: usize, count: usize) -> bool {
    count > BLOCK && place >= (count - 1) / BLOCK * BLOCK
}

fn when(holds: bool, class: &'static str) -> Option<&'static str> {
    holds.then_some(class)
}

fn refused_classes(case: &Case, refused: Refusal) -> Vec<&'static str> {
    let mut found = match case {
        Case::WriteRecord { .. } => written_classes(case, refused),
        _ => list_classes(case, refused),
    };
    match (case, case.setup()) {
        (Case::ScorePrepared { rotated, projected, record, .. }, Some(setup)) => {
            found.extend(prepared_classes(setup, [rotated, projected], record, refused));
        }
        (_, Some(setup)) => found.extend(setup_classes(case, setup, refused)),
        _ => {}
    }
    if let (14 | 16, Some(bytes)) = (refused.number, case.record()) {
        found.extend(record::split(bytes).iter().flat_map(|it| record_classes(case, it, refused)));
    }
    found.extend(score_classes(case, refused.number));
    found
}

/// What the lists of a call under no setup are refused for.
fn list_classes(case: &Case, refused: Refusal) -> Vec<&'static str> {
    let at = refused.place as usize;
    match (case, refused.number) {
        (Case::PackIndices { indices, .. }, 15) => {
            when(in_last_block(at, indices.len()), "15 in a last block").into_iter().collect()
        }
        (Case::UnpackIndices { count, .. } | Case::UnpackSigns { count, .. }, 14) => {
            when(*count > BLOCK, "14 behind whole blocks").into_iter().collect()
        }
        (Case::PackSigns { signs, .. }, 10) => block_of(at, signs.len()).into_iter().collect(),
        (Case::Compress { radii, .. }, 16) => below_zero(at, radii),
        (Case::Decompress { payload, .. }, 16) => below_zero(at, &floats(payload)),
        (Case::Apply { inverse, signs, input, .. }, 10) => {
            bad_turn(at, signs, (!inverse).then_some(input))
        }
        (Case::StoredApply { inverse, dim, matrix, input, .. }, 9) => {
            let under = if *inverse { at % dim } else { at / dim };
            let last = when(at + 1 == matrix.len(), "9 at the last entry");
            when(zero(input, under), TURNED[0]).into_iter().chain(last).collect()
        }
        _ => Vec::new(),
    }
}

/// What the lists of a record that is to be written are refused for.
fn written_classes(case: &Case, refused: Refusal) -> Vec<&'static str> {
    let Case::WriteRecord { radii, indices, signs, bits, .. } = case else { return Vec::new() };
    let high = indices.iter().any(|index| u32::from(*index) >> bits.min(&16) != 0);
    let odd = signs.iter().any(|sign| !matches!(sign, 1 | -1));
    if refused.number != 16 {
        return when(refused.number == 15 && odd, "15 beside 10").into_iter().collect();
    }
    let mut found = below_zero(refused.place as usize, radii);
    let good = radii.iter().all(|radius| radius.is_finite() && *radius >= 0.0);
    found.extend(when(good, "16 by a linear radius"));
    found.extend(when(high && odd, "16 beside 15 and 10"));
    found
}

/// In which block of signs a bad one stands.
fn block_of(at: usize, count: usize) -> Option<&'static str> {
    match at / BLOCK {
        0 if count >= BLOCK => Some(SKETCH[0]),
        block if (block + 1) * BLOCK <= count => Some(SKETCH[1]),
        block => when(block > 0, SKETCH[2]),
    }
}

/// A radius below zero, among others that are good up to it.
fn below_zero(at: usize, radii: &[f32]) -> Vec<&'static str> {
    let below = radii.get(at).is_some_and(|radius| radius.is_finite() && *radius < 0.0);
    let last = in_last_block(at, radii.len());
    when(below, RADII[0]).into_iter().chain(when(below && last, RADII[1])).collect()
}

/// A sign of a rotation that is neither −1 nor 1, and what stands under it.
fn bad_turn(at: usize, signs: &[f32], input: Option<&Vec<f32>>) -> Vec<&'static str> {
    let sign = signs[at];
    let keeps = sign.is_finite() && input.is_none_or(|input| finite(input));
    let entry = input.and_then(|input| input.get(at)).copied().unwrap_or(1.0);
    [
        when(keeps, PARTS[0]),
        when(!sign.is_finite() && entry == 0.0, TURNED[1]),
        when(sign == 0.0 && entry.is_infinite(), ZEROS[1]),
    ]
    .into_iter()
    .flatten()
    .collect()
}

/// Whether a record is refused by itself.
fn bad_record(case: &Case) -> bool {
    let Some(record) = case.record() else { return false };
    let read = Case::ReadRecord { record: record.clone() };
    matches!(paper::ended(&read, &Answer::Absent), Some(Ended::Refused(_)))
}

/// Whether the record's indices leave out this one; true where there is no record.
fn not_named(record: Option<&Vec<u8>>, index: usize) -> bool {
    let Some(parts) = record.and_then(|bytes| record::split(bytes)) else { return true };
    match thin::unpack_indices(&parts.indices, parts.dim as usize / 2, parts.bits) {
        Ok(indices) => indices.iter().all(|other| usize::from(*other) != index),
        Err(_) => false,
    }
}

fn setup_classes(case: &Case, setup: &Setup, refused: Refusal) -> Vec<&'static str> {
    let (number, at) = (refused.number, refused.place as usize);
    let (asked, rotation) = (query(case), &setup.rotation);
    let rows_flawed = !finite(&setup.matrix);
    let mut found = Vec::new();
    match number {
        10 if setup.kind == Kind::FastHadamard
            && rotation.get(at).is_some_and(|s| s.abs() != 1.0) =>
        {
            let asked = asked.map(|asked| asked.to_vec());
            found.extend(bad_turn(at, rotation, asked.as_ref()));
            let table = setup.directions.iter().all(in_table);
            found.extend(when(!table && rows_flawed, "10 beside 7 and 9"));
        }
        10 => {
            if let Case::SketchScore { signs, .. } = case {
                found.extend(block_of(at, signs.len()));
            }
        }
        7 => {
            found.extend(when(not_named(case.record(), at / 2), TABLE));
            found.extend(when(rows_flawed, "7 beside 9"));
            found.extend(when(at + 1 == setup.directions.len(), "7 at the last entry"));
        }
        9 if setup.kind == Kind::Stored && !finite(rotation) => {
            let under = match case {
                Case::Decode { record, .. } => no_radius(record, at % setup.dim),
                _ => asked.is_some_and(|asked| zero(asked, at / setup.dim)),
            };
            found.extend([when(under, TURNED[0]), when(true, UNUSED[0])].into_iter().flatten());
        }
        9 => {
            let under = asked.is_some_and(|asked| zero(asked, at % setup.dim));
            found.extend(when(under, ZEROS[0]));
            found.extend(when(at + 1 == setup.matrix.len(), "9 at the last entry"));
        }
        11 => found.extend(query_classes(case, setup, at)),
        _ => {}
    }
    if let 9 | 11 = number {
        let class = if number == 9 { "9 beside a bad record" } else { "11 beside a bad record" };
        found.extend(when(bad_record(case), class));
    }
    found
}

/// Whether the radius of the pair that a value belongs to is a zero.
fn no_radius(bytes: &[u8], at: usize) -> bool {
    record::split(bytes).is_some_and(|parts| zero(&radii(&parts), at / 2))
}

/// What a query is refused for: an entry, a rotated or a projected value.
fn query_classes(case: &Case, setup: &Setup, at: usize) -> Option<&'static str> {
    let asked = query(case)?;
    if !finite(asked) {
        let column = (0..setup.counted()).all(|row| zero(&setup.matrix, row * setup.dim + at));
        return Some(if setup.mode == Mode::PolarOnly { UNUSED[1] } else { ZEROS[2] })
            .filter(|_| column);
    }
    if !matches!(case, Case::SketchScore { .. }) {
        let turned = plain::turn(false, setup, asked);
        if !turned[at.min(turned.len() - 1)].is_finite() {
            return Some(TURNED[2 + (setup.kind == Kind::Stored) as usize]);
        }
    }
    let dot = *plain::dots(setup, asked).get(at)?;
    Some(PROJECTED[dot.is_nan() as usize])
}

/// What the two lists of a prepared query are refused for.
fn prepared_classes(
    setup: &Setup,
    [rotated, projected]: [&Vec<f32>; 2],
    bytes: &Vec<u8>,
    refused: Refusal,
) -> Vec<&'static str> {
    let (number, at) = (refused.number, refused.place as usize);
    let mut found = Vec::new();
    match number {
        7 => {
            found.extend(when(not_named(Some(bytes), at / 2), TABLE));
            found.extend(when(at + 1 == setup.directions.len(), "7 at the last entry"));
        }
        11 => {
            let radius = !finite(rotated) && no_radius(bytes, at);
            found.extend(when(radius, PREPARED[0]));
            found.extend(when(finite(rotated), PREPARED[1]));
            let read = Case::ReadRecord { record: bytes.clone() };
            found.extend(when(bad_record(&read), "11 beside a bad record"));
        }
        5 => {
            let beyond = |list: &[f32], needed: usize| {
                list.len() > needed && finite(&list[..needed]) && !finite(&list[needed..])
            };
            found.extend(when(beyond(rotated, setup.dim), PREPARED[2]));
            found.extend(when(beyond(projected, setup.counted()), PREPARED[3]));
        }
        _ => {}
    }
    found
}

fn floats(bytes: &[u8]) -> Vec<f32> {
    let four = |four: &[u8]| f32::from_le_bytes([four[0], four[1], four[2], four[3]]);
    bytes.chunks_exact(4).map(four).collect()
}

/// The radii of a record as they are read.
fn radii(parts: &Parts) -> Vec<f32> {
    if !parts.linear() {
        return floats(&parts.radii);
    }
    let span = parts.max - parts.min;
    let one = |two: &[u8]| f32::from(u16::from_le_bytes([two[0], two[1]])) / 65535.0;
    parts.radii.chunks_exact(2).map(|two| parts.min + span * one(two)).collect()
}

/// Whether bits behind the last item stand.
fn padded(bytes: &[u8], used_bits: usize) -> bool {
    used_bits % 8 != 0 && bytes.last().is_some_and(|last| last >> (used_bits % 8) != 0)
}

/// What the payloads of a record are refused for.
fn record_classes(case: &Case, parts: &Parts, refused: Refusal) -> Vec<&'static str> {
    let (number, at) = (refused.number, refused.place as usize);
    let radii = radii(parts);
    let indices = padded(&parts.indices, radii.len() * usize::from(parts.bits));
    let signs = padded(&parts.signs, parts.projections as usize);
    if number == 14 {
        return vec![if indices { READ[2] } else { READ[3] }];
    }
    let mut found = Vec::new();
    match parts.linear() {
        true => found.push(READ[0]),
        false => found.extend(below_zero(at, &radii)),
    }
    found.extend(when(indices || signs, READ[1]));
    let zeros = match case {
        Case::ScorePrepared { rotated, .. } => zero(rotated, 2 * at) && zero(rotated, 2 * at + 1),
        _ => query(case).is_some_and(|asked| asked.iter().all(|entry| *entry == 0.0)),
    };
    found.extend(when(zeros && !radii[at].is_finite(), SCORED[2]));
    found
}

/// What a score or a distance is refused for in the end.
fn score_classes(case: &Case, number: u32) -> Option<&'static str> {
    if number != 12 {
        return None;
    }
    let score = match case {
        Case::Distance { setup, query, record } => plain::record_score(setup, query, record)?,
        _ => match plain::value(case)? {
            Value::Float(score) => score,
            _ => return None,
        },
    };
    Some(match score {
        _ if score.is_nan() => SCORED[1],
        _ if score.is_infinite() => SCORED[0],
        _ => "12 by its sum",
    })
}

fn value_classes(case: &Case, value: &Value) -> Vec<&'static str> {
    let mut found: Vec<&'static str> = items(case).into_iter().collect();
    match (case, value) {
        (Case::Compress { radii, profile, .. } | Case::WriteRecord { radii, profile, .. }, _) => {
            found.extend(when(radii.iter().any(below), RADII[2]));
            if *profile == Profile::BlockLinearU16 {
                found.extend(range_classes(radii));
            }
        }
        (Case::Decompress { profile, payload, .. }, Value::Floats(values)) => {
            let plain = *profile == Profile::F32;
            found.extend(when(plain && floats(payload).iter().any(below), RADII[2]));
            found.extend(when(!finite(values), "values not finite"));
        }
        (Case::Apply { input, .. }, Value::Floats(values)) => {
            found.extend(when(finite(input) && !finite(values), "values not finite"));
        }
        (Case::StoredApply { input, .. }, Value::Floats(values)) => {
            found.extend(when(!finite(input), "values not finite"));
            found.extend(sums(values).into_iter().filter(|_| finite(input)));
        }
        (Case::Sketch { setup, vector, .. }, _) => found.extend(sums(&plain::dots(setup, vector))),
        (Case::Decode { setup, .. }, Value::Floats(values)) => {
            let sum: f32 = setup.matrix.iter().sum();
            found.extend(when(!sum.is_finite(), "matrix sums that overflow"));
            found.extend(when(!finite(values), "values not finite"));
        }
        _ => {}
    }
    if let Some(parts) = case.record().and_then(|bytes| record::split(bytes)) {
        let (pairs, plain) = (parts.dim as usize / 2, !parts.linear());
        found.extend(when(plain && floats(&parts.radii).iter().any(below), RADII[2]));
        if pairs >= BLOCK {
            found.push(BLOCKS[(pairs % BLOCK != 0) as usize]);
        }
    }
    found
}

/// −0.0
fn below(radius: &f32) -> bool {
    *radius == 0.0 && radius.is_sign_negative()
}

fn sums(values: &[f32]) -> Vec<&'static str> {
    let infinite = when(values.iter().any(|sum| sum.is_infinite()), SUMS[0]);
    let nan = when(values.iter().any(|sum| sum.is_nan()), SUMS[1]);
    infinite.into_iter().chain(nan).collect()
}

/// How many items a call takes or makes, where that is at a block's edge.
fn items(case: &Case) -> Option<&'static str> {
    let count = match case {
        Case::PackIndices { indices, .. } => indices.len(),
        Case::PackSigns { signs, .. } => signs.len(),
        Case::UnpackIndices { count, .. } | Case::UnpackSigns { count, .. } => *count,
        Case::Compress { radii, .. } | Case::WriteRecord { radii, .. } => radii.len(),
        Case::Decompress { count, .. } => *count,
        Case::ReadRecord { record } => record::header(record)?.dim as usize / 2,
        _ => return None,
    };
    let at = [63, 64, 65, 127, 128, 129].iter().position(|edge| *edge == count)?;
    Some(ITEMS[at])
}

/// What is particular about radii that are rounded to a linear range.
fn range_classes(radii: &[f32]) -> Vec<&'static str> {
    let (min, max) = plain::range(radii);
    let span = max - min;
    let (wide, mut found) = (span.max(f32::EPSILON), Vec::new());
    let mut zeros = radii.iter().filter(|radius| **radius == 0.0);
    let first = zeros.next().copied();
    if zeros.any(|zero| Some(below(zero)) != first.as_ref().map(below)) {
        found.push(RANGES[1 + first.as_ref().is_some_and(below) as usize]);
    }
    let scaled = |radius: &f32| ((radius - min) / wide).clamp(0.0, 1.0) * 65535.0;
    let half = |value: f32| value.fract() == 0.5;
    let beside = |value: f32| half(value.next_up()) || half(value.next_down());
    let met = |what: &dyn Fn(f32) -> bool| radii.iter().any(|radius| what(scaled(radius)));
    found.extend(when(radii.len() > 1 && span == 0.0, RANGES[0]));
    found.extend(when(met(&half), RANGES[3]));
    found.extend(when(met(&beside), RANGES[4]));
    found.extend(when(0.0 < span && span < f32::EPSILON, RANGES[5]));
    found
}
