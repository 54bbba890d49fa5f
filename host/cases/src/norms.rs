//! Source norms, which document 02 adds: their classes, and the norms of cases. They are put
//! into cases that are made without them, by a generator of their own, so that all else of a
//! case is the same with a norm and without. Only a distance near the top of f32 gets its norm
//! before its query, which is made large or small enough by the score.

use crate::{
    case::{Case, Mode},
    record::{self, Parts},
    rng::Rng,
};

/// Where norms are given, in a record or beside it: a call, and its mode where it takes a norm
/// by itself.
pub const PLACES: [&str; 9] = [
    "read_record",
    "score",
    "distance",
    "decode",
    "score_prepared",
    "sketch_score in PolarOnly",
    "sketch_score in PolarWithQjl",
    "write_record in PolarOnly",
    "write_record in PolarWithQjl",
];

/// Which of `PLACES` a case has, if it has one.
pub fn place_of(case: &Case) -> Option<&'static str> {
    let mode = match case {
        Case::SketchScore { setup, .. } => setup.mode,
        Case::WriteRecord { mode, .. } => *mode,
        _ => return PLACES.into_iter().find(|place| *place == case.call()),
    };
    let of = |place: &&str| place.starts_with(case.call()) && place.ends_with(&format!("{mode:?}"));
    PLACES.into_iter().find(of)
}

/// The classes that a place must have a case of.
pub fn classes_of(place: &str) -> Vec<&'static str> {
    let absent = !place.starts_with("sketch_score");
    let flawed = match place {
        _ if place.starts_with("sketch_score") => &FLAWED[..0],
        "write_record in PolarOnly" => &FLAWED[..0],
        "write_record in PolarWithQjl" => &FLAWED[3..],
        _ => &FLAWED[..],
    };
    [&GOOD[!absent as usize..], &BAD[..], flawed].concat()
}

/// What a norm is, as far as the documents and the formulas tell two of them apart.
pub const GOOD: [&str; 9] =
    ["absent", "1.0", "0.0", "-0.0", "subnormal", "tiny", "middle", "huge", "K infinite"];
pub const BAD: [&str; 6] =
    ["NaN", "NaN with a sign", "+inf", "-inf", "below zero", "subnormal below zero"];
/// What else can be wrong with a norm: with its place in a record, or with what is checked
/// before it or after it. Writing has the last of them only.
pub const FLAWED: [&str; 4] = [
    "bit 2 without bit 1",
    "header cut within the norm",
    "bad beside a bad range",
    "bad beside a bad radius",
];

/// The class of a norm that is given.
pub fn class(norm: f32) -> &'static str {
    let below = norm.is_sign_negative();
    match norm {
        _ if norm.is_nan() => BAD[below as usize],
        _ if norm.is_infinite() => BAD[2 + below as usize],
        0.0 => GOOD[2 + below as usize],
        _ if below => BAD[4 + norm.is_subnormal() as usize],
        1.0 => GOOD[1],
        _ if norm.is_subnormal() => GOOD[4],
        _ if norm < 2f32.powi(-60) => GOOD[5],
        _ if norm < 2f32.powi(60) => GOOD[6],
        _ if (root() * norm).is_finite() => GOOD[7],
        _ => GOOD[8],
    }
}

/// root(PI / 2), which the norm is multiplied with.
fn root() -> f32 {
    (std::f32::consts::PI / 2.0).sqrt()
}

/// Whether a norm is one of those that are refused (23).
pub fn bad(norm: f32) -> bool {
    BAD.contains(&class(norm))
}

/// The norm that a case's call is given: none where it is absent, or where the call takes no
/// record and no norm, or where the record's header can't be read.
pub fn given(case: &Case) -> Option<f32> {
    match case {
        Case::SketchScore { norm, .. } => Some(*norm),
        Case::WriteRecord { norm, .. } => *norm,
        _ => record::header(case.record()?)?.given_norm(),
    }
}

/// The class of a case's norm; None where a record is too short or has a map byte that is
/// not defined, so that nothing is known of its norm.
pub fn class_of(case: &Case) -> Option<&'static str> {
    match (case, case.record()) {
        (Case::SketchScore { .. } | Case::WriteRecord { .. }, _) => {}
        (_, Some(bytes)) if record::defined(record::header(bytes)?.map) => {}
        _ => return None,
    }
    Some(given(case).map_or(GOOD[0], class))
}

/// Which of `FLAWED` a case's norm is, if it is one.
pub fn flaw_of(case: &Case) -> Option<&'static str> {
    if let Case::WriteRecord { norm: Some(norm), radii, .. } = case {
        let beside = bad(*norm) && !radii.iter().all(good_radius);
        return beside.then_some(FLAWED[3]);
    }
    let bytes = case.record()?;
    let map = *bytes.first().filter(|_| bytes.len() >= 6)?;
    if map & !record::LINEAR == record::NORM {
        return Some(FLAWED[0]);
    }
    let head = record::header_len(map);
    if !record::defined(map) || map & record::NORM == 0 {
        return None;
    }
    if (head - 4..head).contains(&bytes.len()) {
        return Some(FLAWED[1]);
    }
    let parts = record::split(bytes).filter(|parts| bad(parts.norm))?;
    if !good_range(&parts) {
        return Some(FLAWED[2]);
    }
    (!good_radii(&parts)).then_some(FLAWED[3])
}

fn good_radius(radius: &f32) -> bool {
    radius.is_finite() && *radius >= 0.0
}

fn good_range(parts: &Parts) -> bool {
    good_radius(&parts.min) && good_radius(&parts.max) && parts.min <= parts.max
}

/// Whether all radii are finite and not below zero as they are read.
fn good_radii(parts: &Parts) -> bool {
    if !parts.linear() {
        let four = |four: &[u8]| f32::from_le_bytes([four[0], four[1], four[2], four[3]]);
        return parts.radii.chunks_exact(4).all(|bytes| good_radius(&four(bytes)));
    }
    let span = parts.max - parts.min;
    parts.radii.chunks_exact(2).all(|two| {
        let part = f32::from(u16::from_le_bytes([two[0], two[1]])) / 65535.0;
        good_radius(&(parts.min + span * part))
    })
}

/// Draws norms and puts them into cases.
pub(crate) struct Norms(pub(crate) Rng);

impl Norms {
    /// A norm of any class that is not refused.
    fn good(&mut self) -> f32 {
        let rng = &mut self.0;
        let bits = rng.next() as u32;
        // Where the product with the root becomes infinite, and around it.
        let edge = (f32::MAX / root()).to_bits() - 2 + rng.below(5) as u32;
        match rng.below(26) {
            0..3 => 1.0,
            3 | 4 => 0.0,
            5 | 6 => -0.0,
            7 => f32::from_bits(1),
            8 => f32::from_bits(1 + (bits & 0x007F_FFFF) % 0x007F_FFFF),
            9 => f32::MIN_POSITIVE,
            10 => rng.unit().abs() * 2f32.powi(-70) + 2f32.powi(-100),
            11 => f32::from_bits(0x3F80_0000 - 3 + (bits & 7)),
            12 => rng.below(9) as f32,
            13 => 2f32.powi(rng.below(121) as i32 - 60),
            14 => rng.unit().abs() * 1.0e30 + 2f32.powi(60),
            15 => f32::from_bits(0x7F00_0000 | (bits & 0x001F_FFFF)),
            16 => f32::from_bits(edge),
            17 => rng.pick(&[f32::MAX, f32::from_bits(0x7F7F_0000 | (bits & 0xFFFF))]),
            18 => match f32::from_bits(bits & 0x7FFF_FFFF) {
                any if any.is_finite() => any,
                _ => 2.0,
            },
            _ => self.middle(),
        }
    }

    /// A norm of an ordinary size.
    fn middle(&mut self) -> f32 {
        let size = self.0.pick(&[1.0, 4.0, 4.0, 1000.0, 1.0e6]);
        self.0.unit().abs() * size + f32::EPSILON
    }

    /// The norm of a record that is scored near the top of f32: most often none.
    pub(crate) fn near_the_top(&mut self) -> Option<f32> {
        match self.0.below(10) {
            0..6 => None,
            6 => Some(1.0),
            _ => Some(self.middle()),
        }
    }

    /// A norm of any class that is refused.
    fn bad(&mut self) -> f32 {
        let rng = &mut self.0;
        let bits = rng.next() as u32;
        let payload = f32::from_bits(0x7F80_0001 | (bits & 0x807F_FFFF));
        match rng.below(9) {
            0 | 1 => f32::INFINITY,
            2 => f32::NEG_INFINITY,
            3 => f32::from_bits(0x7FC0_0000 | (bits & 0x8000_0000)),
            4 | 5 => payload,
            6 => -f32::from_bits(1 + (bits & 0x007F_FFFF) % 0x007F_FFFF),
            7 => rng.pick(&[-1.0, -f32::MIN_POSITIVE, -f32::MAX, -f32::from_bits(1)]),
            _ => -rng.unit().abs() - f32::MIN_POSITIVE,
        }
    }

    /// Puts a norm into a case whose call takes one.
    pub(crate) fn put(&mut self, case: &mut Case) {
        match case {
            Case::SketchScore { norm, .. } => {
                *norm = if self.0.chance(25) { self.bad() } else { self.good() };
            }
            Case::WriteRecord { mode, norm, radii, out, .. } => {
                let signs = *mode == Mode::PolarWithQjl;
                // A norm without signs is refused, so most are beside them.
                if !self.0.chance(if signs { 65 } else { 20 }) {
                    return;
                }
                let refused = self.0.chance(30);
                *norm = Some(if refused { self.bad() } else { self.good() });
                if refused && self.0.chance(20) {
                    radii.iter_mut().take(1).for_each(|radius| *radius = -1.0);
                }
                *out += if signs && *out > 0 { 4 } else { 0 };
            }
            _ => {
                if let Some(bytes) = case.record_mut() {
                    self.put_into(bytes);
                }
            }
        }
    }

    /// Puts a norm into most records with signs, a bad one into some of them; some have a
    /// flaw besides. Of the records without signs a few get the norm's bit alone.
    fn put_into(&mut self, bytes: &mut Vec<u8>) {
        let Some(head) = record::header(bytes) else { return };
        if head.map & !(record::LINEAR | record::SIGNS) != 0 {
            return;
        }
        let norm = match (head.has_signs(), self.0.below(100)) {
            (false, 0..5) => self.good(),
            (false, _) | (true, 0..38) => return,
            (true, 38..84) => self.good(),
            (true, _) => self.bad(),
        };
        // The bit alone comes with a norm's bytes and without.
        let bare = !head.has_signs() && self.0.chance(50);
        let at = record::header_len(head.map);
        bytes[0] |= record::NORM;
        if !bare {
            bytes.splice(at..at, norm.to_le_bytes());
        }
        if head.has_signs() && self.0.chance(6) {
            bytes.truncate(at + self.0.below(4));
        } else if bad(norm) && head.has_signs() && self.0.chance(35) {
            self.flaw(bytes);
        }
    }

    /// Makes the range or a radius of a record bad.
    fn flaw(&mut self, bytes: &mut Vec<u8>) {
        let Some(mut parts) = record::split(bytes).filter(|parts| parts.radii.len() > 3) else {
            return;
        };
        if !parts.linear() {
            let at = self.0.below(parts.radii.len() / 4) * 4;
            let radius = self.0.pick(&[f32::NAN, f32::INFINITY, -1.0, -f32::from_bits(1)]);
            parts.radii[at..at + 4].copy_from_slice(&radius.to_le_bytes());
        } else if self.0.chance(50) {
            (parts.min, parts.max) =
                self.0.pick(&[(f32::NAN, 1.0), (0.0, f32::INFINITY), (-1.0, 1.0), (1.0, 0.5)]);
        } else {
            // The largest number in this range reads as infinite.
            (parts.min, parts.max) = (f32::from_bits(0x73C0_0000), f32::MAX);
            parts.radii[..2].fill(0xFF);
        }
        *bytes = parts.bytes();
    }
}
