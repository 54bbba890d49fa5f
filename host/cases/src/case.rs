//! A case: one call with all that it is lent, and the forms of an answer.

use std::{fmt, rc::Rc};

use oracle::{
    radius::RadiusCodecProfileV1,
    rotation::RotationKind,
    thin::{self, Answer as Rust, Fault, Halves},
    turbo::{TurboMode, TurboQuantizer},
};

pub use oracle::{radius::RadiusCodecProfileV1 as Profile, turbo::TurboMode as Mode};

/// The largest dimension of a stored rotation.
pub const LARGEST_STORED: usize = 512;

/// Which rotation a setup has.
#[derive(Debug, Clone, Copy, PartialEq, Eq)]
pub enum Kind {
    FastHadamard,
    Stored,
}

impl Kind {
    /// How many entries are lent for a rotation of this dimension.
    pub fn needed(self, dim: usize) -> usize {
        match self {
            Kind::FastHadamard => dim,
            Kind::Stored => dim.saturating_mul(dim),
        }
    }
}

/// A setup as the port is lent it, and the Rust's quantizer with the same parts.
pub struct Setup {
    pub mode: TurboMode,
    pub dim: usize,
    pub bits: u8,
    pub projections: usize,
    pub kind: Kind,
    /// Signs, or a matrix column by column.
    pub rotation: Vec<f32>,
    pub directions: Rc<Vec<f32>>,
    pub matrix: Vec<f32>,
    /// Whether `directions` is the host's own table for the polar bits.
    pub own_table: bool,
    /// None where the Rust can't hold these parts (lengths, signs, entries that it never
    /// has), so that there is nothing to compare.
    pub rust: Option<Rust<TurboQuantizer>>,
    /// The same quantizer in its two halves; None in `PolarOnly`.
    pub halves: Option<Halves>,
}

impl Setup {
    /// One pair of one polar bit, under these signs and this matrix, with the host's own table.
    pub fn of_one_pair(
        mode: TurboMode,
        projections: usize,
        signs: Vec<f32>,
        matrix: Vec<f32>,
    ) -> Rc<Setup> {
        Setup {
            mode,
            dim: 2,
            bits: 1 + (mode == TurboMode::PolarWithQjl) as u8,
            projections,
            kind: Kind::FastHadamard,
            rotation: signs,
            directions: Rc::new(thin::directions(1)),
            matrix,
            own_table: true,
            rust: None,
            halves: None,
        }
        .with_rust()
    }

    /// The setup with the Rust's quantizer of the same parts.
    pub fn with_rust(mut self) -> Rc<Setup> {
        // In `PolarOnly` the Rust keeps the count and never looks at it.
        let asked = match self.mode {
            TurboMode::PolarOnly => self.projections.min(64),
            TurboMode::PolarWithQjl => self.projections,
        };
        self.rust = rust_setup(&self, asked);
        if let Some(Ok(turbo)) = &self.rust {
            self.halves = thin::halves(turbo);
        }
        Rc::new(self)
    }

    /// Bits of an angle: the total, less 1 in residual mode.
    pub fn polar_bits(&self) -> u8 {
        match self.mode {
            TurboMode::PolarOnly => self.bits,
            TurboMode::PolarWithQjl => self.bits.saturating_sub(1),
        }
    }

    /// The projections that count: none in `PolarOnly`.
    pub fn counted(&self) -> usize {
        match self.mode {
            TurboMode::PolarOnly => 0,
            TurboMode::PolarWithQjl => self.projections,
        }
    }
}

/// One call. `out` is the length of the output buffer to lend.
pub enum Case {
    PackedLen {
        count: usize,
        bits: u8,
    },
    PackIndices {
        indices: Vec<u16>,
        bits: u8,
        out: usize,
    },
    UnpackIndices {
        bytes: Vec<u8>,
        count: usize,
        bits: u8,
        out: usize,
    },
    PackSigns {
        signs: Vec<i8>,
        out: usize,
    },
    UnpackSigns {
        bytes: Vec<u8>,
        count: usize,
        out: usize,
    },
    ValidatePadding {
        bytes: Vec<u8>,
        used_bits: usize,
    },
    CodebookUniform {
        bits: u8,
        min: f32,
        max: f32,
    },
    CodebookLevels {
        bits: u8,
        min: f32,
        max: f32,
    },
    CodebookQuantize {
        bits: u8,
        min: f32,
        max: f32,
        value: f32,
    },
    CodebookMidpoint {
        bits: u8,
        min: f32,
        max: f32,
        index: u16,
    },
    Compress {
        radii: Vec<f32>,
        profile: RadiusCodecProfileV1,
        out: usize,
    },
    Decompress {
        profile: RadiusCodecProfileV1,
        count: usize,
        min: f32,
        max: f32,
        payload: Vec<u8>,
        out: usize,
    },
    EncodedBytes {
        profile: RadiusCodecProfileV1,
        payload: Vec<u8>,
    },
    Root {
        value: f32,
    },
    Angle {
        bits: u8,
        index: u16,
    },
    Seeds {
        seed: u64,
    },
    Apply {
        inverse: bool,
        dim: usize,
        signs: Vec<f32>,
        input: Vec<f32>,
        out: usize,
    },
    /// The matrix stands column by column.
    StoredApply {
        inverse: bool,
        dim: usize,
        matrix: Vec<f32>,
        input: Vec<f32>,
        out: usize,
    },
    SetupCheck {
        setup: Rc<Setup>,
    },
    Sketch {
        setup: Rc<Setup>,
        vector: Vec<f32>,
        out: usize,
    },
    Prepare {
        setup: Rc<Setup>,
        query: Vec<f32>,
        rotated: usize,
        projected: usize,
    },
    SketchScore {
        setup: Rc<Setup>,
        query: Vec<f32>,
        signs: Vec<i8>,
        norm: f32,
    },
    WriteRecord {
        profile: RadiusCodecProfileV1,
        dim: usize,
        bits: u8,
        mode: TurboMode,
        projections: usize,
        norm: Option<f32>,
        radii: Vec<f32>,
        indices: Vec<u16>,
        signs: Vec<i8>,
        out: usize,
    },
    ReadRecord {
        record: Vec<u8>,
    },
    Score {
        setup: Rc<Setup>,
        query: Vec<f32>,
        record: Vec<u8>,
    },
    Distance {
        setup: Rc<Setup>,
        query: Vec<f32>,
        record: Vec<u8>,
    },
    Decode {
        setup: Rc<Setup>,
        record: Vec<u8>,
        out: usize,
    },
    /// `query` is what `rotated` and `projected` were prepared from; None where they
    /// were damaged afterwards, which the Rust's closed type does not allow.
    ScorePrepared {
        setup: Rc<Setup>,
        query: Option<Vec<f32>>,
        rotated: Vec<f32>,
        projected: Vec<f32>,
        record: Vec<u8>,
    },
}

/// The names of the calls, in the order of `Maker::make`.
pub const CALLS: [&str; 30] = [
    "packed_len",
    "pack_indices",
    "unpack_indices",
    "pack_signs",
    "unpack_signs",
    "validate_padding_zero",
    "codebook_uniform",
    "codebook_levels",
    "codebook_quantize",
    "codebook_midpoint",
    "compress",
    "decompress",
    "root",
    "dequantize_angle",
    "seeds",
    "apply",
    "apply_inverse",
    "setup",
    "sketch",
    "prepare_query",
    "sketch_score",
    "write_record",
    "read_record",
    "score",
    "distance",
    "decode",
    "score_prepared",
    "encoded_bytes",
    "stored_apply",
    "stored_apply_inverse",
];

/// The calls whose cases may have a stored rotation, or a record of any even dimension.
pub const OTHER_BOARDS: [&str; 10] = [
    "setup",
    "sketch",
    "prepare_query",
    "sketch_score",
    "write_record",
    "read_record",
    "score",
    "distance",
    "decode",
    "score_prepared",
];

/// The calls that are lent a record to read.
pub const TAKE_A_RECORD: [&str; 5] =
    ["read_record", "score", "distance", "decode", "score_prepared"];

/// The record of a case whose call takes one, lent as the case is.
macro_rules! record_of {
    ($case:expr) => {
        match $case {
            Case::ReadRecord { record }
            | Case::Score { record, .. }
            | Case::Distance { record, .. }
            | Case::Decode { record, .. }
            | Case::ScorePrepared { record, .. } => Some(record),
            _ => None,
        }
    };
}

impl Case {
    /// The record of a call that takes one.
    pub fn record(&self) -> Option<&Vec<u8>> {
        record_of!(self)
    }

    /// The same, to be changed.
    pub(crate) fn record_mut(&mut self) -> Option<&mut Vec<u8>> {
        record_of!(self)
    }

    /// The setup of a call under one.
    pub fn setup(&self) -> Option<&Rc<Setup>> {
        match self {
            Case::SetupCheck { setup }
            | Case::Sketch { setup, .. }
            | Case::Prepare { setup, .. }
            | Case::SketchScore { setup, .. }
            | Case::Score { setup, .. }
            | Case::Distance { setup, .. }
            | Case::Decode { setup, .. }
            | Case::ScorePrepared { setup, .. } => Some(setup),
            _ => None,
        }
    }

    pub fn call(&self) -> &'static str {
        CALLS[match self {
            Case::PackedLen { .. } => 0,
            Case::PackIndices { .. } => 1,
            Case::UnpackIndices { .. } => 2,
            Case::PackSigns { .. } => 3,
            Case::UnpackSigns { .. } => 4,
            Case::ValidatePadding { .. } => 5,
            Case::CodebookUniform { .. } => 6,
            Case::CodebookLevels { .. } => 7,
            Case::CodebookQuantize { .. } => 8,
            Case::CodebookMidpoint { .. } => 9,
            Case::Compress { .. } => 10,
            Case::Decompress { .. } => 11,
            Case::Root { .. } => 12,
            Case::Angle { .. } => 13,
            Case::Seeds { .. } => 14,
            Case::Apply { inverse: false, .. } => 15,
            Case::Apply { inverse: true, .. } => 16,
            Case::SetupCheck { .. } => 17,
            Case::Sketch { .. } => 18,
            Case::Prepare { .. } => 19,
            Case::SketchScore { .. } => 20,
            Case::WriteRecord { .. } => 21,
            Case::ReadRecord { .. } => 22,
            Case::Score { .. } => 23,
            Case::Distance { .. } => 24,
            Case::Decode { .. } => 25,
            Case::ScorePrepared { .. } => 26,
            Case::EncodedBytes { .. } => 27,
            Case::StoredApply { inverse: false, .. } => 28,
            Case::StoredApply { inverse: true, .. } => 29,
        }]
    }
}

/// A value that a call answers with or writes.
#[derive(Debug, Clone, PartialEq)]
pub enum Value {
    Done,
    Number(u64),
    Float(f32),
    Bytes(Vec<u8>),
    Numbers(Vec<u16>),
    Signs(Vec<i8>),
    Floats(Vec<f32>),
    Codebook { bits: u8, min: f32, max: f32 },
    Radii { min: f32, max: f32, payload: Vec<u8> },
    Seeds { rotation: u64, matrix: u64 },
    Prepared { rotated: Vec<f32>, projected: Vec<f32> },
    Record { radii: Vec<f32>, indices: Vec<u16>, signs: Vec<i8>, norm: Option<f32> },
}

/// The oracle's answer.
#[derive(Debug, Clone, PartialEq)]
pub enum Answer {
    Value(Value),
    Error(Fault),
    Panic(String),
    /// The Rust has no call or no form for this input.
    Absent,
}

/// NaNs are one, the two zeros are equal, all else is the pattern.
pub fn same_float(a: f32, b: f32) -> bool {
    a == b || (a.is_nan() && b.is_nan())
}

/// NaNs are one, all else is the pattern.
pub fn strictly_same_float(a: f32, b: f32) -> bool {
    a.to_bits() == b.to_bits() || (a.is_nan() && b.is_nan())
}

/// Equality as document 01 asks for it.
pub fn same(a: &Value, b: &Value) -> bool {
    alike(a, b, same_float)
}

/// Equality with the signs of zeros.
pub fn strictly_same(a: &Value, b: &Value) -> bool {
    alike(a, b, strictly_same_float)
}

fn alike(a: &Value, b: &Value, float: fn(f32, f32) -> bool) -> bool {
    let floats =
        |a: &[f32], b: &[f32]| a.len() == b.len() && a.iter().zip(b).all(|(a, b)| float(*a, *b));
    match (a, b) {
        (Value::Float(a), Value::Float(b)) => float(*a, *b),
        (Value::Floats(a), Value::Floats(b)) => floats(a, b),
        (
            Value::Codebook { bits, min, max },
            Value::Codebook { bits: width, min: low, max: high },
        ) => bits == width && float(*min, *low) && float(*max, *high),
        (
            Value::Radii { min, max, payload },
            Value::Radii { min: low, max: high, payload: other },
        ) => float(*min, *low) && float(*max, *high) && payload == other,
        (
            Value::Prepared { rotated, projected },
            Value::Prepared { rotated: turned, projected: rows },
        ) => floats(rotated, turned) && floats(projected, rows),
        (
            Value::Record { radii, indices, signs, norm },
            Value::Record { radii: r, indices: i, signs: s, norm: n },
        ) => {
            // A norm is kept bit for bit, −0.0 too.
            let kept = norm.map(f32::to_bits) == n.map(f32::to_bits);
            floats(radii, r) && indices == i && signs == s && kept
        }
        _ => a == b,
    }
}

// The text form: `call name=value .. => answer`. Floats and bytes are hexadecimal,
// floats as their patterns; lists are joined by commas; an empty list is `-`.

struct Hex<'a>(&'a [u8]);
struct List<'a, T>(&'a [T]);
struct Patterns<'a>(&'a [f32]);

impl fmt::Display for Hex<'_> {
    fn fmt(&self, f: &mut fmt::Formatter) -> fmt::Result {
        if self.0.is_empty() {
            return f.write_str("-");
        }
        self.0.iter().try_for_each(|byte| write!(f, "{byte:02X}"))
    }
}

impl<T: fmt::Display> fmt::Display for List<'_, T> {
    fn fmt(&self, f: &mut fmt::Formatter) -> fmt::Result {
        if self.0.is_empty() {
            return f.write_str("-");
        }
        for (i, item) in self.0.iter().enumerate() {
            write!(f, "{}{item}", if i == 0 { "" } else { "," })?;
        }
        Ok(())
    }
}

impl fmt::Display for Patterns<'_> {
    fn fmt(&self, f: &mut fmt::Formatter) -> fmt::Result {
        if self.0.is_empty() {
            return f.write_str("-");
        }
        for (i, item) in self.0.iter().enumerate() {
            write!(f, "{}{:08X}", if i == 0 { "" } else { "," }, item.to_bits())?;
        }
        Ok(())
    }
}

fn pattern(value: f32) -> String {
    format!("{:08X}", value.to_bits())
}

fn profile_name(profile: RadiusCodecProfileV1) -> &'static str {
    match profile {
        RadiusCodecProfileV1::F32 => "f32",
        RadiusCodecProfileV1::BlockLinearU16 => "linear",
        RadiusCodecProfileV1::BlockLogU8 => "log",
    }
}

fn kind_name(kind: Kind) -> &'static str {
    match kind {
        Kind::FastHadamard => "hadamard",
        Kind::Stored => "stored",
    }
}

fn mode_name(mode: TurboMode) -> &'static str {
    match mode {
        TurboMode::PolarOnly => "polar",
        TurboMode::PolarWithQjl => "residual",
    }
}

impl fmt::Display for Setup {
    fn fmt(&self, f: &mut fmt::Formatter) -> fmt::Result {
        write!(
            f,
            "mode={} dim={} bits={} projections={} kind={} rotation={} directions={} matrix={}",
            mode_name(self.mode),
            self.dim,
            self.bits,
            self.projections,
            kind_name(self.kind),
            Patterns(&self.rotation),
            Patterns(&self.directions),
            Patterns(&self.matrix)
        )
    }
}

impl fmt::Display for Case {
    fn fmt(&self, f: &mut fmt::Formatter) -> fmt::Result {
        write!(f, "{} ", self.call())?;
        match self {
            Case::PackedLen { count, bits } => write!(f, "count={count} bits={bits}"),
            Case::PackIndices { indices, bits, out } => {
                write!(f, "indices={} bits={bits} out={out}", List(indices))
            }
            Case::UnpackIndices { bytes, count, bits, out } => {
                write!(f, "bytes={} count={count} bits={bits} out={out}", Hex(bytes))
            }
            Case::PackSigns { signs, out } => write!(f, "signs={} out={out}", List(signs)),
            Case::UnpackSigns { bytes, count, out } => {
                write!(f, "bytes={} count={count} out={out}", Hex(bytes))
            }
            Case::ValidatePadding { bytes, used_bits } => {
                write!(f, "bytes={} used_bits={used_bits}", Hex(bytes))
            }
            Case::CodebookUniform { bits, min, max } | Case::CodebookLevels { bits, min, max } => {
                write!(f, "bits={bits} min={} max={}", pattern(*min), pattern(*max))
            }
            Case::CodebookQuantize { bits, min, max, value } => {
                let (min, max, value) = (pattern(*min), pattern(*max), pattern(*value));
                write!(f, "bits={bits} min={min} max={max} value={value}")
            }
            Case::CodebookMidpoint { bits, min, max, index } => {
                write!(f, "bits={bits} min={} max={} index={index}", pattern(*min), pattern(*max))
            }
            Case::Compress { radii, profile, out } => {
                write!(f, "radii={} profile={} out={out}", Patterns(radii), profile_name(*profile))
            }
            Case::Decompress { profile, count, min, max, payload, out } => write!(
                f,
                "profile={} count={count} min={} max={} payload={} out={out}",
                profile_name(*profile),
                pattern(*min),
                pattern(*max),
                Hex(payload)
            ),
            Case::EncodedBytes { profile, payload } => {
                write!(f, "profile={} payload={}", profile_name(*profile), Hex(payload))
            }
            Case::Root { value } => write!(f, "value={}", pattern(*value)),
            Case::Angle { bits, index } => write!(f, "bits={bits} index={index}"),
            Case::Seeds { seed } => write!(f, "seed={seed:016X}"),
            Case::Apply { dim, signs, input, out, .. } => {
                let (signs, input) = (Patterns(signs), Patterns(input));
                write!(f, "dim={dim} signs={signs} input={input} out={out}")
            }
            Case::StoredApply { dim, matrix, input, out, .. } => {
                let (matrix, input) = (Patterns(matrix), Patterns(input));
                write!(f, "dim={dim} matrix={matrix} input={input} out={out}")
            }
            Case::SetupCheck { setup } => write!(f, "{setup}"),
            Case::Sketch { setup, vector, out } => {
                write!(f, "{setup} vector={} out={out}", Patterns(vector))
            }
            Case::Prepare { setup, query, rotated, projected } => write!(
                f,
                "{setup} query={} out_rotated={rotated} out_projected={projected}",
                Patterns(query)
            ),
            Case::SketchScore { setup, query, signs, norm } => {
                let (query, signs, norm) = (Patterns(query), List(signs), pattern(*norm));
                write!(f, "{setup} query={query} sketch={signs} norm={norm}")
            }
            Case::WriteRecord {
                profile,
                dim,
                bits,
                mode,
                projections,
                norm,
                radii,
                indices,
                signs,
                out,
            } => write!(
                f,
                "profile={} dim={dim} bits={bits} mode={} projections={projections} norm={} \
                 radii={} indices={} signs={} out={out}",
                profile_name(*profile),
                mode_name(*mode),
                Patterns(norm.as_slice()),
                Patterns(radii),
                List(indices),
                List(signs)
            ),
            Case::ReadRecord { record } => write!(f, "record={}", Hex(record)),
            Case::Score { setup, query, record } | Case::Distance { setup, query, record } => {
                write!(f, "{setup} query={} record={}", Patterns(query), Hex(record))
            }
            Case::Decode { setup, record, out } => {
                write!(f, "{setup} record={} out={out}", Hex(record))
            }
            Case::ScorePrepared { setup, rotated, projected, record, .. } => write!(
                f,
                "{setup} rotated={} projected={} record={}",
                Patterns(rotated),
                Patterns(projected),
                Hex(record)
            ),
        }
    }
}

impl fmt::Display for Value {
    fn fmt(&self, f: &mut fmt::Formatter) -> fmt::Result {
        match self {
            Value::Done => f.write_str("done"),
            Value::Number(number) => write!(f, "number {number}"),
            Value::Float(value) => write!(f, "float {}", pattern(*value)),
            Value::Bytes(bytes) => write!(f, "bytes {}", Hex(bytes)),
            Value::Numbers(items) => write!(f, "numbers {}", List(items)),
            Value::Signs(items) => write!(f, "signs {}", List(items)),
            Value::Floats(items) => write!(f, "floats {}", Patterns(items)),
            Value::Codebook { bits, min, max } => {
                write!(f, "codebook {bits} {} {}", pattern(*min), pattern(*max))
            }
            Value::Radii { min, max, payload } => {
                write!(f, "radii {} {} {}", pattern(*min), pattern(*max), Hex(payload))
            }
            Value::Seeds { rotation, matrix } => write!(f, "seeds {rotation:016X} {matrix:016X}"),
            Value::Prepared { rotated, projected } => {
                write!(f, "prepared {} {}", Patterns(rotated), Patterns(projected))
            }
            Value::Record { radii, indices, signs, norm } => {
                let (radii, norm) = (Patterns(radii), Patterns(norm.as_slice()));
                write!(f, "record {radii} {} {} {norm}", List(indices), List(signs))
            }
        }
    }
}

impl fmt::Display for Answer {
    fn fmt(&self, f: &mut fmt::Formatter) -> fmt::Result {
        match self {
            Answer::Value(value) => write!(f, "ok {value}"),
            Answer::Error(fault) => write!(f, "error {}", fault.variant),
            Answer::Panic(_) => f.write_str("panic"),
            Answer::Absent => f.write_str("absent"),
        }
    }
}

/// The Rust's quantizer with a setup's parts, and so many projections. None where the Rust
/// can't have them.
fn rust_setup(setup: &Setup, projections: usize) -> Option<Rust<TurboQuantizer>> {
    let Setup { mode, dim, bits, kind, ref rotation, ref matrix, .. } = *setup;
    let rows = if mode == TurboMode::PolarOnly { 0 } else { projections };
    let good = |entry: &f32| match kind {
        Kind::FastHadamard => *entry == 1.0 || *entry == -1.0,
        Kind::Stored => entry.is_finite(),
    };
    let fits = rotation.len() == kind.needed(dim)
        && rotation.iter().all(good)
        && rows.checked_mul(dim) == Some(matrix.len())
        && matrix.iter().all(|entry| entry.is_finite());
    // A large quantizer is not worth drawing only to be dropped.
    let most = match kind {
        Kind::FastHadamard => 1 << 13,
        Kind::Stored if fits => LARGEST_STORED,
        Kind::Stored => 64,
    };
    if dim > most || (!fits && rows.saturating_mul(dim.max(1)) > 1 << 16) {
        return None;
    }
    let turn = match kind {
        Kind::FastHadamard => RotationKind::FastHadamard,
        Kind::Stored => RotationKind::StoredQr,
    };
    match thin::turbo_by(turn, mode, dim, bits, projections, 0) {
        Ok(drawn) if fits => Some(Ok(thin::turbo_with(&drawn, rotation, matrix))),
        Ok(_) => None,
        Err(fault) => Some(Err(fault)),
    }
}
