//! The inputs of the benchmark, made from a seed, in the forms that both sides take.

// The port's forms are unused while it is not there.
#![cfg_attr(not(feature = "capi"), allow(dead_code))]

use std::{cmp::Ordering, collections::BinaryHeap, hint::black_box, sync::OnceLock};

use cases::{record, rng::Rng};
use oracle::{
    packed::PackedTurboCode,
    qjl::{QjlQuantizer, QjlSketch},
    radius::{CompressedRadiiV1, RadiusCodecProfileV1},
    rotation::{FastHadamardRotation, StoredRotation},
    thin,
    turbo::{TurboCode, TurboMode, TurboProjectedQuery, TurboQuantizer},
};

pub struct Indices {
    pub bits: u8,
    pub items: Vec<u16>,
    pub packed: Vec<u8>,
}

pub struct Turn {
    pub rotation: FastHadamardRotation,
    pub signs: Vec<f32>,
    pub input: Vec<f32>,
}

/// A stored rotation with its matrix, column by column.
pub struct StoredTurn {
    pub rotation: StoredRotation,
    pub matrix: Vec<f32>,
    pub input: Vec<f32>,
}

/// A matrix with a vector for it. The port's sketch takes a whole setup, so signs and
/// a direction table of 2 total bits stand beside; `quantizer` has the same parts.
pub struct Sketch {
    pub qjl: QjlQuantizer,
    pub quantizer: TurboQuantizer,
    pub sketch: QjlSketch,
    pub dim: usize,
    pub projections: usize,
    pub signs: Vec<f32>,
    pub directions: Vec<f32>,
    pub matrix: Vec<f32>,
    pub vector: Vec<f32>,
}

/// A setup with a query, a code and its record. Where the radii are linear, the code has them as
/// they are restored from the record, so that both sides score the same ones.
pub struct Turbo {
    pub quantizer: TurboQuantizer,
    pub dim: usize,
    pub bits: u8,
    pub projections: usize,
    pub signs: Vec<f32>,
    pub directions: Vec<f32>,
    pub matrix: Vec<f32>,
    pub query: Vec<f32>,
    pub rotated: Vec<f32>,
    pub projected: Vec<f32>,
    pub prepared: TurboProjectedQuery,
    pub code: TurboCode,
    pub packed: PackedTurboCode,
    pub record: Vec<u8>,
}

/// So many records are scanned, for so many hits.
pub const SCANNED: usize = 1_000_000;
pub const BEST: usize = 10;

/// So many of them are distinct; the others repeat these in their order.
pub const DISTINCT: usize = 4096;

/// The records of a scan under the setup and the query of `Turbo`: a pool of codes, and the pool's
/// records one behind the other.
pub struct Archive {
    codes: Vec<TurboCode>,
    pub pool: Vec<u8>,
    /// The length of each record.
    pub size: usize,
    all: OnceLock<Vec<u8>>,
}

/// A hit of the Rust's side. The greatest of several is the worst: the least score, and of equal
/// ones the highest number.
#[derive(Debug, Clone, Copy, PartialEq)]
pub struct Hit {
    pub number: u32,
    pub score: f32,
}

impl Eq for Hit {}

impl Ord for Hit {
    fn cmp(&self, other: &Self) -> Ordering {
        let by_score = other.score.partial_cmp(&self.score).expect("a score is NaN");
        by_score.then(self.number.cmp(&other.number))
    }
}

impl PartialOrd for Hit {
    fn partial_cmp(&self, other: &Self) -> Option<Ordering> {
        Some(self.cmp(other))
    }
}

impl Archive {
    /// The best of the first so many records, as the Rust finds them: a score for each code, and a
    /// heap.
    pub fn best(&self, turbo: &Turbo, count: usize) -> Vec<Hit> {
        let query = black_box(&turbo.prepared);
        let mut heap = BinaryHeap::with_capacity(BEST);
        for (number, code) in (0..count as u32).zip(self.codes.iter().cycle()) {
            let score = turbo.quantizer.inner_product_estimate_prepared(code, query).unwrap();
            let hit = Hit { number, score };
            if heap.len() < BEST {
                heap.push(hit);
            } else if let Some(mut worst) = heap.peek_mut().filter(|worst| hit < **worst) {
                *worst = hit;
            }
        }
        heap.into_sorted_vec()
    }

    /// All records one behind the other. They are laid out when they are first asked for.
    pub fn all(&self) -> &[u8] {
        self.all.get_or_init(|| {
            let mut all = Vec::with_capacity(SCANNED * self.size);
            while all.len() < SCANNED * self.size {
                all.extend_from_slice(&self.pool);
            }
            all.truncate(SCANNED * self.size);
            all
        })
    }
}

pub struct Inputs {
    pub indices: Vec<Indices>,
    pub signs: Vec<i8>,
    pub packed_signs: Vec<u8>,
    pub radii: Vec<f32>,
    pub compressed: CompressedRadiiV1,
    pub rotations: Vec<Turn>,
    pub stored: Vec<StoredTurn>,
    pub sketches: Vec<Sketch>,
    /// Dimension 256, 8 bits, 64 projections.
    pub turbo: Turbo,
    /// The same with a dimension of 4,096 and 256 projections; with 12 bits; with linear radii.
    pub large: Turbo,
    pub fine: Turbo,
    pub linear: Turbo,
    /// Records under `turbo`.
    pub archive: Archive,
}

fn vector(rng: &mut Rng, count: usize) -> Vec<f32> {
    (0..count).map(|_| rng.unit()).collect()
}

impl Inputs {
    pub fn new(seed: u64) -> Self {
        let mut rng = Rng(seed);
        let indices = [3u8, 8, 12].map(|bits| {
            let items: Vec<u16> = (0..4096).map(|_| rng.below(1 << bits) as u16).collect();
            let packed = thin::pack_indices(&items, bits).unwrap();
            Indices { bits, items, packed }
        });
        let signs: Vec<i8> = (0..4096).map(|_| rng.sign()).collect();
        let packed_signs = thin::pack_signs(&signs).unwrap();
        let radii: Vec<f32> = (0..2048).map(|_| rng.unit().abs() * 4.0).collect();
        let linear = RadiusCodecProfileV1::BlockLinearU16;
        let compressed = thin::compress(&radii, linear).unwrap();
        let rotations = [256, 4096].map(|dim| {
            let signs = thin::drawn_signs(dim, seed).unwrap();
            let rotation = thin::rotation(dim, &signs).unwrap();
            Turn { rotation, signs, input: vector(&mut rng, dim) }
        });
        let sketches = [(256, 64), (1024, 256)].map(|(dim, projections)| {
            let matrix = vector(&mut rng, dim * projections);
            let qjl = thin::qjl(dim, projections, &matrix).unwrap();
            let vector = vector(&mut rng, dim);
            let signs = thin::drawn_signs(dim, seed).unwrap();
            let directions = thin::directions(1);
            let drawn = thin::turbo(TurboMode::PolarWithQjl, dim, 2, projections, seed).unwrap();
            let quantizer = thin::turbo_with(&drawn, &signs, &matrix);
            let sketch = qjl.sketch(&vector).unwrap();
            Sketch { qjl, quantizer, sketch, dim, projections, signs, directions, matrix, vector }
        });
        let mut inputs = Self {
            indices: indices.into(),
            signs,
            packed_signs,
            radii,
            compressed,
            rotations: rotations.into(),
            sketches: sketches.into(),
            turbo: turbo(&mut rng, seed, (256, 8, 64), RadiusCodecProfileV1::F32),
            stored: [90, 300, 512].map(|dim| stored(&mut rng, dim)).into(),
            large: turbo(&mut rng, seed, (4096, 8, 256), RadiusCodecProfileV1::F32),
            fine: turbo(&mut rng, seed, (256, 12, 64), RadiusCodecProfileV1::F32),
            linear: turbo(&mut rng, seed, (256, 8, 64), linear),
            archive: Archive { codes: vec![], pool: vec![], size: 0, all: OnceLock::new() },
        };
        let quantizer = &inputs.turbo.quantizer;
        for _ in 0..DISTINCT {
            let code = thin::encode(quantizer, &vector(&mut rng, inputs.turbo.dim)).unwrap();
            let packed = PackedTurboCode::from_turbo(&code, RadiusCodecProfileV1::F32).unwrap();
            let record = recorded(&packed, inputs.turbo.dim, inputs.turbo.bits);
            inputs.archive.size = record.len();
            inputs.archive.pool.extend(record);
            inputs.archive.codes.push(packed.unpack().unwrap());
        }
        inputs
    }
}

fn stored(rng: &mut Rng, dim: usize) -> StoredTurn {
    let matrix = vector(rng, dim * dim);
    let rotation = thin::stored_rotation(dim, &matrix).unwrap();
    StoredTurn { rotation, matrix, input: vector(rng, dim) }
}

/// A setup of this dimension, total bits and projections, with radii of this profile.
fn turbo(
    rng: &mut Rng,
    seed: u64,
    (dim, bits, projections): (usize, u8, usize),
    profile: RadiusCodecProfileV1,
) -> Turbo {
    let mode = TurboMode::PolarWithQjl;
    let quantizer = thin::turbo(mode, dim, bits, projections, seed).unwrap();
    let query = vector(rng, dim);
    let code = thin::encode(&quantizer, &vector(rng, dim)).unwrap();
    let packed = PackedTurboCode::from_turbo(&code, profile).unwrap();
    let (rotated, projected) = thin::prepare_query(&quantizer, &query).unwrap();
    let record = recorded(&packed, dim, bits);
    Turbo {
        signs: thin::turbo_signs(&quantizer).unwrap(),
        directions: thin::directions(bits - 1),
        matrix: thin::turbo_matrix(&quantizer),
        prepared: thin::prepared(&quantizer, &query).unwrap(),
        quantizer,
        dim,
        bits,
        projections,
        query,
        rotated,
        projected,
        code: packed.unpack().unwrap(),
        packed,
        record,
    }
}

/// The record of a packed code with signs; `bits` are the total.
fn recorded(packed: &PackedTurboCode, dim: usize, bits: u8) -> Vec<u8> {
    let radii = &packed.polar_code.radii;
    let linear = radii.profile == RadiusCodecProfileV1::BlockLinearU16;
    let parts = record::Parts {
        map: record::SIGNS + linear as u8 * record::LINEAR,
        dim: dim as u32,
        bits: bits - 1,
        min: radii.min,
        max: radii.max,
        projections: packed.residual_sketch.projections as u32,
        norm: 1.0,
        radii: radii.payload.clone(),
        indices: packed.polar_code.packed_angle_indices.clone(),
        signs: packed.residual_sketch.packed_signs.clone(),
    };
    parts.bytes()
}
