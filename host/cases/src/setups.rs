//! Makes the setups, queries and records of cases.

use std::rc::Rc;

use oracle::thin;

use crate::{
    case::{Case, Kind, Mode, Profile, Setup, LARGEST_STORED},
    make::{Maker, Size},
    plain,
    record::{self, Parts},
};

impl Maker {
    pub(crate) fn table(&mut self, bits: u8) -> Rc<Vec<f32>> {
        self.tables.entry(bits).or_insert_with(|| Rc::new(thin::directions(bits))).clone()
    }

    /// An entry of a table: within −1..1, at its edges or of any class inside them.
    fn direction(&mut self, edge: bool) -> f32 {
        if !edge {
            return self.rng.unit();
        }
        let tiny = f32::from_bits(self.rng.next() as u32 & 0x807F_FFFF);
        let unit = self.rng.unit();
        self.rng.pick(&[1.0, -1.0, 0.0, -0.0, tiny, unit, 0.99999994])
    }

    /// The kept setup, or a new one from time to time.
    fn kept_setup(&mut self) -> Rc<Setup> {
        if self.uses == 0 {
            self.uses = match self.size {
                Size::Small => 3,
                Size::Full if self.others => 8,
                Size::Full => 24,
            };
            self.kept = Some(self.fresh_setup(0));
        }
        self.uses -= 1;
        self.kept.clone().unwrap()
    }

    /// The kept setup; in a few of a hundred another that is damaged.
    pub(crate) fn setup(&mut self) -> Rc<Setup> {
        let kept = self.kept_setup();
        if self.rng.chance(self.damaged) {
            return self.fresh_setup(100);
        }
        kept
    }

    fn projections(&mut self, dim: usize) -> usize {
        if self.size == Size::Small {
            return 1 + self.rng.below(9);
        }
        let most = (1 << 18) / dim.max(1);
        let some = 1 + self.rng.below(64);
        let m = match self.rng.below(60) {
            0 => 4096,
            1 => 1000,
            2..=4 => 256,
            _ => self.rng.pick(&[1, 2, 3, 7, 8, 9, 15, 16, 17, 64, some]),
        };
        m.min(most).min(4096)
    }

    pub(crate) fn fresh_setup(&mut self, damaged: usize) -> Rc<Setup> {
        let damaged = self.rng.chance(damaged);
        let stored = self.others && !self.rng.chance(15);
        let kind = if stored { Kind::Stored } else { Kind::FastHadamard };
        let mode = self.rng.pick(&[Mode::PolarOnly, Mode::PolarWithQjl, Mode::PolarWithQjl]);
        let residual = mode == Mode::PolarWithQjl;
        let mut dim = self.good_dim_of(kind);
        let least = if residual { 2 } else { 1 };
        let most = if self.size == Size::Small { 4 } else { 16 };
        let mut bits = (least + self.rng.below(most + 1 - least)) as u8;
        let mut projections = self.projections(dim);
        if !residual {
            let some = self.rng.below(9);
            projections = self.rng.pick(&[0, 0, some, usize::MAX]);
        }
        let good = (dim, bits, projections);
        if damaged && self.rng.chance(40) {
            // Of a stored setup sometimes two scalars at once, so that their order shows.
            let both = stored && self.rng.chance(30);
            let which = self.rng.below(3);
            if which == 0 || both {
                dim = self.odd_dim_of(kind);
            }
            if which == 1 {
                bits = self.rng.pick(&[0, 1, 17, 255]);
            }
            if which == 2 {
                projections = self.rng.pick(&[0, 4097, usize::MAX]);
            }
        }
        // Parts that fit the good scalars, so that only the change offends.
        let seed = self.rng.next();
        let counted = if residual { good.2 } else { 0 };
        let (mut rotation, mut matrix) = match kind {
            Kind::FastHadamard => self.parts(good.0, good.1, counted, mode, seed),
            Kind::Stored => (self.stored_matrix(good.0), self.rng.vector(counted * good.0)),
        };
        let mut directions = self.table(good.1 - residual as u8);
        // Now and then another table that is allowed; the Rust knows only the host's.
        let mut own_table = true;
        if self.rng.chance(10) {
            own_table = false;
            let edge = self.rng.chance(50);
            let count = directions.len();
            directions = Rc::new((0..count).map(|_| self.direction(edge)).collect());
        }
        if damaged && (dim, bits, projections) == good {
            let before = directions.clone();
            self.damage(kind, &mut rotation, &mut directions, &mut matrix);
            if stored && self.rng.chance(40) {
                self.damage(kind, &mut rotation, &mut directions, &mut matrix);
            }
            own_table = own_table && Rc::ptr_eq(&before, &directions);
        }
        Setup {
            mode,
            dim,
            bits,
            projections,
            kind,
            rotation,
            directions,
            matrix,
            own_table,
            rust: None,
            halves: None,
        }
        .with_rust()
    }

    /// The largest setups, 4,096 × 4,096 at 16 bits and 512 × 4,096 with a stored rotation, in
    /// every call that takes one; records have a norm, and one has none.
    pub fn largest(&mut self) -> Vec<Case> {
        let (mode, dim, bits, projections) = (Mode::PolarWithQjl, 4096, 16, 4096);
        let turbo = thin::turbo(mode, dim, bits, projections, self.rng.next()).unwrap();
        let kind = Kind::FastHadamard;
        let rotation = thin::turbo_signs(&turbo).unwrap();
        let matrix = thin::turbo_matrix(&turbo);
        let halves = thin::halves(&turbo);
        let directions = self.table(15);
        let rust = Some(Ok(turbo));
        let own_table = true;
        let setup = Rc::new(Setup {
            mode,
            dim,
            bits,
            projections,
            kind,
            rotation,
            directions: directions.clone(),
            matrix,
            own_table,
            rust,
            halves,
        });
        let mut cases = self.calls_under(setup);
        let dim = LARGEST_STORED;
        let setup = Setup {
            mode,
            dim,
            bits,
            projections,
            kind: Kind::Stored,
            rotation: self.stored_matrix(dim).iter().map(|entry| entry.clamp(-1.0, 1.0)).collect(),
            directions,
            matrix: (0..projections * dim).map(|_| self.rng.unit()).collect(),
            own_table,
            rust: None,
            halves: None,
        };
        cases.extend(self.calls_under(setup.with_rust()));
        cases
    }

    /// Each call under a large setup in residual mode.
    fn calls_under(&mut self, setup: Rc<Setup>) -> Vec<Case> {
        let Setup { dim, bits, projections, .. } = *setup;
        let query: Vec<f32> = (0..dim).map(|_| self.rng.unit()).collect();
        let parts = self.good_parts(dim, bits - 1, projections, true);
        let without = parts.bytes();
        let norm = self.rng.unit().abs() * 4.0;
        let record = Parts { map: parts.map | record::NORM, norm, ..parts }.bytes();
        let signs = self.signs(projections, 0);
        let (again, vector) = (setup.clone(), query.clone());
        let mut cases = vec![
            Case::SetupCheck { setup: setup.clone() },
            Case::Sketch { setup: again, vector, out: projections },
            Case::SketchScore { setup: setup.clone(), query: query.clone(), signs, norm },
            Case::Decode { setup: setup.clone(), record: record.clone(), out: dim },
        ];
        if let Some(Ok(turbo)) = &setup.rust {
            let (rotated, projected) = thin::prepare_query(turbo, &query).unwrap();
            let (setup, query, record) = (setup.clone(), Some(query.clone()), record.clone());
            cases.push(Case::ScorePrepared { setup, query, rotated, projected, record });
        }
        let (rotated, projected) = (dim, projections);
        let (again, asked) = (setup.clone(), query.clone());
        cases.push(Case::Prepare { setup: again, query: asked, rotated, projected });
        let (again, asked, read) = (setup.clone(), query.clone(), record.clone());
        cases.push(Case::Distance { setup: again, query: asked, record: read });
        let (again, asked) = (setup.clone(), query.clone());
        cases.push(Case::Score { setup: again, query: asked, record: without });
        cases.push(Case::Score { setup, query, record });
        cases
    }

    /// Signs and matrix: the Rust's own, from its serialised form, or others.
    fn parts(
        &mut self,
        dim: usize,
        bits: u8,
        counted: usize,
        mode: Mode,
        seed: u64,
    ) -> (Vec<f32>, Vec<f32>) {
        if self.rng.chance(60) {
            let turbo = thin::turbo(mode, dim, bits, counted, seed).unwrap();
            return (thin::turbo_signs(&turbo).unwrap(), thin::turbo_matrix(&turbo));
        }
        let plus = self.rng.chance(30);
        let mut signs = self.turns(dim, 0);
        if plus {
            signs.fill(1.0);
        }
        (signs, self.rng.vector(counted * dim))
    }

    fn damage(
        &mut self,
        kind: Kind,
        rotation: &mut Vec<f32>,
        table: &mut Rc<Vec<f32>>,
        matrix: &mut Vec<f32>,
    ) {
        let some = self.rng.not_finite();
        match self.rng.below(6) {
            0 if kind == Kind::Stored => self.spoil_entries(rotation),
            0 => *rotation = self.turns(rotation.len(), 100),
            1 => rotation.resize(self.rng.length(rotation.len(), 100), 1.0),
            2 if !table.is_empty() => {
                let mut list = table.to_vec();
                let at = self.rng.below(list.len());
                list[at] = self.rng.pick(&[some, 1.0000001, -1.0000001, 2.0, -1.0, 1.0, -0.0]);
                *table = Rc::new(list);
            }
            3 => {
                let mut list = table.to_vec();
                list.resize(self.rng.length(list.len(), 100), 0.5);
                *table = Rc::new(list);
            }
            4 if !matrix.is_empty() => {
                let at = self.rng.below(matrix.len());
                matrix[at] = some;
            }
            _ => matrix.resize(self.rng.length(matrix.len(), 100), 0.5),
        }
    }

    // Queries and records.

    /// How long lists of a setup's dimension are: where cases are written down, short also for
    /// a dimension that is refused as too large.
    pub(crate) fn long(&self, setup: &Setup) -> usize {
        match self.size {
            Size::Small => setup.dim.min(12),
            Size::Full => setup.dim,
        }
    }

    fn query(&mut self, setup: &Setup) -> Vec<f32> {
        let count = self.rng.length(self.long(setup), 4);
        self.rng.vector_damaged(count, 6)
    }

    pub(crate) fn sketch(&mut self) -> Case {
        let setup = self.setup();
        let vector = self.query(&setup);
        Case::Sketch { out: self.rng.length(setup.counted().min(8192), 10), setup, vector }
    }

    pub(crate) fn prepare(&mut self) -> Case {
        let setup = self.setup();
        let query = self.query(&setup);
        let rotated = self.rng.length(self.long(&setup), 6);
        let projected = self.rng.length(setup.counted().min(8192), 6);
        Case::Prepare { setup, query, rotated, projected }
    }

    pub(crate) fn sketch_score(&mut self) -> Case {
        let setup = self.setup();
        let query = self.query(&setup);
        let count = self.rng.length(setup.counted().min(8192), 5);
        Case::SketchScore { signs: self.signs(count, 8), setup, query, norm: 1.0 }
    }

    pub(crate) fn scored(&mut self) -> (Rc<Setup>, Vec<f32>, Vec<u8>) {
        let setup = self.setup();
        let query = self.query(&setup);
        let record = self.record(&setup, 20);
        (setup, query, record)
    }

    /// What a distance near the top of f32 is asked of: a score is linear in its query, so
    /// a power of two takes it to where it or twice it is infinite.
    pub(crate) fn scored_near_the_top(&mut self) -> (Rc<Setup>, Vec<f32>, Vec<u8>) {
        let mut setup = self.kept_setup();
        if setup.mode == Mode::PolarWithQjl && self.rng.chance(50) {
            setup = self.steeper(&setup);
        }
        let record = self.wide_record(&setup);
        let mut query: Vec<f32> = (0..setup.dim).map(|_| self.rng.unit()).collect();
        let score = plain::record_score(&setup, &query, &record).unwrap();
        let exponent = 127 + self.rng.pick(&[-1, 0, 0, 0, 1]);
        let turned = score < 0.0 && self.rng.chance(80);
        if score.is_normal() {
            let sign = if turned { -1.0 } else { 1.0 };
            let factor = sign * 2f64.powi(exponent - exponent_of(score));
            query.iter_mut().for_each(|item| *item = (f64::from(*item) * factor) as f32);
        }
        (setup, query, record)
    }

    /// The setup with a matrix so large that a score outgrows both squared norms: of two
    /// rows at most, since the sum over more is infinite before twice the score is.
    fn steeper(&mut self, setup: &Setup) -> Rc<Setup> {
        let projections = self.rng.pick(&[1, 1, 1, 2]);
        let count = projections * setup.dim;
        Setup {
            projections,
            rotation: setup.rotation.clone(),
            directions: setup.directions.clone(),
            matrix: (0..count).map(|_| self.rng.unit() * 2f32.powi(80)).collect(),
            rust: None,
            halves: None,
            ..*setup
        }
        .with_rust()
    }

    /// A record of the setup whose radii lie below one power of two, or are zero, with its
    /// norm.
    fn wide_record(&mut self, setup: &Setup) -> Vec<u8> {
        let scale = 2f32.powi(self.rng.pick(&[0, 60, 60, 60, 60, 62, 63, 64, 66]));
        let scale = if self.rng.chance(10) { 0.0 } else { scale };
        let radii: Vec<f32> = (0..setup.dim / 2).map(|_| self.rng.unit().abs() * scale).collect();
        let linear = self.rng.chance(50);
        let signs = setup.mode == Mode::PolarWithQjl;
        let parts = self.parts_with(&radii, linear, setup.polar_bits(), setup.counted(), signs);
        self.normed = true;
        match self.norms.near_the_top() {
            Some(norm) if signs => Parts { map: parts.map | record::NORM, norm, ..parts }.bytes(),
            _ => parts.bytes(),
        }
    }

    pub(crate) fn score_prepared(&mut self) -> Case {
        let setup = self.setup();
        let record = self.record(&setup, 20);
        let query = self.rng.vector(self.long(&setup));
        let ready = match &setup.rust {
            Some(Ok(turbo)) => thin::prepare_query(turbo, &query).ok(),
            _ => None,
        };
        let Some((mut rotated, mut projected)) = ready else {
            let rotated = self.rng.vector_damaged(self.long(&setup), 10);
            let projected = self.rng.vector(setup.counted().min(8192));
            return Case::ScorePrepared { setup, query: None, rotated, projected, record };
        };
        if !self.rng.chance(15) {
            return Case::ScorePrepared { setup, query: Some(query), rotated, projected, record };
        }
        match self.rng.below(4) {
            0 => rotated.resize(self.rng.length(rotated.len(), 100), 0.0),
            1 => projected.resize(self.rng.length(projected.len(), 100), 0.0),
            2 => {
                let at = self.rng.below(rotated.len());
                rotated[at] = self.rng.not_finite();
            }
            _ if !projected.is_empty() => {
                let at = self.rng.below(projected.len());
                projected[at] = self.rng.not_finite();
            }
            _ => rotated.push(1.0),
        }
        Case::ScorePrepared { setup, query: None, rotated, projected, record }
    }

    /// The parts of a good record of this shape.
    fn good_parts(&mut self, dim: usize, bits: u8, projections: usize, signs: bool) -> Parts {
        let linear = self.rng.chance(50);
        let radii = self.rng.radii(dim / 2);
        self.parts_with(&radii, linear, bits, projections, signs)
    }

    /// The parts of a good record with these radii.
    pub(crate) fn parts_with(
        &mut self,
        radii: &[f32],
        linear: bool,
        bits: u8,
        projections: usize,
        signs: bool,
    ) -> Parts {
        let profile = if linear { Profile::BlockLinearU16 } else { Profile::F32 };
        let packed = thin::compress(radii, profile).unwrap();
        let indices: Vec<u16> = radii.iter().map(|_| self.index(bits, 0)).collect();
        let sketch = self.signs(if signs { projections } else { 0 }, 0);
        Parts {
            map: linear as u8 * record::LINEAR + signs as u8 * record::SIGNS,
            dim: 2 * radii.len() as u32,
            bits,
            min: packed.min,
            max: packed.max,
            projections: projections as u32,
            norm: 1.0,
            radii: packed.payload,
            indices: thin::pack_indices(&indices, bits).unwrap(),
            signs: thin::pack_signs(&sketch).unwrap(),
        }
    }

    /// A record for the setup: of its own encoding, or made of parts; in `damaged` of a
    /// hundred it is spoiled or belongs to another setup.
    pub(crate) fn record(&mut self, setup: &Setup, damaged: usize) -> Vec<u8> {
        let residual = setup.mode == Mode::PolarWithQjl;
        let sound = setup.dim % 2 == 0 && (2..=4096).contains(&setup.dim);
        let bits = setup.polar_bits().clamp(1, if residual { 15 } else { 16 });
        let dim = if sound { setup.dim } else { 4 };
        let m = setup.counted().clamp(1, 4096);
        // A record of another board, which can be read and not scored.
        if self.others && self.rng.chance(if setup.kind == Kind::Stored { 3 } else { 40 }) {
            let other = self.board_dim();
            return self.good_parts(other, bits, m, residual).bytes();
        }
        if !self.rng.chance(damaged) {
            if let (Some(Ok(turbo)), true) = (&setup.rust, self.rng.chance(30)) {
                let vector = self.rng.vector(setup.dim);
                if let Ok(code) = thin::encode(turbo, &vector) {
                    return own(&code, residual);
                }
            }
            return self.good_parts(dim, bits, m, residual).bytes();
        }
        self.damaged_record(dim, bits, m, residual)
    }

    /// A record of any even dimension, under no setup; `damaged` of a hundred as above.
    pub(crate) fn record_alone(&mut self, damaged: usize) -> Vec<u8> {
        let residual = self.rng.chance(50);
        let most = if self.size == Size::Small { 4 } else { 15 };
        let bits = 1 + self.rng.below(most) as u8;
        let (dim, m) = (self.board_dim(), self.projections(64));
        if self.rng.chance(damaged) {
            return self.damaged_record(dim, bits, m, residual);
        }
        self.good_parts(dim, bits, m, residual).bytes()
    }

    /// A record of this shape that is spoiled or has another shape.
    fn damaged_record(&mut self, dim: usize, bits: u8, m: usize, residual: bool) -> Vec<u8> {
        match self.rng.below(10) {
            0 => {
                let other = self.rng.pick(&[2, 4, 8]);
                self.good_parts(other, bits, m, residual).bytes()
            }
            1 => {
                let other = 1 + self.rng.below(15) as u8;
                self.good_parts(dim, other, m, residual).bytes()
            }
            2 => {
                let other = (m + self.rng.below(3)).min(4096);
                self.good_parts(dim, bits, other, residual).bytes()
            }
            3 => self.good_parts(dim, bits.min(15), m, !residual).bytes(),
            4 => {
                let mut bytes = self.good_parts(dim, bits, m, residual).bytes();
                let kept = self.rng.below(bytes.len() + 1);
                let kept = self.rng.pick(&[kept, 0, 5, 6, 9, 13, 17, bytes.len() - 1]);
                bytes.truncate(kept);
                bytes
            }
            5 => {
                let mut bytes = self.good_parts(dim, bits, m, residual).bytes();
                self.spoil(&mut bytes);
                bytes
            }
            6 => {
                let mut bytes = self.good_parts(dim, bits, m, residual).bytes();
                let head = record::header_len(bytes[0]);
                bytes[self.rng.below(head)] ^= 1 << self.rng.below(8);
                bytes
            }
            _ => self.spoiled_parts(dim, bits, m, residual),
        }
    }

    /// A record whose layout holds and whose content offends.
    fn spoiled_parts(&mut self, dim: usize, bits: u8, m: usize, residual: bool) -> Vec<u8> {
        let mut parts = self.good_parts(dim, bits, m, residual);
        match self.rng.below(6) {
            0 => parts.dim = self.rng.pick(&[0, 1, 3, 6, 8192, u32::MAX, 4097, 4098]),
            1 if self.others && self.rng.chance(50) => {
                // A whole record of a dimension that is too large, or odd.
                let other = self.rng.pick(&[4098, 4100, 5000, 8190]);
                parts = self.good_parts(other, bits, m, residual);
                parts.dim -= self.rng.below(2) as u32;
            }
            1 => parts.bits = self.rng.pick(&[0, 16, 17, 255]),
            2 => parts.projections = self.rng.pick(&[0, 4097, u32::MAX]),
            3 if parts.linear() => {
                let (any, finite) = (self.rng.not_finite(), self.rng.finite());
                (parts.min, parts.max) = match self.rng.below(6) {
                    0 => (any, parts.max),
                    1 => (parts.min, any),
                    2 => (-1.0, parts.max),
                    3 => (f32::from_bits(0x73C0_0000), f32::MAX),
                    4 => (-0.0, finite),
                    _ => (parts.max, parts.min),
                };
                if self.rng.chance(50) {
                    let at = self.rng.below(parts.radii.len() / 2) * 2;
                    parts.radii[at..at + 2].fill(0xFF);
                }
            }
            3 => {
                let at = self.rng.below(parts.radii.len() / 4) * 4;
                let bad = self.rng.not_finite();
                let bad = self.rng.pick(&[bad, bad, -1.0, -f32::from_bits(1), -0.0]);
                parts.radii[at..at + 4].copy_from_slice(&bad.to_le_bytes());
            }
            4 if !parts.signs.is_empty() => {
                let last = parts.signs.len() - 1;
                parts.signs[last] |= 0x80;
            }
            _ => {
                let last = parts.indices.len() - 1;
                parts.indices[last] |= 0x80;
            }
        }
        parts.bytes()
    }

    /// A dimension to write a record of, some of them none.
    fn written_dim(&mut self) -> usize {
        match self.others {
            false => self.dim(),
            true if self.rng.chance(8) => self.rng.pick(&[0, 1, 3, 7, 4095, 4097, 4098, 8190]),
            true => self.board_dim(),
        }
    }

    pub(crate) fn write_record(&mut self) -> Case {
        let mode = self.rng.pick(&[Mode::PolarOnly, Mode::PolarWithQjl]);
        let residual = mode == Mode::PolarWithQjl;
        let dim = self.written_dim();
        let sound = dim.min(if self.size == Size::Small { 12 } else { 8192 });
        let mut bits = self.bits();
        if residual && self.rng.chance(3) {
            bits = 16;
        }
        let mut projections = self.projections(sound.max(2));
        if self.rng.chance(5) {
            projections = self.rng.pick(&[0, 4097, usize::MAX]);
        }
        let profile = self.profile();
        let count = self.rng.length(sound / 2, 4);
        let mut radii = self.radii(count, 8);
        if count > 0 && self.rng.chance(3) {
            radii[0] = f32::from_bits(0x73C0_0000);
            radii[count - 1] = f32::MAX;
        }
        let count = self.rng.length(sound / 2, 4);
        let mut indices: Vec<u16> = (0..count).map(|_| self.index(bits, 0)).collect();
        if count > 0 && self.rng.chance(8) {
            let at = self.rng.below(count);
            indices[at] = self.index(bits, 100);
        }
        let counted = if residual { projections.min(8192) } else { 0 };
        let count = self.rng.length(counted, 4);
        let signs = self.signs(count, 8);
        let map = (profile == Profile::BlockLinearU16) as u8 * record::LINEAR
            + residual as u8 * record::SIGNS;
        let lens = record::payload_lens(map, sound as u32, bits.min(16), counted as u32);
        let exact = record::header_len(map) + lens.iter().sum::<u64>() as usize;
        let out = self.rng.length(exact, 8);
        let norm = None;
        Case::WriteRecord {
            profile,
            dim,
            bits,
            mode,
            projections,
            norm,
            radii,
            indices,
            signs,
            out,
        }
    }
}

/// The exponent of a normal float.
fn exponent_of(value: f32) -> i32 {
    ((value.to_bits() >> 23) & 0xFF) as i32 - 127
}

/// The record of a code that the Rust itself encoded, radii as they are.
fn own(code: &oracle::turbo::TurboCode, residual: bool) -> Vec<u8> {
    let polar = &code.polar_code;
    Parts {
        map: residual as u8 * record::SIGNS,
        dim: polar.dim as u32,
        bits: polar.bits,
        min: 0.0,
        max: 0.0,
        projections: code.residual_sketch.projections as u32,
        norm: 1.0,
        radii: polar.radii.iter().flat_map(|radius| radius.to_le_bytes()).collect(),
        indices: thin::pack_indices(&polar.angle_indices, polar.bits).unwrap(),
        signs: thin::pack_signs(&code.residual_sketch.signs).unwrap(),
    }
    .bytes()
}
