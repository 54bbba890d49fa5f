//! Makes the setups, queries and records of `hidden`, and puts faults into them.

use std::rc::Rc;

use oracle::thin;

use crate::{
    case::{Case, Kind, Mode, Setup},
    make::Maker,
    record::{self, Parts},
};

/// A setup, a query for it and a record in parts.
struct Good {
    setup: Rc<Setup>,
    query: Vec<f32>,
    parts: Parts,
}

impl Maker {
    fn hidden_setup(&mut self) -> Rc<Setup> {
        if self.uses == 0 {
            (self.uses, self.kept) = (6, Some(self.fresh_hidden_setup()));
        }
        self.uses -= 1;
        self.kept.clone().unwrap()
    }

    /// A good setup; in one of four the sums over the matrix's rows overflow.
    fn fresh_hidden_setup(&mut self) -> Rc<Setup> {
        let kind = if self.rng.chance(45) { Kind::Stored } else { Kind::FastHadamard };
        let mode = if self.rng.chance(20) { Mode::PolarOnly } else { Mode::PolarWithQjl };
        let dim = self.hidden_dim(kind);
        let polar = match self.rng.below(10) {
            0..7 => 1 + self.rng.below(8),
            _ => 9 + self.rng.below(7),
        } as u8;
        let list = match self.rng.chance(40) {
            true => [63, 64, 65, 127, 128, 129, 150, 192, 200],
            false => [1, 2, 7, 8, 9, 15, 16, 17, 24],
        };
        let most = (1usize << 16) / dim;
        let (bits, projections) = match mode {
            Mode::PolarOnly => (polar, 0),
            Mode::PolarWithQjl => (polar + 1, self.rng.pick(&list).min(most)),
        };
        let rotation = match kind {
            Kind::FastHadamard => self.turns(dim, 0),
            Kind::Stored => self.hidden_matrix(dim),
        };
        let count = projections * dim;
        let matrix = match self.rng.below(12) {
            0..3 => (0..count).map(|_| self.rng.unit() * f32::MAX).collect(),
            3 => self.rng.vector(count),
            _ => self.entries(count),
        };
        let directions = self.table(polar);
        let (own_table, rust, halves) = (true, None, None);
        Setup {
            mode,
            dim,
            bits,
            projections,
            kind,
            rotation,
            directions,
            matrix,
            own_table,
            rust,
            halves,
        }
        .with_rust()
    }

    /// The setup with one fault or more that no sum need show: what stands under a bad entry is
    /// made zero, and no index names a bad direction.
    fn flaw_setup(&mut self, good: &mut Good) {
        let Setup { kind, dim, .. } = *good.setup;
        let mut rotation = good.setup.rotation.clone();
        let mut directions = good.setup.directions.clone();
        let mut matrix = good.setup.matrix.clone();
        let [turns, table, rows] = match self.rng.below(10) {
            0..3 => [false, false, true],
            3..6 => [true, false, false],
            6..8 => [false, true, false],
            8 => [false, true, true],
            _ => [true, true, true],
        };
        if turns && kind == Kind::FastHadamard {
            self.flaw_sign(&mut rotation, &mut good.query);
        } else if turns {
            let at = self.place(dim * dim);
            rotation[at] = self.rng.not_finite();
            good.query[at / dim] = self.zero();
            self.no_radius(&mut good.parts, at % dim / 2);
        }
        if table || (rows && matrix.is_empty()) {
            let (mut list, bad) = (directions.to_vec(), self.rng.not_finite());
            let at = self.place(list.len());
            list[at] = self.rng.pick(&[bad, bad, 2.0, -2.0, 1.0000001, -1.0000001]);
            directions = Rc::new(list);
            self.leave_out(&mut good.parts, at / 2);
        }
        if rows && !matrix.is_empty() {
            for _ in 0..1 + self.rng.chance(25) as usize {
                let at = self.place(matrix.len());
                matrix[at] = self.rng.not_finite();
                if self.rng.chance(85) {
                    good.query[at % dim] = self.zero();
                }
            }
        }
        if self.rng.chance(10) {
            good.query.fill(0.0);
        }
        good.setup = Rc::new(Setup {
            own_table: good.setup.own_table && Rc::ptr_eq(&directions, &good.setup.directions),
            rotation,
            directions,
            matrix,
            rust: None,
            halves: None,
            ..*good.setup
        });
    }

    /// A query that is not finite under zeros of the matrix, or whose rotated or projected values
    /// aren't.
    fn flaw_query(&mut self, good: &mut Good) {
        let Setup { kind, dim, .. } = *good.setup;
        let steep = good.setup.matrix.iter().take(8).any(|entry| entry.abs() > 1.0e37);
        match self.rng.below(if steep { 9 } else { 5 }) {
            0 | 1 => {
                good.query = self.overflowing(kind, &good.setup.rotation, dim);
                if self.rng.chance(30) {
                    (0..dim / 2).for_each(|pair| self.no_radius(&mut good.parts, pair));
                }
            }
            2 | 3 => {
                let at = self.place(dim);
                good.query[at] = self.rng.not_finite();
                let mut matrix = good.setup.matrix.clone();
                matrix.iter_mut().skip(at).step_by(dim).for_each(|entry| *entry = 0.0);
                good.setup = Rc::new(Setup {
                    rotation: good.setup.rotation.clone(),
                    directions: good.setup.directions.clone(),
                    matrix,
                    rust: None,
                    halves: None,
                    ..*good.setup
                });
            }
            _ => {
                // Over a steep matrix products are infinite, and sums of them NaN.
                let by = self.rng.pick(&[0.5, 4.0, 64.0]);
                good.query.iter_mut().for_each(|entry| *entry *= by);
            }
        }
    }

    // Records.

    /// A good record in parts; in one of two its radii are linear.
    pub(crate) fn hidden_parts(
        &mut self,
        pairs: usize,
        bits: u8,
        projections: usize,
        signs: bool,
    ) -> Parts {
        let linear = self.rng.chance(40);
        let radii: Vec<f32> = (0..pairs).map(|_| self.rng.unit().abs() * 4.0).collect();
        self.parts_with(&radii, linear, bits, projections, signs)
    }

    /// Makes the radius of one pair a zero.
    fn no_radius(&mut self, parts: &mut Parts, pair: usize) {
        if parts.linear() {
            parts.min = 0.0;
            parts.radii[2 * pair..2 * pair + 2].fill(0);
        } else {
            parts.radii[4 * pair..4 * pair + 4].copy_from_slice(&self.zero().to_le_bytes());
        }
    }

    /// Puts another index in the place of this one, everywhere.
    fn leave_out(&mut self, parts: &mut Parts, index: usize) {
        let (pairs, bits) = (parts.dim as usize / 2, parts.bits);
        let mut indices = thin::unpack_indices(&parts.indices, pairs, bits).unwrap();
        for found in &mut indices {
            if usize::from(*found) == index {
                *found ^= 1;
            }
        }
        parts.indices = thin::pack_indices(&indices, bits).unwrap();
    }

    /// In so many of a hundred records a fault or something that looks like one: a radius, bits
    /// behind the last, both, or zeros below zero.
    pub(crate) fn flaw_record(&mut self, parts: &mut Parts, percent: usize) {
        if !self.rng.chance(percent) {
            return;
        }
        let (pairs, which) = (parts.dim as usize / 2, self.rng.below(10));
        if which < 7 {
            self.flaw_radius(parts, which);
        }
        if which >= 5 {
            let used = pairs * usize::from(parts.bits);
            match self.rng.below(3) {
                0 => self.pad(&mut parts.indices, used),
                1 => self.pad(&mut parts.signs, parts.projections as usize),
                _ => {
                    self.pad(&mut parts.indices, used);
                    self.pad(&mut parts.signs, parts.projections as usize);
                }
            }
        }
    }

    fn flaw_radius(&mut self, parts: &mut Parts, which: usize) {
        let pairs = parts.dim as usize / 2;
        let at = self.place(pairs);
        if parts.linear() {
            // The largest number in this range reads as infinite, the others not.
            (parts.min, parts.max) = (f32::from_bits(0x73C0_0000), f32::MAX);
            parts.radii.iter_mut().for_each(|byte| *byte &= 0x7F);
            parts.radii[2 * at..2 * at + 2].fill(0xFF);
            return;
        }
        let (bad, below) = (self.rng.not_finite(), self.negative());
        let radius = match which {
            0 => bad,
            1 => -0.0,
            _ => below,
        };
        parts.radii[4 * at..4 * at + 4].copy_from_slice(&radius.to_le_bytes());
        if self.rng.chance(30) {
            let other = self.rng.below(pairs);
            self.no_radius(parts, other);
        }
    }

    /// Radii with which the score or the sum of a distance overflows.
    fn steepen(&mut self, good: &mut Good) {
        let by = self.rng.pick(&[f32::MAX, f32::MAX, 1.0e38, 1.0e25]);
        let radii: Vec<f32> = (0..good.setup.dim / 2).map(|_| self.rng.unit().abs() * by).collect();
        let (bits, projections) = (good.parts.bits, good.parts.projections as usize);
        let (linear, signs) = (self.rng.chance(40), good.parts.has_signs());
        good.parts = self.parts_with(&radii, linear, bits, projections, signs);
        if self.rng.chance(50) {
            good.query.iter_mut().for_each(|entry| *entry *= 16.0);
        }
    }

    /// A good setup, a query and a record for it, with a norm in some.
    fn good(&mut self) -> Good {
        let setup = self.hidden_setup();
        let query = self.entries(setup.dim);
        let (signs, m) = (setup.mode == Mode::PolarWithQjl, setup.counted());
        let mut parts = self.hidden_parts(setup.dim / 2, setup.polar_bits(), m, signs);
        if let (true, Some(norm)) = (signs, self.norms.near_the_top()) {
            (parts.map, parts.norm) = (parts.map | record::NORM, norm);
        }
        Good { setup, query, parts }
    }

    /// Puts faults of the setup, of the query, of the record, or of two of them into what a call is
    /// lent.
    fn flaw(&mut self, call: &str, good: &mut Good) {
        match (call, self.rng.below(20)) {
            (_, 0..7) | ("setup" | "sketch" | "prepare_query" | "sketch_score", 7..11) => {
                self.flaw_setup(good);
                if self.rng.chance(15) {
                    self.flaw_record(&mut good.parts, 100);
                }
            }
            ("setup", _) => {}
            ("sketch" | "prepare_query" | "sketch_score", 11..18) => self.flaw_query(good),
            ("score" | "distance", 7..10) => {
                self.flaw_query(good);
                if self.rng.chance(30) {
                    self.flaw_record(&mut good.parts, 100);
                }
            }
            (_, 10) => {
                // Zeros all over, so that a radius that is not finite meets them.
                self.flaw_radius(&mut good.parts, 0);
                good.query.fill(0.0);
            }
            (_, 7..15) => self.flaw_record(&mut good.parts, 100),
            (_, 15..17) => self.steepen(good),
            _ => {}
        }
    }

    /// A case of a call under a setup.
    pub(crate) fn hide_under_setup(&mut self, call: &str) -> Case {
        let mut good = self.good();
        self.flaw(call, &mut good);
        let Good { setup, query, parts } = good;
        let (dim, counted, record) = (setup.dim, setup.counted(), parts.bytes());
        match call {
            "setup" => Case::SetupCheck { setup },
            "sketch" => Case::Sketch { setup, vector: query, out: self.rng.length(counted, 8) },
            "prepare_query" => {
                let (rotated, projected) = (self.rng.length(dim, 5), self.rng.length(counted, 5));
                Case::Prepare { setup, query, rotated, projected }
            }
            "sketch_score" => {
                let (signs, norm) = (self.signs_with_one(counted, 40), parts.norm);
                // With this one K is infinite, so that a sum of zero gives NaN.
                let norm = if self.rng.chance(15) { f32::MAX } else { norm };
                Case::SketchScore { setup, query, signs, norm }
            }
            "score" => Case::Score { setup, query, record },
            "distance" => Case::Distance { setup, query, record },
            "decode" => Case::Decode { setup, record, out: self.rng.length(dim, 8) },
            other => unreachable!("{other}"),
        }
    }

    /// A prepared score: values that are not finite under a radius of 0 or behind the end, a
    /// direction that no index names, a bad record.
    pub(crate) fn hide_in_prepared(&mut self) -> Case {
        let mut good = self.good();
        let which = self.rng.below(20);
        match which {
            0..3 => {
                let (mut list, bad) = (good.setup.directions.to_vec(), self.rng.not_finite());
                let at = self.place(list.len());
                list[at] = self.rng.pick(&[bad, bad, 2.0, 1.0000001, -1.0000001]);
                self.leave_out(&mut good.parts, at / 2);
                good.setup = Rc::new(Setup {
                    rotation: good.setup.rotation.clone(),
                    directions: Rc::new(list),
                    matrix: good.setup.matrix.clone(),
                    own_table: false,
                    rust: None,
                    halves: None,
                    ..*good.setup
                });
            }
            3..8 => self.flaw_record(&mut good.parts, 100),
            8..11 => self.steepen(&mut good),
            _ => {}
        }
        let ready = match &good.setup.rust {
            Some(Ok(turbo)) => thin::prepare_query(turbo, &good.query).ok(),
            _ => None,
        };
        let (dim, counted) = (good.setup.dim, good.setup.counted());
        let mut kept = ready.is_some();
        let (mut rotated, mut projected) =
            ready.unwrap_or_else(|| (self.entries(dim), self.entries(counted)));
        match which {
            // A radius that is not finite meets zeros.
            7 => {
                rotated.fill(0.0);
                kept = false;
            }
            11..17 => {
                self.flaw_prepared(&mut rotated, &mut projected, &mut good.parts);
                kept = false;
            }
            _ => {}
        }
        let query = kept.then_some(good.query);
        let record = good.parts.bytes();
        Case::ScorePrepared { setup: good.setup, query, rotated, projected, record }
    }

    fn flaw_prepared(
        &mut self,
        rotated: &mut Vec<f32>,
        projected: &mut Vec<f32>,
        parts: &mut Parts,
    ) {
        let at = self.place(rotated.len());
        match self.rng.below(6) {
            0..2 => {
                rotated[at] = self.rng.not_finite();
                self.no_radius(parts, at / 2);
            }
            2 => rotated.push(self.rng.not_finite()),
            3 => projected.push(self.rng.not_finite()),
            4 if !projected.is_empty() => {
                let at = self.place(projected.len());
                projected[at] = self.rng.not_finite();
            }
            _ => {
                rotated[at] = self.rng.not_finite();
                self.flaw_record(parts, 100);
            }
        }
    }
}
