//! Makes cases: valid inputs, damaged copies of good ones and limits, for each call.
//! Setups, queries and records are made in `setups`.

use std::{collections::HashMap, rc::Rc};

use oracle::thin;

use crate::{
    case::{Case, Kind, Profile, Setup, CALLS, OTHER_BOARDS, TAKE_A_RECORD},
    hidden::HIDDEN,
    norms::Norms,
    rng::Rng,
};

/// How large the inputs may grow.
#[derive(Clone, Copy, PartialEq, Eq)]
pub enum Size {
    /// Few values and at most 3 angle bits: for cases that are written down.
    Small,
    /// Up to the limits.
    Full,
}

/// A source of cases. It keeps a setup for some calls, since drawing one is dear.
pub struct Maker {
    pub rng: Rng,
    pub(crate) size: Size,
    pub(crate) tables: HashMap<u8, Rc<Vec<f32>>>,
    pub(crate) kept: Option<Rc<Setup>>,
    pub(crate) uses: usize,
    /// How many of a hundred setups are damaged.
    pub(crate) damaged: usize,
    /// Makes the cases whose records are cut short, so that all others are the same with
    /// them and without.
    cutter: Option<Box<Maker>>,
    /// Makes the cases of boards of other dimensions, for the same end.
    boards: Option<Box<Maker>>,
    /// Makes the cases of `hidden`, for the same end; none where cases are written down.
    hidden: Option<Box<Maker>>,
    /// Whether this is such a maker: most setups have a stored rotation, and records any even
    /// dimension.
    pub(crate) others: bool,
    /// Draws the norms of records, of their writing and of sketch scores, for the same end.
    pub(crate) norms: Norms,
    /// Whether the case that was made last has its norm already.
    pub(crate) normed: bool,
}

impl Maker {
    pub fn new(seed: u64, size: Size) -> Self {
        let boards = Some(Box::new(Self::with_cutter(seed.rotate_left(16) ^ 0x5702, size, true)));
        let hidden = match size {
            Size::Small => None,
            Size::Full => Some(Box::new(Self::alone(seed.rotate_left(24) ^ 0x41DE, size))),
        };
        Self { boards, hidden, ..Self::with_cutter(seed, size, false) }
    }

    fn with_cutter(seed: u64, size: Size, others: bool) -> Self {
        let cutter = Self { damaged: 40, others, ..Self::alone(!seed, size) };
        let damaged = if others { 15 } else { 4 };
        Self { cutter: Some(Box::new(cutter)), damaged, others, ..Self::alone(seed, size) }
    }

    fn alone(seed: u64, size: Size) -> Self {
        let (rng, tables, norms) = (Rng(seed), HashMap::new(), Norms(Rng(seed.rotate_left(32))));
        Self {
            rng,
            size,
            tables,
            kept: None,
            uses: 0,
            damaged: 4,
            cutter: None,
            boards: None,
            hidden: None,
            others: false,
            norms,
            normed: false,
        }
    }

    /// The next case of the call with this place in `CALLS`. Of a hundred cases of its calls
    /// twenty-five are of `hidden`. Of a hundred others with a setup or a record twenty are of boards of
    /// other dimensions. Of a hundred records ten are cut to no bytes, a withdrawn position, and
    /// two to 1 to 5; there two of five setups are damaged, and queries and outputs as ever. The
    /// others get their norms (`norms`).
    pub fn make(&mut self, call: usize) -> Case {
        let case = self.hidden(call).or_else(|| self.other_board(call));
        if let Some(case) = case.or_else(|| self.cut(call)) {
            return case;
        }
        self.normed = false;
        let mut case = self.whole(call);
        if !self.normed {
            self.norms.put(&mut case);
        }
        case
    }

    fn hidden(&mut self, call: usize) -> Option<Case> {
        let hidden = self.hidden.as_mut().filter(|_| HIDDEN.contains(&CALLS[call]))?;
        hidden.rng.chance(25).then(|| hidden.hide(call))
    }

    fn other_board(&mut self, call: usize) -> Option<Case> {
        let boards = self.boards.as_mut().filter(|_| OTHER_BOARDS.contains(&CALLS[call]))?;
        boards.rng.chance(20).then(|| boards.make(call))
    }

    fn cut(&mut self, call: usize) -> Option<Case> {
        let cutter = self.cutter.as_mut().filter(|_| TAKE_A_RECORD.contains(&CALLS[call]))?;
        let kept = match cutter.rng.below(100) {
            0..10 => 0,
            10..12 => 1 + cutter.rng.below(5),
            _ => return None,
        };
        let mut case = cutter.whole(call);
        case.record_mut().unwrap().truncate(kept);
        Some(case)
    }

    fn whole(&mut self, call: usize) -> Case {
        match CALLS[call] {
            "packed_len" => {
                let bits = self.bits();
                Case::PackedLen { count: self.large_count(bits), bits }
            }
            "pack_indices" => self.pack_indices(),
            "unpack_indices" => self.unpack_indices(),
            "pack_signs" => {
                let count = self.count();
                let signs = self.signs(count, 30);
                Case::PackSigns { out: self.rng.length(count.div_ceil(8), 15), signs }
            }
            "unpack_signs" => self.unpack_signs(),
            "validate_padding_zero" => self.validate_padding(),
            "codebook_uniform" => {
                let (bits, min, max) = self.codebook();
                Case::CodebookUniform { bits, min, max }
            }
            "codebook_levels" => {
                let (bits, min, max) = self.codebook();
                Case::CodebookLevels { bits, min, max }
            }
            "codebook_quantize" => self.quantize(),
            "codebook_midpoint" => {
                let (bits, min, max) = self.codebook();
                let index = self.index(bits, 20);
                Case::CodebookMidpoint { bits, min, max, index }
            }
            "compress" => self.compress(),
            "decompress" => self.decompress(),
            "root" => self.root(),
            "dequantize_angle" => {
                let bits = self.bits();
                Case::Angle { bits, index: self.index(bits, 20) }
            }
            "seeds" => {
                let seed = self.rng.next();
                Case::Seeds { seed: self.rng.pick(&[0, 1, u64::MAX, seed, seed, seed]) }
            }
            "apply" => self.apply(false),
            "apply_inverse" => self.apply(true),
            "stored_apply" => self.stored_apply(false),
            "stored_apply_inverse" => self.stored_apply(true),
            "setup" => Case::SetupCheck { setup: self.fresh_setup(40) },
            "sketch" => self.sketch(),
            "prepare_query" => self.prepare(),
            "sketch_score" => self.sketch_score(),
            "write_record" => self.write_record(),
            "read_record" if self.others => Case::ReadRecord { record: self.record_alone(60) },
            "read_record" => {
                let setup = self.setup();
                Case::ReadRecord { record: self.record(&setup, 60) }
            }
            "score" => {
                let (setup, query, record) = self.scored();
                Case::Score { setup, query, record }
            }
            "distance" => {
                let near = self.rng.chance(15);
                let (setup, query, record) =
                    if near { self.scored_near_the_top() } else { self.scored() };
                Case::Distance { setup, query, record }
            }
            "decode" => {
                let setup = self.setup();
                let record = self.record(&setup, 30);
                Case::Decode { out: self.rng.length(self.long(&setup), 10), setup, record }
            }
            "score_prepared" => self.score_prepared(),
            "encoded_bytes" => {
                let profile = self.profile();
                let count = self.count();
                let payload = (0..count).map(|_| self.rng.next() as u8).collect();
                Case::EncodedBytes { profile, payload }
            }
            other => unreachable!("{other}"),
        }
    }

    // Numbers.

    pub(crate) fn bits(&mut self) -> u8 {
        if self.rng.chance(6) {
            return self.rng.pick(&[0, 17, 18, 31, 32, 33, 64, 255]);
        }
        1 + self.rng.below(16) as u8
    }

    pub(crate) fn index(&mut self, bits: u8, damaged: usize) -> u16 {
        let levels = 1u32 << bits.min(16);
        if self.rng.chance(damaged) {
            let above = self.rng.next() as u32 & 0xFFFF;
            return self.rng.pick(&[levels.min(65535), levels - 1, above, 65535]) as u16;
        }
        self.rng.below(levels as usize) as u16
    }

    fn count(&mut self) -> usize {
        if self.size == Size::Small {
            return self.rng.below(12);
        }
        let some = self.rng.below(100);
        match self.rng.below(40) {
            0 => 4096,
            1 => 1024 + some,
            2..=5 => 100 + 3 * some,
            _ => self.rng.pick(&[0, 1, 2, 3, 5, 7, 8, 9, 15, 16, 17, 31, 32, 33, 64, some]),
        }
    }

    fn large_count(&mut self, bits: u8) -> usize {
        let limit = usize::MAX / bits.max(1) as usize;
        let some = self.rng.next() as usize;
        let small = self.count();
        self.rng.pick(&[
            0,
            small,
            small,
            some,
            1 << 60,
            (1 << 60) - 1,
            limit,
            limit - 1,
            limit.saturating_add(1),
            usize::MAX,
            some % limit.max(1),
        ])
    }

    pub(crate) fn signs(&mut self, count: usize, damaged: usize) -> Vec<i8> {
        let mut signs: Vec<i8> = (0..count).map(|_| self.rng.sign()).collect();
        if count > 0 && self.rng.chance(damaged) {
            for _ in 0..1 + self.rng.below(2) {
                let at = self.rng.below(count);
                signs[at] = self.rng.pick(&[0, 2, -2, 127, -128, 3]);
            }
        }
        signs
    }

    /// Spoils bytes: one longer, one shorter, a bit turned, or a high bit of the last.
    pub(crate) fn spoil(&mut self, bytes: &mut Vec<u8>) {
        let at = self.rng.below(bytes.len());
        match self.rng.below(5) {
            0 => bytes.push(0),
            1 => {
                bytes.pop();
            }
            2 if !bytes.is_empty() => bytes[at] ^= 1 << self.rng.below(8),
            3 | 4 if !bytes.is_empty() => {
                let last = bytes.len() - 1;
                bytes[last] |= 0x80 >> self.rng.below(4);
            }
            _ => bytes.push(1),
        }
    }

    // Bits.

    fn pack_indices(&mut self) -> Case {
        let bits = self.bits();
        let count = self.count();
        let mut indices: Vec<u16> = (0..count).map(|_| self.index(bits, 0)).collect();
        if count > 0 && self.rng.chance(25) {
            let at = self.rng.below(count);
            indices[at] = self.index(bits, 100);
        }
        let exact = (count * bits as usize).div_ceil(8);
        Case::PackIndices { indices, bits, out: self.rng.length(exact, 15) }
    }

    fn unpack_indices(&mut self) -> Case {
        let bits = self.bits();
        let mut count = self.count();
        let indices: Vec<u16> = (0..count).map(|_| self.index(bits, 0)).collect();
        let mut bytes = thin::pack_indices(&indices, bits).unwrap_or_default();
        if self.rng.chance(35) {
            self.spoil(&mut bytes);
        }
        if self.rng.chance(12) {
            let large = self.large_count(bits);
            count = self.rng.pick(&[count + 1, count.saturating_sub(1), 0, large, large]);
        }
        let out = if count > 1 << 20 { 0 } else { self.rng.length(count, 12) };
        Case::UnpackIndices { bytes, count, bits, out }
    }

    fn unpack_signs(&mut self) -> Case {
        let mut count = self.count();
        let mut bytes = thin::pack_signs(&self.signs(count, 0)).unwrap();
        if self.rng.chance(35) {
            self.spoil(&mut bytes);
        }
        if self.rng.chance(12) {
            let large = self.large_count(1);
            count = self.rng.pick(&[count + 1, count.saturating_sub(1), 0, large]);
        }
        let out = if count > 1 << 20 { 0 } else { self.rng.length(count, 12) };
        Case::UnpackSigns { bytes, count, out }
    }

    fn validate_padding(&mut self) -> Case {
        let count = self.count();
        let mut bytes = thin::pack_signs(&self.signs(count, 0)).unwrap();
        if self.rng.chance(45) {
            self.spoil(&mut bytes);
        }
        let large = self.large_count(1);
        let used_bits = if self.rng.chance(8) { large } else { count };
        Case::ValidatePadding { bytes, used_bits }
    }

    // Codebook and radii.

    fn codebook(&mut self) -> (u8, f32, f32) {
        let bits = self.bits();
        let (a, b) = (self.rng.finite(), self.rng.finite());
        let (low, high) = if a <= b { (a, b) } else { (b, a) };
        let unit = self.rng.unit();
        let (min, max) = match self.rng.below(12) {
            0 => (high, low),
            1 => (a, a),
            2 => (self.rng.any(), self.rng.any()),
            3 => (-f32::MAX, f32::MAX),
            4 => (0.0, 1.0),
            5 => (-1.0, 1.0),
            6 => (low, f32::from_bits(low.to_bits() ^ 1)),
            7 => (unit, unit + self.rng.unit().abs()),
            8 => (-0.0, 0.0),
            9 => (0.0, f32::from_bits(1)),
            _ => (low, high),
        };
        (bits, min, max)
    }

    fn quantize(&mut self) -> Case {
        let (bits, min, max) = self.codebook();
        let part = self.rng.unit().abs();
        let steps = self.rng.below(1 << bits.min(16)) as f32 / (1u32 << bits.min(16)) as f32;
        let value = match self.rng.below(9) {
            0 => min,
            1 => max,
            2 => self.rng.any(),
            3 => self.rng.finite(),
            4 => min + (max - min) * steps,
            5 => f32::from_bits(max.to_bits().wrapping_sub(1)),
            6 => self.rng.unit(),
            _ => min + (max - min) * part,
        };
        Case::CodebookQuantize { bits, min, max, value }
    }

    pub(crate) fn profile(&mut self) -> Profile {
        if self.rng.chance(4) {
            return Profile::BlockLogU8;
        }
        self.rng.pick(&[Profile::F32, Profile::BlockLinearU16])
    }

    pub(crate) fn radii(&mut self, count: usize, damaged: usize) -> Vec<f32> {
        let mut radii = self.rng.radii(count);
        if count > 0 && self.rng.chance(damaged) {
            for _ in 0..1 + self.rng.below(2) {
                let at = self.rng.below(count);
                let bad = self.rng.not_finite();
                radii[at] = self.rng.pick(&[bad, bad, -1.0, -f32::from_bits(1), -0.0]);
            }
        }
        radii
    }

    fn compress(&mut self) -> Case {
        let count = self.count();
        let radii = self.radii(count, 20);
        let profile = self.profile();
        let exact = count * if profile == Profile::F32 { 4 } else { 2 };
        Case::Compress { radii, profile, out: self.rng.length(exact, 15) }
    }

    fn decompress(&mut self) -> Case {
        let mut count = self.count();
        let profile = self.profile();
        let radii = self.rng.radii(count);
        let good = thin::compress(&radii, profile).unwrap();
        let (mut min, mut max, mut payload) = (good.min, good.max, good.payload);
        if self.rng.chance(20) {
            (min, max) = match self.rng.below(6) {
                0 => (-f32::MAX, f32::MAX),
                1 => (max, min),
                2 => (self.rng.any(), self.rng.any()),
                3 => (-2.0, -1.0),
                4 => (min, f32::MAX),
                _ => (self.rng.finite(), self.rng.finite()),
            };
        }
        if self.rng.chance(20) {
            self.spoil(&mut payload);
        }
        if profile == Profile::F32 && !payload.is_empty() && self.rng.chance(20) {
            let at = self.rng.below(payload.len() / 4) * 4;
            let bad = self.rng.not_finite();
            let bad = self.rng.pick(&[bad, -1.0, -f32::MIN_POSITIVE, -0.0]);
            if payload.len() >= at + 4 {
                payload[at..at + 4].copy_from_slice(&bad.to_le_bytes());
            }
        }
        if self.rng.chance(10) {
            let wraps = count.wrapping_add(1 << 62);
            let half = count.wrapping_add(1 << 63);
            count =
                self.rng.pick(&[count + 1, count.saturating_sub(1), 0, wraps, half, usize::MAX]);
        }
        let out = if count > 1 << 20 { 0 } else { self.rng.length(count, 12) };
        Case::Decompress { profile, count, min, max, payload, out }
    }

    fn root(&mut self) -> Case {
        let whole = self.rng.below(1 << 12) as f32;
        let square = whole * whole;
        let step = self.rng.below(3) as u32;
        let near = f32::from_bits((square.to_bits() + step).saturating_sub(1));
        let any = self.rng.any();
        let bits = f32::from_bits(self.rng.next() as u32);
        let plain = f32::from_bits(self.rng.next() as u32 & 0x7FFF_FFFF);
        Case::Root { value: self.rng.pick(&[any, square, near, bits, plain, plain]) }
    }

    // Rotation.

    pub(crate) fn dim(&mut self) -> usize {
        if self.rng.chance(8) {
            return self.odd_dim();
        }
        self.good_dim()
    }

    pub(crate) fn odd_dim(&mut self) -> usize {
        let list = [0, 1, 3, 6, 10, 12, 5, 4095, 4097, 4098, 8192];
        let short = [0, 1, 3, 6, 10, 12, 5, 8192];
        if self.size == Size::Small {
            self.rng.pick(&short[..7])
        } else {
            self.rng.pick(&list)
        }
    }

    pub(crate) fn good_dim(&mut self) -> usize {
        if self.size == Size::Small {
            return self.rng.pick(&[2, 4, 4, 8]);
        }
        match self.rng.below(200) {
            0 => 4096,
            1 => 2048,
            2 => 1024,
            3 | 4 => 512,
            5..=12 => 256,
            13..=24 => 128,
            _ => self.rng.pick(&[2, 4, 8, 16, 32, 64]),
        }
    }

    fn apply(&mut self, inverse: bool) -> Case {
        let dim = self.dim();
        let count = self.rng.length(dim, 6);
        let signs = self.turns(count, 8);
        let count = self.rng.length(dim, 6);
        let input = self.rng.vector_damaged(count, 15);
        Case::Apply { inverse, dim, signs, input, out: self.rng.length(dim, 8) }
    }

    // Stored rotations, and boards of other dimensions.

    /// A dimension of a rotation of this kind, and one that it doesn't take.
    pub(crate) fn good_dim_of(&mut self, kind: Kind) -> usize {
        match kind {
            Kind::FastHadamard => self.good_dim(),
            Kind::Stored if self.size == Size::Small => self.rng.pick(&[2, 4, 4, 6, 6, 8]),
            Kind::Stored => match self.rng.below(600) {
                0 => 512,
                1 => 300,
                2..=4 => 256,
                5..=40 => 90,
                41..=100 => 2 * (1 + self.rng.below(50)),
                _ => self.rng.pick(&[2, 4, 6, 8, 10, 12, 14, 16, 18, 20, 22, 30]),
            },
        }
    }

    pub(crate) fn odd_dim_of(&mut self, kind: Kind) -> usize {
        match kind {
            Kind::FastHadamard => self.odd_dim(),
            Kind::Stored => {
                self.rng.pick(&[0, 1, 3, 7, 511, 513, 514, 514, 516, 600, 1024, 4096, 4098, 8192])
            }
        }
    }

    /// A dimension of a record: any even one to 4,096, few of them powers of two.
    pub(crate) fn board_dim(&mut self) -> usize {
        let small = self.size == Size::Small;
        match self.rng.below(if small { 10 } else { 100 }) {
            0..=3 => 6,
            4..=6 => 2 * (1 + self.rng.below(if small { 4 } else { 50 })),
            7..=9 => self.rng.pick(&[2, 4, 6, 10]),
            10..=60 => 2 * (1 + self.rng.below(40)),
            61..=70 => 90,
            71..=90 => self.rng.pick(&[98, 100, 126, 130, 254]),
            91..=95 => self.rng.pick(&[300, 510, 512, 514]),
            96 | 97 => self.rng.pick(&[1000, 1022, 2046, 2050]),
            98 => 2 * (1 + self.rng.below(2048)),
            _ => self.rng.pick(&[4094, 4096]),
        }
    }

    /// The matrix of a stored rotation, column by column: near an orthogonal one, a permutation
    /// with zeros of both signs, or finite floats of any style.
    pub(crate) fn stored_matrix(&mut self, dim: usize) -> Vec<f32> {
        match self.rng.below(20) {
            0..=8 => self.orthogonal(dim),
            9 | 10 => self.permutation(dim),
            _ => self.rng.vector(dim * dim),
        }
    }

    /// The product of two reflections, rounded: dense, and no row is its column.
    pub(crate) fn orthogonal(&mut self, dim: usize) -> Vec<f32> {
        let mut mirror = || {
            let v: Vec<f64> = (0..dim).map(|_| f64::from(self.rng.unit()) + 1.0e-9).collect();
            let norm = v.iter().map(|x| x * x).sum::<f64>().sqrt();
            v.into_iter().map(|x| x / norm).collect::<Vec<f64>>()
        };
        let (u, v) = (mirror(), mirror());
        let both: f64 = u.iter().zip(&v).map(|(a, b)| a * b).sum();
        let entry = |i: usize, j: usize| {
            let one = (i == j) as u8 as f64;
            one - 2.0 * u[i] * u[j] - 2.0 * v[i] * v[j] + 4.0 * both * u[i] * v[j]
        };
        (0..dim * dim).map(|at| entry(at % dim, at / dim) as f32).collect()
    }

    /// A one or minus one in each row and column, all else a zero of either sign.
    fn permutation(&mut self, dim: usize) -> Vec<f32> {
        let mut row: Vec<usize> = (0..dim).collect();
        (1..dim).for_each(|i| row.swap(i, self.rng.below(i + 1)));
        let zeros = (0..dim * dim).map(|_| 0.0 * f32::from(self.rng.sign()));
        let mut matrix: Vec<f32> = zeros.collect();
        for (column, row) in row.into_iter().enumerate() {
            matrix[column * dim + row] = f32::from(self.rng.sign());
        }
        matrix
    }

    /// Makes one or two entries of a matrix infinite or NaN.
    pub(crate) fn spoil_entries(&mut self, matrix: &mut [f32]) {
        for _ in 0..1 + self.rng.below(2) {
            let at = self.rng.below(matrix.len());
            if let Some(entry) = matrix.get_mut(at) {
                *entry = self.rng.not_finite();
            }
        }
    }

    fn stored_apply(&mut self, inverse: bool) -> Case {
        let mut dim = self.good_dim_of(Kind::Stored);
        // What is lent fits a dimension that is taken, so that only the dimension offends.
        let fits = dim;
        if self.rng.chance(8) {
            let large = self.rng.pick(&[usize::MAX, usize::MAX - 1, 1 << 32, 1 << 63]);
            let odd = self.odd_dim_of(Kind::Stored);
            dim = self.rng.pick(&[odd, odd, odd, large]);
        }
        let mut matrix = self.stored_matrix(fits);
        matrix.resize(self.rng.length(fits * fits, 6), 0.5);
        if self.rng.chance(8) {
            self.spoil_entries(&mut matrix);
        }
        let count = self.rng.length(fits, 6);
        let input = self.rng.vector_damaged(count, 15);
        Case::StoredApply { inverse, dim, matrix, input, out: self.rng.length(fits, 8) }
    }

    /// Signs of a rotation, as floats.
    pub(crate) fn turns(&mut self, count: usize, damaged: usize) -> Vec<f32> {
        let mut turns: Vec<f32> = (0..count).map(|_| f32::from(self.rng.sign())).collect();
        if count > 0 && self.rng.chance(damaged) {
            for _ in 0..1 + self.rng.below(2) {
                let at = self.rng.below(count);
                let (bad, any) = (self.rng.not_finite(), self.rng.finite());
                turns[at] = self.rng.pick(&[bad, any, 0.0, -0.0, 2.0, 0.99999994, -1.0000001]);
            }
        }
        turns
    }
}
