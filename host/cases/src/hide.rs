//! Makes the cases of `hidden`: good inputs, into which a fault is put where sums stay finite or
//! where nothing is summed, often beside another fault; and good ones whose sums overflow. Lists end
//! at and around whole blocks. What needs a setup is made in `hide_under`.

use oracle::thin;

use crate::{
    case::{Case, Kind, Mode, Profile, CALLS},
    hidden::BLOCK,
    make::Maker,
    record,
};

impl Maker {
    /// The next case of a call in `hidden::HIDDEN`.
    pub(crate) fn hide(&mut self, call: usize) -> Case {
        match CALLS[call] {
            "pack_indices" => self.hide_in_indices(),
            "unpack_indices" => self.hide_in_packed_indices(),
            "pack_signs" => {
                let count = self.edge();
                let signs = self.signs_with_one(count, 70);
                Case::PackSigns { out: self.rng.length(count.div_ceil(8), 10), signs }
            }
            "unpack_signs" => {
                let count = self.edge();
                let mut bytes = thin::pack_signs(&self.signs(count, 0)).unwrap();
                if self.rng.chance(40) {
                    self.pad(&mut bytes, count);
                }
                Case::UnpackSigns { bytes, count, out: self.rng.length(count, 10) }
            }
            "compress" => {
                let profile = self.hidden_profile();
                let count = self.edge();
                let radii = self.edge_radii(count, 25);
                let exact = count * if profile == Profile::F32 { 4 } else { 2 };
                Case::Compress { radii, profile, out: self.rng.length(exact, 10) }
            }
            "decompress" => self.hide_in_payload(),
            "apply" => self.hide_in_signs(false),
            "apply_inverse" => self.hide_in_signs(true),
            "stored_apply" => self.hide_in_stored(false),
            "stored_apply_inverse" => self.hide_in_stored(true),
            "write_record" => self.hide_in_lists(),
            "read_record" => {
                let (pairs, bits) = (self.edge(), 1 + self.rng.below(15) as u8);
                let (projections, signs) = (1 + self.rng.below(140), self.rng.chance(70));
                let mut parts = self.hidden_parts(pairs, bits, projections, signs);
                self.flaw_record(&mut parts, 80);
                Case::ReadRecord { record: parts.bytes() }
            }
            "score_prepared" => self.hide_in_prepared(),
            other => self.hide_under_setup(other),
        }
    }

    // Places and counts.

    /// A count at or around whole blocks, mostly.
    pub(crate) fn edge(&mut self) -> usize {
        let small = 1 + self.rng.below(70);
        match self.rng.below(10) {
            0 => self.rng.pick(&[31, 32, 33, 191, 192, 193, 255, 256, 257]),
            1 => small,
            _ => self.rng.pick(&[63, 64, 65, 127, 128, 129]),
        }
    }

    /// A place among so many: in the last block, the very last, in the first, or anywhere.
    pub(crate) fn place(&mut self, count: usize) -> usize {
        let last = (count - 1) / BLOCK * BLOCK;
        match self.rng.below(10) {
            0..3 => last + self.rng.below(count - last),
            3..5 => count - 1,
            5 => self.rng.below(count.min(BLOCK)),
            _ => self.rng.below(count),
        }
    }

    pub(crate) fn zero(&mut self) -> f32 {
        self.rng.pick(&[0.0, -0.0])
    }

    /// Below zero and finite.
    pub(crate) fn negative(&mut self) -> f32 {
        self.rng.pick(&[-1.0, -1.0, -0.5, -f32::from_bits(1), -f32::MIN_POSITIVE, -f32::MAX])
    }

    fn hidden_profile(&mut self) -> Profile {
        self.rng.pick(&[Profile::F32, Profile::BlockLinearU16, Profile::BlockLinearU16])
    }

    /// Signs of which, in so many of a hundred lists, one is bad, or two.
    pub(crate) fn signs_with_one(&mut self, count: usize, percent: usize) -> Vec<i8> {
        let mut signs = self.signs(count, 0);
        if count > 0 && self.rng.chance(percent) {
            for _ in 0..1 + self.rng.chance(20) as usize {
                let at = self.place(count);
                signs[at] = self.rng.pick(&[0, 2, -2, 3, -3, 127, -127, -128]);
            }
        }
        signs
    }

    /// Sets a bit behind the last used one, if there is one.
    pub(crate) fn pad(&mut self, bytes: &mut [u8], used_bits: usize) {
        if let (Some(last), kept @ 1..) = (bytes.last_mut(), used_bits % 8) {
            *last |= 1 << (kept + self.rng.below(8 - kept));
        }
    }

    // Lists by themselves.

    fn hide_in_indices(&mut self) -> Case {
        let (bits, count) = (1 + self.rng.below(16) as u8, self.edge());
        let mut indices: Vec<u16> = (0..count).map(|_| self.index(bits, 0)).collect();
        if self.rng.chance(40) {
            indices[self.place(count)] = self.index(bits, 100);
        }
        let exact = (count * usize::from(bits)).div_ceil(8);
        Case::PackIndices { indices, bits, out: self.rng.length(exact, 10) }
    }

    fn hide_in_packed_indices(&mut self) -> Case {
        let (bits, count) = (1 + self.rng.below(16) as u8, self.edge());
        let indices: Vec<u16> = (0..count).map(|_| self.index(bits, 0)).collect();
        let mut bytes = thin::pack_indices(&indices, bits).unwrap();
        if self.rng.chance(40) {
            self.pad(&mut bytes, count * usize::from(bits));
        }
        Case::UnpackIndices { bytes, count, bits, out: self.rng.length(count, 10) }
    }

    /// Radii in which a range has something particular; in so many of a hundred lists one is bad.
    fn edge_radii(&mut self, count: usize, percent: usize) -> Vec<f32> {
        let (level, tiny) = (self.rng.unit().abs(), f32::from_bits(1 + self.rng.below(9) as u32));
        let mut radii: Vec<f32> = match self.rng.below(12) {
            0 => {
                let level = self.rng.pick(&[level, 0.0, -0.0, f32::MAX, tiny]);
                vec![level; count]
            }
            1 => (0..count).map(|_| self.zero()).collect(),
            2 | 3 => {
                let mut radii: Vec<f32> = (0..count).map(|_| self.rng.unit().abs()).collect();
                (0..1 + count / 4).for_each(|_| radii[self.rng.below(count)] = self.zero());
                radii
            }
            4..7 => self.halves(count),
            7 => (0..count).map(|_| level + self.rng.below(9) as f32 * 2f32.powi(-26)).collect(),
            8 => (0..count).map(|_| self.rng.below(5) as f32 * tiny).collect(),
            _ => self.rng.radii(count),
        };
        if self.rng.chance(percent) {
            for _ in 0..1 + self.rng.chance(20) as usize {
                let (at, bad, below) = (self.place(count), self.rng.not_finite(), self.negative());
                radii[at] = self.rng.pick(&[bad, below, below, below, -0.0]);
            }
        }
        radii
    }

    /// Radii that are rounded from a half, or from next to one.
    fn halves(&mut self, count: usize) -> Vec<f32> {
        let (low, wide) = (self.rng.unit().abs(), self.rng.unit().abs());
        let list = [(0.0, 1.0), (0.0, 65535.0), (0.0, 131070.0), (low, low + wide), (0.0, wide)];
        let (min, max) = self.rng.pick(&list);
        let steps = self.rng.pick(&[4, 300, 65535]);
        let mut one = || {
            let part = (self.rng.below(steps) as f64 + 0.5) / 65535.0;
            let near = (f64::from(min) + f64::from(max - min) * part) as f32;
            f32::from_bits((near.to_bits() + self.rng.below(3) as u32).saturating_sub(1))
        };
        let mut radii: Vec<f32> = (0..count).map(|_| one().clamp(min, max)).collect();
        radii[self.rng.below(count)] = min;
        radii[self.rng.below(count)] = max;
        radii
    }

    fn hide_in_payload(&mut self) -> Case {
        let (profile, count) = (self.hidden_profile(), self.edge());
        let percent = if profile == Profile::F32 { 60 } else { 0 };
        let good = self.edge_radii(count, 0);
        let packed = thin::compress(&good, profile).unwrap();
        let (mut min, mut max, mut payload) = (packed.min, packed.max, packed.payload);
        if self.rng.chance(percent) {
            let (at, bad, below) = (4 * self.place(count), self.rng.not_finite(), self.negative());
            let radius = self.rng.pick(&[bad, below, below, -0.0]);
            payload[at..at + 4].copy_from_slice(&radius.to_le_bytes());
        }
        if profile != Profile::F32 && self.rng.chance(30) {
            let high = (f32::from_bits(0x73C0_0000), f32::MAX);
            (min, max) = self.rng.pick(&[(-f32::MAX, f32::MAX), high]);
            let at = 2 * self.place(count);
            payload[at..at + 2].fill(0xFF);
        }
        Case::Decompress { profile, count, min, max, payload, out: self.rng.length(count, 10) }
    }

    /// A record's lists with faults that come one before the other.
    fn hide_in_lists(&mut self) -> Case {
        let (pairs, profile) = (self.edge(), self.hidden_profile());
        let mode = self.rng.pick(&[Mode::PolarOnly, Mode::PolarWithQjl, Mode::PolarWithQjl]);
        let residual = mode == Mode::PolarWithQjl;
        let bits = 1 + self.rng.below(15) as u8;
        let projections = if residual { 1 + self.rng.below(140) } else { 0 };
        let mut radii = self.edge_radii(pairs, 20);
        if self.rng.chance(8) {
            // The largest would read as infinite.
            radii[self.place(pairs)] = f32::from_bits(0x73C0_0000);
            radii.iter_mut().for_each(|radius| *radius = radius.max(f32::from_bits(0x73C0_0000)));
            radii[self.place(pairs)] = f32::MAX;
        }
        let mut indices: Vec<u16> = (0..pairs).map(|_| self.index(bits, 0)).collect();
        // Sometimes in all three, so that their order shows.
        let all = self.rng.chance(8);
        if all {
            radii[self.place(pairs)] = self.negative();
        }
        if all || self.rng.chance(25) {
            indices[self.place(pairs)] = 1 << bits;
        }
        let signs = self.signs_with_one(projections, if all { 100 } else { 35 });
        let map = (profile == Profile::BlockLinearU16) as u8 * record::LINEAR
            + residual as u8 * record::SIGNS;
        let lens = record::payload_lens(map, 2 * pairs as u32, bits, projections as u32);
        let exact = record::header_len(map) + lens.iter().sum::<u64>() as usize;
        let out = self.rng.length(exact, 8);
        let (dim, norm) = (2 * pairs, None);
        Case::WriteRecord {
            profile,
            dim,
            bits,
            mode,
            projections,
            norm,
            radii,
            indices,
            signs,
            out,
        }
    }

    // Rotations by themselves.

    pub(crate) fn hidden_dim(&mut self, kind: Kind) -> usize {
        let small = 2 * (1 + self.rng.below(20));
        match (kind, self.rng.below(40)) {
            (Kind::FastHadamard, 0..5) => self.rng.pick(&[512, 512, 1024, 2048, 4096]),
            (Kind::FastHadamard, 5..14) => 256,
            (Kind::FastHadamard, 14..21) => 128,
            (Kind::FastHadamard, _) => self.rng.pick(&[2, 4, 8, 16, 32, 64]),
            (Kind::Stored, 0..3) => self.rng.pick(&[254, 256, 258, 258, 300, 512]),
            (Kind::Stored, 3..17) => self.rng.pick(&[126, 128, 130, 130, 140]),
            (Kind::Stored, 17..21) => 90,
            (Kind::Stored, _) => small,
        }
    }

    /// Entries from −1 to 1, some of them zeros.
    pub(crate) fn entries(&mut self, count: usize) -> Vec<f32> {
        let zeros = self.rng.pick(&[0, 0, 10, 50]);
        (0..count)
            .map(|_| if self.rng.chance(zeros) { self.zero() } else { self.rng.unit() })
            .collect()
    }

    /// Makes a sign bad: not finite over a zero, zero over an infinity, or finite and so that
    /// all sums are.
    pub(crate) fn flaw_sign(&mut self, signs: &mut [f32], input: &mut [f32]) {
        let at = self.place(signs.len());
        let bad = [0.0, -0.0, 2.0, -2.0, 0.5, 0.99999994, -1.0000001, f32::from_bits(1)];
        match self.rng.below(9) {
            0..2 => (signs[at], input[at]) = (self.rng.not_finite(), self.zero()),
            2..4 => {
                (signs[at], input[at]) =
                    (self.zero(), self.rng.pick(&[f32::INFINITY, -f32::INFINITY]))
            }
            _ => signs[at] = self.rng.pick(&bad),
        }
    }

    /// A query whose rotated values overflow although it is finite.
    pub(crate) fn overflowing(&mut self, kind: Kind, rotation: &[f32], dim: usize) -> Vec<f32> {
        // Along one row, so that its terms add up, or with signs of their own.
        let (row, own) = (self.rng.below(dim), self.rng.chance(30));
        (0..dim)
            .map(|j| {
                let turned = match kind {
                    _ if own => f32::from(self.rng.sign()),
                    Kind::FastHadamard => rotation[j],
                    Kind::Stored => rotation[j * dim + row],
                };
                f32::MAX.copysign(turned) * self.rng.pick(&[1.0, 1.0, 0.75])
            })
            .collect()
    }

    fn hide_in_signs(&mut self, inverse: bool) -> Case {
        let dim = self.hidden_dim(Kind::FastHadamard);
        let (mut signs, mut input) = (self.turns(dim, 0), self.entries(dim));
        match self.rng.below(10) {
            0..6 => self.flaw_sign(&mut signs, &mut input),
            6..8 => input = self.overflowing(Kind::FastHadamard, &signs, dim),
            8 => input[self.rng.below(dim)] = self.rng.not_finite(),
            _ => {}
        }
        Case::Apply { inverse, dim, signs, input, out: self.rng.length(dim, 8) }
    }

    /// A stored rotation's matrix: near an orthogonal one mostly.
    pub(crate) fn hidden_matrix(&mut self, dim: usize) -> Vec<f32> {
        if self.rng.chance(75) {
            return self.orthogonal(dim);
        }
        self.stored_matrix(dim)
    }

    fn hide_in_stored(&mut self, inverse: bool) -> Case {
        let dim = self.hidden_dim(Kind::Stored);
        let (mut matrix, mut input) = (self.hidden_matrix(dim), self.entries(dim));
        let steep = |maker: &mut Maker, by: f32| -> Vec<f32> {
            (0..dim * dim).map(|_| maker.rng.unit() * by).collect()
        };
        match self.rng.below(10) {
            0..5 => {
                for _ in 0..1 + self.rng.chance(25) as usize {
                    let at = self.place(dim * dim);
                    matrix[at] = self.rng.not_finite();
                    input[if inverse { at % dim } else { at / dim }] = self.zero();
                }
                if self.rng.chance(20) {
                    input.fill(0.0);
                }
            }
            5 => (matrix, input) = (steep(self, f32::MAX), vec![0.75; dim]),
            6 => (matrix, input) = (steep(self, f32::MAX), vec![8.0; dim]),
            7 => input[self.rng.below(dim)] = self.rng.not_finite(),
            _ => {}
        }
        Case::StoredApply { inverse, dim, matrix, input, out: self.rng.length(dim, 8) }
    }
}
