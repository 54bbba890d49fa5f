//! The generator of the cases: splitmix64, and floats of every class from it.

/// A splitmix64 state. The same seed gives the same cases on every machine.
pub struct Rng(pub u64);

impl Rng {
    pub fn next(&mut self) -> u64 {
        self.0 = self.0.wrapping_add(0x9E37_79B9_7F4A_7C15);
        let mut z = self.0;
        z = (z ^ (z >> 30)).wrapping_mul(0xBF58_476D_1CE4_E5B9);
        z = (z ^ (z >> 27)).wrapping_mul(0x94D0_49BB_1331_11EB);
        z ^ (z >> 31)
    }

    /// A number below `n`; 0 where n is 0.
    pub fn below(&mut self, n: usize) -> usize {
        if n == 0 {
            return 0;
        }
        (self.next() % n as u64) as usize
    }

    /// True in `percent` of a hundred draws.
    pub fn chance(&mut self, percent: usize) -> bool {
        self.below(100) < percent
    }

    pub fn pick<T: Copy>(&mut self, items: &[T]) -> T {
        items[self.below(items.len())]
    }

    /// Evenly from −1 to 1.
    pub fn unit(&mut self) -> f32 {
        let k = (self.next() >> 40) as i64 - (1 << 23);
        k as f32 / (1 << 23) as f32
    }

    pub fn sign(&mut self) -> i8 {
        if self.next() >> 63 == 1 {
            1
        } else {
            -1
        }
    }

    fn signed(&mut self, bits: u32) -> f32 {
        f32::from_bits(bits | (self.next() as u32 & 0x8000_0000))
    }

    /// A finite float of any class: zeros, subnormals, the smallest normal, whole
    /// numbers, ordinary values, huge values, the largest, any finite pattern.
    pub fn finite(&mut self) -> f32 {
        let bits = self.next() as u32;
        match self.below(12) {
            0 => self.signed(0),
            1 => self.signed(1),
            2 => self.signed(bits & 0x007F_FFFF),
            3 => self.signed(0x0080_0000),
            4 | 5 => self.unit(),
            6 => self.unit() * 1000.0,
            7 => (self.below(17) as f32) - 8.0,
            8 => self.signed(0x7000_0000 | (bits & 0x00FF_FFFF)),
            9 => self.signed(0x7F7F_FFFF),
            10 => self.signed(0x3F80_0000 + (bits & 7)),
            _ => {
                let value = f32::from_bits(bits);
                if value.is_finite() {
                    value
                } else {
                    1.0
                }
            }
        }
    }

    /// Infinities and NaNs, quiet and signalling, with payloads.
    pub fn not_finite(&mut self) -> f32 {
        let bits = self.next() as u32;
        match self.below(5) {
            0 => f32::INFINITY,
            1 => f32::NEG_INFINITY,
            2 => f32::NAN,
            3 => self.signed(0x7F80_0001 | (bits & 0x003F_FFFF)),
            _ => self.signed(0x7FC0_0000 | (bits & 0x003F_FFFF)),
        }
    }

    /// Any class at all.
    pub fn any(&mut self) -> f32 {
        if self.chance(25) {
            self.not_finite()
        } else {
            self.finite()
        }
    }

    /// `count` finite floats of one style, so that sums of many kinds come up.
    pub fn vector(&mut self, count: usize) -> Vec<f32> {
        let style = self.below(12);
        (0..count)
            .map(|_| match style {
                0 => self.signed(0),
                1 => self.finite(),
                2 => {
                    let bits = self.next() as u32;
                    self.signed(bits & 0x007F_FFFF)
                }
                3 => self.unit() * 1.0e38,
                4 => self.unit() * 1.0e19,
                5 => self.unit() * 1.0e-22,
                6 => (self.below(9) as f32) - 4.0,
                7 => {
                    if self.chance(70) {
                        0.0
                    } else {
                        self.unit()
                    }
                }
                _ => self.unit(),
            })
            .collect()
    }

    /// As `vector`, and in `percent` of a hundred one entry or more is not finite.
    pub fn vector_damaged(&mut self, count: usize, percent: usize) -> Vec<f32> {
        let mut values = self.vector(count);
        if count > 0 && self.chance(percent) {
            for _ in 0..1 + self.below(2) {
                let at = self.below(count);
                values[at] = self.not_finite();
            }
        }
        values
    }

    /// `count` radii: finite and not below zero, −0.0 among them.
    pub fn radii(&mut self, count: usize) -> Vec<f32> {
        let style = self.below(10);
        let level = self.unit().abs();
        (0..count)
            .map(|_| match style {
                0 => self.signed(0),
                1 => match self.finite() {
                    value if value == 0.0 => value,
                    value => value.abs(),
                },
                2 => f32::from_bits(self.next() as u32 & 0x007F_FFFF),
                3 => self.unit().abs() * 3.4e38,
                4 => level,
                5 => level + self.unit().abs() * 1.0e-7,
                6 => self.below(4) as f32 * f32::EPSILON / 2.0,
                _ => self.unit().abs() * 4.0,
            })
            .collect()
    }

    /// A length near `exact`: mostly itself, else one short, one over, none or another.
    pub fn length(&mut self, exact: usize, percent: usize) -> usize {
        if !self.chance(percent) {
            return exact;
        }
        match self.below(4) {
            0 => exact.saturating_sub(1),
            1 => exact.saturating_add(1).min(1 << 20),
            2 => 0,
            _ => self.below(2 * exact.min(1 << 16) + 2),
        }
    }
}
