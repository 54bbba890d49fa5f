//! How far a radius moves by its linear form. Millions of radii below 2^127, in lists of 17
//! kinds, are compressed and read back, alone and in a record, and each is held against document
//! 02's bound, (max - min) / 65,535 + max / 2^22 + 2^-23, in whole numbers, so without rounding.
//! No part of the bound can be left out, and beyond the limit a radius may read as infinite.

use foldrima::{
    compress, decompress, read_radii, record_size, refusal::MALFORMED_RADIUS, write_record,
    Position, RadiusCodecProfileV1::BlockLinearU16, Range, Refusal, TurboMode::PolarOnly,
};

mod rng;
use rng::Rng;

/// A whole number below 2^384, the most significant 64 bits first, so that two compare as they
/// stand. A result that is too large panics.
#[derive(Debug, Clone, Copy, PartialEq, PartialOrd)]
struct Whole([u64; 6]);

impl Whole {
    fn small(value: u32) -> Self {
        Self([0, 0, 0, 0, 0, value.into()])
    }

    /// A radius in units of 2^-149.
    fn of(radius: f32) -> Self {
        assert!(radius.is_finite() && radius >= 0.0, "{radius} is no radius");
        let bits = radius.abs().to_bits();
        match bits >> 23 {
            0 => Self::small(bits),
            exponent => Self::small(bits & 0x7F_FFFF | 0x80_0000).shifted(exponent - 1),
        }
    }

    fn times(mut self, factor: u64) -> Self {
        let mut carry = 0;
        for limb in self.0.iter_mut().rev() {
            let product = u128::from(*limb) * u128::from(factor) + carry;
            (*limb, carry) = (product as u64, product >> 64);
        }
        assert_eq!(carry, 0);
        self
    }

    /// Times 2^places.
    fn shifted(self, places: u32) -> Self {
        let (limbs, rest) = (places as usize / 64, places % 64);
        let mut shifted = self.times(1 << rest);
        shifted.0.rotate_left(limbs);
        assert!(shifted.0[6 - limbs..].iter().all(|limb| *limb == 0));
        shifted
    }

    fn plus(mut self, other: Self) -> Self {
        let mut carry = 0;
        for (limb, more) in self.0.iter_mut().zip(other.0).rev() {
            let sum = u128::from(*limb) + u128::from(more) + carry;
            (*limb, carry) = (sum as u64, sum >> 64);
        }
        assert_eq!(carry, 0);
        self
    }

    /// How far two numbers lie apart.
    fn apart(self, other: Self) -> Self {
        let (mut high, low) = if self < other { (other, self) } else { (self, other) };
        let mut borrow = false;
        for (limb, less) in high.0.iter_mut().zip(low.0).rev() {
            let (rest, below) = limb.overflowing_sub(less);
            let (rest, then_below) = rest.overflowing_sub(borrow.into());
            (*limb, borrow) = (rest, below || then_below);
        }
        high
    }

    fn rounded(self) -> f64 {
        self.0.iter().fold(0.0, |sum, limb| sum * 2f64.powi(64) + *limb as f64)
    }
}

/// The bound with its number of steps, its share of max and its floor of 2^-23, each of these two
/// once or left out (0). Both sides are whole numbers in units of 2^-149 / (steps * 2^22).
struct Bound {
    steps: u64,
    share: u64,
    floor: u64,
}

/// Document 02's.
const BOUND: Bound = Bound { steps: 65_535, share: 1, floor: 1 };

impl Bound {
    fn moved(&self, radius: f32, read: f32) -> Whole {
        Whole::of(read).apart(Whole::of(radius)).times(self.steps).shifted(22)
    }

    fn allowed(&self, Range { min, max }: Range) -> Whole {
        let span = Whole::of(max).apart(Whole::of(min)).shifted(22);
        let share = Whole::of(max).times(self.share * self.steps);
        let floor = Whole::of(f32::EPSILON).times(self.floor * self.steps).shifted(22);
        span.plus(share).plus(floor)
    }
}

/// The range of radii, and what they read as, by their linear form.
fn linear(radii: &[f32]) -> (Range, Vec<f32>) {
    let (mut payload, mut read) = (vec![0; 2 * radii.len()], vec![f32::NAN; radii.len()]);
    let range = compress(radii, BlockLinearU16, &mut payload).unwrap();
    decompress(BlockLinearU16, radii.len(), range, &payload, &mut read).unwrap();
    (range, read)
}

/// What radii read as by a record that is written linear.
fn recorded(radii: &[f32], bits: u8) -> Result<Vec<f32>, Refusal> {
    let (profile, mode, dim) = (BlockLinearU16, PolarOnly, 2 * radii.len());
    let (indices, mut read) = (vec![0; radii.len()], vec![f32::NAN; radii.len()]);
    let mut record = vec![0; record_size(profile, dim, bits, mode, 0, None)?];
    write_record(profile, dim, bits, mode, 0, None, radii, &indices, &[], &mut record)?;
    assert_eq!(read_radii(&record, &mut read)?, Position::Kept(()));
    Ok(read)
}

/// Holds every radius of a list against the bound; the largest share of it by which one moves. A
/// record with angles of so many bits has the same radii, bit for bit.
fn hold(radii: &[f32], bits: u8) -> f64 {
    assert!(radii.iter().all(|radius| *radius >= 0.0 && *radius < LIMIT));
    let min = radii.iter().fold(f32::INFINITY, |least, radius| least.min(*radius));
    let max = radii.iter().fold(0.0, |greatest: f32, radius| greatest.max(*radius));
    let (range, read) = linear(radii);
    assert_eq!(range, Range { min, max });
    let again = recorded(radii, bits).expect("radii below 2^127 are written");
    let same = again.iter().map(|x| x.to_bits()).eq(read.iter().map(|x| x.to_bits()));
    assert!(same, "{again:?} in a record and {read:?} alone");
    let (allowed, mut worst) = (BOUND.allowed(Range { min, max }), 0f64);
    for (radius, read) in radii.iter().zip(&read) {
        let moved = BOUND.moved(*radius, *read);
        let [from, to, min, max] = [*radius, *read, min, max].map(f32::to_bits);
        assert!(moved <= allowed, "{from:08X} reads as {to:08X} between {min:08X} and {max:08X}");
        worst = worst.max(moved.rounded() / allowed.rounded());
    }
    worst
}

/// 2^127, which all radii lie below.
const LIMIT: f32 = f32::from_bits(0x7F00_0000);

/// A number below `most`.
fn fewer(rng: &mut Rng, most: u32) -> u32 {
    rng.below(most as usize) as u32
}

/// The least and the greatest radius of a list, and what draws one between them.
type Ends = [f32; 2];
type Draw = fn(&mut Rng, Ends) -> f32;

/// A radius so many places above another, but below the limit.
fn above(radius: f32, places: u32) -> f32 {
    f32::from_bits((radius.to_bits() + places).min(LIMIT.to_bits() - 1))
}

/// A radius of any pattern between two, or one of them.
fn between(rng: &mut Rng, [min, max]: Ends) -> f32 {
    above(min, fewer(rng, max.to_bits() - min.to_bits() + 1))
}

/// A radius of any pattern.
fn any(rng: &mut Rng) -> f32 {
    between(rng, [0.0, LIMIT])
}

/// A radius so many steps above the least, of 65,535 up to the greatest, or up to two places beside.
fn at(rng: &mut Rng, [min, max]: Ends, step: f64) -> f32 {
    let span = f64::from(max) - f64::from(min);
    let exact = f64::from(min) + span.max(f32::EPSILON.into()) * (step / 65_535.0);
    let places = (exact as f32).to_bits() + fewer(rng, 5);
    f32::from_bits(places.saturating_sub(2)).clamp(min, max)
}

/// A radius near a step.
fn step(rng: &mut Rng, ends: Ends) -> f32 {
    let step = fewer(rng, 65_536);
    at(rng, ends, step.into())
}

/// A radius near the middle between two steps, from where it moves furthest.
fn half(rng: &mut Rng, [min, max]: Ends) -> f32 {
    let steps = 65_535.0 * ((max - min) / (max - min).max(f32::EPSILON));
    let step = fewer(rng, steps as u32 + 1);
    at(rng, [min, max], f64::from(step) + 0.5)
}

/// A radius near one of the last such middles, where rounding adds most.
fn last_half(rng: &mut Rng, ends: Ends) -> f32 {
    let step = 65_534 - fewer(rng, 2_000);
    at(rng, ends, f64::from(step) + 0.5)
}

/// Two ends: zero and a radius, a radius and a share of it, any two, or two within 2^24 places.
fn ends(rng: &mut Rng) -> Ends {
    let (one, other) = (any(rng), any(rng));
    match fewer(rng, 4) {
        0 => [0.0, one],
        1 => [one / (1 + fewer(rng, 1 << 16)) as f32, one],
        2 => [one.min(other), one.max(other)],
        _ => [one, above(one, fewer(rng, 1 << 24))],
    }
}

/// Two ends that lie 2^-23 apart, but for rounding: from zero, anywhere up to 1.0, and about it.
fn ends_apart(rng: &mut Rng) -> Ends {
    let below_one = between(rng, [0.0, 1.0]);
    let tiny = below_one * f32::EPSILON;
    let min = rng.one_of(&[0.0, tiny, below_one, 1.0 - f32::EPSILON / 2.0, 1.0]);
    [min, min + f32::EPSILON]
}

/// So many radii, at least two: both ends, at any two places and a zero with any sign, and others
/// that one of the draws makes.
fn list(rng: &mut Rng, count: usize, ends: Ends, draws: &[Draw]) -> Vec<f32> {
    let (count, draw) = (count.max(2), rng.one_of(draws));
    let mut radii = rng.many(count, |rng| draw(rng, ends));
    let first = rng.below(count);
    let second = (first + 1 + rng.below(count - 1)) % count;
    for (place, end) in [first, second].into_iter().zip(ends) {
        radii[place] = if end == 0.0 { rng.one_of(&[0.0, -0.0]) } else { end };
    }
    radii
}

/// A kind of list: its name, and what makes one, of so many radii where that can be chosen.
type Kind = (&'static str, fn(&mut Rng, usize) -> Vec<f32>);

const KINDS: [Kind; 17] = [
    ("one radius", |rng, _| vec![any(rng)]),
    ("equal radii", |rng, count| vec![any(rng); count]),
    ("zeros of both signs", |rng, count| rng.many(count, |rng| rng.one_of(&[0.0, -0.0]))),
    ("subnormal radii", |rng, count| {
        let max = f32::from_bits(fewer(rng, 0x80_0000));
        list(rng, count, [0.0, max], &[between])
    }),
    ("spans below 2^-23", |rng, count| {
        let [min, end] = ends_apart(rng);
        let mut max = between(rng, [min, end]);
        while max - min >= f32::EPSILON {
            max = f32::from_bits(max.to_bits() - 1);
        }
        list(rng, count, [min, max], &[between, half])
    }),
    ("spans about 2^-23", |rng, count| {
        let [min, end] = ends_apart(rng);
        let max = f32::from_bits(end.to_bits() - 1 + fewer(rng, 3));
        list(rng, count, [min, max], &[between, half])
    }),
    ("spans of few places", |rng, count| {
        let min = any(rng);
        rng.many(count, |rng| above(min, fewer(rng, 9)))
    }),
    ("spans of 65,000 places", |rng, count| {
        let min = any(rng);
        let max = above(min, 50_000 + fewer(rng, 30_000));
        list(rng, count, [min, max], &[between, half])
    }),
    ("from 0 to 2^-24", |rng, count| list(rng, count, [0.0, f32::EPSILON / 2.0], &[between, half])),
    ("from 0 to 1", |rng, count| list(rng, count, [0.0, 1.0], &[between, step, half, last_half])),
    ("evenly from 0 to 1", |rng, count| {
        rng.many(count, |rng| fewer(rng, (1 << 24) + 1) as f32 / (1 << 24) as f32)
    }),
    ("just below 2^127", |rng, count| {
        let max = f32::from_bits(LIMIT.to_bits() - 1 - fewer(rng, 4));
        let ends = [0.0, any(rng).min(max), between(rng, [max / 2.0, max])];
        let min = rng.one_of(&ends);
        list(rng, count, [min, max], &[between, half, last_half])
    }),
    ("any patterns", |rng, count| rng.many(count, any)),
    ("steps", |rng, count| {
        let ends = ends(rng);
        list(rng, count, ends, &[step])
    }),
    ("half steps", |rng, count| {
        let ends = ends(rng);
        list(rng, count, ends, &[half])
    }),
    ("last half steps", |rng, count| {
        let ends = ends(rng);
        list(rng, count, ends, &[last_half])
    }),
    // The greatest radius is some places above a power of two, so that places there are wide, and
    // the least is a small share of it, so that subtracting and adding it rounds.
    ("last half steps, coarse", |rng, count| {
        let power = f32::from_bits((140 + fewer(rng, 114)) << 23);
        let max = above(power, fewer(rng, 1 << 21));
        let min = between(rng, [max / 2f32.powi(12), max / 2f32.powi(3)]);
        list(rng, count, [min, max], &[last_half])
    }),
];

/// Lists of each kind, until they have 300,000 radii; prints how near to the bound they come.
#[test]
fn every_radius_lies_within_the_bound() {
    let (mut all, mut furthest) = (0, 0f64);
    for (seed, (kind, make)) in KINDS.iter().enumerate() {
        let rng = &mut Rng(seed as u64);
        let (mut held, mut worst) = (0, 0f64);
        while held < 300_000 {
            let count = if rng.below(100) == 0 { 2_048 } else { 1 + rng.below(64) };
            let (radii, bits) = (make(rng, count), 1 + rng.below(16) as u8);
            assert!(!radii.is_empty(), "{kind}");
            worst = worst.max(hold(&radii, bits));
            held += radii.len();
        }
        println!("{kind:<24} {held:>7} radii, worst share {worst:.4}");
        (all, furthest) = (all + held, furthest.max(worst));
    }
    println!("all kinds {all:>22} radii, worst share {furthest:.4}");
    assert!(all >= 4_000_000, "{all}");
    // Half a step is about half of the bound, and rounding adds a little. A radius that is cut to
    // a step and not rounded to it would move by nearly all of the bound.
    assert!(furthest > 0.5 && furthest < 0.52, "{furthest}");
}

#[test]
fn no_radii_have_an_empty_range() {
    assert_eq!(linear(&[]), (Range { min: 0.0, max: 0.0 }, vec![]));
}

/// For each part a list whose second radius lies within the bound, and outside without that part,
/// or with more steps.
#[test]
fn every_part_of_the_bound_is_needed() {
    let radii = |patterns: &[u32]| patterns.iter().map(|x| f32::from_bits(*x)).collect::<Vec<_>>();
    for (radii, less) in [
        (radii(&[0, 0x3380_0000]), Bound { floor: 0, ..BOUND }),
        (radii(&[0x4FA8_B56A, 0x4FA9_AE9B, 0x4FA9_B379]), Bound { share: 0, ..BOUND }),
        (radii(&[0, 0x3700_0080, 0x3F80_0000]), Bound { steps: 140_000, ..BOUND }),
    ] {
        hold(&radii, 8);
        let (range, read) = linear(&radii);
        assert!(less.moved(radii[1], read[1]) > less.allowed(range), "{radii:?}");
    }
    // Half of the bound is not enough.
    let radii = radii(&[0x74CA_8520, 0x7788_0E90, 0x7788_2B67]);
    let (range, read) = linear(&radii);
    assert!(BOUND.moved(radii[1], read[1]).times(2) > BOUND.allowed(range));
}

/// Two radii, of which the greatest is the largest float: the sum of least and span is infinite.
#[test]
fn a_limit_is_needed() {
    let radii = [1.5 * 2f32.powi(104), f32::MAX];
    let (range, read) = linear(&radii);
    assert_eq!((range.min, range.max, read), (radii[0], f32::MAX, vec![radii[0], f32::INFINITY]));
    let refused = Refusal { number: MALFORMED_RADIUS, place: 1 };
    assert_eq!(recorded(&radii, 8), Err(refused));
}

/// The bound of two ranges and the least move, worked out by hand.
#[test]
fn both_sides_of_the_bound() {
    let allowed = |min, max| BOUND.allowed(Range { min, max });
    assert_eq!(allowed(0.0, 1.0), Whole::small((1 << 23) + 3 * 65_535).shifted(148));
    assert_eq!(allowed(1.0, 2.0), Whole::small((1 << 23) + 5 * 65_535).shifted(148));
    assert_eq!(BOUND.moved(0.0, f32::from_bits(1)), Whole([0, 0, 0, 0, 0, 65_535 << 22]));
}

/// Whole numbers against those of 128 bits, and some radii in units of 2^-149.
#[test]
fn whole_numbers() {
    let rng = &mut Rng(0);
    let whole = |x: u128| Whole([0, 0, 0, 0, (x >> 64) as u64, x as u64]);
    let mut draw = || u128::from(rng.next()) << rng.below(64) | u128::from(rng.next());
    for _ in 0..100_000 {
        let (one, other) = (draw(), draw());
        assert_eq!(whole(one).plus(whole(other)), whole(one + other));
        assert_eq!(whole(one).apart(whole(other)), whole(one.abs_diff(other)));
        assert_eq!(whole(one) < whole(other), one < other);
        let (short, factor) = (one & u128::from(u64::MAX), other as u64);
        assert_eq!(whole(short).times(factor), whole(short * u128::from(factor)));
    }
    assert_eq!(Whole::of(f32::from_bits(1)), whole(1));
    assert_eq!(Whole::of(1.0), Whole([0, 0, 0, 1 << 21, 0, 0]));
    assert_eq!(Whole::of(f32::from_bits(0x7EFF_FFFF)), Whole([0, 0xF_FFFF, 0xF << 60, 0, 0, 0]));
    assert_eq!(Whole::of(1.5).rounded(), 1.5 * 2f64.powi(149));
}
