//! Streams of thousands of records, many of them with equal scores, refused or withdrawn, taken
//! singly by a query, singly by a prepared one and many at once: after each of the first records,
//! now and then later, after each call that takes many, and at the end a scan has the hits that a
//! full sort of the accepted records gives, the counts, and the comparisons that the rule makes.
//! Some are shortened at random points: their hits and counts of records then end as if opened
//! with the least of the lengths, and comparisons do not.

use std::collections::BTreeMap;

use foldrima::{
    dequantize_angle, raw, record_size, write_record, Hit, Position,
    RadiusCodecProfileV1 as Profile, Refusal, RotationKind, Scan, Setup, Taken, Tally,
    TurboMode as Mode,
};

mod rng;
use rng::Rng;

/// Two bits: the directions along both axes.
const AXES: [f32; 8] = [-1.0, 0.0, 0.0, -1.0, 1.0, 0.0, 0.0, 1.0];
const SIGNS: [f32; 4] = [1.0, -1.0, -1.0, 1.0];
const MATRIX: [f32; 12] = [1.0, 0.0, 0.0, -1.0, 0.0, 1.0, 1.0, 0.0, 0.5, 0.5, -0.5, -0.5];
/// Each of six features goes one place further.
const STORED: [f32; 36] = {
    let mut matrix = [0.0; 36];
    let mut j = 0;
    while j < 6 {
        matrix[6 * j + (j + 1) % 6] = 1.0;
        j += 1;
    }
    matrix
};

const ONLY: Setup = Setup {
    mode: Mode::PolarOnly,
    dim: 4,
    bits: 2,
    projections: 0,
    kind: RotationKind::FastHadamard,
    rotation: &SIGNS,
    directions: &AXES,
    matrix: &[],
};
const BOTH: Setup =
    Setup { mode: Mode::PolarWithQjl, bits: 3, projections: 3, matrix: &MATRIX, ..ONLY };
const TURNED: Setup = Setup { kind: RotationKind::Stored, dim: 6, rotation: &STORED, ..ONLY };

/// A good record under a setup; under the three above scores of such records are few.
fn good(rng: &mut Rng, setup: &Setup) -> Vec<u8> {
    let profile = rng.one_of(&[Profile::F32, Profile::F32, Profile::BlockLinearU16]);
    let (mode, dim) = (setup.mode, setup.dim);
    let (count, bits) = match mode {
        Mode::PolarOnly => (0, setup.bits),
        Mode::PolarWithQjl => (setup.projections, setup.bits - 1),
    };
    let norm =
        if count == 0 { None } else { rng.one_of(&[None, Some(0.0), Some(-0.0), Some(1.0)]) };
    let radii = rng.many(dim / 2, |rng| rng.one_of(&[0.0, 0.0, 1.0, 2.0]));
    let indices = rng.many(dim / 2, |rng| rng.below(1 << bits) as u16);
    let signs = rng.many(count, |rng| rng.one_of(&[-1, 1]));
    let mut record = vec![0; record_size(profile, dim, bits, mode, count, norm).unwrap()];
    let out = &mut record;
    write_record(profile, dim, bits, mode, count, norm, &radii, &indices, &signs, out).unwrap();
    record
}

/// A record that is good, withdrawn, or has a fault: a length, the map, dimension, bits, a radius,
/// padding, range, projections, norm, or another setup's form; or a radius or a norm with which a
/// score may be infinite.
fn any(rng: &mut Rng, setup: &Setup) -> Vec<u8> {
    let mut record = good(rng, setup);
    let head = 6 + if record[0] & 2 != 0 { 4 } else { 0 } + if record[0] & 4 != 0 { 4 } else { 0 };
    let largest = f32::MAX.to_le_bytes();
    match rng.below(40) {
        0..4 => record.clear(),
        4 => record.truncate(rng.below(record.len())),
        5 => record.push(0),
        6 => record[0] |= rng.one_of(&[8, 64, 128]),
        7 => record[1] = rng.one_of(&[0, 2, 3, 5, 8]),
        8 => record[2] = 0x20,
        9 => record[5] = rng.one_of(&[0, 1, 3, 17]),
        10 if record[0] & 1 == 0 => record[head + 3] |= 0x80,
        11 if record[0] & 1 == 0 => record[head..head + 4].copy_from_slice(&largest),
        12 if record[0] & 1 == 0 => record[head + 2..head + 4].copy_from_slice(&[0x80, 0x7F]),
        // The last radius.
        22 if record[0] & 1 == 0 => {
            let end = head + 2 * setup.dim;
            record[end - 4..end].copy_from_slice(&(-1.0f32).to_le_bytes());
        }
        // The range stands behind the six bytes, then the projections, then the norm.
        17 if record[0] & 1 == 1 => record[9] = 0x7F,
        18 if record[0] & 2 == 2 => {
            let at = 6 + if record[0] & 1 == 1 { 8 } else { 0 };
            record[at] = 0;
        }
        19..22 if record[0] & 4 == 4 => {
            let at = 6 + 4 + if record[0] & 1 == 1 { 8 } else { 0 };
            let norm = rng.one_of(&[-1.0, f32::NAN, f32::INFINITY, 2.5e38]);
            record[at..at + 4].copy_from_slice(&norm.to_le_bytes());
        }
        13 => *record.last_mut().unwrap() |= 0x80,
        14 => record = good(rng, &ONLY),
        15 => record = good(rng, &BOTH),
        16 => record = good(rng, &TURNED),
        _ => {}
    }
    record
}

/// What a scan of this length, which is the one in force, must be: all accepted records in the
/// order in which they came, and the counts.
#[derive(Default)]
struct Model {
    length: usize,
    accepted: Vec<Hit>,
    taken: u32,
    refused: u32,
    withdrawn: u32,
    comparisons: u64,
    /// Those of the refused records.
    refusals: Vec<Refusal>,
    /// How many shortenings cut hits away, and how many left room for more.
    cuts: (u32, u32),
}

impl Model {
    fn of(length: usize) -> Self {
        Self { length, ..Self::default() }
    }

    /// How many comparisons a new score makes: one with each hit that it beats, and one more where
    /// there is a hit that it does not beat. All hits that it does not beat stand before those that
    /// it does, so that no hit need be sorted to count them.
    fn compared(&self, score: f32) -> u64 {
        let hits = self.accepted.len().min(self.length);
        let as_good = self.accepted.iter().filter(|hit| hit.score >= score).count();
        let standing = as_good.min(self.length);
        (hits - standing) as u64 + (standing > 0) as u64
    }

    /// What a length that is asked for must answer; one that is given stays in force.
    fn shortens(&mut self, length: usize) -> Result<(), Refusal> {
        if length == 0 || length > self.length {
            return Err(Refusal { number: 25, place: 0 });
        }
        let hits = self.accepted.len().min(self.length);
        self.cuts.0 += (hits > length) as u32;
        self.cuts.1 += (hits < length) as u32;
        self.length = length;
        Ok(())
    }

    /// What a record must answer, by the call that scores one.
    fn takes(&mut self, answer: Result<Position<f32>, Refusal>) -> Taken {
        let number = self.taken;
        self.taken += 1;
        match answer {
            Ok(Position::Kept(score)) => {
                self.comparisons += self.compared(score);
                self.accepted.push(Hit { number, score });
                Taken::Accepted(score)
            }
            Ok(Position::Withdrawn) => {
                self.withdrawn += 1;
                Taken::Withdrawn
            }
            Err(refusal) => {
                self.refused += 1;
                self.refusals.push(refusal);
                Taken::Refused(refusal)
            }
        }
    }

    /// The accepted records, sorted; a stable sort leaves equal scores by number.
    fn sorted(&self) -> Vec<Hit> {
        let mut all = self.accepted.clone();
        all.sort_by(|one, other| other.score.partial_cmp(&one.score).unwrap());
        all
    }

    fn holds(&self, scan: &Scan) {
        let sorted = self.sorted();
        let wanted = &sorted[..sorted.len().min(self.length)];
        let bits = |hit: &Hit| (hit.number, hit.score.to_bits());
        let mut hits = vec![Hit { number: 77, score: 7.5 }; wanted.len()];
        scan.close(&mut hits).unwrap();
        assert!(hits.iter().map(bits).eq(wanted.iter().map(bits)), "{hits:?} and {wanted:?}");
        assert!(scan.hits().eq(hits));
        assert_eq!((scan.length(), scan.kept()), (self.length, wanted.len()));
        let counts = (scan.taken(), scan.refused(), scan.withdrawn(), scan.comparisons());
        assert_eq!(counts, (self.taken, self.refused, self.withdrawn, self.comparisons));
    }
}

/// A query with its prepared form.
struct Query {
    plain: Vec<f32>,
    rotated: Vec<f32>,
    projected: Vec<f32>,
}

fn query(rng: &mut Rng, setup: &Setup) -> Query {
    let plain = rng.many(setup.dim, |rng| rng.one_of(&[-2.0, -1.0, 0.0, 0.0, 1.0, 2.0, 4.0]));
    let count = if setup.mode == Mode::PolarOnly { 0 } else { setup.projections };
    let (mut rotated, mut projected) = (vec![0.0; setup.dim], vec![0.0; count]);
    setup.prepare_query(&plain, &mut rotated, &mut projected).unwrap();
    Query { plain, rotated, projected }
}

/// All that a scan holds, also behind its hits, with scores as patterns.
fn held(scan: &Scan) -> (Tally, [u32; 64], [u32; 64]) {
    let raw::Scan { tally, numbers, scores } = *scan.raw();
    (tally, numbers, scores.map(f32::to_bits))
}

/// A call with a setup or a query that is refused: it says what scoring says, and takes nothing.
fn refuse(rng: &mut Rng, scan: &mut Scan, setup: &Setup, query: &Query, record: &[u8]) {
    let before = held(scan);
    let Query { plain, rotated, projected } = query;
    let (mut spoilt, mut turned) = (plain.clone(), rotated.clone());
    let at = rng.below(plain.len());
    spoilt[at] = rng.one_of(&[f32::NAN, f32::INFINITY, f32::NEG_INFINITY]);
    turned[at] = spoilt[at];
    let long = [&plain[..], &[1.0]].concat();
    let mut table = setup.directions.to_vec();
    table[at % setup.directions.len()] = 1.5;
    let odd = [
        Setup { dim: 0, ..*setup },
        Setup { dim: 3, ..*setup },
        Setup { dim: 514, ..*setup },
        Setup { bits: 0, ..*setup },
        Setup { directions: &table, ..*setup },
        Setup { directions: &table[1..], ..*setup },
    ];
    let odd = &odd[rng.below(odd.len())];
    for (setup, query) in [(odd, plain), (setup, &spoilt), (setup, &long)] {
        let refusal = setup.inner_product_estimate(query, record).unwrap_err();
        assert_eq!(scan.take(setup, query, record), Err(refusal));
    }
    for (setup, rotated) in [(odd, rotated), (setup, &turned), (setup, &long)] {
        let prepared = setup.inner_product_estimate_prepared(rotated, projected, record);
        let refusal = prepared.unwrap_err();
        assert_eq!(scan.take_prepared(setup, rotated, projected, record), Err(refusal));
        let many = scan.take_many(setup, rotated, projected, record, &[record.len(); 2]);
        assert_eq!(many, Err(refusal));
    }
    let end = record.len() + 1 + rng.below(9);
    let many = scan.take_many(setup, rotated, projected, record, &[0, record.len(), end]);
    assert_eq!(many, Err(Refusal { number: 5, place: end }));
    if !record.is_empty() {
        let end = rng.below(record.len());
        let many = scan.take_many(setup, rotated, projected, record, &[record.len(), end]);
        assert_eq!(many, Err(Refusal { number: 5, place: end }));
    }
    assert_eq!(held(scan), before);
}

/// One stream under one query, taken in four ways; the model afterwards.
fn stream(seed: u64, setup: &Setup, length: usize, count: usize) -> Model {
    let rng = &mut Rng(seed);
    let query = query(rng, setup);
    let Query { plain, rotated, projected } = &query;
    let records: Vec<Vec<u8>> = rng.many(count, |rng| any(rng, setup));
    let mut model = Model::of(length);
    let opened = Scan::open(length).unwrap();
    let (mut singly, mut prepared, mut many) = (opened.clone(), opened.clone(), opened.clone());
    // The records that are still to be taken many at once.
    let (mut bytes, mut ends, mut batch) = (Vec::<u8>::new(), vec![], 1);
    for (i, record) in records.iter().enumerate() {
        let wanted = model.takes(setup.inner_product_estimate(plain, record));
        assert_eq!(singly.take(setup, plain, record), Ok(wanted));
        let taken = prepared.take_prepared(setup, rotated, projected, record);
        assert_eq!(taken, Ok(wanted));
        if i < 200 || rng.below(50) == 0 {
            model.holds(&singly);
            assert_eq!(singly, prepared);
        }
        bytes.extend(record);
        ends.push(bytes.len());
        if ends.len() == batch || i + 1 == count {
            many.take_many(setup, rotated, projected, &bytes, &ends).unwrap();
            many.take_many(setup, rotated, projected, &bytes, &[]).unwrap();
            model.holds(&many);
            bytes.clear();
            ends.clear();
            let most = rng.one_of(&[1, 2, 10, 100, 1000]);
            batch = 1 + rng.below(most);
        }
        if rng.below(20) == 0 {
            refuse(rng, &mut singly, setup, &query, record);
        }
    }
    let mut each = opened;
    each.take_each(setup, rotated, projected, &records).unwrap();
    for scan in [&singly, &prepared, &many, &each] {
        model.holds(scan);
    }
    model
}

/// Records that three scans take: singly by the query, by an iterator, and many at once.
fn three_ways(
    model: &mut Model,
    scans: &mut [Scan; 3],
    setup: &Setup,
    query: &Query,
    records: &[Vec<u8>],
) {
    let Query { plain, rotated, projected } = query;
    let [singly, each, many] = scans;
    for record in records {
        let wanted = model.takes(setup.inner_product_estimate(plain, record));
        assert_eq!(singly.take(setup, plain, record), Ok(wanted));
    }
    each.take_each(setup, rotated, projected, records).unwrap();
    let ends: Vec<usize> = (1..=records.len()).map(|i| records[..i].concat().len()).collect();
    many.take_many(setup, rotated, projected, &records.concat(), &ends).unwrap();
    scans.iter().for_each(|scan| model.holds(scan));
}

/// A length that may be asked for: about half are given, and the others are 0 or above the present
/// one.
fn asked(rng: &mut Rng, present: usize) -> usize {
    let (any, some) = (rng.below(present + 2), present - rng.below(present.min(4)));
    rng.one_of(&[0, any, some, some, present, present + 1, usize::MAX])
}

/// One stream under one query, and a few lengths that are asked for before one in `often` records,
/// in half of the streams also before the first and behind the last; the model afterwards, and
/// that of a scan that was opened with the least of the lengths.
fn shortened(seed: u64, setup: &Setup, length: usize, count: usize, often: usize) -> [Model; 2] {
    let rng = &mut Rng(seed);
    let query = query(rng, setup);
    let records: Vec<Vec<u8>> = rng.many(count, |rng| any(rng, setup));
    let open = |length| [(); 3].map(|_| Scan::open(length).unwrap());
    let (mut model, mut scans) = (Model::of(length), open(length));
    let (mut from, mut lowest, edges) = (0, length, rng.below(2) == 0);
    for i in 0..=count {
        if rng.below(often) > 0 && !(edges && (i == 0 || i == count)) {
            continue;
        }
        three_ways(&mut model, &mut scans, setup, &query, &records[from..i]);
        from = i;
        for _ in 0..=rng.below(3) {
            let length = asked(rng, model.length);
            lowest = if length == 0 { lowest } else { lowest.min(length) };
            let wanted = model.shortens(length);
            for scan in &mut scans {
                let before = held(scan);
                assert_eq!(scan.shorten(length), wanted);
                if wanted.is_err() {
                    assert_eq!(held(scan), before);
                }
                model.holds(scan);
            }
        }
    }
    three_ways(&mut model, &mut scans, setup, &query, &records[from..]);
    let (mut least, mut opened) = (Model::of(lowest), open(lowest));
    three_ways(&mut least, &mut opened, setup, &query, &records);
    // Both models say this already; here it is said of the scans themselves.
    for (scan, opened) in scans.iter().zip(&opened) {
        assert_eq!(scan.length(), lowest);
        assert!(scan.hits().eq(opened.hits()));
        let counts = Tally { comparisons: least.comparisons, ..scan.counts() };
        assert_eq!(opened.counts(), counts);
    }
    // A longer list only adds to a record's comparisons.
    assert!(least.comparisons <= scans[0].comparisons());
    [model, least]
}

#[test]
fn a_full_sort_gives_the_hits() {
    let (mut cut, mut numbers, mut withdrawn, mut zeros) = (0, BTreeMap::new(), 0, 0);
    for length in 1..=64 {
        for (i, setup) in [ONLY, BOTH, TURNED].iter().enumerate() {
            let model = stream((3 * length + i) as u64, setup, length, 3000);
            let sorted = model.sorted();
            // Equal scores of which some are kept and some are not.
            cut += (sorted[length - 1].score == sorted[length].score) as u32;
            withdrawn += model.withdrawn;
            zeros += sorted.iter().filter(|hit| hit.score == 0.0).count();
            for refusal in model.refusals {
                *numbers.entry(refusal.number).or_insert(0) += 1;
            }
        }
    }
    assert!(cut > 100, "{cut}");
    assert!(withdrawn > 10_000 && zeros > 10_000, "{withdrawn} and {zeros}");
    // Every number that a record can be refused with here, many times.
    for number in [1, 2, 3, 4, 5, 8, 12, 13, 14, 16, 17, 18, 20, 23] {
        assert!(numbers.get(&number).is_some_and(|count| *count > 100), "{number} of {numbers:?}");
    }
}

/// Every length, shortened rarely, so that long ones stay in force for long, or often.
#[test]
fn shortened_at_random_points() {
    let (mut shorter, mut to_one, mut fewer, mut cuts) = (0, 0, 0, (0, 0));
    for length in 1..=64 {
        for (i, setup) in [ONLY, BOTH, TURNED].iter().enumerate() {
            let often = [1000, 200, 20][(length + i) % 3];
            let seed = (3 * length + i) as u64;
            let [model, least] = shortened(seed, setup, length, 1000, often);
            shorter += (model.length < length) as u32;
            to_one += (model.length == 1) as u32;
            // Comparisons are not those of a scan that was opened with the least length.
            fewer += (least.comparisons < model.comparisons) as u32;
            cuts = (cuts.0 + model.cuts.0, cuts.1 + model.cuts.1);
        }
    }
    assert!(shorter > 100 && to_one > 20 && fewer > 100, "{shorter}, {to_one} and {fewer}");
    assert!(cuts.0 > 100 && cuts.1 > 50, "{cuts:?}");
}

/// Records of several blocks of radii, under setups of common widths: every profile and a norm,
/// and bad radii at both ends.
#[test]
fn wide_records() {
    let rng = &mut Rng(2);
    let mut directions = vec![];
    for index in 0..128 {
        let angle = dequantize_angle(7, index).unwrap();
        directions.extend([angle.cos(), angle.sin()]);
    }
    for (dim, projections, kind) in [
        (256, 64, RotationKind::FastHadamard),
        (1024, 256, RotationKind::FastHadamard),
        (90, 30, RotationKind::Stored),
    ] {
        let unit = |rng: &mut Rng| rng.below(2001) as f32 / 1000.0 - 1.0;
        let rotation = match kind {
            RotationKind::FastHadamard => rng.many(dim, |rng| rng.one_of(&[-1.0, 1.0])),
            RotationKind::Stored => rng.many(dim * dim, unit),
        };
        let matrix = rng.many(projections * dim, unit);
        let (rotation, directions, matrix) = (&rotation[..], &directions[..], &matrix[..]);
        let (mode, bits) = (Mode::PolarWithQjl, 8);
        let setup = Setup { mode, dim, bits, projections, kind, rotation, directions, matrix };
        for length in [1, 10, 64] {
            let model = stream((dim + length) as u64, &setup, length, 500);
            assert!(model.accepted.len() > 250, "{}", model.accepted.len());
            for (number, place) in [(16, 0), (16, dim / 2 - 1), (12, 0), (23, 0)] {
                let refusal = Refusal { number, place };
                assert!(model.refusals.contains(&refusal), "{refusal}: {:?}", model.refusals);
            }
        }
    }
}

#[test]
fn a_new_query_for_every_record() {
    // Each record may come with a setup and a query of its own.
    let rng = &mut Rng(1);
    for length in [1, 7, 64] {
        let (mut model, mut scan) = (Model::of(length), Scan::open(length).unwrap());
        for _ in 0..2000 {
            let setup = &[ONLY, BOTH, TURNED][rng.below(3)];
            let (query, record) = (query(rng, setup), any(rng, setup));
            let wanted = model.takes(setup.inner_product_estimate(&query.plain, &record));
            assert_eq!(scan.take(setup, &query.plain, &record), Ok(wanted));
        }
        model.holds(&scan);
    }
}

/// Rising scores are compared with every hit and move it down, falling ones with the last alone and
/// move none.
#[test]
fn rising_and_falling_scores() {
    let record = |radius: usize| {
        let (radii, out) = ([radius as f32, 0.0], &mut [0; 15]);
        write_record(Profile::F32, 4, 2, Mode::PolarOnly, 0, None, &radii, &[2, 2], &[], out)
            .unwrap();
        *out
    };
    let rotated = [1.0, 0.0, 0.0, 0.0];
    for length in 1..=64 {
        let mut rising = Scan::open(length).unwrap();
        rising.take_each(&ONLY, &rotated, &[], (0..500).map(record)).unwrap();
        let wanted = (0..length).map(|i| (499 - i) as u32);
        assert!(rising.hits().map(|hit| hit.number).eq(wanted));
        assert_eq!(rising.comparisons(), (0..500).map(|i| i.min(length) as u64).sum());
        let mut falling = Scan::open(length).unwrap();
        falling.take_each(&ONLY, &rotated, &[], (0..500).rev().map(record)).unwrap();
        assert!(falling.hits().map(|hit| hit.number).eq(0..length as u32));
        assert_eq!(falling.comparisons(), 499);
        assert!(falling.hits().map(|hit| hit.score).eq(rising.hits().map(|hit| hit.score)));
    }
}
