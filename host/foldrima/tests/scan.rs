//! A scan: its refusals and their places, what takes a number and what does not, ties, the last
//! numbers, and shortening. Streams of many records are in `streams`.

use std::array::from_fn;

use foldrima::{raw, refusal, Hit, Refusal, Scan, Setup, Taken, Tally};
use one_pair::{RECORD, SETUP};

mod one_pair;

/// A prepared query under which a record of index 1 is scored with its radius.
const ROTATED: [f32; 2] = [1.0, 3.0];
const QUERY: [f32; 2] = [1.0, 3.0];

/// A record of this radius, index 1.
fn of(radius: f32) -> [u8; 11] {
    let mut record = RECORD;
    record[6..10].copy_from_slice(&radius.to_le_bytes());
    record
}

fn refused<T>(number: u32, place: usize) -> Result<T, Refusal> {
    Err(Refusal { number, place })
}

fn tally(
    length: usize,
    kept: usize,
    taken: u32,
    refused: u32,
    withdrawn: u32,
    comparisons: u64,
) -> Tally {
    Tally { length, kept, taken, refused, withdrawn, comparisons }
}

/// All that a scan holds, also behind its hits, with scores as patterns.
fn held(scan: &Scan) -> (Tally, [u32; 64], [u32; 64]) {
    let raw::Scan { tally, numbers, scores } = *scan.raw();
    (tally, numbers, scores.map(f32::to_bits))
}

fn hits(scan: &Scan) -> Vec<(u32, f32)> {
    scan.hits().map(|hit| (hit.number, hit.score)).collect()
}

/// A scan of these hits that has taken so many records, and made 40 comparisons.
fn scan_of(length: usize, taken: u32, hits: &[(u32, f32)]) -> Scan {
    let (mut numbers, mut scores) = ([0; 64], [0.0; 64]);
    for (i, (number, score)) in hits.iter().enumerate() {
        (numbers[i], scores[i]) = (*number, *score);
    }
    let tally = tally(length, hits.len(), taken, 0, 0, 40);
    Scan::from_raw(raw::Scan { tally, numbers, scores })
}

#[test]
fn opened_with_1_to_64() {
    for length in 1..=64 {
        let scan = Scan::open(length).unwrap();
        assert_eq!(scan.counts(), tally(length, 0, 0, 0, 0, 0));
        assert_eq!((scan.length(), scan.kept(), scan.hits().len()), (length, 0, 0));
    }
    for length in [0, 65, 66, 1 << 32, usize::MAX] {
        assert_eq!(Scan::open(length), refused(refusal::SCAN_LENGTH, 0), "{length}");
        // The C function answers a scan beside it, which is of length 1 and works.
        let (mut number, mut place) = (9, 9);
        let beside = unsafe { raw::foldrima_scan_open(length, &mut number, &mut place) };
        assert_eq!((number, place), (21, 0));
        let mut scan = Scan::from_raw(beside);
        assert_eq!(scan, Scan::open(1).unwrap());
        scan.take_each(&SETUP, &ROTATED, &[], [of(1.0), of(3.0), of(2.0)]).unwrap();
        assert_eq!(hits(&scan), [(1, 3.0)]);
    }
}

#[test]
fn a_number_for_every_record() {
    let mut scan = Scan::open(3).unwrap();
    let mut take = |record: &[u8]| scan.take_prepared(&SETUP, &ROTATED, &[], record);
    assert_eq!(take(&of(1.0)), Ok(Taken::Accepted(1.0)));
    assert_eq!(take(&[]), Ok(Taken::Withdrawn));
    assert_eq!(take(&RECORD[..9]), Ok(Taken::Refused(Refusal { number: 13, place: 9 })));
    assert_eq!(take(&of(-1.0)), Ok(Taken::Refused(Refusal { number: 16, place: 0 })));
    assert_eq!(take(&of(2.0)), Ok(Taken::Accepted(2.0)));
    assert_eq!(scan.counts(), tally(3, 2, 5, 2, 1, 1));
    assert_eq!((scan.taken(), scan.refused(), scan.withdrawn()), (5, 2, 1));
    assert_eq!(hits(&scan), [(4, 2.0), (0, 1.0)]);
}

#[test]
fn an_infinite_score_is_a_refused_record() {
    let mut scan = Scan::open(1).unwrap();
    let twelve = Taken::Refused(Refusal { number: 12, place: 0 });
    assert_eq!(scan.take_prepared(&SETUP, &[2.0, 0.0], &[], &of(f32::MAX)), Ok(twelve));
    assert_eq!(scan.take(&SETUP, &[2.0, 2.0], &of(f32::MAX)), Ok(twelve));
    assert_eq!(scan.counts(), tally(1, 0, 2, 2, 0, 0));
}

/// A number that setups and records share numbers nothing where it is the setup's, and is a
/// refused record where it is the record's.
#[test]
fn refusals_by_their_stage() {
    let wide = [0, 4, 0, 0, 0, 1, 0, 0, 0x80, 0x3F, 0, 0, 0x80, 0x3F, 1];
    let short = Setup { directions: &[1.0; 3], ..SETUP };
    let with = |at: usize, byte| {
        let mut record = RECORD;
        record[at] = byte;
        record
    };
    for (setup, record, number, setup_place, record_place) in [
        (Setup { bits: 17, ..SETUP }, &with(5, 17)[..], 1, 17, 17),
        (Setup { dim: 0, ..SETUP }, &with(1, 0), 2, 0, 0),
        (Setup { dim: 3, ..SETUP }, &with(1, 3), 3, 3, 3),
        (Setup { dim: 8192, ..SETUP }, &with(2, 0x20), 4, 8192, 8194),
        (short, &wide, 5, 3, 4),
    ] {
        let mut scan = scan_of(4, 7, &[(3, 2.0), (5, 2.0)]);
        let before = held(&scan);
        assert_eq!(scan.take(&setup, &QUERY, &RECORD), refused(number, setup_place));
        let prepared = scan.take_prepared(&setup, &ROTATED, &[], &RECORD);
        assert_eq!(prepared, refused(number, setup_place));
        let many = scan.take_many(&setup, &ROTATED, &[], &RECORD, &[11]);
        assert_eq!(many, refused(number, setup_place));
        assert_eq!(held(&scan), before, "{number}");
        let taken = Ok(Taken::Refused(Refusal { number, place: record_place }));
        assert_eq!(scan.take(&SETUP, &QUERY, record), taken);
        assert_eq!(scan.take_prepared(&SETUP, &ROTATED, &[], record), taken);
        scan.take_many(&SETUP, &ROTATED, &[], record, &[record.len()]).unwrap();
        assert_eq!(scan.counts(), tally(4, 2, 10, 3, 0, 40));
        assert_eq!(hits(&scan), [(3, 2.0), (5, 2.0)]);
    }
}

#[test]
fn a_refused_query_numbers_nothing() {
    let (infinite, nan) = (f32::INFINITY, f32::NAN);
    let mut scan = scan_of(2, 1, &[(0, 1.0)]);
    let before = held(&scan);
    for record in [&RECORD[..], &RECORD[..3], &[]] {
        assert_eq!(scan.take(&SETUP, &[1.0; 3], record), refused(5, 3));
        assert_eq!(scan.take(&SETUP, &[1.0, nan], record), refused(11, 1));
        assert_eq!(scan.take(&SETUP, &[f32::MAX, f32::MAX], record), refused(11, 0));
        assert_eq!(scan.take_prepared(&SETUP, &[1.0], &[], record), refused(5, 1));
        assert_eq!(scan.take_prepared(&SETUP, &ROTATED, &[1.0], record), refused(5, 1));
        assert_eq!(scan.take_prepared(&SETUP, &[infinite, 1.0], &[], record), refused(11, 0));
        let each = scan.take_each(&SETUP, &[infinite, 1.0], &[], [record; 2]);
        assert_eq!(each, refused(11, 0));
        let ends = [record.len()];
        assert_eq!(scan.take_many(&SETUP, &[1.0], &[], record, &ends), refused(5, 1));
        assert_eq!(scan.take_many(&SETUP, &ROTATED, &[1.0], record, &ends), refused(5, 1));
        assert_eq!(scan.take_many(&SETUP, &[1.0, nan], &[], record, &ends), refused(11, 1));
    }
    // Also where there is no record.
    assert_eq!(scan.take_many(&SETUP, &[1.0, nan], &[], &[], &[]), refused(11, 1));
    assert_eq!(scan.take_many(&SETUP, &ROTATED, &[], &[], &[]), Ok(()));
    assert_eq!(held(&scan), before);
}

#[test]
fn wrong_ends_take_nothing() {
    let bytes = [of(1.0), of(2.0), of(3.0)].concat();
    let mut scan = scan_of(4, 7, &[(3, 2.0), (5, 2.0)]);
    let before = held(&scan);
    for (ends, place) in [
        (&[34][..], 34),
        (&[11, 34, 5], 34),
        (&[11, 10], 10),
        (&[11, 22, 21, 33], 21),
        (&[33, 0], 0),
        (&[11, 22, 33, usize::MAX], usize::MAX),
    ] {
        let many = scan.take_many(&SETUP, &ROTATED, &[], &bytes, ends);
        assert_eq!(many, refused(refusal::DIMENSION_MISMATCH, place), "{ends:?}");
        // The query comes before the ends.
        let many = scan.take_many(&SETUP, &[f32::NAN, 1.0], &[], &bytes, ends);
        assert_eq!(many, refused(11, 0));
    }
    assert_eq!(held(&scan), before);
    // Bytes behind the last end are not looked at, and an end that is repeated is withdrawn.
    scan.take_many(&SETUP, &ROTATED, &[], &bytes, &[0, 11, 11, 22, 30]).unwrap();
    assert_eq!(scan.counts(), tally(4, 4, 12, 1, 2, 43));
    assert_eq!(hits(&scan), [(3, 2.0), (5, 2.0), (10, 2.0), (8, 1.0)]);
}

#[test]
fn equal_scores_stand_by_number() {
    let mut scan = Scan::open(4).unwrap();
    let radii = [1.0, 2.0, 1.0, 2.0, 0.5, 2.0, 1.0, 2.0, 2.0];
    scan.take_each(&SETUP, &ROTATED, &[], radii.map(of)).unwrap();
    assert_eq!(hits(&scan), [(1, 2.0), (3, 2.0), (5, 2.0), (7, 2.0)]);
    assert_eq!(scan.comparisons(), 1 + 1 + 3 + 1 + 3 + 1 + 2 + 1);
    scan.take_each(&SETUP, &ROTATED, &[], [of(3.0)]).unwrap();
    assert_eq!(hits(&scan), [(9, 3.0), (1, 2.0), (3, 2.0), (5, 2.0)]);
    assert_eq!(scan.comparisons(), 13 + 4);
}

/// A score is a sum from +0.0 and never −0.0, so the other zero is put into the scan here.
#[test]
fn both_zeros_are_equal() {
    let mut zero = of(0.0);
    for index in [0, 1] {
        zero[10] = index;
        let mut scan = scan_of(4, 9, &[(4, 1.0), (2, -0.0), (3, 0.0), (7, -1.0)]);
        assert_eq!(scan.take(&SETUP, &QUERY, &zero), Ok(Taken::Accepted(0.0)));
        assert_eq!(hits(&scan), [(4, 1.0), (2, 0.0), (3, 0.0), (9, 0.0)]);
        let signs: Vec<bool> = scan.hits().map(|hit| hit.score.is_sign_negative()).collect();
        assert_eq!(signs, [false, true, false, false]);
        // It beats -1.0 and is stopped by 0.0.
        assert_eq!(scan.comparisons(), 42);
        let mut scan = scan_of(3, 9, &[(4, 1.0), (2, -0.0), (3, -0.0)]);
        let before = hits(&scan);
        scan.take_many(&SETUP, &ROTATED, &[], &zero, &[11]).unwrap();
        assert_eq!((hits(&scan), scan.taken(), scan.comparisons()), (before, 10, 41));
    }
}

#[test]
fn the_last_numbers() {
    const MOST: u32 = u32::MAX;
    let full = Err(Refusal { number: refusal::SCAN_FULL, place: 0 });
    let mut scan = scan_of(2, MOST - 3, &[(0, 1.0)]);
    assert_eq!(scan.take(&SETUP, &QUERY, &[]), Ok(Taken::Withdrawn));
    // Two numbers are left: many records are taken all or none, and 22 comes first of all.
    let bytes = [of(2.0), of(3.0), of(4.0)].concat();
    let before = held(&scan);
    assert_eq!(scan.take_many(&SETUP, &ROTATED, &[], &bytes, &[11, 22, 33]), full);
    assert_eq!(scan.take_many(&SETUP, &[f32::NAN], &[], &bytes, &[11, 5, 99]), full);
    assert_eq!(held(&scan), before);
    let mut copy = scan.clone();
    copy.take_many(&SETUP, &ROTATED, &[], &bytes, &[11, 22]).unwrap();
    assert_eq!(hits(&copy), [(MOST - 1, 3.0), (MOST - 2, 2.0)]);
    // Singly they are taken up to the last number.
    assert_eq!(scan.take_each(&SETUP, &ROTATED, &[], bytes.chunks(11)), full);
    assert_eq!(scan, copy);
    let before = held(&scan);
    assert_eq!(scan.taken(), MOST);
    let bad = Setup { dim: 0, ..SETUP };
    for setup in [SETUP, bad] {
        for record in [&RECORD[..], &RECORD[..3], &[]] {
            let full = Err(Refusal { number: 22, place: 0 });
            assert_eq!(scan.take(&setup, &[f32::NAN], record), full);
            assert_eq!(scan.take_prepared(&setup, &ROTATED, &[], record), full);
            assert_eq!(scan.take_many(&setup, &ROTATED, &[], record, &[9]), full.map(|_| ()));
        }
    }
    // No record needs no number.
    assert_eq!(scan.take_many(&SETUP, &ROTATED, &[], &[], &[]), Ok(()));
    assert_eq!(held(&scan), before);
}

#[test]
fn closed_into_as_many_hits_as_are_kept() {
    let mut scan = Scan::open(3).unwrap();
    let other = Hit { number: 77, score: 7.5 };
    for (radius, kept) in [(1.0, 1), (3.0, 2), (2.0, 3), (4.0, 3)] {
        scan.take_each(&SETUP, &ROTATED, &[], [of(radius)]).unwrap();
        let before = held(&scan);
        for len in (0..70).filter(|len| *len != kept) {
            let mut out = vec![other; len];
            assert_eq!(scan.close(&mut out), refused(refusal::OUTPUT_LENGTH, kept));
            assert_eq!(out, vec![other; len]);
        }
        let mut out = vec![other; kept];
        assert_eq!(scan.close(&mut out), Ok(()));
        assert!(scan.hits().eq(out));
        assert_eq!(held(&scan), before);
    }
    assert_eq!(hits(&scan), [(3, 4.0), (1, 3.0), (2, 2.0)]);
    assert_eq!(Scan::open(3).unwrap().close(&mut []), Ok(()));
}

/// What a length that is asked for leaves of a scan: its tally, and both lists as they were.
#[test]
fn shortened_by_its_tally() {
    let not_shorter = refused(refusal::SCAN_NOT_SHORTER, 0);
    for length in 1..=64 {
        for kept in [0, 1, length / 2, length - 1, length] {
            let all: Vec<(u32, f32)> = (0..kept as u32).map(|i| (i, -(i as f32))).collect();
            let mut raw = *scan_of(length, 70, &all).raw();
            (raw.tally.refused, raw.tally.withdrawn) = (8, 9);
            let scan = Scan::from_raw(raw);
            for wrong in [0, length + 1, 65, 1 << 32, usize::MAX] {
                let mut copy = scan.clone();
                assert_eq!(copy.shorten(wrong), not_shorter, "{wrong} of {length}");
                assert_eq!(held(&copy), held(&scan));
            }
            for shorter in 1..=length {
                let mut copy = scan.clone();
                assert_eq!(copy.shorten(shorter), Ok(()), "{shorter} of {length}");
                let (_, numbers, scores) = held(&scan);
                let counts = tally(shorter, kept.min(shorter), 70, 8, 9, 40);
                assert_eq!(held(&copy), (counts, numbers, scores));
                assert_eq!(hits(&copy), all[..kept.min(shorter)]);
                // Not longer again.
                if shorter < length {
                    assert_eq!(copy.shorten(length), not_shorter);
                }
            }
        }
    }
    // Also where all numbers are taken, and on counts that no records led to.
    let (far, most, wide) = (usize::MAX, u32::MAX, u64::MAX);
    for (length, kept, asked, given) in [
        (far, far, far, true),
        (far, far, 3, true),
        (5, 9, 5, true),
        (5, 9, 6, false),
        (0, 3, 0, false),
        (0, 3, 1, false),
    ] {
        let before = tally(length, kept, most, most, most, wide);
        let lists = *scan_of(1, 7, &[]).raw();
        let mut scan = Scan::from_raw(raw::Scan { tally: before, ..lists });
        assert_eq!(scan.shorten(asked), if given { Ok(()) } else { not_shorter });
        let after = Tally { length: asked, kept: kept.min(asked), ..before };
        assert_eq!(scan.counts(), if given { after } else { before }, "{asked} of {length}");
    }
}

/// A length stays in force for the records that come, and each of these is compared with the hits
/// that were kept then.
#[test]
fn shortened_between_records() {
    let mut scan = Scan::open(3).unwrap();
    let take = |scan: &mut Scan, radius| {
        let taken = scan.take_prepared(&SETUP, &ROTATED, &[], &of(radius));
        assert_eq!(taken, Ok(Taken::Accepted(radius)));
    };
    for radius in [1.0, 3.0, 2.0, 4.0] {
        take(&mut scan, radius);
    }
    assert_eq!(hits(&scan), [(3, 4.0), (1, 3.0), (2, 2.0)]);
    assert_eq!(scan.comparisons(), 1 + 2 + 3);
    scan.shorten(2).unwrap();
    assert_eq!(hits(&scan), [(3, 4.0), (1, 3.0)]);
    assert_eq!(scan.comparisons(), 6);
    // A score that would have stood third stops at the second.
    take(&mut scan, 2.5);
    assert_eq!((hits(&scan), scan.comparisons()), (vec![(3, 4.0), (1, 3.0)], 7));
    take(&mut scan, 5.0);
    assert_eq!((hits(&scan), scan.comparisons()), (vec![(5, 5.0), (3, 4.0)], 9));
    scan.shorten(2).unwrap();
    scan.shorten(1).unwrap();
    take(&mut scan, 5.0);
    assert_eq!(scan.counts(), tally(1, 1, 7, 0, 0, 10));
    assert_eq!(hits(&scan), [(5, 5.0)]);
    // One that was opened with 1 has the same hits and counts, and fewer comparisons.
    let mut opened = Scan::open(1).unwrap();
    for radius in [1.0, 3.0, 2.0, 4.0, 2.5, 5.0, 5.0] {
        take(&mut opened, radius);
    }
    assert_eq!(hits(&opened), hits(&scan));
    assert_eq!(opened.counts(), tally(1, 1, 7, 0, 0, 6));
}

#[test]
fn said_and_compared() {
    let mut scan = Scan::open(2).unwrap();
    assert_eq!(scan.take(&SETUP, &QUERY, &of(0.0)).unwrap().score(), Some(0.0));
    assert_eq!(scan.take(&SETUP, &QUERY, &[]).unwrap().score(), None);
    let said = "Scan { tally: Tally { length: 2, kept: 1, taken: 2, refused: 0, withdrawn: 1, \
                comparisons: 0 }, hits: [Hit { number: 0, score: 0.0 }] }";
    assert_eq!(format!("{scan:?}"), said);
    // What stands behind the hits does not count.
    let mut held = *scan.raw();
    (held.numbers[1], held.scores[1]) = (9, f32::NAN);
    assert_eq!(Scan::from_raw(held), scan);
    held.numbers[0] = 9;
    assert_ne!(Scan::from_raw(held), scan);
}

/// On counts and lists that no records led to, a call ends and stays within what it is lent. The
/// hits that it finds there stand below the new ones and move down, as far as there is room.
#[test]
fn counts_that_no_records_led_to() {
    let far = usize::MAX;
    for (length, kept) in
        [(far, far), (0, far), (far, 0), (0, 0), (3, 9), (9, 3), (9, 1), (65, 64), (65, 70)]
    {
        for lens in [(0, 0), (0, 5), (5, 0), (3, 5), (5, 3), (1, 1), (2, 2), (5, 5)] {
            let room = length.min(lens.0).min(lens.1);
            let before = tally(length, kept, 7, u32::MAX, u32::MAX, u64::MAX);
            // The lists stand from place 1 on.
            let numbers: [u32; 7] = [70, 71, 72, 73, 74, 75, 76];
            let scores = [0.5, -1.0, -2.0, f32::MIN, f32::MIN, f32::MIN, 0.25];
            let mut wanted = (before, numbers, scores.map(f32::to_bits));
            (wanted.0.taken, wanted.0.refused, wanted.0.withdrawn) = (12, 0, 0);
            // 2.0 beats all hits, 3.0 beats these and it, and the last stops at the equal one, or at
            // 3.0 where there is room for no more.
            let there = |new: usize| (kept.min(room) + new).min(room) as u64;
            let compared = there(0) + there(1) + there(2) - (room > 1) as u64;
            wanted.0.comparisons = u64::MAX.wrapping_add(compared);
            if room > 0 {
                let old = (1..=kept.min(room)).map(|i| (numbers[i], scores[i]));
                let new = [(9, 3.0f32), (7, 2.0), (10, 2.0)].into_iter().chain(old).take(room);
                for (i, (number, score)) in (1..).zip(new) {
                    (wanted.0.kept, wanted.1[i], wanted.2[i]) = (i, number, score.to_bits());
                }
            }
            let records = [of(2.0), of(f32::NAN), of(3.0), of(2.0)];
            let left = singly(before, numbers, scores, lens, &records);
            assert_eq!(left, wanted, "{length} and {kept}, {lens:?}");
            let left = at_once(before, numbers, scores, lens, &records);
            assert_eq!(left, wanted, "{length} and {kept}, {lens:?}, at once");
            closed(wanted.0);
        }
    }
}

/// The tally and both lists, by patterns.
type Left = (Tally, [u32; 7], [u32; 7]);

/// A C function that takes records by the prepared query, into lists of these lengths which stand
/// from place 1 on.
macro_rules! taken {
    ($name:ident, $tally:expr, $numbers:ident, $scores:ident, $lens:ident, $($more:expr),*) => {{
        let (numbers, scores) = ($numbers.as_mut_ptr(), $scores.as_mut_ptr());
        let (directions, rotated, none) = (SETUP.directions.as_ptr(), ROTATED.as_ptr(), [].as_ptr());
        unsafe {
            raw::$name(
                $tally, numbers.add(1), $lens.0, scores.add(1), $lens.1, 0, 2, 1, 0, 0,
                directions, 4, rotated, 2, none, 0, $($more),*
            )
        }
    }};
}

/// The records and a withdrawn position taken one by one.
fn singly(
    mut tally: Tally,
    mut numbers: [u32; 7],
    mut scores: [f32; 7],
    lens: (usize, usize),
    records: &[[u8; 11]],
) -> Left {
    let (mut number, mut place, mut value) = (9, 9, 9.0);
    for record in records.iter().map(|record| &record[..]).chain([&[][..]]) {
        tally = taken!(
            foldrima_scan_take_prepared,
            tally,
            numbers,
            scores,
            lens,
            record.as_ptr(),
            record.len(),
            &mut number,
            &mut place,
            &mut value
        );
    }
    assert_eq!((number, place), (255, 0));
    (tally, numbers, scores.map(f32::to_bits))
}

/// The same in one call.
fn at_once(
    tally: Tally,
    mut numbers: [u32; 7],
    mut scores: [f32; 7],
    lens: (usize, usize),
    records: &[[u8; 11]],
) -> Left {
    let (mut number, mut place) = (9, 9);
    let bytes = records.concat();
    let ends: Vec<usize> = (1..=records.len()).chain([records.len()]).map(|i| 11 * i).collect();
    let tally = taken!(
        foldrima_scan_take_many,
        tally,
        numbers,
        scores,
        lens,
        bytes.as_ptr(),
        bytes.len(),
        ends.as_ptr(),
        ends.len(),
        &mut number,
        &mut place
    );
    assert_eq!((number, place), (0, 0));
    (tally, numbers, scores.map(f32::to_bits))
}

/// A scan of any tally is closed into as many hits as are kept; past 64 the places begin anew.
fn closed(tally: Tally) {
    let numbers = from_fn(|i| i as u32);
    let scores = from_fn(|i| 0.5 * i as f32);
    let scan = Scan::from_raw(raw::Scan { tally, numbers, scores });
    assert_eq!(scan.hits().len(), tally.kept.min(64));
    let other = Hit { number: 77, score: 7.5 };
    if tally.kept > 100 {
        let mut out = [other; 64];
        assert_eq!(scan.close(&mut out), refused(refusal::OUTPUT_LENGTH, tally.kept));
        assert_eq!(out, [other; 64]);
        return;
    }
    let mut out = vec![other; tally.kept];
    assert_eq!(scan.close(&mut out), Ok(()));
    let at = |i: usize| Hit { number: numbers[i % 64], score: scores[i % 64] };
    assert!(out.iter().copied().eq((0..tally.kept).map(at)), "{out:?}");
}
