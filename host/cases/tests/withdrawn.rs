//! What is expected of a record of no bytes: withdrawn, after all that a call checks before
//! it reads the record, and before all else. The generator makes such records in every call
//! that takes one, beside good inputs and beside each kind of a bad one.

use std::{
    collections::{BTreeMap, BTreeSet},
    rc::Rc,
};

use cases::{
    ask::ask,
    case::{Answer, Case, Mode, Setup, CALLS, TAKE_A_RECORD},
    expect::{expected, Expected},
    make::{Maker, Size},
    paper::Refusal,
};

/// One pair of one bit and one projection; its matrix has this entry first.
fn setup(signs: &[f32], entry: f32) -> Rc<Setup> {
    Setup::of_one_pair(Mode::PolarWithQjl, 1, signs.to_vec(), vec![entry, 1.0])
}

/// A score and a distance of a record of no bytes.
fn scored(setup: &Rc<Setup>, query: &[f32]) -> [Expected; 2] {
    let (query, record) = (query.to_vec(), vec![]);
    let score = Case::Score { setup: setup.clone(), query: query.clone(), record: vec![] };
    [expected(&score), expected(&Case::Distance { setup: setup.clone(), query, record })]
}

fn prepared(setup: &Rc<Setup>, rotated: &[f32], projected: &[f32]) -> Expected {
    let (setup, rotated, projected) = (setup.clone(), rotated.to_vec(), projected.to_vec());
    expected(&Case::ScorePrepared { setup, query: None, rotated, projected, record: vec![] })
}

fn decoded(setup: &Rc<Setup>, out: usize) -> Expected {
    expected(&Case::Decode { setup: setup.clone(), record: vec![], out })
}

fn refused(number: u32, place: u64) -> Expected {
    Expected::Refused(Refusal { number, place })
}

#[test]
fn after_what_comes_before_the_reading() {
    let (good, large) = (setup(&[1.0, 1.0], 1.0), f32::MAX);
    assert_eq!(expected(&Case::ReadRecord { record: vec![] }), Expected::Withdrawn);
    assert_eq!(scored(&good, &[1.0, 3.0]), [Expected::Withdrawn, Expected::Withdrawn]);
    assert_eq!(prepared(&good, &[1.0, 3.0], &[1.0]), Expected::Withdrawn);
    for out in [0, 1, 2, 3] {
        assert_eq!(decoded(&good, out), Expected::Withdrawn);
    }
    // By the setup, by the query, by its rotation and by its projection.
    let bad = setup(&[1.0, 0.5], 1.0);
    assert_eq!(scored(&bad, &[1.0, 3.0]), [refused(10, 1), refused(10, 1)]);
    assert_eq!(decoded(&bad, 2), refused(10, 1));
    assert_eq!(prepared(&bad, &[1.0, 3.0], &[1.0]), Expected::Withdrawn);
    assert_eq!(scored(&good, &[1.0]), [refused(5, 1), refused(5, 1)]);
    assert_eq!(scored(&good, &[1.0, f32::NAN]), [refused(11, 1), refused(11, 1)]);
    assert_eq!(scored(&good, &[large, -large]), [refused(11, 1), refused(11, 1)]);
    let steep = setup(&[1.0, 1.0], 2.0);
    assert_eq!(scored(&steep, &[0.75 * large, 0.0]), [refused(11, 0), refused(11, 0)]);
    assert_eq!(prepared(&good, &[1.0], &[1.0]), refused(5, 1));
    assert_eq!(prepared(&good, &[1.0, 3.0], &[]), refused(5, 0));
    assert_eq!(prepared(&good, &[1.0, f32::NAN], &[1.0]), refused(11, 1));
    assert_eq!(prepared(&good, &[1.0, 3.0], &[f32::INFINITY]), refused(11, 0));
}

/// The numbers of a call before it reads the record, as document 01 lists them, and document
/// 02's 26.
fn before(call: &str) -> BTreeSet<u32> {
    let numbers: &[u32] = match call {
        "read_record" => &[],
        "decode" => &[1, 2, 3, 4, 5, 7, 8, 9, 10, 26],
        "score_prepared" => &[1, 2, 3, 4, 5, 7, 8, 11, 26],
        _ => &[1, 2, 3, 4, 5, 7, 8, 9, 10, 11, 26],
    };
    numbers.iter().copied().collect()
}

/// The cases of one call whose records are of no bytes or of 1 to 5.
#[derive(Default)]
struct Met {
    withdrawn: usize,
    /// Of these the ones that decoding is lent another length for.
    another_length: usize,
    refused: BTreeMap<u32, usize>,
    short: BTreeMap<usize, usize>,
}

impl Met {
    fn add(&mut self, case: &Case) {
        let len = case.record().unwrap().len();
        match expected(case) {
            Expected::Withdrawn => {
                assert_eq!(len, 0, "{case}");
                assert_eq!(ask(case), Answer::Absent, "{case}");
                self.withdrawn += 1;
                let other = matches!(case, Case::Decode { setup, out, .. } if *out != setup.dim);
                self.another_length += other as usize;
            }
            Expected::Refused(refused) if len == 0 => {
                *self.refused.entry(refused.number).or_default() += 1;
            }
            Expected::Refused(Refusal { number: 13, place }) if len < 6 => {
                assert_eq!(place, len as u64, "{case}");
                *self.short.entry(len).or_default() += 1;
            }
            Expected::Refused(refused) if len < 6 => {
                assert!(before(case.call()).contains(&refused.number), "{case}");
            }
            other => assert!(len > 5, "{case}: {other:?}"),
        }
    }
}

#[test]
fn they_are_made_in_every_call_that_takes_a_record() {
    cases::ask::hush();
    for (call, name) in CALLS.into_iter().enumerate() {
        let mut maker = Maker::new(23, Size::Small);
        let takes = TAKE_A_RECORD.contains(&name);
        assert_eq!(maker.make(call).record().is_some(), takes, "{name}");
        if !takes {
            continue;
        }
        let mut met = Met::default();
        (0..20_000).for_each(|_| met.add(&maker.make(call)));
        assert!(met.withdrawn > 1000, "{name}: {}", met.withdrawn);
        let refused: BTreeSet<u32> = met.refused.keys().copied().collect();
        assert_eq!(refused, before(name), "{name}: {:?}", met.refused);
        assert!(met.short.keys().eq(&[1, 2, 3, 4, 5]), "{name}: {:?}", met.short);
        assert_eq!(met.another_length > 50, name == "decode", "{name}");
    }
}
