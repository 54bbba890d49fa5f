//! Prints where the two zeros part: cases in which the Rust and the plain sums agree by
//! document 01's rule and not bit for bit, with the shortest one for each call; and the
//! sign of a linear range's zero against the rule that an equal value does not replace
//! the earlier one. `findings [SEED] [COUNT]`.

use std::collections::BTreeMap;

use cases::{
    ask::{ask, hush},
    case::{Answer, Case, Profile, Value, CALLS},
    make::{Maker, Size},
    paper::ended,
    plain,
    rng::Rng,
};

fn main() {
    hush();
    let mut args = std::env::args().skip(1).map(|arg| arg.parse::<u64>().expect("a number"));
    let (seed, count) = (args.next().unwrap_or(1), args.next().unwrap_or(20_000));
    println!("seed {seed}, {count} small cases for each call");
    let mut found: BTreeMap<&str, (usize, String)> = BTreeMap::new();
    for call in 0..CALLS.len() {
        let mut maker = Maker::new(seed << 8, Size::Small);
        for _ in 0..count {
            let case = maker.make(call);
            let answer = ask(&case);
            if ended(&case, &answer).is_some() {
                continue;
            }
            let Answer::Value(theirs) = answer else { continue };
            let ours = match &case {
                Case::Compress { radii, profile: Profile::BlockLinearU16, .. } => {
                    let Value::Radii { payload, .. } = &theirs else { continue };
                    let (min, max) = plain::range(radii);
                    Some(Value::Radii { min, max, payload: payload.clone() })
                }
                _ => plain::value(&case),
            };
            let Some(ours) = ours else { continue };
            let (theirs, ours) = (theirs.to_string(), ours.to_string());
            if theirs != ours {
                let entry = found.entry(CALLS[call]).or_default();
                entry.0 += 1;
                let text = format!("{case}\n    Rust  {theirs}\n    plain {ours}");
                if entry.1.is_empty() || text.len() < entry.1.len() {
                    entry.1 = text;
                }
            }
        }
    }
    for (call, (count, text)) in found {
        println!("{call}: {count}\n    {text}");
    }
    zero_ranges(seed);
}

/// Linear ranges of zeros of both signs and ones, by length: how many of 5,000 have a
/// bound whose zero has another sign than the rule gives, with the first such.
fn zero_ranges(seed: u64) {
    println!("linear ranges of 0, -0 and 1 against the rule, by length:");
    let mut rng = Rng(seed);
    for len in 1..=24usize {
        let mut odd = 0;
        let mut first = None;
        for _ in 0..5000 {
            let radii: Vec<f32> = (0..len).map(|_| rng.pick(&[0.0, -0.0, 1.0])).collect();
            let got = oracle::thin::compress(&radii, Profile::BlockLinearU16).unwrap();
            let (min, max) = plain::range(&radii);
            if (got.min.to_bits(), got.max.to_bits()) != (min.to_bits(), max.to_bits()) {
                odd += 1;
                first.get_or_insert((radii, got.min, got.max));
            }
        }
        match first {
            Some(first) => println!("  {len:>2}: {odd} {first:?}"),
            None => println!("  {len:>2}: 0"),
        }
    }
}
