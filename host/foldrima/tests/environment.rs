//! A thread whose float mode is not the default gets a panic in place of a wrong answer.

use std::{arch::asm, panic, thread};

use foldrima::{call_under, raw, Scan};
use one_pair::SETUP;

mod one_pair;

const DEFAULT: u32 = 0x1F80;
const DENORMALS_ARE_ZERO: u32 = DEFAULT | 0x0040;
const UPWARD: u32 = DEFAULT | 0x4000;
const FLUSH_TO_ZERO: u32 = DEFAULT | 0x8000;

/// Radius 2^100, index 1.
const RECORD: [u8; 11] = {
    let mut record = one_pair::RECORD;
    record[9] = 0x71;
    record
};
/// 2^−130 and 0.
const QUERY: [f32; 2] = [f32::from_bits(1 << 19), 0.0];

fn set(mode: u32) {
    unsafe { asm!("ldmxcsr [{}]", in(reg) &mode, options(nostack)) };
}

/// What a call panics with in a thread of its own that has this mode, if it does.
fn panicked(mode: u32, call: fn()) -> Option<String> {
    let run = move || {
        set(mode);
        let ended = panic::catch_unwind(call);
        set(DEFAULT);
        ended.err().map(|said| *said.downcast::<String>().unwrap())
    };
    thread::spawn(run).join().unwrap()
}

fn score() {
    SETUP.inner_product_estimate(&QUERY, &RECORD).unwrap().kept().unwrap();
}

#[test]
fn the_default_passes() {
    assert_eq!(panicked(DEFAULT, score), None);
    let score = SETUP.inner_product_estimate(&QUERY, &RECORD).unwrap().kept().unwrap();
    assert!((6.58e-10..6.60e-10).contains(&score));
}

#[test]
fn another_mode_panics() {
    let said = |mode| panicked(mode, score).expect("no panic");
    assert!(said(FLUSH_TO_ZERO).contains("flushes subnormal results to zero"));
    assert!(said(DENORMALS_ARE_ZERO).contains("reads subnormal values as zero"));
    assert!(said(UPWARD).contains("doesn't round to nearest"));
}

/// An empty scan, by no call.
fn scan() -> Scan {
    let tally =
        raw::Tally { length: 1, kept: 0, taken: 0, refused: 0, withdrawn: 0, comparisons: 0 };
    Scan::from_raw(raw::Scan { tally, numbers: [0; 64], scores: [0.0; 64] })
}

#[test]
fn every_kind_of_call_looks() {
    let calls: [fn(); 12] = [
        || _ = foldrima::packed_len(1, 1),
        || _ = foldrima::sqrt(2.0),
        || _ = foldrima::hadamard_seed(1),
        || _ = foldrima::radii_part(&RECORD),
        || _ = foldrima::read_record(&RECORD),
        || _ = SETUP.check(),
        || _ = Scan::open(1),
        || _ = scan().take(&SETUP, &QUERY, &RECORD),
        || _ = scan().take_prepared(&SETUP, &QUERY, &[], &RECORD),
        || _ = scan().take_each(&SETUP, &QUERY, &[], [RECORD]),
        || _ = scan().take_many(&SETUP, &QUERY, &[], &RECORD, &[11]),
        || _ = scan().close(&mut []),
    ];
    for call in calls {
        assert!(panicked(FLUSH_TO_ZERO, call).is_some());
    }
}

/// Why the package looks: the library itself answers 0, and refuses nothing.
#[test]
fn the_library_alone_answers_zero() {
    let run = || {
        let (mut number, mut place, mut value) = (7, 7, 7.0);
        set(FLUSH_TO_ZERO);
        unsafe {
            let (number, place, value) = (&mut number, &mut place, &mut value);
            call_under!(
                SETUP,
                (0, 0),
                foldrima_inner_product_estimate([QUERY], [RECORD], number, place, value)
            );
        }
        set(DEFAULT);
        (number, place, value)
    };
    assert_eq!(thread::spawn(run).join().unwrap(), (0, 0, 0.0));
}
