//! An empty slice may be lent as NULL: every call answers as for one with an address, and
//! does not read or write through it. What a record without range, signs or norm hands back.

use std::ptr::{null, null_mut, NonNull};

use foldrima::raw;
use one_pair::{RECORD, SETUP};

mod one_pair;

const QUERY: [f32; 2] = [1.0, 3.0];
const SKETCH: [i8; 3] = [1, -1, 1];
const PROJECTED: [f32; 3] = [1.0, 3.0, 4.0];
/// A stored rotation of one pair.
const STORED: [f32; 4] = [0.6, 0.8, -0.8, 0.6];
const MATRIX: [f32; 6] = [1.0, 0.0, 0.0, 1.0, 1.0, 1.0];
/// P13: the record with signs (+, −, +).
const SIGNED: [u8; 16] = [2, 2, 0, 0, 0, 1, 3, 0, 0, 0, 0, 0, 0x80, 0x3F, 1, 5];

/// A scan of one hit at most, with none taken.
const TALLY: raw::Tally =
    raw::Tally { length: 1, kept: 0, taken: 0, refused: 0, withdrawn: 0, comparisons: 0 };

/// How an empty slice is lent: as NULL, or with an address that nothing stands at.
#[derive(Clone, Copy)]
struct Empty {
    null: bool,
}

impl Empty {
    fn from<T>(self) -> *const T {
        if self.null {
            null()
        } else {
            NonNull::dangling().as_ptr()
        }
    }

    fn to<T>(self) -> *mut T {
        if self.null {
            null_mut()
        } else {
            NonNull::dangling().as_ptr()
        }
    }
}

/// Adds a call's number and place to the list; `=>` stands before what follows them.
macro_rules! ask {
    ($list:ident, $call:ident($($before:expr),*) $(=> $($after:expr),+)?) => {{
        let (mut number, mut place) = (99, 99);
        unsafe { raw::$call($($before,)* &mut number, &mut place $($(, $after)+)?) };
        $list.push((stringify!($call), number, place));
    }};
}

/// Every call with each of its slices empty, under a setup of this kind.
fn all_empty(e: Empty, kind: u8) -> Vec<(&'static str, u32, usize)> {
    let mut list = Vec::new();
    let (mut size, mut float, mut other) = (0, 0.0, 0.0);
    let (mut mode, mut profile, mut bits, mut dim, mut projections) = (0, 0, 0, 0, 0);
    let (mut has_norm, mut norm) = (0, 0.0);
    ask!(list, foldrima_pack_indices(e.from(), 0, 3, e.to(), 0));
    ask!(list, foldrima_unpack_indices(e.from(), 0, 0, 3, e.to(), 0));
    ask!(list, foldrima_pack_signs(e.from(), 0, e.to(), 0));
    ask!(list, foldrima_unpack_signs(e.from(), 0, 0, e.to(), 0));
    ask!(list, foldrima_validate_padding_zero(e.from(), 0, 0));
    ask!(list, foldrima_compress(e.from(), 0, 0, e.to(), 0) => &mut float, &mut other);
    ask!(list, foldrima_compress(e.from(), 0, 1, e.to(), 0) => &mut float, &mut other);
    ask!(list, foldrima_decompress(0, 0, 0.0, 0.0, e.from(), 0, e.to(), 0));
    ask!(list, foldrima_decompress(1, 0, 0.0, 0.0, e.from(), 0, e.to(), 0));
    ask!(list, foldrima_encoded_bytes(1, e.from(), 0) => &mut size);
    ask!(list, foldrima_apply(2, e.from(), 0, e.from(), 0, e.to(), 0));
    ask!(list, foldrima_apply_inverse(2, e.from(), 0, e.from(), 0, e.to(), 0));
    ask!(list, foldrima_stored_apply(2, e.from(), 0, e.from(), 0, e.to(), 0));
    ask!(list, foldrima_stored_apply_inverse(2, e.from(), 0, e.from(), 0, e.to(), 0));
    ask!(list, foldrima_read_record(e.from(), 0)
        => &mut mode, &mut profile, &mut dim, &mut bits, &mut projections, &mut float, &mut other,
        &mut has_norm, &mut norm);
    ask!(list, foldrima_read_radii(e.from(), 0, e.to(), 0));
    ask!(list, foldrima_read_indices(e.from(), 0, e.to(), 0));
    ask!(list, foldrima_read_signs(e.from(), 0, e.to(), 0));
    ask!(
        list,
        foldrima_write_record(
            0,
            2,
            1,
            0,
            0,
            0,
            1.0,
            e.from(),
            0,
            e.from(),
            0,
            e.from(),
            0,
            e.to(),
            0
        )
    );
    let (k, s, d, m) = (kind, e.from(), e.from(), e.from());
    let (q, v) = (e.from(), &mut float);
    ask!(list, foldrima_check_setup(1, 2, 2, 3, k, s, 0, d, 0, m, 0));
    ask!(list, foldrima_sketch(1, 2, 2, 3, k, s, 0, d, 0, m, 0, q, 0, e.to(), 0));
    ask!(list, foldrima_sketch_score(1, 2, 2, 3, k, s, 0, d, 0, m, 0, q, 0, e.from(), 0, 1.0) => v);
    ask!(list, foldrima_prepare_query(1, 2, 2, 3, k, s, 0, d, 0, m, 0, q, 0, e.to(), 0, e.to(), 0));
    ask!(list, foldrima_inner_product_estimate(1, 2, 2, 3, k, s, 0, d, 0, m, 0, q, 0, e.from(), 0) => v);
    ask!(list, foldrima_inner_product_estimate_prepared(1, 2, 2, 3, k, d, 0, q, 0, q, 0, e.from(), 0) => v);
    ask!(list, foldrima_l2_distance_estimate(1, 2, 2, 3, k, s, 0, d, 0, m, 0, q, 0, e.from(), 0) => v);
    ask!(
        list,
        foldrima_decode_approximate(1, 2, 2, 3, k, s, 0, d, 0, m, 0, e.from(), 0, e.to(), 0)
    );
    let (t, n, c, r) = (TALLY, e.to(), e.to(), e.from());
    ask!(list, foldrima_scan_take(t, n, 0, c, 0, 1, 2, 2, 3, k, s, 0, d, 0, m, 0, q, 0, r, 0) => v);
    ask!(list, foldrima_scan_take_prepared(t, n, 0, c, 0, 1, 2, 2, 3, k, d, 0, q, 0, q, 0, r, 0) => v);
    ask!(
        list,
        foldrima_scan_take_many(t, n, 0, c, 0, 1, 2, 2, 3, k, d, 0, q, 0, q, 0, r, 0, e.from(), 0)
    );
    list
}

/// Every call under a setup of this kind with slice `k` empty and the others as they should be:
/// rotation, directions, matrix, query (or the prepared one), record, sketch, and of a scan the
/// numbers, the scores, the ends.
fn one_empty(e: Empty, kind: u8, k: usize) -> Vec<(&'static str, u32, usize)> {
    let floats = |i: usize, items: &[f32]| if i == k { (e.from(), 0) } else { slice(items) };
    let turn = if kind == 0 { SETUP.rotation } else { &STORED };
    let (s, d, m) = (floats(0, turn), floats(1, SETUP.directions), floats(2, &MATRIX));
    let (q, p) = (floats(3, &QUERY), floats(2, &PROJECTED));
    let r = if k == 4 { (e.from(), 0) } else { slice(&SIGNED) };
    let t = if k == 5 { (e.from(), 0) } else { slice(&SKETCH) };
    let (mut turned, mut rows, mut signs, mut float) = ([9.0; 2], [9.0; 3], [9; 3], 9.0);
    let (turned, rows, signs) = (turned.as_mut_ptr(), rows.as_mut_ptr(), signs.as_mut_ptr());
    let v = &mut float;
    let mut list = Vec::new();
    /// A call under the setup, its slices by their names here.
    macro_rules! under {
        ($call:ident($($slice:ident),*; $($more:expr),*) $(=> $after:expr)?) => {
            ask!(list, $call(
                1, 2, 2, 3, kind, s.0, s.1, d.0, d.1, m.0, m.1 $(, $slice.0, $slice.1)* $(, $more)*
            ) $(=> $after)?)
        };
    }
    under!(foldrima_check_setup(;));
    under!(foldrima_sketch(q; signs, 3));
    under!(foldrima_sketch_score(q, t; 2.5) => v);
    under!(foldrima_prepare_query(q; turned, 2, rows, 3));
    under!(foldrima_inner_product_estimate(q, r;) => v);
    under!(foldrima_l2_distance_estimate(q, r;) => v);
    under!(foldrima_decode_approximate(r; turned, 2));
    ask!(list, foldrima_inner_product_estimate_prepared(
        1, 2, 2, 3, kind, d.0, d.1, q.0, q.1, p.0, p.1, r.0, r.1
    ) => v);
    let (mut numbers, mut scores, ends) = ([9; 2], [9.0; 2], [r.1]);
    let n = if k == 6 { (e.to(), 0) } else { (numbers.as_mut_ptr(), 2) };
    let c = if k == 7 { (e.to(), 0) } else { (scores.as_mut_ptr(), 2) };
    let x = if k == 8 { (e.from(), 0) } else { slice(&ends) };
    ask!(list, foldrima_scan_take(
        TALLY, n.0, n.1, c.0, c.1, 1, 2, 2, 3, kind, s.0, s.1, d.0, d.1, m.0, m.1, q.0, q.1, r.0, r.1
    ) => v);
    ask!(list, foldrima_scan_take_prepared(
        TALLY, n.0, n.1, c.0, c.1, 1, 2, 2, 3, kind, d.0, d.1, q.0, q.1, p.0, p.1, r.0, r.1
    ) => v);
    ask!(
        list,
        foldrima_scan_take_many(
            TALLY, n.0, n.1, c.0, c.1, 1, 2, 2, 3, kind, d.0, d.1, q.0, q.1, p.0, p.1, r.0, r.1,
            x.0, x.1
        )
    );
    list
}

/// Calls whose first slices are right and whose last is empty, as an output is that has
/// another length or should be empty.
fn last_empty(e: Empty) -> Vec<(&'static str, u32, usize)> {
    let mut list = Vec::new();
    let (s, d, m) = (SETUP.rotation.as_ptr(), SETUP.directions.as_ptr(), e.from());
    let (q, (r, size)) = (QUERY.as_ptr(), slice(&RECORD));
    let (mut rotated, mut float) = ([9.0; 2], 9.0);
    let (to, v) = (rotated.as_mut_ptr(), &mut float);
    ask!(list, foldrima_apply(2, s, 2, e.from(), 0, to, 2));
    ask!(list, foldrima_apply(2, s, 2, q, 2, e.to(), 0));
    ask!(list, foldrima_apply_inverse(2, s, 2, e.from(), 0, to, 2));
    ask!(list, foldrima_apply_inverse(2, s, 2, q, 2, e.to(), 0));
    let turn = STORED.as_ptr();
    ask!(list, foldrima_stored_apply(2, turn, 4, e.from(), 0, to, 2));
    ask!(list, foldrima_stored_apply(2, turn, 4, q, 2, e.to(), 0));
    ask!(list, foldrima_stored_apply_inverse(2, turn, 4, e.from(), 0, to, 2));
    ask!(list, foldrima_stored_apply_inverse(2, turn, 4, q, 2, e.to(), 0));
    ask!(list, foldrima_sketch(0, 2, 1, 0, 0, s, 2, d, 4, m, 0, q, 2, e.to(), 0));
    ask!(list, foldrima_sketch_score(0, 2, 1, 0, 0, s, 2, d, 4, m, 0, q, 2, e.from(), 0, 2.5) => v);
    ask!(list, foldrima_prepare_query(0, 2, 1, 0, 0, s, 2, d, 4, m, 0, q, 2, e.to(), 0, e.to(), 0));
    ask!(list, foldrima_prepare_query(0, 2, 1, 0, 0, s, 2, d, 4, m, 0, q, 2, to, 2, e.to(), 0));
    ask!(list, foldrima_inner_product_estimate(0, 2, 1, 0, 0, s, 2, d, 4, m, 0, q, 2, r, size) => v);
    ask!(list, foldrima_l2_distance_estimate(0, 2, 1, 0, 0, s, 2, d, 4, m, 0, q, 2, r, size) => v);
    ask!(list, foldrima_decode_approximate(0, 2, 1, 0, 0, s, 2, d, 4, m, 0, r, size, e.to(), 0));
    ask!(list, foldrima_inner_product_estimate_prepared(
        0, 2, 1, 0, 0, d, 4, q, 2, e.from(), 0, r, size
    ) => v);
    ask!(list, foldrima_read_radii(r, size, e.to(), 0));
    ask!(list, foldrima_read_indices(r, size, e.to(), 0));
    ask!(list, foldrima_read_signs(r, size, e.to(), 0));
    let (radius, index, sign) = ([1.0], [1], [1]);
    let (a, b, c) = (radius.as_ptr(), index.as_ptr(), sign.as_ptr());
    ask!(
        list,
        foldrima_write_record(0, 2, 1, 0, 0, 0, 1.0, a, 1, e.from(), 0, e.from(), 0, e.to(), 0)
    );
    ask!(list, foldrima_write_record(0, 2, 1, 1, 1, 1, 2.5, a, 1, b, 1, e.from(), 0, e.to(), 0));
    ask!(list, foldrima_write_record(0, 2, 1, 0, 0, 0, 1.0, a, 1, b, 1, e.from(), 0, e.to(), 0));
    ask!(list, foldrima_pack_indices(b, 1, 3, e.to(), 0));
    ask!(list, foldrima_unpack_indices(r, 1, 2, 4, e.to(), 0));
    ask!(list, foldrima_pack_signs(c, 1, e.to(), 0));
    ask!(list, foldrima_unpack_signs(r, 1, 2, e.to(), 0));
    ask!(list, foldrima_decompress(0, 1, 0.0, 0.0, r, 4, e.to(), 0));
    let (numbers, scores) = ([9; 64], [9.0; 64]);
    for kept in [0, 1] {
        let scan = raw::Scan { tally: raw::Tally { kept, ..TALLY }, numbers, scores };
        ask!(list, foldrima_scan_close(scan, e.to(), 0));
    }
    list
}

fn slice<T>(items: &[T]) -> (*const T, usize) {
    (items.as_ptr(), items.len())
}

/// The numbers of a list of calls, which must be the same with NULL and with an address.
fn numbers(list: impl Fn(Empty) -> Vec<(&'static str, u32, usize)>) -> Vec<u32> {
    let answers = list(Empty { null: true });
    assert_eq!(answers, list(Empty { null: false }));
    answers.iter().map(|one| one.1).collect()
}

#[test]
fn null_for_an_empty_slice() {
    // Nothing packed or compressed is a value; a rotation or a setup misses its signs or its
    // matrix, and a record of no bytes is withdrawn.
    const GONE: u32 = raw::WITHDRAWN;
    for kind in [0, 1] {
        let all = numbers(|e| all_empty(e, kind));
        assert_eq!(all[..10], [0; 10]);
        assert_eq!(all[10..19], [5, 5, 5, 5, GONE, GONE, GONE, GONE, 5]);
        assert_eq!(all[19..], [5; 11]);
    }
    let wanted = [
        [5, 5, 5, 5, 5, 5, 5, 0, 5, 0, 0],
        [5, 5, 5, 5, 5, 5, 5, 5, 5, 5, 5],
        [5, 5, 5, 5, 5, 5, 5, 5, 5, 5, 5],
        [0, 5, 5, 5, 5, 5, 0, 5, 5, 5, 5],
        [0, 0, 0, 0, GONE, GONE, GONE, GONE, GONE, GONE, 0],
        [0, 0, 5, 0, 0, 0, 0, 0, 0, 0, 0],
        [0; 11],
        [0; 11],
        [0; 11],
    ];
    for (k, wanted) in wanted.iter().enumerate() {
        for kind in [0, 1] {
            assert_eq!(numbers(|e| one_empty(e, kind, k)), wanted, "kind {kind}, slice {k}");
        }
    }
    let wanted = [5, 6, 5, 6, 5, 6, 5, 6, 0, 0, 6, 0, 0, 0, 6, 0, 6, 6, 0, 5, 5, 6, 6, 6, 6, 6, 6];
    let all = numbers(last_empty);
    assert_eq!(all[..27], wanted);
    assert_eq!(all[27..], [0, 6]);
}

#[test]
fn parts_of_an_empty_record() {
    for e in [Empty { null: true }, Empty { null: false }] {
        for find in [raw::foldrima_radii_part, raw::foldrima_indices_part, raw::foldrima_signs_part]
        {
            let (mut start, mut count) = (9, 9);
            unsafe { find(e.from(), 0, &mut start, &mut count) };
            assert_eq!((start, count), (0, 0));
        }
    }
}

#[test]
fn a_record_without_range_signs_and_norm() {
    let header = foldrima::read_record(&RECORD).unwrap().kept().unwrap();
    assert_eq!((header.range.min.to_bits(), header.range.max.to_bits()), (0, 0));
    assert_eq!(header.projections, 0);
    assert_eq!((header.has_norm, header.norm.to_bits()), (false, 0x3F80_0000));
    let (mut start, mut count) = (9, 9);
    unsafe {
        raw::foldrima_signs_part(RECORD.as_ptr(), RECORD.len(), &mut start, &mut count);
    }
    assert_eq!((start, count), (RECORD.len(), 0));
}
