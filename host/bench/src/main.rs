//! Nanoseconds of processor time a call, the Rust's and (with the feature `capi`) the
//! port's, in one run on the same inputs: the median and the least of several rounds,
//! each some milliseconds long, the two sides by turns. A ratio is the median of the
//! rounds' own. `bench [ROUNDS] [MILLISECONDS] [NAME]`; 21 and 10 if not given, and with
//! a name only the rows that have it in theirs. A scan's times are a record, in five rounds
//! at most, each one scan of a million records.

mod clock;
mod inputs;
#[cfg(feature = "capi")]
mod port;
/// Without the feature there is no port.
#[cfg(not(feature = "capi"))]
mod port {
    pub fn call<'a>(_: &str, _: &'a crate::Inputs) -> Option<crate::Call<'a>> {
        None
    }
}

use std::{borrow::Cow, hint::black_box, time::Duration};

use inputs::{Inputs, Turbo, SCANNED};
use oracle::rotation::Rotation;

/// A call to be timed, again and again.
pub type Call<'a> = Box<dyn FnMut() + 'a>;

struct Row<'a> {
    name: &'static str,
    rust: Call<'a>,
    port: Option<Call<'a>>,
}

/// The rows so far; the port's side is asked for by the same names.
struct Rows<'a> {
    inputs: &'a Inputs,
    rows: Vec<Row<'a>>,
}

impl<'a> Rows<'a> {
    /// A row by its name and the Rust's call.
    fn add<T>(&mut self, name: &'static str, mut rust: impl FnMut() -> T + 'a) {
        let port = port::call(name, self.inputs);
        let rust = Box::new(move || drop(black_box(rust())));
        self.rows.push(Row { name, rust, port });
    }

    /// Such a row for each of several inputs.
    fn each<I, T, F: FnMut() -> T + 'a>(
        &mut self,
        names: &[&'static str],
        inputs: &'a [I],
        call: impl Fn(&'a I) -> F,
    ) {
        for (name, input) in names.iter().zip(inputs) {
            self.add(name, call(input));
        }
    }

    /// Rows of calls under one setup, by the starts of their names; `packed` has the Rust unpack
    /// its packed code first.
    fn under<const N: usize>(&mut self, turbo: &'a Turbo, packed: bool, names: [&'static str; N]) {
        let rust = &turbo.quantizer;
        let code = move || match packed {
            true => Cow::Owned(black_box(&turbo.packed).unpack().unwrap()),
            false => Cow::Borrowed(black_box(&turbo.code)),
        };
        for name in names {
            match () {
                () if name.starts_with("prepared score") => self.add(name, move || {
                    let query = black_box(&turbo.prepared);
                    rust.inner_product_estimate_prepared(&code(), query).unwrap()
                }),
                () if name.starts_with("prepare") => {
                    self.add(name, || rust.prepare_query(black_box(&turbo.query)).unwrap())
                }
                () if name.starts_with("score") => self.add(name, move || {
                    rust.inner_product_estimate(&code(), black_box(&turbo.query)).unwrap()
                }),
                () if name.starts_with("distance") => self.add(name, move || {
                    rust.l2_distance_estimate(&code(), black_box(&turbo.query)).unwrap()
                }),
                () if name.starts_with("decode") => {
                    self.add(name, move || rust.decode_approximate(&code()).unwrap())
                }
                () => unreachable!("{name}"),
            }
        }
    }
}

fn rows(inputs: &Inputs) -> Vec<Row<'_>> {
    let mut rows = Rows { inputs, rows: Vec::new() };
    let names = ["pack 4096 x 3 bits", "pack 4096 x 8 bits", "pack 4096 x 12 bits"];
    rows.each(&names, &inputs.indices, |wide| {
        move || oracle::bitpack::pack_indices(black_box(&wide.items), wide.bits).unwrap()
    });
    let names = ["unpack 4096 x 3 bits", "unpack 4096 x 8 bits", "unpack 4096 x 12 bits"];
    rows.each(&names, &inputs.indices, |wide| {
        move || {
            let (bytes, count) = (black_box(&wide.packed), wide.items.len());
            oracle::bitpack::unpack_indices(bytes, count, wide.bits).unwrap()
        }
    });
    rows.add("pack signs 4096", || oracle::bitpack::pack_signs(black_box(&inputs.signs)).unwrap());
    rows.add("unpack signs 4096", || {
        let bytes = black_box(&inputs.packed_signs);
        oracle::bitpack::unpack_signs(bytes, inputs.signs.len()).unwrap()
    });
    rows.add("compress linear 2048", || {
        let linear = oracle::radius::RadiusCodecProfileV1::BlockLinearU16;
        let radii = black_box(&inputs.radii);
        oracle::radius::CompressedRadiiV1::compress(radii, linear).unwrap()
    });
    rows.add("decompress linear 2048", || black_box(&inputs.compressed).decompress().unwrap());

    rows.each(&["apply 256", "apply 4096"], &inputs.rotations, |turn| {
        let mut output = vec![0.0f32; turn.input.len()];
        move || {
            turn.rotation.apply(black_box(&turn.input), &mut output).unwrap();
            black_box(&output);
        }
    });
    rows.each(&["inverse 256", "inverse 4096"], &inputs.rotations, |turn| {
        let mut output = vec![0.0f32; turn.input.len()];
        move || {
            turn.rotation.apply_inverse(black_box(&turn.input), &mut output).unwrap();
            black_box(&output);
        }
    });
    let names = ["stored apply 90", "stored apply 300", "stored apply 512"];
    rows.each(&names, &inputs.stored, |turn| {
        let mut output = vec![0.0f32; turn.input.len()];
        move || {
            turn.rotation.apply(black_box(&turn.input), &mut output).unwrap();
            black_box(&output);
        }
    });
    let names = ["stored inverse 90", "stored inverse 300", "stored inverse 512"];
    rows.each(&names, &inputs.stored, |turn| {
        let mut output = vec![0.0f32; turn.input.len()];
        move || {
            turn.rotation.apply_inverse(black_box(&turn.input), &mut output).unwrap();
            black_box(&output);
        }
    });
    rows.each(&["sketch 256 x 64", "sketch 1024 x 256"], &inputs.sketches, |wide| {
        move || wide.qjl.sketch(black_box(&wide.vector)).unwrap()
    });
    rows.each(&["project 256 x 64", "project 1024 x 256"], &inputs.sketches, |wide| {
        move || wide.qjl.project_query(black_box(&wide.vector)).unwrap()
    });
    rows.each(&["prepare 256 x 64", "prepare 1024 x 256"], &inputs.sketches, |wide| {
        move || wide.quantizer.prepare_query(black_box(&wide.vector)).unwrap()
    });
    rows.each(&["sketch score 256 x 64", "sketch score 1024 x 256"], &inputs.sketches, |wide| {
        move || {
            let (sketch, query) = (black_box(&wide.sketch), black_box(&wide.vector));
            wide.qjl.inner_product_estimate(sketch, query).unwrap()
        }
    });

    // A code that is unpacked already.
    rows.under(
        &inputs.turbo,
        false,
        ["prepare query", "score", "prepared score", "distance", "decode"],
    );
    // The port scores from a record's bytes; the Rust's nearest form is a packed code.
    let names = ["score, packed", "prepared score, packed", "distance, packed", "decode, packed"];
    rows.under(&inputs.turbo, true, names);
    let names = [
        "prepare 4096 x 256",
        "score 4096 x 256",
        "prepared score 4096 x 256",
        "distance 4096 x 256",
        "decode 4096 x 256",
    ];
    rows.under(&inputs.large, false, names);
    let names =
        ["score, 12 bits", "prepared score, 12 bits", "distance, 12 bits", "decode, 12 bits"];
    rows.under(&inputs.fine, false, names);
    // The Rust scores linear radii only as floats: here a code that has them restored already, and
    // as `.., packed` the packed code that it restores them from, as the port does each time.
    rows.under(&inputs.linear, false, ["prepared score, linear", "decode, linear"]);
    rows.under(&inputs.linear, true, ["prepared score, linear, packed", "decode, linear, packed"]);
    // The Rust has one way; the port's three stand beside it.
    let names: &[&'static str] = match cfg!(feature = "capi") {
        true => &["scan, one call", "scan, calls of 1000", "scan, one by one"],
        false => &["scan"],
    };
    for &name in names {
        rows.add(name, || inputs.archive.best(&inputs.turbo, SCANNED));
    }
    rows.rows
}

/// How many records a call of this row goes through, and in how many rounds at most.
fn long_row(row: &str) -> (usize, u64) {
    match row.starts_with("scan") {
        true => (SCANNED, 5),
        false => (1, u64::MAX),
    }
}

/// How many calls take about this long; of a call that goes through many items one, after one that
/// is not timed.
fn calls_in(call: &mut Call, items: usize, long: Duration) -> u32 {
    if items > 1 {
        call();
        return 1;
    }
    let mut calls = 1u32;
    loop {
        let start = clock::now();
        (0..calls).for_each(|_| call());
        let spent = clock::now() - start;
        if spent >= long / 4 || calls > 1 << 24 {
            let each = spent.as_nanos().max(1) / u128::from(calls);
            return (long.as_nanos() / each.max(1)).clamp(1, 1 << 26) as u32;
        }
        calls *= 2;
    }
}

fn round(call: &mut Call, calls: u32) -> f64 {
    let start = clock::now();
    (0..calls).for_each(|_| call());
    (clock::now() - start).as_nanos() as f64 / f64::from(calls)
}

/// The median, the least, and the width of the middle half in percent of the median.
fn summary(mut times: Vec<f64>) -> (f64, f64, f64) {
    times.sort_by(f64::total_cmp);
    let n = times.len();
    let median = times[n / 2];
    (median, times[0], 100.0 * (times[n * 3 / 4] - times[n / 4]) / median)
}

/// How many times as fast as the Rust the port is to be.
fn target(row: &str) -> f64 {
    let starts = |names: &[&str]| names.iter().any(|name| row.starts_with(name));
    match () {
        () if starts(&["pack signs", "decompress"]) => 4.0,
        () if starts(&["unpack signs", "compress"]) => 5.0,
        () if starts(&["pack", "unpack"]) => 10.0,
        () if starts(&["prepared score", "scan"]) => 6.0,
        () if starts(&["prepare", "score", "distance", "sketch score"]) => 3.5,
        () if starts(&["apply", "inverse"]) => 3.5,
        () if starts(&["sketch", "project", "stored"]) => 3.0,
        () if starts(&["decode"]) => 2.0,
        () => unreachable!("{row}"),
    }
}

fn main() {
    let args: Vec<String> = std::env::args().skip(1).collect();
    let number = |at: usize| args.get(at).map(|arg| arg.parse::<u64>().expect("a number"));
    let rounds = number(0).unwrap_or(21).max(1);
    let long = Duration::from_millis(number(1).unwrap_or(10));
    let asked = |row: &str| args.get(2).is_none_or(|name| row.contains(name.as_str()));
    let inputs = Inputs::new(7);
    let rows: Vec<Row> = rows(&inputs).into_iter().filter(|row| asked(row.name)).collect();
    println!("Seed 7, {rounds} rounds of {long:?} of processor time for each side, by turns.");
    if let Some((items, most)) = rows.iter().map(|row| long_row(row.name)).find(|row| row.0 > 1) {
        println!(
            "A scan's times are ns a record, in {} rounds of {items} records.",
            rounds.min(most)
        );
    }
    println!();
    println!("| call | Rust, ns | least | ± | port, ns | least | ± | ratio | ± | target | |");
    println!("|---|--:|--:|--:|--:|--:|--:|--:|--:|--:|---|");
    for mut row in rows {
        let (items, most) = long_row(row.name);
        let rust_calls = calls_in(&mut row.rust, items, long);
        let port_calls = row.port.as_mut().map(|port| calls_in(port, items, long));
        let (mut rust, mut port, mut ratio) = (Vec::new(), Vec::new(), Vec::new());
        for _ in 0..rounds.min(most) {
            rust.push(round(&mut row.rust, rust_calls) / items as f64);
            if let (Some(call), Some(calls)) = (row.port.as_mut(), port_calls) {
                port.push(round(call, calls) / items as f64);
                ratio.push(rust[rust.len() - 1] / port[port.len() - 1]);
            }
        }
        let (rust, least, wide) = summary(rust);
        print!("| {} | {rust:.0} | {least:.0} | {wide:.0} % |", row.name);
        if port.is_empty() {
            println!(" | | | | | | |");
            continue;
        }
        let (port, least, wide) = summary(port);
        print!(" {port:.0} | {least:.0} | {wide:.0} % |");
        let (ratio, _, wide) = summary(ratio);
        let target = target(row.name);
        let met = match ratio < target {
            true => format!("missed: {:.0} % of it", 100.0 * ratio / target),
            false => "met".into(),
        };
        println!(" {ratio:.2} | {wide:.0} % | {target} | {met} |");
    }
    #[cfg(feature = "capi")]
    {
        println!();
        println!("| part of the port's calls, 256 x 64, 8 bits | ns | least | ± |");
        println!("|---|--:|--:|--:|");
        for (name, mut call) in port::parts(&inputs).into_iter().filter(|part| asked(part.0)) {
            let calls = calls_in(&mut call, 1, long);
            let times = (0..rounds).map(|_| round(&mut call, calls)).collect();
            let (median, least, wide) = summary(times);
            println!("| {name} | {median:.0} | {least:.0} | {wide:.0} % |");
        }
    }
}
