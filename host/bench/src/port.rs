//! The port's side, built only with the feature `capi`: one call for each row's name,
//! over the safe calls of `foldrima`, lent the same inputs.

use std::hint::black_box;

use foldrima::{RadiusCodecProfileV1, Range, RotationKind, Scan, Setup, TurboMode};

use crate::{
    inputs::{Hit, Inputs, Sketch, Turbo, BEST, DISTINCT, SCANNED},
    Call,
};

fn sketch_setup(wide: &Sketch) -> Setup<'_> {
    Setup {
        mode: TurboMode::PolarWithQjl,
        dim: wide.dim,
        bits: 2,
        projections: wide.projections,
        kind: RotationKind::FastHadamard,
        rotation: &wide.signs,
        directions: &wide.directions,
        matrix: &wide.matrix,
    }
}

fn turbo_setup(turbo: &Turbo) -> Setup<'_> {
    Setup {
        mode: TurboMode::PolarWithQjl,
        dim: turbo.dim,
        bits: turbo.bits,
        projections: turbo.projections,
        kind: RotationKind::FastHadamard,
        rotation: &turbo.signs,
        directions: &turbo.directions,
        matrix: &turbo.matrix,
    }
}

/// The port's call for a row.
pub fn call<'a>(row: &str, inputs: &'a Inputs) -> Option<Call<'a>> {
    let at = |names: &[&str]| names.iter().position(|name| *name == row);
    if let Some(i) = at(&["pack 4096 x 3 bits", "pack 4096 x 8 bits", "pack 4096 x 12 bits"]) {
        let wide = &inputs.indices[i];
        let mut out = vec![0; wide.packed.len()];
        return Some(Box::new(move || {
            foldrima::pack_indices(black_box(&wide.items), wide.bits, &mut out).unwrap();
            black_box(&out);
        }));
    }
    if let Some(i) = at(&["unpack 4096 x 3 bits", "unpack 4096 x 8 bits", "unpack 4096 x 12 bits"])
    {
        let wide = &inputs.indices[i];
        let mut out = vec![0; wide.items.len()];
        return Some(Box::new(move || {
            let (bytes, count) = (black_box(&wide.packed), wide.items.len());
            foldrima::unpack_indices(bytes, count, wide.bits, &mut out).unwrap();
            black_box(&out);
        }));
    }
    if let Some(i) = at(&["apply 256", "apply 4096"]) {
        let turn = &inputs.rotations[i];
        let mut out = vec![0.0; turn.input.len()];
        return Some(Box::new(move || {
            let input = black_box(&turn.input);
            foldrima::apply(input.len(), &turn.signs, input, &mut out).unwrap();
            black_box(&out);
        }));
    }
    if let Some(i) = at(&["inverse 256", "inverse 4096"]) {
        let turn = &inputs.rotations[i];
        let mut out = vec![0.0; turn.input.len()];
        return Some(Box::new(move || {
            let input = black_box(&turn.input);
            foldrima::apply_inverse(input.len(), &turn.signs, input, &mut out).unwrap();
            black_box(&out);
        }));
    }
    if let Some(i) = at(&["stored apply 90", "stored apply 300", "stored apply 512"]) {
        let turn = &inputs.stored[i];
        let mut out = vec![0.0; turn.input.len()];
        return Some(Box::new(move || {
            let input = black_box(&turn.input);
            foldrima::stored_apply(input.len(), &turn.matrix, input, &mut out).unwrap();
            black_box(&out);
        }));
    }
    if let Some(i) = at(&["stored inverse 90", "stored inverse 300", "stored inverse 512"]) {
        let turn = &inputs.stored[i];
        let mut out = vec![0.0; turn.input.len()];
        return Some(Box::new(move || {
            let input = black_box(&turn.input);
            foldrima::stored_apply_inverse(input.len(), &turn.matrix, input, &mut out).unwrap();
            black_box(&out);
        }));
    }
    if let Some(i) = at(&["sketch 256 x 64", "sketch 1024 x 256"]) {
        let wide = &inputs.sketches[i];
        let mut out = vec![0; wide.projections];
        return Some(Box::new(move || {
            sketch_setup(wide).sketch(black_box(&wide.vector), &mut out).unwrap();
            black_box(&out);
        }));
    }
    let project = at(&["project 256 x 64", "project 1024 x 256"]);
    let prepare = at(&["prepare 256 x 64", "prepare 1024 x 256"]);
    if let Some(i) = project.or(prepare) {
        // The port projects only in `prepare_query`, which checks and rotates too.
        let wide = &inputs.sketches[i];
        let (mut rotated, mut projected) = (vec![0.0; wide.dim], vec![0.0; wide.projections]);
        return Some(Box::new(move || {
            let query = black_box(&wide.vector);
            sketch_setup(wide).prepare_query(query, &mut rotated, &mut projected).unwrap();
            black_box((&rotated, &projected));
        }));
    }
    if let Some(i) = at(&["sketch score 256 x 64", "sketch score 1024 x 256"]) {
        let wide = &inputs.sketches[i];
        return Some(Box::new(move || {
            let (query, signs) = (black_box(&wide.vector), black_box(&wide.sketch.signs));
            black_box(sketch_setup(wide).sketch_score(query, signs, 1.0).unwrap());
        }));
    }
    single(row, inputs)
}

fn single<'a>(row: &str, inputs: &'a Inputs) -> Option<Call<'a>> {
    let linear = RadiusCodecProfileV1::BlockLinearU16;
    Some(match row {
        "pack signs 4096" => {
            let mut out = vec![0; inputs.packed_signs.len()];
            Box::new(move || {
                foldrima::pack_signs(black_box(&inputs.signs), &mut out).unwrap();
                black_box(&out);
            })
        }
        "unpack signs 4096" => {
            let mut out = vec![0; inputs.signs.len()];
            Box::new(move || {
                let bytes = black_box(&inputs.packed_signs);
                foldrima::unpack_signs(bytes, inputs.signs.len(), &mut out).unwrap();
                black_box(&out);
            })
        }
        "compress linear 2048" => {
            let mut out = vec![0; inputs.compressed.payload.len()];
            Box::new(move || {
                let range = foldrima::compress(black_box(&inputs.radii), linear, &mut out);
                black_box((range.unwrap(), &out));
            })
        }
        "decompress linear 2048" => {
            let packed = &inputs.compressed;
            let range = Range { min: packed.min, max: packed.max };
            let mut out = vec![0.0; packed.count];
            Box::new(move || {
                let payload = black_box(&packed.payload);
                foldrima::decompress(linear, packed.count, range, payload, &mut out).unwrap();
                black_box(&out);
            })
        }
        "scan, one call" => scan(inputs, SCANNED),
        "scan, calls of 1000" => scan(inputs, 1000),
        "scan, one by one" => scan(inputs, 1),
        _ => return under(row, inputs),
    })
}

/// A scan of all records by the prepared query, so many in one call; one by one without ends. The
/// first time its hits are held against the Rust's, and so are those of the distinct records alone:
/// the best of all are one record, again and again.
fn scan(inputs: &Inputs, many: usize) -> Call<'_> {
    let (turbo, archive) = (&inputs.turbo, &inputs.archive);
    let ends: Vec<usize> = (1..=many).map(|i| i * archive.size).collect();
    let scanned = move |records: &[u8]| {
        let (rotated, projected) = (black_box(&turbo.rotated), &turbo.projected);
        let (setup, records) = (turbo_setup(turbo), black_box(records));
        let mut scan = Scan::open(BEST).unwrap();
        if many == 1 {
            let records = records.chunks_exact(archive.size);
            scan.take_each(&setup, rotated, projected, records).unwrap();
        } else {
            for bytes in records.chunks(archive.size * many) {
                let ends = &ends[..bytes.len() / archive.size];
                scan.take_many(&setup, rotated, projected, bytes, ends).unwrap();
            }
        }
        black_box(scan)
    };
    let mut held = false;
    Box::new(move || {
        let scan = scanned(archive.all());
        if !held {
            for (scan, count) in [(scan, SCANNED), (scanned(&archive.pool), DISTINCT)] {
                let hits = scan.hits().map(|hit| Hit { number: hit.number, score: hit.score });
                assert!(hits.eq(archive.best(turbo, count)), "another scan than the Rust's");
            }
            held = true;
        }
    })
}

/// The calls under one setup of `Turbo`, by the starts of their names, which tell the setup too.
fn under<'a>(row: &str, inputs: &'a Inputs) -> Option<Call<'a>> {
    let has = |words: &str| row.contains(words);
    let turbo = match () {
        () if has("4096 x 256") => &inputs.large,
        () if has("12 bits") => &inputs.fine,
        () if has("linear") => &inputs.linear,
        () => &inputs.turbo,
    };
    let starts = |name: &str| row.starts_with(name);
    Some(match () {
        () if starts("prepared score") => Box::new(move || {
            let (rotated, projected) = (black_box(&turbo.rotated), &turbo.projected);
            let record = black_box(&turbo.record);
            let setup = turbo_setup(turbo);
            let score = setup.inner_product_estimate_prepared(rotated, projected, record);
            black_box(score.unwrap().kept().unwrap());
        }),
        () if starts("prepare") => {
            let (mut rotated, mut projected) = (vec![0.0; turbo.dim], vec![0.0; turbo.projections]);
            Box::new(move || {
                let query = black_box(&turbo.query);
                turbo_setup(turbo).prepare_query(query, &mut rotated, &mut projected).unwrap();
                black_box((&rotated, &projected));
            })
        }
        () if starts("score") => Box::new(move || {
            let (query, record) = (black_box(&turbo.query), black_box(&turbo.record));
            let score = turbo_setup(turbo).inner_product_estimate(query, record);
            black_box(score.unwrap().kept().unwrap());
        }),
        () if starts("distance") => Box::new(move || {
            let (query, record) = (black_box(&turbo.query), black_box(&turbo.record));
            let distance = turbo_setup(turbo).l2_distance_estimate(query, record);
            black_box(distance.unwrap().kept().unwrap());
        }),
        () if starts("decode") => {
            let mut out = vec![0.0; turbo.dim];
            Box::new(move || {
                let record = black_box(&turbo.record);
                let done = turbo_setup(turbo).decode_approximate(record, &mut out);
                done.unwrap().kept().unwrap();
                black_box(&out);
            })
        }
        () => return None,
    })
}

/// What the port's calls at 256 x 64 and 8 bits are made of, each by itself; the Rust has
/// no such calls.
pub fn parts(inputs: &Inputs) -> Vec<(&'static str, Call<'_>)> {
    let turbo = &inputs.turbo;
    let (mut radii, mut indices, mut signs) = (vec![0.0; 128], vec![0; 128], vec![0; 64]);
    let (turn, mut turned) = (&inputs.rotations[0], vec![0.0; 256]);
    let narrow = Setup {
        mode: TurboMode::PolarOnly,
        bits: 7,
        projections: 0,
        matrix: &[],
        ..turbo_setup(turbo)
    };
    vec![
        ("check_setup", Box::new(move || turbo_setup(black_box(turbo)).check().unwrap())),
        ("check_setup without matrix", Box::new(move || black_box(&narrow).check().unwrap())),
        (
            "read_record",
            Box::new(move || {
                let header = foldrima::read_record(black_box(&turbo.record));
                black_box(header.unwrap().kept().unwrap());
            }),
        ),
        (
            "read_radii",
            Box::new(move || {
                let done = foldrima::read_radii(black_box(&turbo.record), &mut radii);
                done.unwrap().kept().unwrap();
                black_box(&radii);
            }),
        ),
        (
            "read_indices",
            Box::new(move || {
                let done = foldrima::read_indices(black_box(&turbo.record), &mut indices);
                done.unwrap().kept().unwrap();
                black_box(&indices);
            }),
        ),
        (
            "read_signs",
            Box::new(move || {
                let done = foldrima::read_signs(black_box(&turbo.record), &mut signs);
                done.unwrap().kept().unwrap();
                black_box(&signs);
            }),
        ),
        (
            "apply_inverse",
            Box::new(move || {
                let input = black_box(&turn.input);
                foldrima::apply_inverse(256, &turn.signs, input, &mut turned).unwrap();
                black_box(&turned);
            }),
        ),
    ]
}
