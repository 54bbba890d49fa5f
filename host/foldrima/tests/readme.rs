//! The examples of the two README files.

use foldrima::{
    record_size, write_record, Hit, Position, RadiusCodecProfileV1::F32, Refusal, RotationKind,
    Scan, Setup, TurboMode,
};
use one_pair::{RECORD, SETUP};

mod one_pair;

fn scores(setup: &Setup, query: &[f32], records: &[&[u8]]) -> Result<Vec<Position<f32>>, Refusal> {
    let mut rotated = vec![0.0; setup.dim];
    let mut projected = match setup.mode {
        TurboMode::PolarOnly => vec![],
        TurboMode::PolarWithQjl => vec![0.0; setup.projections],
    };
    setup.prepare_query(query, &mut rotated, &mut projected)?;
    let score =
        |record: &&[u8]| setup.inner_product_estimate_prepared(&rotated, &projected, record);
    records.iter().map(score).collect()
}

fn board(query: &[f32]) -> Result<Position<f32>, Refusal> {
    // Any matrix is lent, column by column, usually an orthogonal one: here feature j goes to j + 1.
    let mut rotation = vec![0.0; 90 * 90];
    (0..90).for_each(|j| rotation[90 * j + (j + 1) % 90] = 1.0);
    let (mode, kind) = (TurboMode::PolarOnly, RotationKind::Stored);
    let (rotation, directions, matrix) = (&rotation, &[-1.0, 0.0, 1.0, 0.0], &[]);
    let (dim, bits, projections) = (90, 1, 0);
    let setup = Setup { mode, dim, bits, projections, kind, rotation, directions, matrix };
    let mut record = vec![0; record_size(F32, dim, bits, mode, projections, None)?];
    write_record(F32, dim, bits, mode, 0, None, &[0.5; 45], &[1; 45], &[], &mut record)?;
    setup.inner_product_estimate(query, &record)
}

fn nearest(
    setup: &Setup,
    query: &[f32],
    archive: &[u8],
    ends: &[usize],
) -> Result<Vec<Hit>, Refusal> {
    // Without residual a setup's projections are 0 here.
    let (mut rotated, mut projected) = (vec![0.0; setup.dim], vec![0.0; setup.projections]);
    setup.prepare_query(query, &mut rotated, &mut projected)?;
    let mut scan = Scan::open(10)?;
    scan.take_many(setup, &rotated, &projected, archive, ends)?;
    println!("{} refused and {} withdrawn", scan.refused(), scan.withdrawn());
    Ok(scan.hits().collect())
}

/// A function of this file, as it stands here.
fn own(from: &str) -> &'static str {
    let own = include_str!("readme.rs");
    let start = own.find(from).unwrap();
    &own[start..start + own[start..].find("\n}\n").unwrap() + 3]
}

#[test]
fn they_stand_there() {
    assert!(include_str!("../../README.md").contains(own("fn scores(")));
    for own in [own("fn board("), own("fn nearest(")] {
        let indented: String = own.lines().map(|line| format!("    {line}\n")).collect();
        assert!(include_str!("../../../README.md").contains(&indented));
    }
}

#[test]
fn the_nearest_of_four() {
    let mut records = [RECORD; 3];
    records[0][10] = 0;
    let ends = [11, 11, 22, 33];
    let score = 4.0 / 2.0f32.sqrt();
    let wanted = [(2, score), (3, score), (0, -score)];
    let hits = nearest(&SETUP, &[1.0, 3.0], &records.concat(), &ends).unwrap();
    assert!(hits.iter().map(|hit| (hit.number, hit.score)).eq(wanted));
}

#[test]
fn a_board_of_90_features() {
    // Every index stands for (1, 0), so that every second feature counts: 1, 3 and so on to 89.
    let query: Vec<f32> = (0..90).map(|i| i as f32).collect();
    assert_eq!(board(&query), Ok(Position::Kept(0.5 * 45.0 * 45.0)));
    assert_eq!(board(&query[..64]), Err(Refusal { number: 5, place: 64 }));
}

#[test]
fn two_records_and_a_withdrawn_position() {
    let mut records = [RECORD; 2];
    records[0][10] = 0;
    let lent = [&records[0][..], &[], &records[1]];
    let root = 1.0 / 2.0f32.sqrt();
    let wanted = [Position::Kept(-4.0 * root), Position::Withdrawn, Position::Kept(4.0 * root)];
    assert_eq!(scores(&SETUP, &[1.0, 3.0], &lent), Ok(wanted.to_vec()));
    let cut = [&records[0][..], &[], &records[1][..8]];
    let refused = Err(Refusal { number: 13, place: 8 });
    assert_eq!(scores(&SETUP, &[1.0, 3.0], &cut), refused);
}
