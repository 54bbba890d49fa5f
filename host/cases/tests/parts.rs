//! What the comparison leans on: that parts read out of serialised and printed forms are
//! the quantizer's own, that the seeds are the ones document 01 gives, and that the
//! host's direction table is what the Rust works out inside.

use cases::rng::Rng;
use oracle::{thin, turbo::TurboMode};
use rand::{Rng as _, SeedableRng};
use rand_chacha::ChaCha8Rng;
use rand_distr::{Distribution, StandardNormal};

#[test]
fn the_seeds_draw_the_signs_and_the_matrix() {
    for seed in [0, 1, 42, u64::MAX, 0x5EE3_1AA1_2A5A_112B] {
        let turbo = thin::turbo(TurboMode::PolarWithQjl, 16, 4, 5, seed).unwrap();
        let mut rng = ChaCha8Rng::seed_from_u64(seed.wrapping_add(0xA11C_E55E_D5A5_EED5));
        let signs: Vec<f32> = (0..16).map(|_| if rng.gen() { 1.0 } else { -1.0 }).collect();
        assert_eq!(thin::turbo_signs(&turbo).unwrap(), signs);
        let second = seed.wrapping_add(0xCAFE_BABE_0000_0001).wrapping_add(0xDEAD_BEEF_1234_5678);
        let mut rng = ChaCha8Rng::seed_from_u64(second);
        let matrix: Vec<f32> = (0..80).map(|_| StandardNormal.sample(&mut rng)).collect();
        assert_eq!(thin::turbo_matrix(&turbo), matrix);
    }
}

#[test]
fn parts_go_through_the_serialised_form_unchanged() {
    let mut rng = Rng(3);
    let drawn = thin::turbo(TurboMode::PolarWithQjl, 8, 4, 9, 0).unwrap();
    for _ in 0..500 {
        let matrix: Vec<f32> = (0..72).map(|_| rng.finite()).collect();
        let signs: Vec<f32> = (0..8).map(|_| f32::from(rng.sign())).collect();
        let turbo = thin::turbo_with(&drawn, &signs, &matrix);
        let bits = |values: &[f32]| values.iter().map(|value| value.to_bits()).collect::<Vec<_>>();
        assert_eq!(bits(&thin::turbo_matrix(&turbo)), bits(&matrix));
        assert_eq!(thin::turbo_signs(&turbo).unwrap(), signs);
    }
}

#[test]
fn printed_values_read_back_unchanged() {
    // A matrix of one 1 in each row projects a query to its own values.
    let mut rng = Rng(4);
    let n = 32;
    let mut matrix = vec![0.0; n * n];
    (0..n).for_each(|i| matrix[i * n + i] = 1.0);
    let qjl = thin::qjl(n, n, &matrix).unwrap();
    for _ in 0..500 {
        let query: Vec<f32> = (0..n).map(|_| rng.finite()).collect();
        let projected = thin::project_query(&qjl, &query).unwrap();
        assert!(query.iter().zip(&projected).all(|(a, b)| a == b));
    }
}

#[test]
fn the_table_is_what_the_rust_works_out() {
    // Decoding one pair of radius 1 gives its direction rotated back. The table's entry
    // rotated back must be the same, for every width and index.
    for bits in 1..=16u8 {
        let table = thin::directions(bits);
        assert!(table.iter().all(|entry| (-1.0..=1.0).contains(entry)));
        let polar = thin::polar(2, bits, &[1.0, 1.0]).unwrap();
        let rotation = thin::rotation(2, &[1.0, 1.0]).unwrap();
        for index in 0..1u32 << bits {
            let code = thin::polar_code(2, bits, &[1.0], &[index as u16]).unwrap();
            let found = thin::polar_decode(&polar, &code).unwrap();
            let at = 2 * index as usize;
            let wanted = thin::apply_inverse(&rotation, &table[at..at + 2]).unwrap();
            assert_eq!(found, wanted, "bits {bits}, index {index}");
        }
    }
}
