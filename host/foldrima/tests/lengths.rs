//! The needed length of each output is what the C header says: an empty output is refused
//! with it.

use foldrima::{
    packed_len, refusal::OUTPUT_LENGTH, Position, RadiusCodecProfileV1 as Profile, Range, Refusal,
    Scan, Setup, TurboMode as Mode,
};
use one_pair::{RECORD, SETUP};

mod one_pair;

fn needs<T: PartialEq + std::fmt::Debug>(answer: Result<T, Refusal>, needed: usize) {
    assert_eq!(answer, Err(Refusal { number: OUTPUT_LENGTH, place: needed }));
}

#[test]
fn of_a_record() {
    for dim in [2, 4, 6, 8, 64, 90] {
        for bits in [1, 3, 8, 15] {
            for projections in [1, 8, 9] {
                for (profile, fixed, radii) in
                    [(Profile::F32, 6, 2 * dim), (Profile::BlockLinearU16, 6 + 8, dim)]
                {
                    let ones = (vec![1.0; dim / 2], vec![1; dim / 2], vec![1; projections]);
                    let all = fixed + radii + packed_len(dim / 2, bits).unwrap();
                    let written = |mode, norm, signs: &[i8]| {
                        let (radii, indices) = (&ones.0, &ones.1);
                        let (to, count) = (&mut [], projections);
                        foldrima::write_record(
                            profile, dim, bits, mode, count, norm, radii, indices, signs, to,
                        )
                    };
                    let size = |mode, norm| {
                        foldrima::record_size(profile, dim, bits, mode, projections, norm)
                    };
                    needs(written(Mode::PolarOnly, None, &[]), all);
                    assert_eq!(size(Mode::PolarOnly, None), Ok(all));
                    let all = all + 4 + packed_len(projections, 1).unwrap();
                    needs(written(Mode::PolarWithQjl, None, &ones.2), all);
                    assert_eq!(size(Mode::PolarWithQjl, None), Ok(all));
                    needs(written(Mode::PolarWithQjl, Some(-0.0), &ones.2), all + 4);
                    // The norm's value is not judged here.
                    for norm in [1.0, 0.0, f32::MAX, -1.0, f32::INFINITY, f32::NAN] {
                        assert_eq!(size(Mode::PolarWithQjl, Some(norm)), Ok(all + 4));
                    }
                }
            }
        }
    }
}

#[test]
fn of_every_other_output() {
    needs(foldrima::pack_indices(&[1; 9], 3, &mut []), packed_len(9, 3).unwrap());
    needs(foldrima::unpack_indices(&[0; 4], 9, 3, &mut []), 9);
    needs(foldrima::pack_signs(&[1; 9], &mut []), packed_len(9, 1).unwrap());
    needs(foldrima::unpack_signs(&[0; 2], 9, &mut []), 9);
    needs(foldrima::apply(2, &[1.0; 2], &[1.0; 2], &mut []), 2);
    needs(foldrima::apply_inverse(2, &[1.0; 2], &[1.0; 2], &mut []), 2);
    needs(foldrima::stored_apply(6, &[1.0; 36], &[1.0; 6], &mut []), 6);
    needs(foldrima::stored_apply_inverse(6, &[1.0; 36], &[1.0; 6], &mut []), 6);
    needs(foldrima::compress(&[1.0; 3], Profile::F32, &mut []), 12);
    needs(foldrima::compress(&[1.0; 3], Profile::BlockLinearU16, &mut []), 6);
    let range = Range { min: 0.0, max: 1.0 };
    needs(foldrima::decompress(Profile::F32, 3, range, &[0; 12], &mut []), 3);
    let (mode, matrix) = (Mode::PolarWithQjl, &[1.0; 6][..]);
    let both = Setup { mode, bits: 2, projections: 3, matrix, ..SETUP };
    needs(both.sketch(&[1.0; 2], &mut []), 3);
    assert_eq!(SETUP.sketch(&[1.0; 2], &mut []), Ok(()));
    needs(both.prepare_query(&[1.0; 2], &mut [], &mut []), 2);
    needs(both.prepare_query(&[1.0; 2], &mut [0.0; 2], &mut []), 3);
    assert_eq!(SETUP.prepare_query(&[1.0; 2], &mut [0.0; 2], &mut []), Ok(()));
    needs(SETUP.decode_approximate(&RECORD, &mut []), 2);
    let header = foldrima::read_record(&RECORD).unwrap().kept().unwrap();
    needs(foldrima::read_radii(&RECORD, &mut []), header.dim / 2);
    needs(foldrima::read_indices(&RECORD, &mut []), header.dim / 2);
    let none = foldrima::read_signs(&RECORD, &mut []);
    assert_eq!((none, header.projections), (Ok(Position::Kept(())), 0));
    let mut scan = Scan::open(5).unwrap();
    assert_eq!(scan.close(&mut []), Ok(()));
    scan.take_each(&SETUP, &[1.0; 2], &[], [RECORD; 3]).unwrap();
    needs(scan.close(&mut []), scan.kept());
}
