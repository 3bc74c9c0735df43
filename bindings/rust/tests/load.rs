//! The load over the linked library.

use post::{Heard, Link, Load, Post, Refusal, Settings, Shape, ffi, leap, undoing};

const NARROW: Shape = Shape { rate: 8, subframes: 2 };

#[test]
fn the_first_frame() {
    let drawn = Load { shape: NARROW, seed: 0 }.frame(0).unwrap();
    let (params, description) = (drawn.frame.params, drawn.frame.description);
    assert!(drawn.lost);
    assert_eq!([params.signal_type, params.quant_offset_type, params.nlsf_interp_coef_q2, params.seed], [1, 1, 4, -60]);
    assert_eq!(description.pitch_l, [50, 90, 27, 58]);
    assert_eq!(description.gains_q16, [1_362_692_624, 830_558_838, 1_665_335_756, 1_360_759_838]);
    assert_eq!(description.ltp_scale_q14, 10_054);
    assert_eq!(description.ltp_coef_q14[..5], [-2_486, -4_159, 1_173, 5_097, -2_746]);
    assert_eq!(description.pred_coef_q12[0][..4], [24_253, -25_752, -32_356, 26_661]);
    assert_eq!(description.nlsf_q15[..4], [27_556, 17_342, 28_321, 14_539]);
    assert_eq!(drawn.frame.pulses[..4], [-10_209, 22_882, 32_400, 25_325]);
}

#[test]
fn leaps() {
    assert_eq!([0, 1, 2, 402, 1 << 31, 1 << 32].map(|draws| leap(0, draws)), [0, 907_633_515, -1_653_660_526, 1_789_068_898, i32::MIN, 0]);
    for seed in [0, 1, -1, i32::MAX, i32::MIN] {
        for draws in [0, 1, 402, 1 << 32, 863_288_426_094, u64::MAX] {
            assert_eq!(leap(leap(seed, draws), 402), leap(seed, draws.wrapping_add(402)));
            assert_eq!(leap(leap(seed, draws), undoing(draws)), seed);
        }
    }
}

#[test]
fn refused() {
    let load = Load { shape: NARROW, seed: 7 };
    assert_eq!(load.frame(2_147_483_646).map(|drawn| drawn.frame.pulses.len()), Ok(320));
    assert_eq!([2_147_483_647, u32::MAX].map(|number| load.frame(number)), [const { Err(Refusal::Length) }; 2]);
    assert_eq!(Load { shape: Shape { rate: 9, subframes: 3 }, ..load }.frame(u32::MAX), Err(Refusal::Rate));
    assert_eq!(Load { shape: Shape { subframes: 3, ..NARROW }, ..load }.frame(u32::MAX), Err(Refusal::Size));
    assert_eq!(ffi::load_frame(8, 2, 0, 0, &mut [0; 15], &mut [0; 68], &mut [0; 320]), -1);
    assert_eq!(ffi::load_frame(8, 2, 0, 0, &mut [0; 16], &mut [0; 67], &mut [0; 320]), -1);
    assert_eq!(ffi::load_frame(8, 2, 0, 0, &mut [0; 16], &mut [0; 68], &mut [0; 319]), -1);
}

#[test]
fn a_load_is_played() {
    for (rate, subframes) in [(8, 2), (12, 4), (16, 2)] {
        let load = Load { shape: Shape { rate, subframes }, seed: -5 };
        let unsquelched = Settings { squelch: 0, ..Settings::default() };
        let mut post = Post::set_up_with(load.shape, unsquelched).unwrap();
        let mut output = vec![0; (5 * rate * subframes) as usize];
        for number in 1_000_000..1_000_200 {
            let mut drawn = load.frame(number).unwrap();
            let frame = &mut drawn.frame;
            if drawn.lost {
                post.lost(load.shape, &mut frame.description, &mut output).unwrap();
            } else {
                post.received(load.shape, frame.params, &mut frame.description, &frame.pulses, &mut output).unwrap();
            }
        }
    }
}

const SEEDS: [i32; 16] = [0, 1, 2, 3, 4, 5, 6, 7, 8, 9, 10, 11, 12, 13, 14, 15];

#[test]
fn a_trial() {
    let load = Load { shape: NARROW, seed: 7 };
    let heard = load.trial(3, 10, Link { leave_good: 40_000, leave_bad: 20_000 }, &SEEDS).unwrap();
    let first =
        [(3, 5, 2), (3, 5, 2), (5, 5, 0), (4, 5, 1)].map(|(received, concealed, squelched)| Heard { received, concealed, squelched });
    assert_eq!(heard[..4], first);
    for (squelch, concealed, squelched) in [(0, 99, 0), (1, 0, 99), (5, 4, 95)] {
        let heard = load.trial(squelch, 100, Link { leave_good: 65_535, leave_bad: 0 }, &SEEDS).unwrap();
        assert_eq!(heard[0], Heard { received: 1, concealed, squelched });
    }
    let never = load.trial(50, 100, Link { leave_good: 0, leave_bad: 65_535 }, &SEEDS).unwrap();
    assert_eq!(never, [Heard { received: 100, concealed: 0, squelched: 0 }; 16]);
}

#[test]
fn a_trial_is_refused() {
    let (load, link) = (Load { shape: NARROW, seed: 7 }, Link { leave_good: 1, leave_bad: 1 });
    let none = Load { shape: Shape { rate: 9, subframes: 3 }, ..load };
    assert_eq!(none.trial(-1, u32::MAX, link, &SEEDS), Err(Refusal::Rate));
    assert_eq!(Load { shape: Shape { subframes: 3, ..NARROW }, ..load }.trial(-1, u32::MAX, link, &SEEDS), Err(Refusal::Size));
    assert_eq!(load.trial(-1, 2_147_483_648, link, &SEEDS), Err(Refusal::Length));
    assert_eq!([-1, 10_001].map(|squelch| load.trial(squelch, 0, link, &SEEDS)), [Err(Refusal::Squelch); 2]);
    assert_eq!(ffi::trial(8, 2, 0, 0, 0, 0, 0, &[0; 15], &mut [0; 48]), -1);
    assert_eq!(ffi::trial(8, 2, 0, 0, 0, 0, 0, &[0; 16], &mut [0; 47]), -1);
}
