//! The binding over the linked library.

use post::ffi::words::{EDITION, LOSS_CNT, SQUELCH};
use post::{
    Description, Edition, Params, Post, Recording, Refusal, Settings, Shape, Stability, Writer, cosine, ffi, filter, is_rising, played,
    sentence, stability,
};

const NARROW: Shape = Shape { rate: 8, subframes: 2 };
const WIDE: Shape = Shape { rate: 16, subframes: 4 };

fn plain() -> Description {
    Description { pitch_l: [32; 4], gains_q16: [81_920; 4], ..Description::default() }
}

fn squelched(squelch: i32) -> Settings {
    Settings { squelch, ..Settings::default() }
}

/// A post with a number of its words written.
fn with(place: usize, number: i32) -> Post {
    let post = Post::set_up(WIDE).unwrap();
    let (mut words, halves) = (*post.parts().0, *post.parts().1);
    words[place] = number;
    Post::from_parts(words, halves)
}

/// A received frame that is to be refused, with everything left as it was.
fn refused(params: Params, description: Description, pulses: usize, output: usize) -> Refusal {
    let mut post = Post::set_up(WIDE).unwrap();
    let (before, mut changed, mut samples) = (post.clone(), description.clone(), vec![-1; output]);
    let why = post.received(WIDE, params, &mut changed, &vec![0; pulses], &mut samples).unwrap_err();
    assert_eq!(post, before);
    assert_eq!(changed, description);
    assert_eq!(samples, vec![-1; output]);
    why
}

#[test]
fn numbers_and_words() {
    let words = "rate, size, history, run full, signal, gain, lag, taps, line, pulses, speaker, length, order, squelch, place, chain, record, edition, limit";
    let listed: Vec<(i32, &str)> = (1..=14).chain([17, 20, 21, 22, 23]).zip(words.split(", ")).collect();
    assert_eq!(Refusal::ALL.map(|why| (why.number(), why.word())).to_vec(), listed);
    assert_eq!(Refusal::ALL.map(|why| Refusal::of(why.number())), Refusal::ALL.map(Some));
    assert_eq!([-1, 0, 99].map(Refusal::of), [None; 3]);
}

#[test]
fn each_refusal() {
    let voiced = Params { signal_type: 2, ..Params::default() };
    let found = [
        Post::set_up(Shape { rate: 48, ..WIDE }).unwrap_err(),
        Post::set_up(Shape { subframes: 3, ..WIDE }).unwrap_err(),
        with(LOSS_CNT, -1).lost(WIDE, &mut plain(), &mut [0; 320]).unwrap_err(),
        with(LOSS_CNT, i32::MAX).lost(WIDE, &mut Description::default(), &mut [0; 320]).unwrap_err(),
        refused(Params { signal_type: 3, ..voiced }, plain(), 320, 320),
        refused(voiced, Description { gains_q16: [81_919; 4], ..plain() }, 320, 320),
        refused(voiced, Description { pitch_l: [32, 32, 32, 289], ..plain() }, 320, 320),
        refused(voiced, Description { ltp_scale_q14: 16_385, ..plain() }, 320, 320),
        refused(voiced, Description { nlsf_q15: [-1; 16], ..plain() }, 320, 320),
        refused(voiced, plain(), 319, 320),
        refused(voiced, plain(), 320, 319),
        Post::set_up(WIDE).unwrap().glue(&mut [0; 320], 0).unwrap_err(),
        stability(&[0; 16], 17, Edition::Rfc8251).unwrap_err(),
        Post::set_up_with(WIDE, squelched(10_001)).unwrap_err(),
        cosine(129).unwrap_err(),
        Recording::read(&[1; 1_024]).unwrap_err(),
        Recording::read(&[0; 1_024]).unwrap_err(),
        Refusal::of(ffi::set_up_with(16, 4, 0, 8_250, &mut [0; ffi::WORDS], &mut [0; ffi::HALVES])).unwrap(),
        Recording::read(Writer::begin(&mut [0; 1_024], WIDE).unwrap().written()).unwrap().single_loss(0).unwrap_err(),
    ];
    assert_eq!(found, Refusal::ALL);
}

#[test]
fn a_frame_and_its_loss() {
    let mut post = Post::set_up(WIDE).unwrap();
    let (mut output, mut description) = ([1; 400], plain());
    post.received(WIDE, Params::default(), &mut description, &[0; 320], &mut output).unwrap();
    assert_eq!(output[320..], [1; 80]);
    assert_eq!(post.parts().0[LOSS_CNT], 0);
    post.lost(WIDE, &mut description, &mut output).unwrap();
    assert_eq!(post.parts().0[LOSS_CNT], 1);
    assert_eq!(description.pitch_l, [description.pitch_l[3]; 4]);
}

#[test]
fn a_change_of_shape() {
    let mut post = Post::set_up(NARROW).unwrap();
    let (mut output, mut description) = ([1; 400], plain());
    for (shape, why) in [(Shape { rate: 9, subframes: 3 }, Refusal::Rate), (Shape { subframes: 3, ..WIDE }, Refusal::Size)] {
        assert_eq!(post.lost(shape, &mut description, &mut output), Err(why));
        assert_eq!((post.shape(), output), (NARROW, [1; 400]));
    }
    post.lost(WIDE, &mut description, &mut output).unwrap();
    assert_eq!((post.shape(), &output[320..]), (WIDE, &[1; 80][..]));
    assert_eq!(post.received(WIDE, Params::default(), &mut description, &[0; 80], &mut output), Err(Refusal::Pulses));
    post.received(NARROW, Params::default(), &mut description, &[0; 80], &mut output[..80]).unwrap();
    assert_eq!(post.shape(), NARROW);
}

#[test]
fn a_squelch() {
    assert_eq!(Post::set_up(NARROW), Post::set_up_with(NARROW, Settings::default()));
    assert_eq!(Settings::default(), squelched(50));
    let squelches = [-1, 0, 1, 50, 10_000, 10_001].map(|squelch| Post::set_up_with(NARROW, squelched(squelch)));
    let held = squelches.map(|post| post.map(|post| post.parts().0[SQUELCH]));
    assert_eq!(held, [Err(Refusal::Squelch), Ok(0), Ok(1), Ok(50), Ok(10_000), Err(Refusal::Squelch)]);

    let mut posts = [0, 3].map(|squelch| Post::set_up_with(NARROW, squelched(squelch)).unwrap());
    for post in &mut posts {
        post.received(NARROW, Params::default(), &mut plain(), &[90; 80], &mut [0; 80]).unwrap();
    }
    for loss in 1..=4 {
        let [concealed, silent] = posts.each_mut().map(|post| {
            let (mut description, mut output) = (plain(), [9; 100]);
            post.lost(NARROW, &mut description, &mut output).unwrap();
            let mut words = *post.parts().0;
            words[SQUELCH] = 0;
            (output, (description, words, *post.parts().1))
        });
        assert_eq!(concealed.1, silent.1);
        assert_ne!(concealed.0[..80], [0; 80]);
        assert_eq!(silent.0[..80], if loss < 3 { concealed.0[..80].to_vec() } else { vec![0; 80] });
        assert_eq!(silent.0[80..], [9; 20]);
    }
}

#[test]
fn editions() {
    let held = [Edition::Rfc6716, Edition::Rfc8251].map(|edition| {
        let settings = Settings { edition, ..Settings::default() };
        Post::set_up_with(NARROW, settings).unwrap().parts().0[EDITION]
    });
    assert_eq!(held, [6_716, 8_251]);
    for number in [0, 6_715, 6_717, 8_250, 8_252] {
        let mut post = with(EDITION, number);
        assert_eq!(post.lost(WIDE, &mut plain(), &mut [0; 320]), Err(Refusal::History));
        assert_eq!(post.glue(&mut [0; 320], 320), Err(Refusal::History));
    }
}

#[test]
fn stages_alone() {
    let mut post = Post::set_up(NARROW).unwrap();
    assert_eq!(post.shape(), NARROW);
    let (mut description, mut output) = (plain(), [0; 80]);
    post.core(Params::default(), &mut description, &[1; 80], &mut output).unwrap();
    assert_ne!(output, [0; 80]);
    post.plc_received(Params::default(), &description).unwrap();
    post.plc_lost(&mut description, &mut output).unwrap();
    assert_eq!(post.parts().0[LOSS_CNT], 1);
}

#[test]
fn played_part() {
    let mut output = [7; 400];
    assert_eq!(played(WIDE, &mut output).len(), 320);
    assert_eq!(played(Shape { subframes: 3, ..WIDE }, &mut output).len(), 0);
    assert_eq!(played(NARROW, &mut output[..79]).len(), 0);
}

#[test]
fn filters() {
    use Stability::{Coefficient, Gain, Overflow, Stable, Sum};
    let told = [Stable(1_073_741_824), Stable(1_048_320), Coefficient(0), Coefficient(0), Sum];
    let [older, newer] = [Edition::Rfc6716, Edition::Rfc8251];
    assert_eq!([-512, -257].map(|first| stability(&[first, 4_094], 2, newer).unwrap()), [Overflow(1); 2]);
    assert_eq!([-512, -257].map(|first| stability(&[first, 4_094], 2, older).unwrap()), [Stable(1_048_320), Coefficient(0)]);
    for edition in [older, newer] {
        assert_eq!([0, 4_094, 4_095, -4_095, 4_096].map(|first| stability(&[first], 1, edition).unwrap()), told);
        assert_eq!(stability(&[-6, 0, 4_093], 3, edition), Ok(Gain(1)));
        assert_eq!(sentence(&[0; 16], 0, edition), Err(Refusal::Order));
        for filter in [[0, 0, 0], [4_096, 0, 0], [0, -4_095, 0], [-6, 0, 4_093], [-257, 4_094, 0]] {
            assert_eq!(stability(&filter, 3, edition).unwrap().to_string(), sentence(&filter, 3, edition).unwrap().as_str());
        }
        let lines: Vec<i16> = (1..=10).map(|k| 2_978 * k).collect();
        let mut coefficients = [9; 16];
        filter(&mut coefficients, &lines, 10, edition).unwrap();
        assert!(matches!(stability(&coefficients, 10, edition), Ok(Stable(_))));
        assert_eq!(coefficients[10..], [9; 6]);
    }
}

#[test]
fn cosines() {
    let table: Vec<i32> = (0..=128).map(|place| cosine(place).unwrap()).collect();
    assert_eq!([0, 1, 64, 65, 128].map(|place| table[place]), [8_192, 8_190, 0, -202, -8_192]);
    assert!(table.windows(2).all(|pair| pair[0] > pair[1]));
    assert_eq!([129, 130, usize::MAX].map(cosine), [Err(Refusal::Place); 3]);
    assert_eq!(ffi::cosine(0, &mut []), -1);
}

#[test]
fn rising_lines() {
    for order in [10, 16] {
        let lowest: Vec<i16> = (1..=order as i16).map(|k| 3 * k).collect();
        let moved = |at: usize, line: i16| {
            let mut lines = lowest.clone();
            lines[at] = line;
            lines
        };
        let last = order - 1;
        let told = [moved(0, 3), moved(0, 2), moved(0, -1), moved(5, 17), moved(5, 19), moved(last, 32_765), moved(last, 32_766)];
        assert_eq!(told.map(|lines| is_rising(&lines, order).unwrap()), [true, false, false, false, false, true, false]);
        assert_eq!(is_rising(&lowest[1..], order), Err(Refusal::Place));
        let unordered: Vec<i16> = lowest.iter().rev().copied().collect();
        assert_eq!(is_rising(&unordered, order), Ok(false));
        filter(&mut [0; 16], &unordered, order, Edition::Rfc8251).unwrap();
    }
    assert_eq!([9, 11, 15, 17].map(|order| is_rising(&[0; 20], order)), [Err(Refusal::Place); 4]);
    assert_eq!(ffi::rising(&[0; 16], 16, &mut []), -1);
}
