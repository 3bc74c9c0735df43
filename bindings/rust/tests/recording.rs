//! Recordings over the linked library.

use post::ffi::{self, HEAD, RECORD, RECORDS};
use post::{Description, Params, Recording, Refusal, Shape, Writer};

const NARROW: Shape = Shape { rate: 8, subframes: 2 };

/// A voiced frame at the ends of its ranges.
fn ends() -> (Params, Description, [i16; 320]) {
    let params = Params { signal_type: 2, quant_offset_type: 0, nlsf_interp_coef_q2: 4, seed: -1 };
    let description = Description {
        pitch_l: [16, 144, 0, 0],
        gains_q16: [81_920, 81_920, 0, 0],
        ltp_scale_q14: 16_384,
        nlsf_q15: std::array::from_fn(|k| 10 * k as i16),
        ..Description::default()
    };
    (params, description, std::array::from_fn(|k| [1, -1].get(k).copied().unwrap_or(0)))
}

/// That frame and its loss.
fn two() -> Vec<u8> {
    let mut bytes = vec![0xa5; 4 * RECORD];
    let mut writer = Writer::begin(&mut bytes, NARROW).unwrap();
    let (params, description, pulses) = ends();
    writer.received(params, &description, &pulses).unwrap();
    writer.lost().unwrap();
    let written = writer.written().to_vec();
    assert_eq!(bytes[3 * RECORD..], [0xa5; RECORD]);
    written
}

/// The answer to a file with bytes of a record changed.
fn edited(record: usize, byte: usize, new: &[u8]) -> Result<usize, Refusal> {
    let mut bytes = two();
    bytes[RECORD * record + byte..][..new.len()].copy_from_slice(new);
    Recording::read(&bytes).map(|recording| recording.records().len())
}

#[test]
fn byte_by_byte() {
    let bytes = two();
    assert_eq!(bytes.len(), 3 * RECORD);
    assert_eq!(bytes[..9], [1, 0, b'Y', b'A', b'R', b'D', 8, 2, 0]);
    assert_eq!(bytes[RECORD..][..12], [2, 0, 1, 2, 0, 4, 0xff, 16, 0, 0, 0, 144]);
    assert_eq!(bytes[RECORD + 143..][..8], [0, 64, 0, 0, 0, 0, 10, 0]);
    assert_eq!(bytes[RECORD + 179..][..4], [1, 0, 0xff, 0xff]);
    assert_eq!(bytes[RECORD + 183..2 * RECORD], [0; RECORD - 183]);
    assert_eq!(bytes[2 * RECORD..], [0; RECORD]);
}

#[test]
fn read_and_played() {
    let bytes = two();
    let recording = Recording::read(&bytes).unwrap();
    assert_eq!((recording.shape(), recording.records().collect::<Vec<_>>()), (NARROW, vec![1, 2]));
    let (params, description, pulses) = ends();
    let first = recording.frame(1).unwrap().unwrap();
    assert_eq!((first.params, first.description, first.pulses), (params, description, pulses));
    assert_eq!(recording.frame(2), Ok(None));
    assert_eq!([0, 3, u32::MAX].map(|number| recording.frame(number)), [const { Err(Refusal::Chain) }; 3]);
    let mut output = [9; 700];
    assert_eq!((recording.room(), recording.play(&mut output)), (640, Ok(160)));
    assert_eq!((&output[..3], &output[160..]), (&[1, 1, 0][..], &[9; 540][..]));
    assert_eq!(recording.play(&mut output[..639]), Err(Refusal::Record));
    assert_eq!(ffi::recording_read(&bytes, &mut [0; HEAD - 1]), 21);
}

#[test]
fn each_refusal() {
    assert_eq!(edited(0, 0, &[0, 0]), Ok(0));
    assert_eq!(edited(0, 0, &[2]), Ok(1));
    for next in [[1, 0], [2, 0], [3, 0], [0, 1], [0xff, 0xff]] {
        assert_eq!(edited(2, 0, &next), Err(Refusal::Chain));
    }
    for (record, byte, new) in [(0, 2, b'y'), (0, 8, 1), (0, 1023, 1), (1, 2, 2), (1, 819, 1), (1, 1023, 1), (2, 3, 1), (2, 1023, 1)] {
        assert_eq!(edited(record, byte, &[new]), Err(Refusal::Record), "record {record}, byte {byte}");
    }
    let rows = [
        (0, 6, 9, Refusal::Rate),
        (0, 7, 3, Refusal::Size),
        (1, 3, 3, Refusal::Signal),
        (1, 24, 0, Refusal::Gain),
        (1, 7, 15, Refusal::Lag),
        (1, 143, 1, Refusal::Taps),
        (1, 148, 128, Refusal::Line),
    ];
    for (record, byte, new, why) in rows {
        assert_eq!(edited(record, byte, &[new]), Err(why), "record {record}, byte {byte}");
    }
    for length in [0, 1, 1023, 1025, RECORD * (RECORDS + 1)] {
        assert_eq!(Recording::read(&vec![0; length]), Err(Refusal::Record), "{length} bytes");
    }
}

#[test]
fn writing_refuses() {
    let mut bytes = vec![0; RECORD * (RECORDS + 1)];
    assert_eq!(Writer::begin(&mut bytes[..1023], NARROW), Err(Refusal::Record));
    assert_eq!(Writer::begin(&mut bytes, Shape { rate: 9, subframes: 3 }), Err(Refusal::Rate));
    assert_eq!(Writer::begin(&mut bytes, Shape { subframes: 3, ..NARROW }), Err(Refusal::Size));
    assert_eq!(bytes, vec![0; RECORD * (RECORDS + 1)]);
    let mut writer = Writer::begin(&mut bytes, NARROW).unwrap();
    let (params, description, pulses) = ends();
    assert_eq!(writer.received(params, &description, &pulses[..319]), Err(Refusal::Record));
    assert_eq!(writer.received(Params { signal_type: 3, ..params }, &description, &pulses), Err(Refusal::Signal));
    assert_eq!(writer.received(params, &Description { gains_q16: [0; 4], ..description.clone() }, &pulses), Err(Refusal::Gain));
    assert_eq!(Recording::read(writer.written()).unwrap().records().len(), 0);
    for frame in 1..RECORDS {
        if frame % 3 == 0 { writer.lost() } else { writer.received(params, &description, &pulses) }.unwrap();
        assert_eq!(Recording::read(writer.written()).unwrap().records().len(), frame);
    }
    assert_eq!(writer.lost(), Err(Refusal::Record));
    assert_eq!(writer.written().len(), RECORD * RECORDS);
}

#[test]
fn one_frame_that_mattered() {
    let own = Recording::read(include_bytes!("../../../crates/make_recording/stdout")).unwrap();
    for (limit, frame) in [(9_642, Some(5)), (10_053, Some(5)), (10_054, Some(6)), (11_193, Some(6)), (11_194, None), (32_767, None)] {
        assert_eq!(own.single_loss(limit), Ok(frame), "limit {limit}");
    }
    for limit in [i32::MIN, -9_642, 0, 1, 9_641, 32_768, i32::MAX] {
        assert_eq!(own.single_loss(limit), Err(Refusal::Limit), "limit {limit}");
    }
    let bytes = two();
    assert_eq!(Recording::read(&bytes).unwrap().single_loss(1), Ok(None));
    let mut number = [7, 7];
    assert_eq!((ffi::single_loss(&bytes, 1, &mut number), number), (0, [0, 7]));
    assert_eq!(ffi::single_loss(&bytes[1..], 0, &mut number), 21);
    assert_eq!(ffi::single_loss(&bytes, 0, &mut []), 21);
}
