//! Yard recordings: up to 59 frames of one shape in a file (docs/RECORDINGS.md).

use super::{Description, Frame, Numbers, Params, Refusal, Shape, answered, ffi};

/// A recording in lent bytes, which was read and found good.
///
/// ```
/// use post::{Description, Params, Recording, Shape, Writer};
///
/// let mut bytes = [0; 3 * 1_024];
/// let mut writer = Writer::begin(&mut bytes, Shape { rate: 8, subframes: 2 })?;
/// writer.received(Params::default(), &Description { gains_q16: [81_920; 4], ..Description::default() }, &[0; 320])?;
/// writer.lost()?;
/// let recording = Recording::read(writer.written())?;
/// let mut output = [0; 2 * 320];
/// assert_eq!(recording.play(&mut output)?, 2 * 80);
/// # Ok::<(), post::Refusal>(())
/// ```
#[derive(Clone, PartialEq, Eq, Debug)]
pub struct Recording<'a> {
    bytes: &'a [u8],
    head: [i32; ffi::HEAD],
}

impl<'a> Recording<'a> {
    /// Reads a file of 1 to 60 records of 1,024 bytes. Refused by 21, 20, 1, 2 and 5 to 9.
    pub fn read(bytes: &'a [u8]) -> Result<Recording<'a>, Refusal> {
        let mut head = [0; ffi::HEAD];
        answered(ffi::recording_read(bytes, &mut head))?;
        Ok(Recording { bytes, head })
    }

    /// The bytes that were lent.
    pub fn bytes(&self) -> &'a [u8] {
        self.bytes
    }

    /// The shape of all of its frames.
    pub fn shape(&self) -> Shape {
        Shape { rate: self.head[0], subframes: self.head[1] }
    }

    /// The records of its frames, in the order in which they are played.
    pub fn records(&self) -> impl ExactSizeIterator<Item = usize> {
        self.head[3..3 + self.head[2] as usize].iter().map(|record| *record as usize)
    }

    /// A frame by its number, from 1 on; none where it was lost. Refused by 20 if there is no such frame.
    pub fn frame(&self, number: u32) -> Result<Option<Frame>, Refusal> {
        let mut numbers = Numbers { frame: [0; ffi::FRAME], coefs: [0; ffi::COEFS] };
        let mut pulses = [0; ffi::PULSES];
        answered(ffi::recording_frame(self.bytes, number, &mut numbers.frame, &mut numbers.coefs, &mut pulses))?;
        Ok((numbers.frame[ffi::frame::RECEIVED] != 0).then(|| numbers.frame(pulses)))
    }

    /// The samples that [`Recording::play`] must be lent: 320 for each record after the first, whether it holds a frame or not.
    pub fn room(&self) -> usize {
        ffi::PULSES * (self.bytes.len() / ffi::RECORD - 1)
    }

    /// Plays all frames by a post that is set up for their shape, without a squelch and by the edition 8251: the count of the samples, which are
    /// the first of `output`. Refused by 21 if `output` is shorter than [`Recording::room`].
    pub fn play(&self, output: &mut [i16]) -> Result<usize, Refusal> {
        let mut played = [0; ffi::VALUE];
        answered(ffi::recording_play(self.bytes, output, &mut played))?;
        Ok(played[0] as usize)
    }

    /// The first frame, by its number from 1 on, whose loss alone, all else as recorded, brings a played sample beyond the limit in size; none if
    /// no single loss does. A frame that was lost is not named. Refused by 23 if the limit is not in 1 to 32,767, or if the call as recorded
    /// already passes it.
    pub fn single_loss(&self, limit: i32) -> Result<Option<u32>, Refusal> {
        let mut number = [0; ffi::VALUE];
        answered(ffi::single_loss(self.bytes, limit, &mut number))?;
        Ok((number[0] != 0).then_some(number[0] as u32))
    }
}

/// Writes a recording into lent bytes, a frame after the other. What is written is a whole recording at any time.
#[derive(PartialEq, Eq, Debug)]
pub struct Writer<'a> {
    bytes: &'a mut [u8],
    shape: Shape,
    frames: u32,
}

impl<'a> Writer<'a> {
    /// A recording without frames, in the first 1,024 bytes. Refused by 21, 1, 2.
    pub fn begin(bytes: &'a mut [u8], shape: Shape) -> Result<Writer<'a>, Refusal> {
        answered(ffi::recording_begin(bytes, shape.rate, shape.subframes))?;
        Ok(Writer { bytes, shape, frames: 0 })
    }

    /// Writes a received frame, which takes 1,024 bytes more; 320 pulses are lent at every shape. Refused by 21 and 5 to 9.
    pub fn received(&mut self, params: Params, description: &Description, pulses: &[i16]) -> Result<(), Refusal> {
        self.append(&Numbers::of(self.shape, Some(params), description), pulses)
    }

    /// Writes that a frame was lost, which takes 1,024 bytes more. Refused by 21.
    pub fn lost(&mut self) -> Result<(), Refusal> {
        self.append(&Numbers::of(self.shape, None, &Description::default()), &[])
    }

    /// The recording as far as it is written.
    pub fn written(&self) -> &[u8] {
        &self.bytes[..ffi::RECORD * (self.frames as usize + 1)]
    }

    fn append(&mut self, numbers: &Numbers, pulses: &[i16]) -> Result<(), Refusal> {
        answered(ffi::recording_append(self.bytes, self.frames, &numbers.frame, &numbers.coefs, pulses))?;
        self.frames += 1;
        Ok(())
    }
}
