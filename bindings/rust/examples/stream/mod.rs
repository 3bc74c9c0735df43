//! Reads a recorded stream: the frames of one call, each with its parameters and the samples that were played.

use post::{Description, Params, Shape};
use std::{fs, path::Path};

pub struct Stream {
    pub shape: Shape,
    pub records: Vec<Record>,
}

pub struct Record {
    /// A received frame's numbers, description and pulses; none if it was lost.
    pub frame: Option<(Params, Description, Vec<i16>)>,
    pub samples: Vec<i16>,
}

struct Bytes<'a>(&'a [u8]);

impl Bytes<'_> {
    fn take<const N: usize>(&mut self) -> Result<[u8; N], String> {
        let (first, rest) = self.0.split_first_chunk().ok_or("the file is cut")?;
        self.0 = rest;
        Ok(*first)
    }

    fn long(&mut self) -> Result<i32, String> {
        Ok(i32::from_le_bytes(self.take()?))
    }

    fn longs(&mut self, to: &mut [i32]) -> Result<(), String> {
        for to in to {
            *to = self.long()?;
        }
        Ok(())
    }

    fn shorts(&mut self, to: &mut [i16]) -> Result<(), String> {
        for to in to {
            *to = i16::from_le_bytes(self.take()?);
        }
        Ok(())
    }

    fn record(&mut self, length: usize) -> Result<Record, String> {
        let mut frame = None;
        let [kind] = self.take()?;
        if kind > 1 {
            return Err(format!("a record has the kind {kind}"));
        }
        if kind == 1 {
            let [signal_type, quant_offset_type, nlsf_interp_coef_q2, seed] = self.take()?.map(|byte| byte as i8);
            let mut description = Description::default();
            self.longs(&mut description.pitch_l)?;
            self.longs(&mut description.gains_q16)?;
            for row in &mut description.pred_coef_q12 {
                self.shorts(row)?;
            }
            self.shorts(&mut description.ltp_coef_q14)?;
            description.ltp_scale_q14 = self.long()?;
            self.shorts(&mut description.nlsf_q15)?;
            let mut pulses = vec![0; length];
            self.shorts(&mut pulses)?;
            frame = Some((Params { signal_type, quant_offset_type, nlsf_interp_coef_q2, seed }, description, pulses));
        }
        let mut samples = vec![0; length];
        self.shorts(&mut samples)?;
        Ok(Record { frame, samples })
    }
}

impl Stream {
    /// The samples are those of FILE.rust.pcm where it lies beside FILE.vec.
    pub fn read(file: &str) -> Result<Stream, String> {
        let file = Path::new(file);
        let mut stream = all_of(file, |bytes| {
            if bytes.take()? != *b"SILKVEC1" {
                return Err("no stream".into());
            }
            let [rate, subframes, zeros @ ..] = bytes.take::<4>()?.map(i32::from);
            if ![8, 12, 16].contains(&rate) || ![2, 4].contains(&subframes) || zeros != [0, 0] {
                return Err(format!("no stream of the decoder: {rate} kHz, {subframes} subframes"));
            }
            let count = u32::from_le_bytes(bytes.take()?);
            let length = (5 * rate * subframes) as usize;
            let records = (0..count).map(|_| bytes.record(length)).collect::<Result<Vec<Record>, String>>()?;
            Ok(Stream { shape: Shape { rate, subframes }, records })
        })?;
        let rust = file.with_extension("rust.pcm");
        if rust.exists() {
            all_of(&rust, |bytes| stream.records.iter_mut().try_for_each(|record| bytes.shorts(&mut record.samples)))?;
        }
        Ok(stream)
    }
}

/// What a file's bytes give, if they give it with none left over.
fn all_of<T>(file: &Path, read: impl FnOnce(&mut Bytes) -> Result<T, String>) -> Result<T, String> {
    let named = |why: String| format!("{}: {why}", file.display());
    let bytes = fs::read(file).map_err(|why| named(why.to_string()))?;
    let mut bytes = Bytes(&bytes);
    let found = read(&mut bytes).map_err(named)?;
    if bytes.0.is_empty() { Ok(found) } else { Err(named("bytes follow the last record".into())) }
}
