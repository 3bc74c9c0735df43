//! The stability test of a filter, the filter from line frequencies, its cosine table, and the check that lines rise.

use super::{Edition, Refusal, answered, ffi};
use core::fmt;

/// The stability test's answer. A step has the number of its coefficient's place, from 0; the test begins at the last one.
#[derive(Clone, Copy, PartialEq, Eq, Debug)]
pub enum Stability {
    /// The inverse gain (Q30), 107,374 to 1,073,741,824.
    Stable(i32),
    /// The coefficients add up to 4,096 or more.
    Sum,
    /// A step's coefficient (Q24) is above 16,773,022 in size.
    Coefficient(u8),
    /// The gain (Q30) is below 107,374 after a step.
    Gain(u8),
    /// A step leaves 32 bits; never under [`Edition::Rfc6716`].
    Overflow(u8),
}

impl Stability {
    /// The answer with the library's number and value.
    pub(crate) fn of([number, value]: [i32; ffi::ANSWER]) -> Stability {
        match number {
            0 => Stability::Stable(value),
            1 => Stability::Sum,
            2 => Stability::Coefficient(value as u8),
            3 => Stability::Gain(value as u8),
            _ => Stability::Overflow(value as u8),
        }
    }
}

/// The library's sentence for the answer.
impl fmt::Display for Stability {
    fn fmt(&self, f: &mut fmt::Formatter) -> fmt::Result {
        match self {
            Stability::Stable(gain) => write!(f, "stable, inverse gain {gain}"),
            Stability::Sum => write!(f, "unstable, sum too large"),
            Stability::Coefficient(step) => write!(f, "unstable, coefficient too large at step {step}"),
            Stability::Gain(step) => write!(f, "unstable, gain too small at step {step}"),
            Stability::Overflow(step) => write!(f, "unstable, overflow at step {step}"),
        }
    }
}

/// The stability test's answer as the library tells it. No two answers share a sentence.
#[derive(Clone, Copy, PartialEq, Eq, Debug)]
pub struct Sentence([u8; ffi::TEXT]);

impl Sentence {
    /// Its letters, without the zeros behind them.
    pub fn as_str(&self) -> &str {
        let end = self.0.iter().position(|byte| *byte == 0).unwrap_or(ffi::TEXT);
        core::str::from_utf8(&self.0[..end]).unwrap_or_default()
    }
}

impl fmt::Display for Sentence {
    fn fmt(&self, f: &mut fmt::Formatter) -> fmt::Result {
        f.write_str(self.as_str())
    }
}

/// Whether a filter of the first `order` coefficients (Q12) is stable under an edition, or why not.
pub fn stability(coefficients: &[i16], order: usize, edition: Edition) -> Result<Stability, Refusal> {
    let mut answer = [0; ffi::ANSWER];
    answered(ffi::stability(coefficients, order, edition.number(), &mut answer))?;
    Ok(Stability::of(answer))
}

/// The same as a sentence.
pub fn sentence(coefficients: &[i16], order: usize, edition: Edition) -> Result<Sentence, Refusal> {
    let mut text = [0; ffi::TEXT];
    answered(ffi::sentence(coefficients, order, edition.number(), &mut text))?;
    Ok(Sentence(text))
}

/// The first `order` coefficients (Q12) of a filter from line frequencies (Q15), rising or not, which is stable by the edition's test. A post's
/// comfort noise has this filter from the lines that it holds.
pub fn filter(coefficients: &mut [i16], lines: &[i16], order: usize, edition: Edition) -> Result<(), Refusal> {
    answered(ffi::filter(coefficients, lines, order, edition.number()))
}

/// Entry `place`, 0 to 128, of the table from which that filter comes: twice the cosine (Q12) of `place`/128 of half a turn.
pub fn cosine(place: usize) -> Result<i32, Refusal> {
    let mut value = [0; ffi::VALUE];
    answered(ffi::cosine(place, &mut value))?;
    Ok(value[0])
}

/// Whether the first `order` line frequencies (Q15) rise, with at least 3 between neighbours, at the bottom, and below 32,768 at the top. [`filter`]
/// never refuses rising lines for a negative one.
pub fn is_rising(lines: &[i16], order: usize) -> Result<bool, Refusal> {
    let mut answer = [0; ffi::VALUE];
    answered(ffi::rising(lines, order, &mut answer))?;
    Ok(answer[0] == 1)
}
