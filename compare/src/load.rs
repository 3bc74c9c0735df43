//! The load (document 02, Note 11), drawn apart from the library: each draw by itself, and leaps by the sum of a geometric row.

use crate::post::ffi::{COEFS, FRAME, coefs, frame};
use crate::recording::{PULSES, Recorded};

/// The step of `silk_rand`.
const FACTOR: u32 = 196_314_165;
const TERM: u32 = 907_633_515;
/// The draws of a frame.
pub const DRAWS: u64 = 402;
/// The frames of the longest load.
pub const LONGEST: u32 = 2_147_483_647;

/// The generator, of which a draw is the value after its step.
#[derive(Clone, Copy)]
pub struct Generator(pub u32);

impl Generator {
    pub fn draw(&mut self) -> u32 {
        self.0 = self.0.wrapping_mul(FACTOR).wrapping_add(TERM);
        self.0
    }

    /// A draw scaled to `count` values from `low` on.
    fn scaled(&mut self, low: i64, count: u64) -> i64 {
        low + ((u128::from(self.draw()) * u128::from(count)) >> 32) as i64
    }

    /// The next frame, lost or received, with all of its numbers.
    pub fn frame(&mut self, [rate, subframes]: [i32; 2]) -> Recorded {
        let r = i64::from(rate);
        let mut drawn = Recorded { frame: [0; FRAME], coefs: [0; COEFS], pulses: [0; PULSES] };
        (drawn.frame[frame::RATE], drawn.frame[frame::SUBFRAMES]) = (rate, subframes);
        drawn.frame[frame::RECEIVED] = self.scaled(0, 2) as i32;
        drawn.frame[frame::SIGNAL] = self.scaled(0, 3) as i32;
        drawn.frame[frame::OFFSET] = self.scaled(0, 2) as i32;
        drawn.frame[frame::INTERPOLATION] = self.scaled(0, 5) as i32;
        drawn.frame[frame::SEED] = self.scaled(-128, 256) as i32;
        drawn.frame[frame::LAGS..frame::GAINS].fill_with(|| self.scaled(2 * r, 18 * rate as u64 - 2 * rate as u64 + 1) as i32);
        drawn.frame[frame::GAINS..frame::SCALE].fill_with(|| self.scaled(81_920, 1_686_110_208 - 81_920 + 1) as i32);
        drawn.coefs[coefs::ROWS..coefs::LINES].fill_with(|| self.scaled(-32_768, 65_536) as i16);
        drawn.coefs[coefs::TAPS..coefs::ROWS].fill_with(|| self.scaled(-6_553, 6_553 + 6_553 + 1) as i16);
        drawn.frame[frame::SCALE] = self.scaled(0, 16_384 + 1) as i32;
        drawn.coefs[coefs::LINES..].fill_with(|| self.scaled(0, 32_768) as i16);
        drawn.pulses.fill_with(|| self.scaled(-32_768, 65_536) as i16);
        drawn
    }
}

/// The generator after many draws: with f the factor, f^k times the seed and the term times 1 + f + .. + f^(k - 1), which is (f^k - 1)/(f - 1).
/// The power is taken modulo (f - 1) 2^32, so that the quotient is exact modulo 2^32.
pub fn after(seed: i32, draws: u64) -> Generator {
    let below = u128::from(FACTOR - 1);
    let modulus = below << 32;
    let (mut power, mut square, mut left) = (1u128, u128::from(FACTOR), draws);
    while left > 0 {
        if left % 2 == 1 {
            power = power * square % modulus;
        }
        square = square * square % modulus;
        left /= 2;
    }
    let row = (power + modulus - 1) % modulus / below;
    Generator((power as u32).wrapping_mul(seed as u32).wrapping_add((row as u32).wrapping_mul(TERM)))
}

/// The first frames of a load as a recording keeps them: of a lost one the shape alone.
pub fn recorded(seed: i32, shape: [i32; 2], count: usize) -> Vec<Recorded> {
    let mut generator = Generator(seed as u32);
    let drawn = (0..count).map(|_| generator.frame(shape));
    drawn.map(|frame| if frame.is_received() { frame } else { Recorded::lost(shape) }).collect()
}
