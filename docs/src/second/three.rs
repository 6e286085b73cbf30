//! The answer of the calls that hand back three numbers: those that count no name tests.

use crate::Numbers;

/// The number, the second number and the third.
#[derive(Clone, Copy, PartialEq, Eq, Debug)]
pub struct Three {
    pub number: u64,
    pub second: u64,
    pub third: u64,
}

/// A refusal, whose third number is 0.
pub fn refused(number: u64, second: usize) -> Three {
    Three { number, second: second as u64, third: 0 }
}

/// The bytes written at the output's front, under 0 with their length; or 9 with the length needed, and the output as it was.
pub fn written(bytes: &[u8], third: u64, out: &mut [u8]) -> Three {
    if bytes.len() > out.len() {
        return refused(9, bytes.len());
    }
    out[..bytes.len()].copy_from_slice(bytes);
    Three { number: 0, second: bytes.len() as u64, third }
}

/// What a cut refuses, another call refuses by the same three numbers.
impl From<Numbers> for Three {
    fn from(cut: Numbers) -> Three {
        Three { number: cut.number, second: cut.second, third: cut.third }
    }
}
