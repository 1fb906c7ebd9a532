//! The bounds of loops: a constant and factors of the indexes around.
use super::plan::DEEPEST;

#[derive(Clone, Copy)]
pub struct Form {
    pub constant: i64,
    index: [i64; 3],
}

impl Form {
    /// The form in nine bytes, with the parameters folded in.
    pub fn read(bytes: &[u8], parameters: [i16; 4]) -> Form {
        let factor = |i: usize| bytes[i] as i8 as i64;
        let folded: i64 = (0..4).map(|p| factor(5 + p) * parameters[p] as i64).sum();
        Form { constant: number(bytes) as i16 as i64 + folded, index: [factor(2), factor(3), factor(4)] }
    }

    /// Whether it has no factor of a loop past so many.
    pub fn enclosed_by(&self, loops: usize) -> bool {
        self.index.iter().skip(loops).all(|f| *f == 0)
    }

    pub fn minus(&self, other: &Form) -> Form {
        let index = [0, 1, 2].map(|i| self.index[i] - other.index[i]);
        Form { constant: self.constant - other.constant, index }
    }

    /// Its factors times these values; the constant does not count.
    pub fn dot(&self, values: &[i64; DEEPEST]) -> i64 {
        (0..3).map(|i| self.index[i] * values[i]).sum()
    }

    /// Its smallest and its largest value where the indexes lie in these ranges.
    pub fn range(&self, lo: &[i64; DEEPEST], hi: &[i64; DEEPEST]) -> (i64, i64) {
        let (mut least, mut most) = (self.constant, self.constant);
        for i in 0..3 {
            let (a, b) = (self.index[i] * lo[i], self.index[i] * hi[i]);
            least += a.min(b);
            most += a.max(b);
        }
        (least, most)
    }
}

/// An unsigned number of 16 bits, low byte first.
pub fn number(bytes: &[u8]) -> u16 {
    u16::from_le_bytes([bytes[0], bytes[1]])
}
