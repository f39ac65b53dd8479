//! Whole numbers of 768 bits in two's complement: enough for the exact chain of any recipe. Eight stages of reals have the denominator 2^560.
use std::cmp::Ordering;

const WORDS: usize = 12;

/// The lowest word first.
#[derive(Clone, Copy, Debug, PartialEq, Eq)]
pub struct Wide([u64; WORDS]);

impl Wide {
    pub const ZERO: Wide = Wide([0; WORDS]);

    pub fn from(n: i64) -> Wide {
        let mut words = [if n < 0 { u64::MAX } else { 0 }; WORDS];
        words[0] = n as u64;
        Wide(words)
    }

    /// The same number in 64 bits, which it has to fit into.
    pub fn narrow(self) -> i64 {
        let number = self.0[0] as i64;
        assert!(Wide::from(number) == self);
        number
    }

    pub fn is_negative(&self) -> bool {
        self.0[WORDS - 1] >> 63 == 1
    }

    pub fn plus(self, other: Wide) -> Wide {
        let mut words = [0; WORDS];
        let mut carry = 0;
        for k in 0..WORDS {
            let sum = self.0[k] as u128 + other.0[k] as u128 + carry;
            words[k] = sum as u64;
            carry = sum >> 64;
        }
        Wide(words)
    }

    pub fn negated(self) -> Wide {
        Wide(self.0.map(|word| !word)).plus(Wide::from(1))
    }

    pub fn minus(self, other: Wide) -> Wide {
        self.plus(other.negated())
    }

    pub fn magnitude(self) -> Wide {
        if self.is_negative() {
            self.negated()
        } else {
            self
        }
    }

    pub fn times(self, n: i64) -> Wide {
        let mut words = [0; WORDS];
        let mut carry: u128 = 0;
        for k in 0..WORDS {
            let product = self.0[k] as u128 * n.unsigned_abs() as u128 + carry;
            words[k] = product as u64;
            carry = product >> 64;
        }
        let product = Wide(words);
        if n < 0 {
            product.negated()
        } else {
            product
        }
    }
}

impl Ord for Wide {
    fn cmp(&self, other: &Wide) -> Ordering {
        let negative = |wide: &Wide| wide.is_negative();
        negative(other)
            .cmp(&negative(self))
            .then_with(|| self.0.iter().rev().cmp(other.0.iter().rev()))
    }
}

impl PartialOrd for Wide {
    fn partial_cmp(&self, other: &Wide) -> Option<Ordering> {
        Some(self.cmp(other))
    }
}
