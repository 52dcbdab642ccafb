//! Whole numbers of more than 128 bits, with just what the enlarged coordinates of request Q-4 need. A number that has
//! no room stops the program.

use std::ops::{Add, Mul, Neg, Sub};

/// Of 64 bits each. The largest numbers that arise are below 2^477 in size. They are sums of products of numbers below
/// 2^317 and below 2^158, of five words and three.
const WORDS: usize = 8;

type Words = [u64; WORDS];

#[derive(Clone, Copy)]
pub struct Wide {
    is_negative: bool,
    /// The size, its lowest word first.
    size: Words,
}

impl Wide {
    pub fn signum(self) -> i128 {
        match (self.size == [0; WORDS], self.is_negative) {
            (true, _) => 0,
            (false, true) => -1,
            (false, false) => 1,
        }
    }
}

impl From<i128> for Wide {
    fn from(number: i128) -> Wide {
        let (mut size, whole) = ([0; WORDS], number.unsigned_abs());
        (size[0], size[1]) = (whole as u64, (whole >> 64) as u64);
        Wide {
            is_negative: number < 0,
            size,
        }
    }
}

impl Neg for Wide {
    type Output = Wide;

    fn neg(self) -> Wide {
        let is_negative = !self.is_negative;
        Wide { is_negative, ..self }
    }
}

impl Add for Wide {
    type Output = Wide;

    fn add(self, other: Wide) -> Wide {
        let (larger, smaller) = if self.size.iter().rev().lt(other.size.iter().rev()) {
            (other, self)
        } else {
            (self, other)
        };
        let size = if larger.is_negative == smaller.is_negative {
            sum(&larger.size, &smaller.size)
        } else {
            difference(&larger.size, &smaller.size)
        };
        Wide { size, ..larger }
    }
}

impl Sub for Wide {
    type Output = Wide;

    fn sub(self, other: Wide) -> Wide {
        self + -other
    }
}

impl Mul for Wide {
    type Output = Wide;

    fn mul(self, other: Wide) -> Wide {
        Wide {
            is_negative: self.is_negative != other.is_negative,
            size: product(&self.size, &other.size),
        }
    }
}

fn sum(one: &Words, other: &Words) -> Words {
    let mut carry = 0;
    let sum = std::array::from_fn(|k| {
        let whole = u128::from(one[k]) + u128::from(other[k]) + carry;
        carry = whole >> 64;
        whole as u64
    });
    assert!(carry == 0, "a sum has no room");
    sum
}

/// The smaller one must not be above the larger one.
fn difference(larger: &Words, smaller: &Words) -> Words {
    let mut borrowed = false;
    let difference = std::array::from_fn(|k| {
        let (word, below) = larger[k].overflowing_sub(smaller[k]);
        let (word, below_again) = word.overflowing_sub(u64::from(borrowed));
        borrowed = below || below_again;
        word
    });
    assert!(!borrowed, "the smaller number is above the larger one");
    difference
}

fn product(one: &Words, other: &Words) -> Words {
    let used = |words: &Words| WORDS - words.iter().rev().take_while(|word| **word == 0).count();
    let (used, other_used) = (used(one), used(other));
    assert!(used + other_used <= WORDS, "a product has no room");
    let mut product = [0; WORDS];
    for i in 0..used {
        let mut carry = 0;
        for j in 0..other_used {
            let whole = u128::from(one[i]) * u128::from(other[j]) + u128::from(product[i + j]) + carry;
            product[i + j] = whole as u64;
            carry = whole >> 64;
        }
        if carry > 0 {
            product[i + other_used] = carry as u64;
        }
    }
    product
}
