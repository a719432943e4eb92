//! Natural numbers of any size: a word where it fits, else limbs of 32 bits, lowest first and without leading zeros.

use std::cmp::Ordering;
use std::rc::Rc;

#[derive(Clone, Debug, PartialEq, Eq)]
pub enum Number {
    Small(u64),
    Big(Rc<Vec<u32>>),
}

use Number::{Big, Small};

/// No number of a definition has more bits; what a slip would make longer is stopped.
const MOST_BITS: usize = 1 << 20;

impl Number {
    fn limbs(&self) -> Vec<u32> {
        match self {
            Small(n) => trim(vec![*n as u32, (*n >> 32) as u32]),
            Big(limbs) => limbs.to_vec(),
        }
    }

    fn from_limbs(limbs: Vec<u32>) -> Number {
        let limbs = trim(limbs);
        match limbs[..] {
            [] => Small(0),
            [a] => Small(a.into()),
            [a, b] => Small(u64::from(a) | u64::from(b) << 32),
            _ => Big(Rc::new(limbs)),
        }
    }

    pub fn small(&self) -> Option<u64> {
        match self {
            Small(n) => Some(*n),
            Big(_) => None,
        }
    }

    pub fn is_zero(&self) -> bool {
        *self == Small(0)
    }

    /// One less; 0 stays.
    pub fn before(&self) -> Number {
        self.minus(&Small(1))
    }

    pub fn plus(&self, other: &Number) -> Number {
        if let (Small(a), Small(b)) = (self, other) {
            if let Some(sum) = a.checked_add(*b) {
                return Small(sum);
            }
        }
        let (a, b) = (self.limbs(), other.limbs());
        let mut carry = 0;
        let mut sum = Vec::new();
        for i in 0..=a.len().max(b.len()) {
            carry += u64::from(limb(&a, i)) + u64::from(limb(&b, i));
            sum.push(carry as u32);
            carry >>= 32;
        }
        Number::from_limbs(sum)
    }

    /// 0 where the other is larger.
    pub fn minus(&self, other: &Number) -> Number {
        if let (Small(a), Small(b)) = (self, other) {
            return Small(a.saturating_sub(*b));
        }
        if (*self).cmp(other) == Ordering::Less {
            return Small(0);
        }
        let (a, b) = (self.limbs(), other.limbs());
        let mut borrow = 0i64;
        let mut rest = Vec::new();
        for (i, &x) in a.iter().enumerate() {
            let mut digit = i64::from(x) - i64::from(limb(&b, i)) - borrow;
            borrow = i64::from(digit < 0);
            digit += borrow << 32;
            rest.push(digit as u32);
        }
        Number::from_limbs(rest)
    }

    pub fn times(&self, other: &Number) -> Number {
        if let (Small(a), Small(b)) = (self, other) {
            if let Some(product) = a.checked_mul(*b) {
                return Small(product);
            }
        }
        let (a, b) = (self.limbs(), other.limbs());
        let mut product = vec![0u32; a.len() + b.len() + 1];
        for (i, &x) in a.iter().enumerate() {
            let mut carry = 0u64;
            for j in 0..=b.len() {
                carry += u64::from(product[i + j]) + u64::from(x) * u64::from(limb(&b, j));
                product[i + j] = carry as u32;
                carry >>= 32;
            }
        }
        Number::from_limbs(product)
    }

    /// The quotient and the rest; by 0 the quotient is 0 and the rest the number itself.
    pub fn divided(&self, by: &Number) -> (Number, Number) {
        if by.is_zero() {
            return (Small(0), self.clone());
        }
        if let (Small(a), Small(b)) = (self, by) {
            return (Small(a / b), Small(a % b));
        }
        let (a, b) = (self.limbs(), by.limbs());
        if let Some(bits) = single_bit(&b) {
            return (shifted_down(&a, bits), lowest_bits(&a, bits));
        }
        if let [b] = b[..] {
            return divided_by_limb(&a, b);
        }
        divided_by_bits(&a, by)
    }

    /// None where it would be too long.
    pub fn power(&self, of: &Number) -> Option<Number> {
        let of = match (self, of) {
            (_, Small(0)) | (Small(1), _) => return Some(Small(1)),
            (Small(0), _) => return Some(Small(0)),
            (_, of) => of.small()? as usize,
        };
        if self.limbs().len().checked_mul(32)?.checked_mul(of)? > MOST_BITS {
            return None;
        }
        if *self == Small(2) {
            let mut limbs = vec![0; of / 32 + 1];
            limbs[of / 32] = 1 << (of % 32);
            return Some(Number::from_limbs(limbs));
        }
        Some((0..of).fold(Small(1), |product, _| product.times(self)))
    }

    pub fn parse(text: &str) -> Option<Number> {
        let text = text.replace('_', "");
        let (digits, base) = match text.get(..2) {
            Some("0x") => (&text[2..], 16),
            Some("0o") => (&text[2..], 8),
            Some("0b") => (&text[2..], 2),
            _ => (&text[..], 10),
        };
        if digits.is_empty() {
            return None;
        }
        digits.chars().try_fold(Small(0), |n, digit| {
            Some(n.times(&Small(base)).plus(&Small(digit.to_digit(base as u32)?.into())))
        })
    }
}

impl Ord for Number {
    fn cmp(&self, other: &Number) -> Ordering {
        match (self, other) {
            (Small(a), Small(b)) => a.cmp(b),
            (Small(_), Big(_)) => Ordering::Less,
            (Big(_), Small(_)) => Ordering::Greater,
            (Big(a), Big(b)) => a.len().cmp(&b.len()).then_with(|| a.iter().rev().cmp(b.iter().rev())),
        }
    }
}

impl PartialOrd for Number {
    fn partial_cmp(&self, other: &Number) -> Option<Ordering> {
        Some(self.cmp(other))
    }
}

fn trim(mut limbs: Vec<u32>) -> Vec<u32> {
    while limbs.last() == Some(&0) {
        limbs.pop();
    }
    limbs
}

fn limb(limbs: &[u32], i: usize) -> u32 {
    limbs.get(i).copied().unwrap_or(0)
}

/// The place of the only bit.
fn single_bit(limbs: &[u32]) -> Option<usize> {
    let (last, lower) = limbs.split_last()?;
    let alone = last.is_power_of_two() && lower.iter().all(|&limb| limb == 0);
    alone.then(|| 32 * lower.len() + last.trailing_zeros() as usize)
}

fn shifted_down(limbs: &[u32], bits: usize) -> Number {
    let (whole, part) = (bits / 32, bits % 32);
    let both = |i: usize| u64::from(limb(limbs, i)) | u64::from(limb(limbs, i + 1)) << 32;
    Number::from_limbs((whole..limbs.len().max(whole)).map(|i| (both(i) >> part) as u32).collect())
}

fn lowest_bits(limbs: &[u32], bits: usize) -> Number {
    let mut low: Vec<u32> = limbs.iter().copied().take(bits / 32 + 1).collect();
    if let Some(last) = low.get_mut(bits / 32) {
        *last &= ((1u64 << (bits % 32)) - 1) as u32;
    }
    Number::from_limbs(low)
}

fn divided_by_limb(limbs: &[u32], by: u32) -> (Number, Number) {
    let mut quotient = vec![0; limbs.len()];
    let mut rest = 0u64;
    for (i, &limb) in limbs.iter().enumerate().rev() {
        rest = rest << 32 | u64::from(limb);
        quotient[i] = (rest / u64::from(by)) as u32;
        rest %= u64::from(by);
    }
    (Number::from_limbs(quotient), Small(rest))
}

fn divided_by_bits(limbs: &[u32], by: &Number) -> (Number, Number) {
    let mut quotient = vec![0; limbs.len()];
    let mut rest = Small(0);
    for bit in (0..32 * limbs.len()).rev() {
        rest = rest.plus(&rest).plus(&Small((limbs[bit / 32] >> (bit % 32) & 1).into()));
        if rest >= *by {
            rest = rest.minus(by);
            quotient[bit / 32] |= 1 << (bit % 32);
        }
    }
    (Number::from_limbs(quotient), rest)
}

#[cfg(test)]
mod tests {
    use super::*;

    fn number(text: &str) -> Number {
        Number::parse(text).unwrap()
    }

    #[test]
    fn words_and_limbs_agree() {
        let large = Small(2).power(&Small(100)).unwrap();
        assert_eq!(large, number("1267650600228229401496703205376"));
        assert_eq!(large.minus(&Small(1)).plus(&Small(1)), large);
        assert_eq!(large.divided(&Small(2).power(&Small(99)).unwrap()), (Small(2), Small(0)));
        assert_eq!(large.plus(&Small(5)).divided(&Small(7)).0, number("181092942889747057356671886483"));
        let (quotient, rest) = large.divided(&number("1267650600228229401496703205375"));
        assert_eq!((quotient, rest), (Small(1), Small(1)));
        assert_eq!(large.times(&large), Small(2).power(&Small(200)).unwrap());
        assert_eq!(Small(3).minus(&large), Small(0));
        assert!(Small(u64::MAX) < large);
        assert_eq!(number("0xFF"), Small(255));
    }
}
