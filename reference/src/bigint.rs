//! Exact integers of any size: a sign, and a size in limbs of 32 bits.

use std::cmp::Ordering;
use std::ops::{Add, Mul, Neg, Sub};

/// A whole number. The limbs stand lowest first and the last one is not zero;
/// zero has no limbs and is not negative.
#[derive(Clone, Debug, PartialEq, Eq)]
pub struct Integer {
    negative: bool,
    limbs: Vec<u32>,
}

impl Integer {
    pub fn zero() -> Self {
        Integer {
            negative: false,
            limbs: Vec::new(),
        }
    }

    /// The number with this sign and size; the limbs may have zeros on top.
    fn from_limbs(negative: bool, mut limbs: Vec<u32>) -> Self {
        while limbs.last() == Some(&0) {
            limbs.pop();
        }
        let negative = negative && !limbs.is_empty();
        Integer { negative, limbs }
    }

    /// An optional `-` and hexadecimal digits of either case.
    pub fn from_hexadecimal(text: &str) -> Option<Self> {
        let (negative, digits) = match text.strip_prefix('-') {
            Some(rest) => (true, rest),
            None => (false, text),
        };
        if digits.is_empty() || !digits.bytes().all(|b| b.is_ascii_hexdigit()) {
            return None;
        }
        let limbs = digits
            .as_bytes()
            .rchunks(8)
            .map(|chunk| {
                let chunk = std::str::from_utf8(chunk).ok()?;
                u32::from_str_radix(chunk, 16).ok()
            })
            .collect::<Option<Vec<u32>>>()?;
        Some(Integer::from_limbs(negative, limbs))
    }

    /// 2 to the power of `n`.
    pub fn power_of_two(n: u32) -> Self {
        Integer::from(1u64).shifted_left(n)
    }

    pub fn is_zero(&self) -> bool {
        self.limbs.is_empty()
    }

    pub fn is_negative(&self) -> bool {
        self.negative
    }

    /// The number without its sign.
    pub fn size(&self) -> Self {
        Integer {
            negative: false,
            limbs: self.limbs.clone(),
        }
    }

    /// The number times 2 to the power of `n`.
    pub fn shifted_left(&self, n: u32) -> Self {
        let (whole, rest) = ((n / 32) as usize, n % 32);
        let mut limbs = vec![0; whole];
        let mut carried = 0u64;
        for &limb in &self.limbs {
            let wide = u64::from(limb) << rest | carried;
            limbs.push(wide as u32);
            carried = wide >> 32;
        }
        limbs.push(carried as u32);
        Integer::from_limbs(self.negative, limbs)
    }

    /// Whether the number is a multiple of 2 to the power of `n`.
    pub fn is_multiple_of_power(&self, n: u32) -> bool {
        self.is_zero() || self.trailing_zeros() >= n
    }

    /// How often the number can be halved without a remainder; 0 for zero.
    fn trailing_zeros(&self) -> u32 {
        let mut zeros = 0;
        for &limb in &self.limbs {
            zeros += limb.trailing_zeros();
            if limb != 0 {
                break;
            }
        }
        zeros
    }

    /// The number of binary digits of the size; 0 for zero.
    pub fn digits(&self) -> u32 {
        match self.limbs.last() {
            None => 0,
            Some(top) => 32 * self.limbs.len() as u32 - top.leading_zeros(),
        }
    }
}

impl From<u64> for Integer {
    fn from(n: u64) -> Self {
        Integer::from_limbs(false, vec![n as u32, (n >> 32) as u32])
    }
}

impl From<i64> for Integer {
    fn from(n: i64) -> Self {
        let size = n.unsigned_abs();
        Integer::from_limbs(n < 0, vec![size as u32, (size >> 32) as u32])
    }
}

fn compare_limbs(a: &[u32], b: &[u32]) -> Ordering {
    a.len()
        .cmp(&b.len())
        .then_with(|| a.iter().rev().cmp(b.iter().rev()))
}

fn add_limbs(a: &[u32], b: &[u32]) -> Vec<u32> {
    let mut sum = Vec::with_capacity(a.len().max(b.len()) + 1);
    let mut carried = 0u64;
    for i in 0..a.len().max(b.len()) {
        let x = u64::from(a.get(i).copied().unwrap_or(0));
        let y = u64::from(b.get(i).copied().unwrap_or(0));
        let wide = x + y + carried;
        sum.push(wide as u32);
        carried = wide >> 32;
    }
    sum.push(carried as u32);
    sum
}

/// `a` less `b`, where `b` is not the larger.
fn subtract_limbs(a: &[u32], b: &[u32]) -> Vec<u32> {
    let mut difference = Vec::with_capacity(a.len());
    let mut borrowed = 0i64;
    for (i, &limb) in a.iter().enumerate() {
        let y = i64::from(b.get(i).copied().unwrap_or(0));
        let wide = i64::from(limb) - y - borrowed;
        borrowed = i64::from(wide < 0);
        difference.push((wide + (borrowed << 32)) as u32);
    }
    difference
}

impl Neg for &Integer {
    type Output = Integer;
    fn neg(self) -> Integer {
        Integer::from_limbs(!self.negative, self.limbs.clone())
    }
}

impl Add for &Integer {
    type Output = Integer;
    fn add(self, other: &Integer) -> Integer {
        if self.negative == other.negative {
            return Integer::from_limbs(self.negative, add_limbs(&self.limbs, &other.limbs));
        }
        match compare_limbs(&self.limbs, &other.limbs) {
            Ordering::Less => {
                Integer::from_limbs(other.negative, subtract_limbs(&other.limbs, &self.limbs))
            }
            _ => Integer::from_limbs(self.negative, subtract_limbs(&self.limbs, &other.limbs)),
        }
    }
}

impl Sub for &Integer {
    type Output = Integer;
    fn sub(self, other: &Integer) -> Integer {
        self + &-other
    }
}

impl Mul for &Integer {
    type Output = Integer;
    fn mul(self, other: &Integer) -> Integer {
        let mut limbs = vec![0u32; self.limbs.len() + other.limbs.len()];
        for (i, &x) in self.limbs.iter().enumerate() {
            let mut carried = 0u64;
            for (j, &y) in other.limbs.iter().enumerate() {
                let wide = u64::from(x) * u64::from(y) + u64::from(limbs[i + j]) + carried;
                limbs[i + j] = wide as u32;
                carried = wide >> 32;
            }
            limbs[i + other.limbs.len()] = carried as u32;
        }
        Integer::from_limbs(self.negative != other.negative, limbs)
    }
}

impl Ord for Integer {
    fn cmp(&self, other: &Self) -> Ordering {
        match (self.negative, other.negative) {
            (false, false) => compare_limbs(&self.limbs, &other.limbs),
            (true, true) => compare_limbs(&other.limbs, &self.limbs),
            (true, false) => Ordering::Less,
            (false, true) => Ordering::Greater,
        }
    }
}

impl PartialOrd for Integer {
    fn partial_cmp(&self, other: &Self) -> Option<Ordering> {
        Some(self.cmp(other))
    }
}

#[cfg(test)]
mod tests {
    use super::*;

    fn hex(text: &str) -> Integer {
        Integer::from_hexadecimal(text).unwrap()
    }

    #[test]
    fn small_arithmetic_agrees_with_machine_integers() {
        let some = [
            0i64,
            1,
            -1,
            2,
            -3,
            31,
            32,
            0xffff_ffff,
            0x1_0000_0000,
            -0x1_0000_0001,
            1 << 40,
        ];
        for a in some {
            for b in some {
                let (x, y) = (Integer::from(a), Integer::from(b));
                assert_eq!(&x + &y, Integer::from(a + b));
                assert_eq!(&x - &y, Integer::from(a - b));
                assert_eq!(x.cmp(&y), a.cmp(&b));
                if let Some(product) = a.checked_mul(b) {
                    assert_eq!(&x * &y, Integer::from(product));
                }
            }
        }
    }

    #[test]
    fn carries_and_borrows_pass_through_limbs() {
        assert_eq!(
            &hex("ffffffffffffffffffffffff") + &hex("1"),
            hex("1000000000000000000000000")
        );
        assert_eq!(
            &hex("1000000000000000000000000") - &hex("1"),
            hex("ffffffffffffffffffffffff")
        );
        assert_eq!(&hex("-1") + &hex("1"), Integer::zero());
        // (2^64 - 1)^2 = 2^128 - 2^65 + 1
        assert_eq!(
            &hex("ffffffffffffffff") * &hex("-ffffffffffffffff"),
            hex("-fffffffffffffffe0000000000000001")
        );
    }

    #[test]
    fn shifts_and_digits() {
        assert_eq!(hex("-5").shifted_left(33), hex("-a00000000"));
        assert_eq!(hex("5").shifted_left(64), hex("50000000000000000"));
        assert_eq!(Integer::power_of_two(31), hex("80000000"));
        assert_eq!(Integer::zero().digits(), 0);
        assert_eq!(hex("80000000").digits(), 32);
        assert_eq!(hex("100000000").digits(), 33);
        assert!(hex("-c00000000").is_multiple_of_power(34));
        assert!(!hex("-c00000000").is_multiple_of_power(35));
        assert!(Integer::zero().is_multiple_of_power(1000));
    }

    #[test]
    fn hexadecimal_text() {
        assert_eq!(hex("0"), Integer::zero());
        assert_eq!(hex("-0"), Integer::zero());
        assert_eq!(hex("000000000000000000ff"), Integer::from(255u64));
        assert_eq!(hex("-Ff"), Integer::from(-255i64));
        for bad in ["", "-", "g", "1 ", "+1", "0x1"] {
            assert_eq!(Integer::from_hexadecimal(bad), None);
        }
    }
}
