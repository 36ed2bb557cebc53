//! The kinds of number, and the value of each element in units of 2^-1074.

use crate::bigint::Integer;

/// Every value here is a whole number of units, and a unit is 2 to this power.
pub const UNIT_POWER: i32 = -1074;

/// An element of a kind.
#[derive(Clone, Copy, Debug, PartialEq, Eq)]
pub enum Element {
    /// The binary64 encoding of IEEE 754: letter `p`, 64 bits.
    Pattern(u64),
    /// A signed whole number: letter `c`, 32 bits.
    Count(i32),
}

/// The sign, exponent field and fraction of a binary64 pattern.
pub struct Fields {
    pub negative: bool,
    pub exponent: u32,
    pub fraction: u64,
}

impl Fields {
    pub fn of(pattern: u64) -> Self {
        Fields {
            negative: pattern >> 63 == 1,
            exponent: (pattern >> 52) as u32 % 2048,
            fraction: pattern % (1 << 52),
        }
    }
}

impl Element {
    /// The value in units of 2^-1074, or none where it is not finite.
    pub fn value(&self) -> Option<Integer> {
        match *self {
            Element::Pattern(pattern) => pattern_value(pattern),
            Element::Count(count) => {
                Some(Integer::from(i64::from(count)).shifted_left(UNIT_POWER.unsigned_abs()))
            }
        }
    }
}

/// Field 0 holds fraction units. A field from 1 to 2046 holds 2^52 + fraction,
/// doubled once less than the field says. Field 2047 is infinite or not a number.
fn pattern_value(pattern: u64) -> Option<Integer> {
    let fields = Fields::of(pattern);
    let size = match fields.exponent {
        2047 => return None,
        0 => Integer::from(fields.fraction),
        field => Integer::from((1 << 52) + fields.fraction).shifted_left(field - 1),
    };
    Some(if fields.negative { -&size } else { size })
}

#[cfg(test)]
mod tests {
    use super::*;

    fn units(power: u32) -> Integer {
        Integer::power_of_two(power)
    }

    #[test]
    fn values_of_patterns() {
        let value = |pattern| Element::Pattern(pattern).value();
        assert_eq!(value(0), Some(Integer::zero()));
        assert_eq!(value(0x8000000000000000), Some(Integer::zero()));
        assert_eq!(value(1), Some(units(0)));
        assert_eq!(value(0x8000000000000001), Some(-&units(0)));
        // 2^-1022 is 2^52 units, with field 1
        assert_eq!(value(0x0010000000000000), Some(units(52)));
        assert_eq!(value(0x000fffffffffffff), Some(&units(52) - &units(0)));
        // 1 is 2^1074 units, with field 1023
        assert_eq!(value(0x3ff0000000000000), Some(units(1074)));
        assert_eq!(
            value(0xbff8000000000000),
            Some(-&(&units(1074) + &units(1073)))
        );
        // the largest is (2^53 - 1) * 2^971
        assert_eq!(value(0x7fefffffffffffff), Some(&units(2098) - &units(2045)));
        for pattern in [
            0x7ff0000000000000,
            0xfff0000000000000,
            0x7ff0000000000001,
            0xffffffffffffffff,
        ] {
            assert_eq!(value(pattern), None);
        }
    }

    #[test]
    fn values_of_counts() {
        let value = |count| Element::Count(count).value();
        assert_eq!(value(0), Some(Integer::zero()));
        assert_eq!(value(1), Some(units(1074)));
        assert_eq!(value(i32::MIN), Some(-&units(1105)));
        assert_eq!(value(i32::MAX), Some(&units(1105) - &units(1074)));
    }
}
