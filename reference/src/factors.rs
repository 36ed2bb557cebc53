//! Factors made of elements, and the piece that a product of two factors gives.

use crate::bigint::Integer;
use crate::kinds::{Element, Fields, UNIT_POWER};

/// Every factor has a significand below this.
const SIGNIFICAND_LIMIT: u64 = 1 << 26;
/// Every factor has an exponent from `LEAST_EXPONENT` to `GREATEST_EXPONENT`.
const LEAST_EXPONENT: i32 = -536;
const GREATEST_EXPONENT: i32 = 458;
/// A value other than zero is accepted from 2 to this power upward.
const LEAST_POWER: i32 = -511;

/// Plus or minus significand times 2^exponent. Zero is plus 0 times 2^0.
#[derive(Clone, Copy, Debug, PartialEq, Eq)]
pub struct Factor {
    pub negative: bool,
    pub significand: u64,
    pub exponent: i32,
}

/// Why an element has no factor.
#[derive(Clone, Copy, Debug, PartialEq, Eq)]
pub enum Unfit {
    /// It has no finite value.
    NotFinite,
    /// Its value is no factor's value, or lies below 2^-511 in size.
    OutsideWindow,
}

/// What a product is put as: plus or minus number times 2^exponent.
#[derive(Clone, Copy, Debug, PartialEq, Eq)]
pub struct Piece {
    pub negative: bool,
    pub number: u64,
    pub exponent: i32,
}

/// Plus or minus `number` times 2^`exponent`, in units.
fn in_units(negative: bool, number: u64, exponent: i32) -> Integer {
    let size = Integer::from(number).shifted_left((exponent - UNIT_POWER) as u32);
    if negative {
        -&size
    } else {
        size
    }
}

impl Factor {
    const ZERO: Factor = Factor {
        negative: false,
        significand: 0,
        exponent: 0,
    };

    /// The factor of an element. The rule of its kind and the one definition of
    /// acceptance for all kinds are both worked out, and have to agree.
    pub fn of(element: Element) -> Result<Factor, Unfit> {
        let by_kind = match element {
            Element::Pattern(pattern) => Factor::of_pattern(pattern),
            Element::Count(count) => Factor::of_count(count),
        };
        let value = element.value();
        match &by_kind {
            Ok(factor) => {
                assert!(value.as_ref().is_some_and(is_accepted) && value == Some(factor.value()))
            }
            Err(Unfit::NotFinite) => assert!(value.is_none()),
            Err(Unfit::OutsideWindow) => assert!(value.is_some_and(|v| !is_accepted(&v))),
        }
        by_kind
    }

    fn of_pattern(pattern: u64) -> Result<Factor, Unfit> {
        let fields = Fields::of(pattern);
        match fields.exponent {
            0 if fields.fraction == 0 => Ok(Factor::ZERO),
            512..=1506 if fields.fraction.is_multiple_of(1 << 27) => Ok(Factor {
                negative: fields.negative,
                significand: (1 << 25) + fields.fraction / (1 << 27),
                exponent: fields.exponent as i32 - 1048,
            }),
            2047 => Err(Unfit::NotFinite),
            _ => Err(Unfit::OutsideWindow),
        }
    }

    fn of_count(count: i32) -> Result<Factor, Unfit> {
        let mut significand = u64::from(count.unsigned_abs());
        let mut exponent = 0;
        while significand >= SIGNIFICAND_LIMIT {
            if significand % 2 == 1 {
                return Err(Unfit::OutsideWindow);
            }
            significand /= 2;
            exponent += 1;
        }
        Ok(Factor {
            negative: count < 0,
            significand,
            exponent,
        })
    }

    /// The value in units.
    pub fn value(&self) -> Integer {
        in_units(self.negative, self.significand, self.exponent)
    }

    /// The piece of a product.
    pub fn times(&self, other: &Factor) -> Piece {
        let number = self.significand * other.significand;
        if number == 0 {
            return Piece {
                negative: false,
                number: 0,
                exponent: 0,
            };
        }
        Piece {
            negative: self.negative != other.negative,
            number,
            exponent: self.exponent + other.exponent,
        }
    }
}

/// Whether a value in units is a factor's value and is zero or at least 2^-511
/// in size. The least exponent that keeps the significand below its limit
/// divides best, so it decides.
fn is_accepted(value: &Integer) -> bool {
    if value.is_zero() {
        return true;
    }
    let fitting = value.digits() as i32 + UNIT_POWER - 26;
    let exponent = fitting.max(LEAST_EXPONENT);
    value.size() >= Integer::power_of_two((LEAST_POWER - UNIT_POWER) as u32)
        && exponent <= GREATEST_EXPONENT
        && value.is_multiple_of_power((exponent - UNIT_POWER) as u32)
}

impl Piece {
    /// The piece of a withdrawal: the opposite sign, zero excepted.
    pub fn withdrawn(&self) -> Piece {
        Piece {
            negative: !self.negative && self.number != 0,
            ..*self
        }
    }

    /// The value in units.
    pub fn value(&self) -> Integer {
        in_units(self.negative, self.number, self.exponent)
    }
}

#[cfg(test)]
mod tests {
    use super::*;
    use crate::generate::Generator;

    fn pattern(pattern: u64) -> Result<Factor, Unfit> {
        Factor::of(Element::Pattern(pattern))
    }

    fn count(count: i32) -> Result<Factor, Unfit> {
        Factor::of(Element::Count(count))
    }

    fn factor(negative: bool, significand: u64, exponent: i32) -> Result<Factor, Unfit> {
        Ok(Factor {
            negative,
            significand,
            exponent,
        })
    }

    #[test]
    fn patterns_at_the_ends_of_the_window() {
        assert_eq!(pattern(0x2000000000000000), factor(false, 1 << 25, -536));
        assert_eq!(pattern(0xa000000000000000), factor(true, 1 << 25, -536));
        // fraction 2^52 - 2^27, so 2^25 + 2^25 - 1; field 1506
        assert_eq!(
            pattern(0x5e2ffffff8000000),
            factor(false, (1 << 26) - 1, 458)
        );
        assert_eq!(
            pattern(0xde2ffffff8000000),
            factor(true, (1 << 26) - 1, 458)
        );
        assert_eq!(pattern(0x1ffffffff8000000), Err(Unfit::OutsideWindow));
        assert_eq!(pattern(0x5e30000000000000), Err(Unfit::OutsideWindow));
        assert_eq!(pattern(0x5e2ffffffc000000), Err(Unfit::OutsideWindow));
        assert_eq!(pattern(0x3ff0000004000000), Err(Unfit::OutsideWindow));
        assert_eq!(
            pattern(0x3ff0000008000000),
            factor(false, (1 << 25) + 1, -25)
        );
        assert_eq!(pattern(0x7fefffffffffffff), Err(Unfit::OutsideWindow));
    }

    #[test]
    fn zeros_and_what_is_not_finite() {
        assert_eq!(pattern(0), factor(false, 0, 0));
        assert_eq!(pattern(0x8000000000000000), factor(false, 0, 0));
        assert_eq!(pattern(1), Err(Unfit::OutsideWindow));
        for p in [
            0x7ff8000000000000,
            0x7ff0000000000000,
            0xfff0000000000000,
            0x7ff0000000000001,
        ] {
            assert_eq!(pattern(p), Err(Unfit::NotFinite));
        }
    }

    #[test]
    fn counts() {
        assert_eq!(count(0), factor(false, 0, 0));
        assert_eq!(count(-1), factor(true, 1, 0));
        assert_eq!(count(67_108_863), factor(false, 67_108_863, 0));
        assert_eq!(count(67_108_864), factor(false, 33_554_432, 1));
        assert_eq!(count(67_108_865), Err(Unfit::OutsideWindow));
        assert_eq!(count(67_108_866), factor(false, 33_554_433, 1));
        assert_eq!(count(i32::MIN), factor(true, 1 << 25, 6));
        assert_eq!(count(i32::MAX), Err(Unfit::OutsideWindow));
        // (2^26 - 1) * 2^5 is the largest count that is accepted
        assert_eq!(count(2_147_483_616), factor(false, 67_108_863, 5));
    }

    #[test]
    fn products() {
        let large = Factor {
            negative: false,
            significand: 67_108_863,
            exponent: 0,
        };
        let piece = Piece {
            negative: false,
            number: 4_503_599_493_152_769,
            exponent: 0,
        };
        assert_eq!(large.times(&large), piece);
        assert_eq!(
            piece.withdrawn(),
            Piece {
                negative: true,
                ..piece
            }
        );
        let zero = Piece {
            negative: false,
            number: 0,
            exponent: 0,
        };
        let minus = Factor {
            negative: true,
            significand: 3,
            exponent: 7,
        };
        assert_eq!(Factor::ZERO.times(&minus), zero);
        assert_eq!(zero.withdrawn(), zero);
        assert_eq!(
            minus.times(&minus),
            Piece {
                negative: false,
                number: 9,
                exponent: 14
            }
        );
    }

    /// Whether some significand and exponent within the limits give the value,
    /// by trying every exponent.
    fn is_accepted_by_search(value: &Integer) -> bool {
        let least = Integer::power_of_two((LEAST_POWER - UNIT_POWER) as u32);
        let limit = Integer::from(SIGNIFICAND_LIMIT);
        value.is_zero()
            || (value.size() >= least
                && (LEAST_EXPONENT..=GREATEST_EXPONENT).any(|exponent| {
                    let power = (exponent - UNIT_POWER) as u32;
                    value.is_multiple_of_power(power) && value.size() < limit.shifted_left(power)
                }))
    }

    #[test]
    fn the_rule_of_each_kind_is_the_definition_of_acceptance() {
        let mut random = Generator::new(1);
        let fields = [
            0, 1, 2, 511, 512, 513, 1022, 1023, 1505, 1506, 1507, 2046, 2047,
        ];
        let fractions = [
            0,
            1,
            1 << 26,
            1 << 27,
            3 << 26,
            1 << 51,
            (1 << 52) - (1 << 27),
            (1 << 52) - 1,
        ];
        let mut elements = Vec::new();
        for field in fields {
            for fraction in fractions {
                for sign in [0, 1 << 63] {
                    elements.push(Element::Pattern(sign | field << 52 | fraction));
                }
            }
        }
        for _ in 0..300 {
            elements.push(Element::Pattern(random.number()));
            elements.push(Element::Pattern(random.number() >> 27 << 27));
            let count = random.number() as i32;
            elements.push(Element::Count(count));
            elements.push(Element::Count(count >> 5 << 5));
        }
        for element in elements {
            let accepted = element.value().is_some_and(|v| is_accepted_by_search(&v));
            assert_eq!(Factor::of(element).is_ok(), accepted, "{element:?}");
        }
    }
}
