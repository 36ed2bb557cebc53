//! Rounding of exact values to binary64 and binary32 patterns, in four directions.

use crate::bigint::Integer;
use crate::kinds::UNIT_POWER;
use crate::refusal::Refusal;

#[derive(Clone, Copy, Debug, PartialEq, Eq)]
pub enum Direction {
    /// Of two numbers that are equally near, the larger in size.
    Nearest,
    TowardZero,
    Up,
    Down,
}

impl Direction {
    pub fn named(word: &str) -> Result<Direction, String> {
        match word {
            "nearest" => Ok(Direction::Nearest),
            "zero" => Ok(Direction::TowardZero),
            "up" => Ok(Direction::Up),
            "down" => Ok(Direction::Down),
            _ => Err(format!("{word} is no direction")),
        }
    }
}

/// The width of a reading: binary64, or binary32.
#[derive(Clone, Copy, Debug, PartialEq, Eq)]
pub enum Width {
    Long,
    Short,
}

impl Width {
    pub fn named(word: &str) -> Result<Width, String> {
        match word {
            "long" => Ok(Width::Long),
            "short" => Ok(Width::Short),
            _ => Err(format!("{word} is no width")),
        }
    }

    pub fn format(self) -> Format {
        match self {
            Width::Long => BINARY64,
            Width::Short => BINARY32,
        }
    }
}

/// A binary format of IEEE 754: the bits of its fraction and of its exponent field.
#[derive(Clone, Copy, Debug, PartialEq, Eq)]
pub struct Format {
    fraction_bits: u32,
    exponent_bits: u32,
}

pub const BINARY64: Format = Format {
    fraction_bits: 52,
    exponent_bits: 11,
};
pub const BINARY32: Format = Format {
    fraction_bits: 23,
    exponent_bits: 8,
};

/// The exact value integer times 2^power.
#[derive(Clone, Debug)]
pub struct Exact {
    integer: Integer,
    power: i32,
}

impl Exact {
    pub fn new(integer: Integer, power: i32) -> Self {
        Exact { integer, power }
    }

    /// The value of a total in units.
    pub fn of_total(total: &Integer) -> Self {
        Exact::new(total.clone(), UNIT_POWER)
    }

    fn is_negative(&self) -> bool {
        self.integer.is_negative()
    }

    fn size(&self) -> Self {
        Exact::new(self.integer.size(), self.power)
    }

    /// The whole number of times that 2^power is contained, where power is not
    /// above the value's own.
    fn at(&self, power: i32) -> Integer {
        self.integer.shifted_left((self.power - power) as u32)
    }

    /// Both values as whole numbers of one common power of two.
    fn aligned(&self, other: &Exact) -> (Integer, Integer) {
        let power = self.power.min(other.power);
        (self.at(power), other.at(power))
    }

    fn is_at_most(&self, other: &Exact) -> bool {
        let (a, b) = self.aligned(other);
        a <= b
    }

    fn minus(&self, other: &Exact) -> Exact {
        let (a, b) = self.aligned(other);
        Exact::new(&a - &b, self.power.min(other.power))
    }
}

impl Format {
    /// The power of two of the least number above zero.
    fn least_power(&self) -> i32 {
        2 - (1 << (self.exponent_bits - 1)) - self.fraction_bits as i32
    }

    /// The bit of the sign.
    fn sign(&self) -> u64 {
        1 << (self.fraction_bits + self.exponent_bits)
    }

    /// The pattern of plus infinity; the finite patterns without sign lie below it.
    fn infinity(&self) -> u64 {
        ((1 << self.exponent_bits) - 1) << self.fraction_bits
    }

    /// The number that a finite pattern without sign encodes. The pattern of
    /// infinity gives the number that would follow the largest one.
    fn size_of(&self, pattern: u64) -> Exact {
        let field = (pattern >> self.fraction_bits) as i32;
        let fraction = pattern % (1 << self.fraction_bits);
        match field {
            0 => Exact::new(Integer::from(fraction), self.least_power()),
            _ => Exact::new(
                Integer::from((1 << self.fraction_bits) + fraction),
                self.least_power() + field - 1,
            ),
        }
    }

    /// The value of a finite pattern.
    fn value_of(&self, pattern: u64) -> Exact {
        let size = self.size_of(pattern % self.sign());
        match pattern >= self.sign() {
            true => Exact::new(-&size.integer, size.power),
            false => size,
        }
    }

    /// The largest finite pattern without sign whose number is not above the
    /// size. Larger patterns encode larger numbers, so halving the range finds it.
    fn floor(&self, size: &Exact) -> u64 {
        let (mut low, mut high) = (0, self.infinity());
        while high - low > 1 {
            let middle = low + (high - low) / 2;
            if self.size_of(middle).is_at_most(size) {
                low = middle;
            } else {
                high = middle;
            }
        }
        low
    }

    /// The pattern of the value rounded in the direction. Zero is plus zero; a
    /// value other than zero that becomes zero keeps its sign.
    pub fn round(&self, value: &Exact, direction: Direction) -> u64 {
        let size = value.size();
        let below = self.floor(&size);
        let excess = size.minus(&self.size_of(below));
        let grows = !excess.integer.is_zero()
            && match direction {
                Direction::TowardZero => false,
                Direction::Up => !value.is_negative(),
                Direction::Down => value.is_negative(),
                Direction::Nearest => {
                    let missing = self.size_of(below + 1).minus(&size);
                    missing.is_at_most(&excess)
                }
            };
        let sign = if value.is_negative() { self.sign() } else { 0 };
        sign + below + u64::from(grows)
    }

    /// Whether the value lies halfway between two neighbouring numbers.
    pub fn is_tie(&self, value: &Exact) -> bool {
        let size = value.size();
        let below = self.floor(&size);
        let excess = size.minus(&self.size_of(below));
        let missing = self.size_of(below + 1).minus(&size);
        excess.is_at_most(&missing) && missing.is_at_most(&excess)
    }

    /// The pattern of the value rounded in the direction, where nearest takes
    /// the even one of two patterns that are equally near.
    pub fn round_ties_to_even(&self, value: &Exact, direction: Direction) -> u64 {
        let away = self.round(value, direction);
        let tie = direction == Direction::Nearest && self.is_tie(value);
        match tie && away % 2 == 1 {
            true => away - 1,
            false => away,
        }
    }
}

/// The long reading of a total in units.
pub fn long_reading(total: &Integer, direction: Direction) -> u64 {
    BINARY64.round(&Exact::of_total(total), direction)
}

/// The short reading: the long reading rounded once more in the same direction
/// to binary32. Refused where the long reading is above the largest binary32
/// number in size.
pub fn short_reading(total: &Integer, direction: Direction) -> Result<u64, Refusal> {
    short_of_long(long_reading(total, direction), direction)
}

/// The reading of a total in a form.
pub fn reading(total: &Integer, width: Width, direction: Direction) -> Result<u64, Refusal> {
    match width {
        Width::Long => Ok(long_reading(total, direction)),
        Width::Short => short_reading(total, direction),
    }
}

/// The short reading made from the long reading of a total. Only total zero has
/// the long reading zero, so the sign of the value is the sign to keep.
fn short_of_long(long: u64, direction: Direction) -> Result<u64, Refusal> {
    let value = BINARY64.value_of(long);
    let largest = BINARY32.size_of(BINARY32.infinity() - 1);
    if !value.size().is_at_most(&largest) {
        return Err(Refusal::too_large());
    }
    Ok(BINARY32.round(&value, direction))
}

#[cfg(test)]
mod tests {
    use super::*;

    const ALL: [Direction; 4] = [
        Direction::Nearest,
        Direction::TowardZero,
        Direction::Up,
        Direction::Down,
    ];

    fn exact(text: &str, power: i32) -> Exact {
        Exact::new(Integer::from_hexadecimal(text).unwrap(), power)
    }

    /// The patterns in the order nearest, toward zero, up, down.
    fn rounded(format: Format, text: &str, power: i32) -> [u64; 4] {
        ALL.map(|direction| format.round(&exact(text, power), direction))
    }

    #[test]
    fn limits_of_the_formats() {
        assert_eq!(BINARY64.least_power(), -1074);
        assert_eq!(BINARY32.least_power(), -149);
        assert_eq!(BINARY64.infinity(), 0x7ff0000000000000);
        assert_eq!(BINARY32.infinity(), 0x7f800000);
    }

    #[test]
    fn exact_numbers_read_as_themselves() {
        assert_eq!(rounded(BINARY64, "0", 0), [0; 4]);
        assert_eq!(rounded(BINARY64, "1", 0), [0x3ff0000000000000; 4]);
        assert_eq!(rounded(BINARY64, "-3", -1), [0xbff8000000000000; 4]);
        assert_eq!(rounded(BINARY64, "1", -1074), [1; 4]);
        assert_eq!(rounded(BINARY64, "-1", -1022), [0x8010000000000000; 4]);
        assert_eq!(
            rounded(BINARY64, "1fffffffffffff", 971),
            [0x7fefffffffffffff; 4]
        );
        assert_eq!(rounded(BINARY32, "1", 0), [0x3f800000; 4]);
        assert_eq!(rounded(BINARY32, "-1", -149), [0x80000001; 4]);
        assert_eq!(rounded(BINARY32, "ffffff", 104), [0x7f7fffff; 4]);
    }

    #[test]
    fn a_remainder_far_below_the_last_bit_counts() {
        // 1 + 2^-2000 and its negation
        let text = format!("1{}1", "0".repeat(499));
        let one = 0x3ff0000000000000;
        assert_eq!(rounded(BINARY64, &text, -2000), [one, one, one + 1, one]);
        let minus = one + (1 << 63);
        assert_eq!(
            rounded(BINARY64, &format!("-{text}"), -2000),
            [minus, minus, minus, minus + 1]
        );
    }

    #[test]
    fn ties_go_away_from_zero() {
        // 1 + 2^-53 lies halfway between 1 and 1 + 2^-52
        let one = 0x3ff0000000000000;
        assert_eq!(
            rounded(BINARY64, "20000000000001", -53),
            [one + 1, one, one + 1, one]
        );
        // 1 + 2^-53 - 2^-60 and 1 + 2^-53 + 2^-60
        assert_eq!(
            rounded(BINARY64, "100000000000007f", -60),
            [one, one, one + 1, one]
        );
        assert_eq!(
            rounded(BINARY64, "1000000000000081", -60),
            [one + 1, one, one + 1, one]
        );
        // half of the least number
        let minus = 1 << 63;
        assert_eq!(rounded(BINARY64, "1", -1075), [1, 0, 1, 0]);
        assert_eq!(
            rounded(BINARY64, "-1", -1075),
            [minus + 1, minus, minus, minus + 1]
        );
    }

    #[test]
    fn a_carry_passes_into_the_exponent() {
        // 2^54 - 1 lies halfway between 2^54 - 2 and 2^54
        assert_eq!(
            rounded(BINARY64, "3fffffffffffff", 0),
            [
                0x4350000000000000,
                0x434fffffffffffff,
                0x4350000000000000,
                0x434fffffffffffff
            ]
        );
        // 2^-1022 - 2^-1075, below the least normal number
        assert_eq!(
            rounded(BINARY64, "1fffffffffffff", -1075),
            [
                0x0010000000000000,
                0x000fffffffffffff,
                0x0010000000000000,
                0x000fffffffffffff
            ]
        );
    }

    #[test]
    fn what_is_too_large_becomes_infinite_or_the_largest() {
        let infinity = 0x7ff0000000000000;
        assert_eq!(
            rounded(BINARY64, "1", 1024),
            [infinity, infinity - 1, infinity, infinity - 1]
        );
        // 2^1024 - 2^970 lies halfway, and one less than that below
        assert_eq!(
            rounded(BINARY64, "3fffffffffffff", 970),
            [infinity, infinity - 1, infinity, infinity - 1]
        );
        assert_eq!(rounded(BINARY64, "3fffffffffffffff", 962)[0], infinity);
        assert_eq!(rounded(BINARY64, "3ffffffffffffeff", 962)[0], infinity - 1);
    }

    /// A total of text times 2^power.
    fn total(text: &str, power: i32) -> Integer {
        exact(text, power).at(UNIT_POWER)
    }

    #[test]
    fn total_zero_is_plus_zero_in_every_form() {
        for direction in ALL {
            assert_eq!(long_reading(&Integer::zero(), direction), 0);
            assert_eq!(short_reading(&Integer::zero(), direction), Ok(0));
        }
    }

    #[test]
    fn short_readings_round_the_long_one() {
        // 1 + 2^-24 + 2^-60: long nearest is 1 + 2^-24, a tie in binary32
        let sum = total("1000001000000001", -60);
        assert_eq!(long_reading(&sum, Direction::Nearest), 0x3ff0000010000000);
        assert_eq!(short_reading(&sum, Direction::Nearest), Ok(0x3f800001));
        assert_eq!(short_reading(&sum, Direction::Up), Ok(0x3f800001));
        assert_eq!(short_reading(&sum, Direction::Down), Ok(0x3f800000));
        // 1 + 2^-24 - 2^-60: the long nearest reading is the tie, and goes up once more
        let sum = total("1000000fffffffff", -60);
        assert_eq!(long_reading(&sum, Direction::Nearest), 0x3ff0000010000000);
        assert_eq!(short_reading(&sum, Direction::Nearest), Ok(0x3f800001));
        assert_eq!(short_reading(&sum, Direction::TowardZero), Ok(0x3f800000));
    }

    #[test]
    fn short_readings_of_tiny_totals_keep_their_sign() {
        let least = total("1", -1074);
        let minus = -&least;
        assert_eq!(
            ALL.map(|d| short_reading(&least, d)),
            [Ok(0), Ok(0), Ok(1), Ok(0)]
        );
        let sign = 0x80000000;
        assert_eq!(
            ALL.map(|d| short_reading(&minus, d)),
            [Ok(sign), Ok(sign), Ok(sign), Ok(sign + 1)]
        );
    }

    #[test]
    fn short_readings_end_at_the_largest_number() {
        let largest = total("ffffff", 104);
        for direction in ALL {
            assert_eq!(short_reading(&largest, direction), Ok(0x7f7fffff));
            assert_eq!(short_reading(&-&largest, direction), Ok(0xff7fffff));
        }
        // one unit above: the long reading decides
        let above = &largest + &Integer::from(1u64);
        assert_eq!(short_reading(&above, Direction::Nearest), Ok(0x7f7fffff));
        assert_eq!(short_reading(&above, Direction::TowardZero), Ok(0x7f7fffff));
        assert_eq!(short_reading(&above, Direction::Down), Ok(0x7f7fffff));
        assert_eq!(
            short_reading(&above, Direction::Up),
            Err(Refusal::too_large())
        );
        assert_eq!(
            short_reading(&-&above, Direction::Down),
            Err(Refusal::too_large())
        );
        assert_eq!(short_reading(&-&above, Direction::Up), Ok(0xff7fffff));
        // the next binary64 number above
        let next = &largest + &total("1", 75);
        for direction in ALL {
            assert_eq!(short_reading(&next, direction), Err(Refusal::too_large()));
        }
    }
}
