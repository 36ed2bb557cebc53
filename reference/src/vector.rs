//! Rounding vectors: sums of products, each with the direction and the width to read it in.

use crate::bigint::Integer;
use crate::factors::Factor;
use crate::kinds::Element;
use crate::refusal::Refusal;
use crate::rounding::{reading, Direction, Exact, Width};

/// The sum in units, and the form that it is read in.
pub struct Vector {
    direction: Direction,
    width: Width,
    total: Integer,
}

/// Why a reading is not the pattern that IEEE 754 has for the value.
enum Reason {
    /// The value is a tie: IEEE 754 takes the even pattern, a reading the larger in size.
    Tie,
    /// The short reading rounds the long one, and the long one was rounded already.
    RoundedTwice,
}

/// A pattern in 16 hexadecimal digits.
pub fn pattern(word: &str) -> Result<u64, String> {
    let digits = word.len() == 16 && word.bytes().all(|byte| byte.is_ascii_hexdigit());
    match digits {
        true => u64::from_str_radix(word, 16).map_err(|e| e.to_string()),
        false => Err(format!("no pattern: {word}")),
    }
}

fn factor(word: &str) -> Result<Factor, String> {
    Factor::of(Element::Pattern(pattern(word)?)).map_err(|_| format!("no factor: {word}"))
}

impl Vector {
    /// The vector of a line: direction, width and the patterns of its products.
    pub fn read(line: &str) -> Result<Vector, String> {
        let words: Vec<&str> = line.split(' ').collect();
        let [direction, width, patterns @ ..] = &words[..] else {
            return Err(format!("no vector: {line}"));
        };
        let mut total = Integer::zero();
        for pair in patterns.chunks(2) {
            let [first, second] = pair else {
                return Err(format!("a pattern without its partner: {line}"));
            };
            let product = factor(first)?.times(&factor(second)?);
            total = &total + &product.value();
        }
        Ok(Vector {
            direction: Direction::named(direction)?,
            width: Width::named(width)?,
            total,
        })
    }

    fn reading(&self) -> Result<u64, Refusal> {
        reading(&self.total, self.width, self.direction)
    }

    fn reading_text(&self) -> String {
        match self.reading() {
            Ok(pattern) => format!("{pattern:016x}"),
            Err(Refusal { code, place, side }) => format!("no {code} {place} {side}"),
        }
    }

    /// The line that the program prints: the reading of each of its two tables.
    pub fn readings(&self) -> String {
        let text = self.reading_text();
        format!("{text} {text}")
    }

    fn value(&self) -> Exact {
        Exact::of_total(&self.total)
    }

    /// The value rounded once, ties to even.
    fn rounded_once(&self) -> u64 {
        let format = self.width.format();
        format.round_ties_to_even(&self.value(), self.direction)
    }

    /// Why the reading differs from the published pattern, or none where it does
    /// not. The pattern has to be the value rounded once, ties to even.
    fn compared(&self, published: u64) -> Result<Option<Reason>, String> {
        if self.rounded_once() != published {
            return Err(format!("not {published:016x} when rounded once"));
        }
        if self.reading() == Ok(published) {
            return Ok(None);
        }
        match self.reason() {
            Some(reason) => Ok(Some(reason)),
            None => Err(format!("reads {}", self.reading_text())),
        }
    }

    /// Why the reading may be another pattern than the value rounded once, ties to even.
    fn reason(&self) -> Option<Reason> {
        let format = self.width.format();
        if self.direction == Direction::Nearest && format.is_tie(&self.value()) {
            return Some(Reason::Tie);
        }
        let once = format.round(&self.value(), self.direction);
        match self.reading() {
            Ok(reading) if reading != once => Some(Reason::RoundedTwice),
            _ => None,
        }
    }
}

/// Holds each vector, rounded once with ties to even, to its published pattern,
/// and its reading to the same but for ties and double rounding. Lists the
/// readings that differ, and ends with how many there are.
pub fn compare(vectors: &[Vector], published: &[u64]) -> Result<Vec<String>, String> {
    let count = vectors.len();
    if count != published.len() {
        return Err(format!("{count} vectors, {} patterns", published.len()));
    }
    let (mut ties, mut twice) = (0, 0);
    let mut report = Vec::new();
    for (index, (vector, &published)) in vectors.iter().zip(published).enumerate() {
        let number = index + 1;
        let differs = vector.compared(published);
        let why = match differs.map_err(|why| format!("vector {number}: {why}"))? {
            None => continue,
            Some(Reason::Tie) => {
                ties += 1;
                "tie"
            }
            Some(Reason::RoundedTwice) => {
                twice += 1;
                "rounded twice"
            }
        };
        let reading = vector.reading_text();
        report.push(format!("{number} {published:016x} {reading} {why}"));
    }
    let equal = count - ties - twice;
    report.push(format!(
        "{count} vectors: {equal} read as published, {ties} ties, {twice} rounded twice"
    ));
    Ok(report)
}

#[cfg(test)]
mod tests {
    use super::*;

    const ONE: &str = "3ff0000000000000";

    /// The sum of these patterns, each times 1.
    fn vector(form: &str, patterns: &[&str]) -> Vector {
        let products: String = patterns.iter().map(|p| format!(" {p} {ONE}")).collect();
        Vector::read(&format!("{form}{products}")).unwrap()
    }

    #[test]
    fn a_vector_reads_in_its_form() {
        let tie = ["4340000000000000", ONE];
        let read = |form| vector(form, &tie).readings();
        let odd = "4340000000000001 4340000000000001";
        let even = "4340000000000000 4340000000000000";
        assert_eq!(read("nearest long"), odd);
        assert_eq!(read("up long"), odd);
        assert_eq!(read("down long"), even);
        assert_eq!(read("zero long"), even);
        // 2^128 is above every binary32 number
        let large = vector("zero short", &["47f0000000000000"]);
        assert_eq!(large.readings(), "no 8 0 0 no 8 0 0");
    }

    #[test]
    fn what_is_no_vector() {
        for line in [
            "",
            "nearest",
            "even long",
            "up wide",
            "up long 3ff0000000000000",
            "up long 3ff0000000000000 1",
            "up long 3ff0000000000000 7ff0000000000000",
        ] {
            assert!(Vector::read(line).is_err(), "{line}");
        }
    }

    #[test]
    fn ties_and_double_rounding_may_differ() {
        let tie = vector("nearest long", &["4340000000000000", ONE]);
        assert!(matches!(
            tie.compared(0x4340000000000000),
            Ok(Some(Reason::Tie))
        ));
        assert!(tie.compared(0x4340000000000001).is_err());
        // 1 + 2^-24 - 2^-60 is below the tie of binary32, and its long reading is the tie
        let below = ["3ff0000000000000", "3e70000000000000", "bc30000000000000"];
        let below = vector("nearest short", &below);
        assert!(matches!(
            below.compared(0x3f800000),
            Ok(Some(Reason::RoundedTwice))
        ));
        let exact = vector("nearest short", &[ONE]);
        assert!(matches!(exact.compared(0x3f800000), Ok(None)));
        assert!(exact.compared(0x3f800001).is_err());
    }
}
