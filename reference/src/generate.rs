//! Sheets of pseudo-random lines, good and damaged, the same on every machine.

use std::ops::Range;

/// An xorshift generator of 64 bits with a multiplied output.
pub struct Generator {
    state: u64,
}

impl Generator {
    /// `start` is any number but 0.
    pub fn new(start: u64) -> Self {
        Generator { state: start }
    }

    pub fn number(&mut self) -> u64 {
        self.state ^= self.state >> 12;
        self.state ^= self.state << 25;
        self.state ^= self.state >> 27;
        self.state.wrapping_mul(0x2545f4914f6cdd1d)
    }

    /// A number below the limit.
    pub fn below(&mut self, limit: u64) -> u64 {
        (self.number() >> 11) % limit
    }

    pub fn one_in(&mut self, n: u64) -> bool {
        self.below(n) == 0
    }

    pub fn choose<T: Copy>(&mut self, from: &[T]) -> T {
        from[self.below(from.len() as u64) as usize]
    }
}

/// The sheets that can be generated, by name.
pub const NAMES: [&str; 7] = [
    "wide",
    "near",
    "cancelling-wide",
    "cancelling-near",
    "boundaries",
    "damaged",
    "bytes",
];

/// A sheet of pseudo-random lines, or none for a name that is not in `NAMES`.
pub fn sheet(name: &str) -> Option<Vec<u8>> {
    let number = NAMES.iter().position(|known| *known == name)? as u64 + 1;
    let mut random = Generator::new(number * 0x1e3779b97f4a7c15);
    Some(match name {
        "wide" => accepted_lines(&mut random, 150, 512..1507),
        "near" => accepted_lines(&mut random, 150, 1010..1040),
        "cancelling-wide" => cancelling_lines(&mut random, 60, any_accepted_field),
        "cancelling-near" => cancelling_lines(&mut random, 60, near_one),
        "boundaries" => joined((0..200).map(|_| any_line(&mut random).into_bytes())),
        "damaged" => joined((0..200).map(|_| damaged_line(&mut random))),
        _ => (0..1500)
            .map(|_| stray_byte_or_line_feed(&mut random))
            .collect(),
    })
}

/// Lines, each with a line feed behind it.
fn joined(lines: impl Iterator<Item = Vec<u8>>) -> Vec<u8> {
    lines
        .flat_map(|line| [line, b"\n".to_vec()].concat())
        .collect()
}

fn line(word: &str, first: &str, second: &str) -> String {
    format!("{word}\t{first}\t{second}")
}

fn word(random: &mut Generator) -> &'static str {
    random.choose(&["add", "sub"])
}

/// A fraction that is a multiple of 2^27.
fn short_fraction(random: &mut Generator) -> u64 {
    let bits = 1 << 25;
    let number = match random.below(8) {
        0 => 0,
        1 => bits - 1,
        2 => 1 << random.below(25),
        _ => random.below(bits),
    };
    number << 27
}

/// A field that is accepted: a pattern with an exponent field of the range, a
/// count or, rarely, a zero.
pub fn accepted_field(random: &mut Generator, exponents: Range<u64>) -> String {
    let sign = random.below(2) << 63;
    match random.below(16) {
        0 => format!("p{:016x}", sign),
        1 => "c0".to_string(),
        2..=10 => {
            let exponent = exponents.start + random.below(exponents.end - exponents.start);
            format!("p{:016x}", sign | exponent << 52 | short_fraction(random))
        }
        _ => format!("c{}", accepted_count(random)),
    }
}

fn accepted_count(random: &mut Generator) -> i64 {
    let size = match random.below(4) {
        0 => random.below(10),
        1 => random.below(1 << 26),
        2 => random.below(1 << 26) << 5,
        _ => 1 << random.below(31),
    };
    if random.one_in(2) {
        -(size as i64)
    } else {
        size as i64
    }
}

fn any_accepted_field(random: &mut Generator) -> String {
    accepted_field(random, 512..1507)
}

/// A pattern from 1 up to 2 in size with 26 significant bits, mostly above zero.
fn near_one(random: &mut Generator) -> String {
    let sign = u64::from(random.one_in(8)) << 63;
    format!("p{:016x}", sign | 1023 << 52 | random.below(1 << 25) << 27)
}

fn accepted_lines(random: &mut Generator, count: usize, exponents: Range<u64>) -> Vec<u8> {
    joined((0..count).map(|_| {
        let first = accepted_field(random, exponents.clone());
        let second = accepted_field(random, exponents.clone());
        line(word(random), &first, &second).into_bytes()
    }))
}

/// Products that are all withdrawn again in another order, with the fields
/// swapped, but for the last one, which is the least above zero.
fn cancelling_lines(
    random: &mut Generator,
    count: usize,
    field: fn(&mut Generator) -> String,
) -> Vec<u8> {
    let mut products = Vec::new();
    for _ in 0..count {
        let word = word(random);
        let first = field(random);
        let second = field(random);
        products.push((word, first, second));
    }
    let mut lines: Vec<String> = products
        .iter()
        .map(|(word, a, b)| line(word, a, b))
        .collect();
    while !products.is_empty() {
        let at = random.below(products.len() as u64) as usize;
        let (word, a, b) = products.swap_remove(at);
        lines.push(line(if word == "add" { "sub" } else { "add" }, &b, &a));
    }
    lines.push(line("add", "p2000000000000000", "p2000000000000000"));
    joined(lines.into_iter().map(String::into_bytes))
}

/// A field of the right shape that may be refused, often near a limit.
pub fn any_field(random: &mut Generator) -> String {
    let sign = random.below(2) << 63;
    let near = |random: &mut Generator, number: i64| number + random.below(5) as i64 - 2;
    match random.below(8) {
        0 => format!("p{:016x}", random.number()),
        1 => {
            let exponent = random.choose(&[0, 1, 511, 512, 1023, 1506, 1507, 2046, 2047]);
            format!("p{:016x}", sign | exponent << 52 | short_fraction(random))
        }
        2 => {
            let exponent = random.choose(&[0, 512, 1023, 1506, 2047]);
            let fraction = short_fraction(random) | 1 << random.below(52);
            format!("p{:016x}", sign | exponent << 52 | fraction)
        }
        3 => {
            let limit = random.choose(&[
                1 << 26,
                -(1 << 26),
                1 << 27,
                1 << 31,
                -(1 << 31),
                9_999_999_997,
            ]);
            format!("c{}", near(random, limit))
        }
        4 => format!("c{}", random.below(10_000_000_000)),
        5 => format!("c-{}", 1 + random.below(9_999_999_999)),
        _ => any_accepted_field(random),
    }
}

pub fn any_line(random: &mut Generator) -> String {
    let first = any_field(random);
    let second = any_field(random);
    line(word(random), &first, &second)
}

/// A line of the right shape with one to three damages.
pub fn damaged_line(random: &mut Generator) -> Vec<u8> {
    let mut line = any_line(random).into_bytes();
    for _ in 0..1 + random.below(3) {
        damage(random, &mut line);
    }
    line
}

/// A byte that a line may have at some place, or any other but a line feed.
fn stray_byte(random: &mut Generator) -> u8 {
    match random.one_in(4) {
        true => match random.number() as u8 {
            b'\n' => b'\r',
            byte => byte,
        },
        false => random.choose(b"adsubpc\t\t-0123456789abcdefABCDEF \r\0"),
    }
}

fn stray_byte_or_line_feed(random: &mut Generator) -> u8 {
    match random.one_in(8) {
        true => b'\n',
        false => stray_byte(random),
    }
}

fn damage(random: &mut Generator, line: &mut Vec<u8>) {
    let at = random.below(line.len() as u64 + 1) as usize;
    let inside = at.min(line.len().saturating_sub(1));
    match random.below(16) {
        0..=2 => line.insert(at, stray_byte(random)),
        3 => line.truncate(at),
        4 => drop(line.drain(..at)),
        5 => line.extend_from_slice(&line.clone()[at..]),
        6 => line.extend(std::iter::repeat_n(b'0', at)),
        _ if line.is_empty() => line.push(stray_byte(random)),
        7..=9 => drop(line.remove(inside)),
        10..=13 => line[inside] = stray_byte(random),
        _ => line[inside] = line[inside].to_ascii_uppercase(),
    }
}

#[cfg(test)]
mod tests {
    use super::*;
    use crate::run::CAPACITY;
    use crate::sheet::report;

    #[test]
    fn every_name_has_a_sheet_that_is_always_the_same() {
        for name in NAMES {
            assert!(sheet(name).is_some_and(|bytes| !bytes.is_empty()));
            assert_eq!(sheet(name), sheet(name));
        }
        assert_eq!(sheet("other"), None);
    }

    #[test]
    fn good_lines_are_accepted() {
        for (name, lines) in [("wide", 150), ("near", 150)] {
            let text = report(&sheet(name).unwrap(), CAPACITY);
            assert!(text.starts_with("sum\t") && text.ends_with(&format!("\t{lines}\n")));
        }
    }

    #[test]
    fn cancelling_lines_leave_the_least_product() {
        // 2^-511 by itself is 2^-1022, the least normal number
        for name in ["cancelling-wide", "cancelling-near"] {
            let text = report(&sheet(name).unwrap(), CAPACITY);
            assert_eq!(text, "sum\t0010000000000000\t121\n");
        }
    }

    #[test]
    fn refused_lines_have_every_code_of_a_line() {
        for (name, codes) in [
            ("boundaries", &["1", "2", "6"][..]),
            ("damaged", &["2", "5", "6"]),
        ] {
            let text = report(&sheet(name).unwrap(), CAPACITY);
            for code in codes {
                let is_coded = |line: &str| line.split('\t').nth(2) == Some(code);
                assert!(text
                    .lines()
                    .filter(|line| line.starts_with("no"))
                    .any(is_coded));
            }
        }
    }
}
