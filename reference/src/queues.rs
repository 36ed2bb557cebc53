//! Queues as text for both implementations: worked cases, every refusal, and pseudo-random mixes.

use crate::generate::{accepted_field, any_field, any_line, damaged_line, Generator};
use std::ops::Range;

const CASES: &str = include_str!("cases.txt");

const GOOD: &str = "3ff8000000000000";
const NOT_FINITE: &str = "7ff0000000000000";
const NO_FACTOR: &str = "3ff0000004000000";

/// All queues of the stored text.
pub fn text() -> String {
    let mut text = CASES.to_string();
    for table in ["pairing", "column"] {
        let opening = format!("open {table}\n");
        text += &refused_slices(&opening);
        text += &refused_lines(&opening);
    }
    text += &refused_lines("open duo\ntake c:5 c:7\n");
    text += &refused_lines("open duo\nwithdraw c:5,1 c:7,1\n");
    for (number, exponents) in RANGES.into_iter().enumerate() {
        let start = (number as u64 + 1) * 0x3c6ef372fe94f82b;
        let steps = mix(&mut Generator::new(start), exponents);
        for table in ["pairing", "column"] {
            text += &format!("# Mix {number}\nopen {table}\n{steps}");
        }
    }
    let steps = mix(&mut Generator::new(0x1b873593cc9e2d51), 1010..1040);
    text += &format!("# A run that is soon full\nopen duo\n{steps}");
    text
}

/// Calls on slices in which every element is accepted, not finite or no factor, in all combinations.
fn refused_slices(opening: &str) -> String {
    let mut text = format!("# Refused slices\n{opening}");
    let patterns = [GOOD, NOT_FINITE, NO_FACTOR];
    for [a, b, c, d] in places() {
        let word = if (a + b + c + d) % 2 == 0 {
            "take"
        } else {
            "withdraw"
        };
        let [a, b, c, d] = [a, b, c, d].map(|n| patterns[n]);
        text += &format!("{word} p:{a},{b} p:{c},{d}\n");
    }
    let counts = ["-3", "67108865"];
    for [a, b, c, d] in places().filter(|place| place[2] < 2 && place[3] < 2) {
        let [a, b] = [patterns[a], patterns[b]];
        let [c, d] = [counts[c], counts[d]];
        text += &format!("take p:{a},{b} c:{c},{d}\nwithdraw c:{d},{c} p:{b},{a}\n");
    }
    for bad in [NOT_FINITE, NO_FACTOR] {
        text += &format!("take p:{bad},{GOOD} p:{bad}\nwithdraw p:{bad} c:67108865,1\n");
    }
    text + "seal\ncount\nread nearest long\n"
}

/// Four places with one of three choices each.
fn places() -> impl Iterator<Item = [usize; 4]> {
    (0..81).map(|n| [n / 27, n / 9 % 3, n / 3 % 3, n % 3])
}

/// Lines in which each field is accepted, not finite, no factor or out of range, of the right shape and not.
fn refused_lines(opening: &str) -> String {
    let mut text = format!("# Refused lines\n{opening}");
    let fields = [
        format!("p{GOOD}"),
        format!("p{NOT_FINITE}"),
        format!("p{NO_FACTOR}"),
        "c-2147483649".to_string(),
    ];
    for first in &fields {
        for second in &fields {
            text += &format!("line add\\t{first}\\t{second}\n");
            text += &format!("line sub\\t{second}\\t{first}\\t\n");
        }
    }
    text + "seal\ncount\nread nearest long\n"
}

/// The exponent fields of the patterns of each mix: all of them, near one, products near the
/// largest short number, near the least, and near the least long number.
const RANGES: [Range<u64>; 5] = [512..1507, 1010..1040, 1083..1091, 944..953, 512..530];

const FORMS: [&str; 8] = [
    "nearest long",
    "zero long",
    "up long",
    "down long",
    "nearest short",
    "zero short",
    "up short",
    "down short",
];

/// A run of pseudo-random steps: calls, and now and then a seal, readings and a resume.
fn mix(random: &mut Generator, exponents: Range<u64>) -> String {
    let mut text = String::new();
    for _ in 0..7 {
        for _ in 0..random.below(7) {
            text += &call(random, &exponents);
        }
        if random.one_in(4) {
            text += random.choose(&["read up long\n", "resume\n", "count\n"]);
        }
        text += "seal\n";
        let first = random.below(8) as usize;
        for n in 0..2 + random.below(3) as usize {
            text += &format!("read {}\n", FORMS[(first + 3 * n) % 8]);
        }
        if random.one_in(4) {
            text += random.choose(&["take c:1 c:1\n", "line add\\tc1\\tc1\n", "seal\n"]);
        }
        text += "resume\n";
    }
    text += "seal\ncount\n";
    for form in FORMS {
        text += &format!("read {form}\n");
    }
    text
}

/// A call on an open run, mostly one that is accepted.
fn call(random: &mut Generator, exponents: &Range<u64>) -> String {
    match random.below(8) {
        0..=4 => slices(random, exponents),
        5 | 6 => {
            let first = accepted_field(random, exponents.clone());
            let second = accepted_field(random, exponents.clone());
            let word = random.choose(&["add", "sub"]);
            format!("line {word}\\t{first}\\t{second}\n")
        }
        _ => {
            let line = match random.one_in(2) {
                true => any_line(random).into_bytes(),
                false => damaged_line(random),
            };
            format!("line {}\n", escaped(&line))
        }
    }
}

fn slices(random: &mut Generator, exponents: &Range<u64>) -> String {
    let word = random.choose(&["take", "take", "withdraw"]);
    let length = random.below(4);
    let other = if random.one_in(12) {
        random.below(4)
    } else {
        length
    };
    let first = slice(random, exponents, length);
    let second = slice(random, exponents, other);
    format!("{word} {first} {second}\n")
}

/// Elements of one kind.
fn slice(random: &mut Generator, exponents: &Range<u64>, length: u64) -> String {
    let letter = random.choose(&["p", "p", "c"]);
    let elements: Vec<String> = (0..length)
        .map(|_| element(random, exponents, letter))
        .collect();
    format!("{letter}:{}", elements.join(","))
}

/// An element of a kind, without the letter, rarely one that is refused.
fn element(random: &mut Generator, exponents: &Range<u64>, letter: &str) -> String {
    loop {
        let field = match random.one_in(24) {
            true => any_field(random),
            false => accepted_field(random, exponents.clone()),
        };
        match field.strip_prefix(letter) {
            Some(digits) if letter == "p" || digits.parse::<i32>().is_ok() => {
                return digits.to_string()
            }
            _ => continue,
        }
    }
}

/// The bytes as a text: what is no plain character of a line, as an escape.
fn escaped(bytes: &[u8]) -> String {
    let escape = |byte: &u8| match byte {
        b'\t' => "\\t".to_string(),
        b'\\' => "\\\\".to_string(),
        b' '..=b'~' => char::from(*byte).to_string(),
        _ => format!("\\x{byte:02x}"),
    };
    bytes.iter().map(escape).collect()
}

#[cfg(test)]
mod tests {
    use super::*;
    use crate::play::answers;

    #[test]
    fn the_queues_are_always_the_same_and_not_long() {
        assert_eq!(text(), text());
        assert!(text().len() < 60_000);
        assert!(text().is_ascii());
    }

    #[test]
    fn the_answers_have_every_refusal_of_a_call() {
        let answers = answers(&text());
        for code in [1, 2, 3, 4, 5, 6, 8] {
            let start = format!("no {code} ");
            assert!(answers.lines().any(|answer| answer.starts_with(&start)));
        }
    }

    /// A queue answers the same on either make of condenser.
    #[test]
    fn every_mix_is_played_twice_with_the_same_answers() {
        let text = text();
        let (large, _) = text.split_once("# A run that is soon full").unwrap();
        let mixes: Vec<String> = large.split("# Mix").skip(1).map(answers).collect();
        assert_eq!(mixes.len(), 2 * RANGES.len());
        for pair in mixes.chunks(2) {
            assert_eq!(pair[0], pair[1]);
        }
    }
}
