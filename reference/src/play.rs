//! Queues written as text, one step to a line: they are played on runs, and each step has an answer.

use crate::kinds::Element;
use crate::line::Word;
use crate::refusal::Refusal;
use crate::rounding::{long_reading, short_reading, Direction};
use crate::run::{Run, CAPACITY};

#[derive(Clone, Copy, Debug, PartialEq, Eq)]
enum Width {
    Long,
    Short,
}

#[derive(Clone, Debug, PartialEq, Eq)]
enum Step {
    /// On a condenser of this capacity.
    Open(u64),
    Slices(Word, Vec<Element>, Vec<Element>),
    Line(Vec<u8>),
    Seal,
    Resume,
    Read(Direction, Width),
    Count,
}

/// What is being played: nothing yet, an open run or a sealed one.
enum State {
    Nothing,
    Open(Run),
    Sealed(Run),
}

/// The answers to the steps of a text, one to a line.
pub fn answers(text: &str) -> String {
    let mut state = State::Nothing;
    let mut answers = String::new();
    for line in text.lines() {
        if line.is_empty() || line.starts_with('#') {
            continue;
        }
        let answer = match step_of(line) {
            Some(step) => state.step(step),
            None => "step".to_string(),
        };
        answers += &answer;
        answers.push('\n');
    }
    answers
}

/// The step that a line writes, or none where it writes no step.
fn step_of(line: &str) -> Option<Step> {
    if line == "line" {
        return Some(Step::Line(Vec::new()));
    }
    if let Some(text) = line.strip_prefix("line ") {
        return bytes_of(text).map(Step::Line);
    }
    let words: Vec<&str> = line.split(' ').collect();
    Some(match words[..] {
        ["open", "pairing" | "column"] => Step::Open(CAPACITY),
        ["open", "duo"] => Step::Open(2),
        ["take", first, second] => Step::Slices(Word::Add, slice_of(first)?, slice_of(second)?),
        ["withdraw", first, second] => Step::Slices(Word::Sub, slice_of(first)?, slice_of(second)?),
        ["seal"] => Step::Seal,
        ["resume"] => Step::Resume,
        ["count"] => Step::Count,
        ["read", direction, width] => Step::Read(direction_of(direction)?, width_of(width)?),
        _ => return None,
    })
}

fn direction_of(word: &str) -> Option<Direction> {
    match word {
        "nearest" => Some(Direction::Nearest),
        "zero" => Some(Direction::TowardZero),
        "up" => Some(Direction::Up),
        "down" => Some(Direction::Down),
        _ => None,
    }
}

fn width_of(word: &str) -> Option<Width> {
    match word {
        "long" => Some(Width::Long),
        "short" => Some(Width::Short),
        _ => None,
    }
}

/// Elements of one kind: `p:` and patterns, or `c:` and counts, parted by commas.
fn slice_of(word: &str) -> Option<Vec<Element>> {
    let (letter, list) = word.split_once(':')?;
    let element: fn(&str) -> Option<Element> = match letter {
        "p" => pattern_of,
        "c" => count_of,
        _ => return None,
    };
    match list {
        "" => Some(Vec::new()),
        _ => list.split(',').map(element).collect(),
    }
}

fn pattern_of(digits: &str) -> Option<Element> {
    let is_digit = |byte| matches!(byte, b'0'..=b'9' | b'a'..=b'f');
    match digits.len() == 16 && digits.bytes().all(is_digit) {
        true => u64::from_str_radix(digits, 16).ok().map(Element::Pattern),
        false => None,
    }
}

fn count_of(digits: &str) -> Option<Element> {
    digits.parse().ok().map(Element::Count)
}

/// The bytes of a text in which `\t`, `\n`, `\\` and `\x` with two digits each stand for one byte.
fn bytes_of(text: &str) -> Option<Vec<u8>> {
    let mut bytes = Vec::new();
    let mut rest = text.as_bytes();
    while let [first, behind @ ..] = rest {
        rest = behind;
        if *first != b'\\' {
            bytes.push(*first);
            continue;
        }
        let (escaped, length) = match behind {
            [b't', ..] => (b'\t', 1),
            [b'n', ..] => (b'\n', 1),
            [b'\\', ..] => (b'\\', 1),
            [b'x', high, low, ..] => (16 * digit_of(*high)? + digit_of(*low)?, 3),
            _ => return None,
        };
        bytes.push(escaped);
        rest = &behind[length..];
    }
    Some(bytes)
}

fn digit_of(byte: u8) -> Option<u8> {
    match byte {
        b'0'..=b'9' => Some(byte - b'0'),
        b'a'..=b'f' => Some(byte - b'a' + 10),
        _ => None,
    }
}

fn answer_of(answer: Result<String, Refusal>) -> String {
    match answer {
        Ok(text) => text,
        Err(Refusal { code, place, side }) => format!("no {code} {place} {side}"),
    }
}

fn reading(run: &Run, direction: Direction, width: Width) -> Result<String, Refusal> {
    let pattern = match width {
        Width::Long => long_reading(run.total(), direction),
        Width::Short => short_reading(run.total(), direction)?,
    };
    Ok(format!("{pattern:016x}"))
}

impl State {
    /// Makes one step, or answers `state` and stays where the state does not allow it.
    fn step(&mut self, step: Step) -> String {
        let ok = |()| "ok".to_string();
        match (std::mem::replace(self, State::Nothing), step) {
            (_, Step::Open(capacity)) => self.pass(State::Open(Run::open(capacity)), ok(())),
            (State::Open(mut run), Step::Slices(word, first, second)) => {
                let answer = answer_of(run.slices(word, &first, &second).map(ok));
                self.pass(State::Open(run), answer)
            }
            (State::Open(mut run), Step::Line(text)) => {
                let answer = answer_of(run.enter(&text).map(ok));
                self.pass(State::Open(run), answer)
            }
            (State::Open(run), Step::Seal) => self.pass(State::Sealed(run), ok(())),
            (State::Sealed(run), Step::Resume) => self.pass(State::Open(run), ok(())),
            (State::Sealed(run), Step::Read(direction, width)) => {
                let answer = answer_of(reading(&run, direction, width));
                self.pass(State::Sealed(run), answer)
            }
            (State::Sealed(run), Step::Count) => {
                let answer = run.count().to_string();
                self.pass(State::Sealed(run), answer)
            }
            (unchanged, _) => self.pass(unchanged, "state".to_string()),
        }
    }

    /// Goes to a state with an answer.
    fn pass(&mut self, next: State, answer: String) -> String {
        *self = next;
        answer
    }
}

#[cfg(test)]
mod tests {
    use super::*;

    fn played(steps: &[&str]) -> Vec<String> {
        let text = steps.join("\n");
        answers(&text).lines().map(str::to_string).collect()
    }

    #[test]
    fn a_queue_has_an_answer_to_each_step() {
        let steps = [
            "# a remark, and an empty line",
            "",
            "open pairing",
            "take c:1,2,3 c:1,2",
            "take p:43b0000000000000,3ff0000000000000 c:1,1",
            r"line sub\tp43b0000000000000\tc1",
            "seal",
            "read nearest long",
            "read up short",
            "count",
        ];
        let expected = [
            "ok",
            "no 3 2 2",
            "ok",
            "ok",
            "ok",
            "3ff0000000000000",
            "000000003f800000",
            "3",
        ];
        assert_eq!(played(&steps), expected);
    }

    #[test]
    fn a_state_allows_only_its_own_steps() {
        let on_open = ["read up long", "count", "resume"];
        let on_sealed = ["take c: c:", "withdraw c: c:", "line", "seal"];
        for step in on_open.iter().chain(&on_sealed) {
            assert_eq!(played(&[step]), ["state"]);
        }
        for step in on_open {
            assert_eq!(played(&["open column", step])[1], "state");
            assert_ne!(played(&["open column", "seal", step])[2], "state");
        }
        for step in on_sealed {
            assert_ne!(played(&["open column", step])[1], "state");
            assert_eq!(played(&["open column", "seal", step])[2], "state");
        }
    }

    #[test]
    fn a_duo_has_room_for_two_products() {
        let steps = [
            "open duo",
            "take c:1,2,3 c:1,1,1",
            "take c:1,2 c:1,1",
            r"line add\tc1\tc1",
        ];
        assert_eq!(played(&steps), ["ok", "no 4 2 0", "ok", "no 4 0 0"]);
    }

    #[test]
    fn what_is_no_step_is_skipped() {
        for step in [
            "open",
            "open table",
            "seal now",
            "take c:1",
            "take c:1 q:1",
            "take c:1, c:1,2",
            "take p:3ff c:1",
            "take p:3FF0000000000000 c:1",
            "take c:2147483648 c:1",
            "read down",
            r"line add\q",
            r"line add\x0",
        ] {
            assert_eq!(
                played(&["open pairing", step, "seal"]),
                ["ok", "step", "ok"]
            );
        }
    }

    #[test]
    fn escapes_stand_for_bytes() {
        assert_eq!(
            bytes_of(r"a\t\n\\\xff\x00b"),
            Some(b"a\t\n\\\xff\x00b".to_vec())
        );
        assert_eq!(bytes_of(""), Some(vec![]));
    }
}
