//! The shape of a sheet line, as the list of all its forms, and the reading of a line.

use std::ops::Range;
use std::sync::LazyLock;

use crate::kinds::Element;
use crate::refusal::Refusal;

#[derive(Clone, Copy, Debug, PartialEq, Eq)]
pub enum Word {
    Add,
    Sub,
}

/// A set of bytes that may stand at one place of a line.
#[derive(Clone, Copy, Debug)]
enum Class {
    One(u8),
    Hexadecimal,
    Digit,
    DigitAboveZero,
}

impl Class {
    fn has(&self, byte: u8) -> bool {
        match self {
            Class::One(only) => byte == *only,
            Class::Hexadecimal => matches!(byte, b'0'..=b'9' | b'a'..=b'f'),
            Class::Digit => byte.is_ascii_digit(),
            Class::DigitAboveZero => matches!(byte, b'1'..=b'9'),
        }
    }
}

/// One form of a line: what may stand at each of its bytes, and where its
/// fields lie. The lines of the form are exactly the texts of its length with a
/// byte of the right class at each place.
struct Form {
    word: Word,
    classes: Vec<Class>,
    first: Range<usize>,
    second: Range<usize>,
}

/// The forms of a field: `p` and 16 digits; `c0`; `c`, perhaps `-`, and one to
/// ten digits of which the first is not 0.
fn field_forms() -> Vec<Vec<Class>> {
    let pattern = [vec![Class::One(b'p')], vec![Class::Hexadecimal; 16]].concat();
    let zero = vec![Class::One(b'c'), Class::One(b'0')];
    let mut forms = vec![pattern, zero];
    for sign in [vec![], vec![Class::One(b'-')]] {
        for more in 0..10 {
            let digits = [vec![Class::DigitAboveZero], vec![Class::Digit; more]].concat();
            forms.push([vec![Class::One(b'c')], sign.clone(), digits].concat());
        }
    }
    forms
}

/// Every form of a line: a word, a tab, a field, a tab, a field.
fn line_forms() -> Vec<Form> {
    let mut forms = Vec::new();
    for (word, text) in [(Word::Add, b"add\t"), (Word::Sub, b"sub\t")] {
        let start: Vec<Class> = text.iter().map(|&byte| Class::One(byte)).collect();
        for first in field_forms() {
            for second in field_forms() {
                let classes = [&start[..], &first, &[Class::One(b'\t')], &second].concat();
                let between = start.len() + first.len();
                forms.push(Form {
                    word,
                    first: start.len()..between,
                    second: between + 1..classes.len(),
                    classes,
                });
            }
        }
    }
    forms
}

static FORMS: LazyLock<Vec<Form>> = LazyLock::new(line_forms);

impl Form {
    /// The most leading bytes that the text shares with a line of this form.
    fn shared(&self, text: &[u8]) -> usize {
        let pairs = self.classes.iter().zip(text);
        pairs.take_while(|(class, &byte)| class.has(byte)).count()
    }

    fn is_form_of(&self, text: &[u8]) -> bool {
        self.classes.len() == text.len() && self.shared(text) == text.len()
    }
}

/// A field of a line, and the place of its letter.
#[derive(Clone, Copy, Debug, PartialEq, Eq)]
pub struct Field<'a> {
    pub place: usize,
    text: &'a [u8],
}

impl<'a> Field<'a> {
    fn new(line: &'a [u8], range: &Range<usize>) -> Self {
        Field {
            place: range.start,
            text: &line[range.clone()],
        }
    }

    /// The element that the field writes, or none where a count is outside 32 bits.
    pub fn element(&self) -> Option<Element> {
        let digits = std::str::from_utf8(&self.text[1..]).expect("a field is ASCII");
        match self.text[0] {
            b'p' => Some(Element::Pattern(
                u64::from_str_radix(digits, 16).expect("16 digits"),
            )),
            _ => {
                let count: i64 = digits.parse().expect("a count of at most ten digits");
                i32::try_from(count).ok().map(Element::Count)
            }
        }
    }
}

/// A line of the right shape.
#[derive(Clone, Copy, Debug, PartialEq, Eq)]
pub struct Line<'a> {
    pub word: Word,
    pub first: Field<'a>,
    pub second: Field<'a>,
}

impl<'a> Line<'a> {
    /// The parts of a line, or a refusal with 5 at the most leading bytes that
    /// it shares with a line of any form.
    pub fn read(text: &'a [u8]) -> Result<Self, Refusal> {
        match FORMS.iter().find(|form| form.is_form_of(text)) {
            Some(form) => Ok(Line {
                word: form.word,
                first: Field::new(text, &form.first),
                second: Field::new(text, &form.second),
            }),
            None => {
                let shared = FORMS.iter().map(|form| form.shared(text)).max();
                Err(Refusal::shape(shared.unwrap_or(0)))
            }
        }
    }

    /// Both elements, or a refusal with 6, the first field before the second.
    pub fn elements(&self) -> Result<(Element, Element), Refusal> {
        let element =
            |field: &Field, side| field.element().ok_or(Refusal::count(field.place, side));
        Ok((element(&self.first, 1)?, element(&self.second, 2)?))
    }
}

#[cfg(test)]
mod tests {
    use super::*;

    fn shape_refusal(text: &[u8]) -> Option<u64> {
        match Line::read(text) {
            Ok(_) => None,
            Err(refusal) => {
                assert_eq!((refusal.code, refusal.side), (5, 0));
                Some(refusal.place)
            }
        }
    }

    #[test]
    fn the_longest_line_has_39_bytes() {
        assert_eq!(FORMS.iter().map(|form| form.classes.len()).max(), Some(39));
    }

    #[test]
    fn a_line_and_its_parts() {
        let text = b"sub\tp43b0000000000000\tc-15";
        let line = Line::read(text).unwrap();
        assert_eq!(line.word, Word::Sub);
        assert_eq!(
            (line.first.place, line.first.text),
            (4, &b"p43b0000000000000"[..])
        );
        assert_eq!((line.second.place, line.second.text), (22, &b"c-15"[..]));
        assert_eq!(
            line.elements(),
            Ok((Element::Pattern(0x43b0000000000000), Element::Count(-15)))
        );
    }

    #[test]
    fn places_of_another_shape() {
        for (text, place) in [
            (&b""[..], 0),
            (b"x", 0),
            (b"Add\tc1\tc1", 0),
            (b"adx\tc1\tc1", 2),
            (b"sdd\tc1\tc1", 1),
            (b"add", 3),
            (b"add c1\tc1", 3),
            (b"add\t", 4),
            (b"add\tx", 4),
            (b"add\tc", 5),
            (b"add\tc\tc1", 5),
            (b"add\tc1", 6),
            (b"add\tc1 c1", 6),
            (b"add\tc-0\tc3", 6),
            (b"add\tc-", 6),
            (b"add\tc--1\tc1", 6),
            (b"add\tc+1\tc1", 5),
            (b"add\tc01\tc1", 6),
            (b"add\tc00\tc1", 6),
            (b"add\tc1\t", 7),
            (b"add\tc1\tc1\r", 9),
            (b"add\tc1\tc1\t", 9),
            (b"add\tc1\tc1\tc1", 9),
            (b"add\tc1234567890\tc1\0", 18),
            (b"add\tc12345678901\tc1", 15),
            (b"add\tc-12345678901\tc1", 16),
            (b"add\tc1\tc12345678901", 18),
            (b"add\tp3ff000000000000\tc1", 20),
            (b"add\tp3ff00000000000000\tc1", 21),
            (b"add\tp3FF0000000000000\tc1", 6),
            (b"add\tp3ff000000000000g\tc1", 20),
            (b"add\tp0000000000000000\tp00000000000000000", 39),
            (b"add\tc1\tc\xc3\xa9", 8),
        ] {
            assert_eq!(shape_refusal(text), Some(place), "{}", text.escape_ascii());
        }
    }

    #[test]
    fn every_cut_of_a_line_is_shared_whole() {
        let text = b"add\tp3ff0000000000000\tp3ff0000000000000";
        for cut in 0..text.len() {
            assert_eq!(shape_refusal(&text[..cut]), Some(cut as u64));
        }
        assert_eq!(shape_refusal(text), None);
    }

    #[test]
    fn counts_outside_32_bits() {
        for (text, place, side) in [
            (&b"add\tc2147483648\tc1"[..], 4, 1),
            (b"add\tc-2147483649\tc1", 4, 1),
            (b"sub\tc1\tc2147483648", 7, 2),
            (b"sub\tc9999999999\tc-9999999999", 4, 1),
        ] {
            let line = Line::read(text).unwrap();
            assert_eq!(
                line.elements(),
                Err(Refusal {
                    code: 6,
                    place,
                    side
                })
            );
        }
        let line = Line::read(b"add\tc2147483647\tc-2147483648").unwrap();
        assert_eq!(
            line.elements(),
            Ok((Element::Count(i32::MAX), Element::Count(i32::MIN)))
        );
    }
}
