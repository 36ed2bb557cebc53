//! A run: an exact total in units and a count of products, changed by slices and lines.

use crate::bigint::Integer;
use crate::factors::{Factor, Piece};
use crate::kinds::Element;
use crate::line::{Line, Word};
use crate::refusal::Refusal;

/// The most products that a run of the program takes.
pub const CAPACITY: u64 = 67_108_864;

pub struct Run {
    capacity: u64,
    total: Integer,
    count: u64,
}

/// The factor of an element, or a refusal with 1 or 2.
fn factor(element: Element, place: usize, side: u8) -> Result<Factor, Refusal> {
    Factor::of(element).map_err(|unfit| Refusal::unfit(unfit, place, side))
}

impl Run {
    pub fn open(capacity: u64) -> Self {
        Run {
            capacity,
            total: Integer::zero(),
            count: 0,
        }
    }

    /// The total in units.
    pub fn total(&self) -> &Integer {
        &self.total
    }

    pub fn count(&self) -> u64 {
        self.count
    }

    fn room_for(&self, products: u64) -> Result<(), Refusal> {
        let room = self.capacity - self.count;
        match room < products {
            true => Err(Refusal::capacity(room)),
            false => Ok(()),
        }
    }

    fn put(&mut self, word: Word, piece: &Piece) {
        let piece = match word {
            Word::Add => *piece,
            Word::Sub => piece.withdrawn(),
        };
        self.total = &self.total + &piece.value();
        self.count += 1;
    }

    /// Takes or withdraws the products of two slices: all of them, or none.
    /// Tested for 3, 4, then by index for 1 and 2, the first slice first.
    pub fn slices(
        &mut self,
        word: Word,
        first: &[Element],
        second: &[Element],
    ) -> Result<(), Refusal> {
        if first.len() != second.len() {
            return Err(Refusal::lengths(first.len(), second.len()));
        }
        self.room_for(first.len() as u64)?;
        let mut pieces = Vec::new();
        for (index, (&a, &b)) in first.iter().zip(second).enumerate() {
            pieces.push(factor(a, index, 1)?.times(&factor(b, index, 2)?));
        }
        for piece in &pieces {
            self.put(word, piece);
        }
        Ok(())
    }

    /// Enters a sheet line. Tested for 5, 6, 4, then for 1 and 2, the first
    /// field before the second.
    pub fn enter(&mut self, text: &[u8]) -> Result<(), Refusal> {
        let line = Line::read(text)?;
        let (first, second) = line.elements()?;
        self.room_for(1)?;
        let first = factor(first, line.first.place, 1)?;
        let second = factor(second, line.second.place, 2)?;
        self.put(line.word, &first.times(&second));
        Ok(())
    }
}

#[cfg(test)]
mod tests {
    use super::*;
    use crate::rounding::{long_reading, Direction};
    use Element::{Count, Pattern};

    const NEAREST: Direction = Direction::Nearest;

    fn read(run: &Run, direction: Direction) -> u64 {
        long_reading(run.total(), direction)
    }

    /// A run that took these products.
    fn taken(products: &[(Element, Element)]) -> Run {
        let mut run = Run::open(CAPACITY);
        for &(a, b) in products {
            run.slices(Word::Add, &[a], &[b]).unwrap();
        }
        run
    }

    const ONE: Element = Count(1);
    /// 2^53 has field 1076, 2^60 field 1083 and 2^-484 field 539.
    const TWO_TO_53: Element = Pattern(0x4340000000000000);
    const TWO_TO_60: Element = Pattern(0x43b0000000000000);
    const MINUS_TWO_TO_60: Element = Pattern(0xc3b0000000000000);
    const TWO_TO_MINUS_484: Element = Pattern(0x21b0000000000000);
    const MINUS_TWO_TO_MINUS_484: Element = Pattern(0xa1b0000000000000);

    #[test]
    fn an_opened_run_reads_zero() {
        let run = Run::open(CAPACITY);
        assert_eq!(read(&run, NEAREST), 0);
        assert_eq!(run.count(), 0);
    }

    #[test]
    fn large_products_cancel() {
        let run = taken(&[(TWO_TO_60, ONE), (ONE, ONE), (MINUS_TWO_TO_60, ONE)]);
        assert_eq!(read(&run, NEAREST), 0x3ff0000000000000);
        assert_eq!(run.count(), 3);
    }

    #[test]
    fn a_tie_and_a_total_just_below_it() {
        let mut run = taken(&[(TWO_TO_53, ONE), (ONE, ONE)]);
        assert_eq!(read(&run, NEAREST), 0x4340000000000001);
        assert_eq!(read(&run, Direction::Up), 0x4340000000000001);
        assert_eq!(read(&run, Direction::Down), 0x4340000000000000);
        run.slices(Word::Add, &[MINUS_TWO_TO_MINUS_484], &[TWO_TO_MINUS_484])
            .unwrap();
        assert_eq!(read(&run, NEAREST), 0x4340000000000000);
    }

    #[test]
    fn cancellation_leaves_four_units() {
        let square = |pattern| (Pattern(pattern), Pattern(pattern));
        let mut run = taken(&[square(0x21b0000000000000), square(0x2000000008000000)]);
        assert_eq!(read(&run, NEAREST), 0x0370000000000000);
        assert_eq!(read(&run, Direction::Up), 0x0370000000000001);
        // (2^25 + 1)^2 less 2^25 * (2^25 + 2) is 1, at 2^-1072: four units
        let firsts = [TWO_TO_MINUS_484, Pattern(0x2000000000000000)];
        let seconds = [TWO_TO_MINUS_484, Pattern(0x2000000010000000)];
        run.slices(Word::Sub, &firsts, &seconds).unwrap();
        assert_eq!(read(&run, NEAREST), 4);
        assert_eq!(run.count(), 4);
    }

    #[test]
    fn the_least_count_by_itself() {
        let run = taken(&[(Count(i32::MIN), Count(i32::MIN))]);
        assert_eq!(read(&run, NEAREST), 0x43d0000000000000);
    }

    #[test]
    fn slices_of_different_lengths() {
        let mut run = Run::open(CAPACITY);
        let refusal = |code, place, side| Err(Refusal { code, place, side });
        assert_eq!(
            run.slices(Word::Add, &[ONE; 3], &[ONE; 2]),
            refusal(3, 2, 2)
        );
        assert_eq!(run.slices(Word::Sub, &[], &[ONE; 2]), refusal(3, 0, 1));
        assert_eq!(run.slices(Word::Add, &[], &[]), Ok(()));
        assert_eq!(run.count(), 0);
    }

    #[test]
    fn capacity_is_tested_before_elements() {
        let mut run = Run::open(2);
        let nan = Pattern(0x7ff8000000000000);
        let refusal = |code, place, side| Err(Refusal { code, place, side });
        assert_eq!(
            run.slices(Word::Add, &[nan; 3], &[ONE; 3]),
            refusal(4, 2, 0)
        );
        assert_eq!(
            run.slices(Word::Add, &[ONE, nan], &[Count(67_108_865), ONE]),
            refusal(2, 0, 2)
        );
        assert_eq!(run.count(), 0);
        assert_eq!(run.slices(Word::Sub, &[ONE, ONE], &[ONE, ONE]), Ok(()));
        assert_eq!(run.enter(b"add\tp7ff8000000000000\tc1"), refusal(4, 0, 0));
        assert_eq!(run.enter(b"add\tc2147483648\tc1"), refusal(6, 4, 1));
        assert_eq!(run.enter(b"add\tc1"), refusal(5, 6, 0));
        assert_eq!(read(&run, NEAREST), 0xc000000000000000);
        assert_eq!(run.count(), 2);
    }

    #[test]
    fn a_refused_slice_call_changes_nothing() {
        let mut run = taken(&[(ONE, ONE)]);
        let firsts = [ONE, ONE, Pattern(0x7ff0000000000000)];
        let answer = run.slices(Word::Add, &firsts, &[ONE; 3]);
        assert_eq!(
            answer,
            Err(Refusal {
                code: 1,
                place: 2,
                side: 1
            })
        );
        assert_eq!(read(&run, NEAREST), 0x3ff0000000000000);
        assert_eq!(run.count(), 1);
    }

    #[test]
    fn lines_are_refused_at_the_byte_of_a_field() {
        let mut run = Run::open(CAPACITY);
        for (text, code, place, side) in [
            (&b"add\tp7ff8000000000000\tc1"[..], 1, 4, 1),
            (b"add\tc1\tp7ff0000000000000", 1, 7, 2),
            (b"add\tc67108865\tp7ff0000000000000", 2, 4, 1),
            (b"sub\tc-10\tp1ffffffff8000000", 2, 9, 2),
            (b"add\tp7ff8000000000000\tc2147483648", 6, 22, 2),
            (b"add\tc-0\tc3", 5, 6, 0),
        ] {
            assert_eq!(run.enter(text), Err(Refusal { code, place, side }));
        }
        assert_eq!(run.count(), 0);
        assert_eq!(run.enter(b"sub\tc-3\tc5"), Ok(()));
        assert_eq!(read(&run, NEAREST), 0x402e000000000000);
    }
}
