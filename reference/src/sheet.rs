//! A sheet: its lines, and the report that the program prints for it.

use std::fmt::Write;

use crate::rounding::{long_reading, Direction};
use crate::run::Run;

/// Of a longer line this many bytes are entered: one more than any line of the
/// right shape has.
const MOST_BYTES: usize = 40;

/// The lines of a sheet, parted by line feeds. Bytes after the last line feed
/// form a line if there are any.
fn lines(sheet: &[u8]) -> Vec<&[u8]> {
    let mut lines: Vec<&[u8]> = sheet.split(|&byte| byte == b'\n').collect();
    if lines.last().is_some_and(|last| last.is_empty()) {
        lines.pop();
    }
    lines
}

/// A `no` report for each refused line, numbered from 1, and the `sum` report.
pub fn report(sheet: &[u8], capacity: u64) -> String {
    let mut run = Run::open(capacity);
    let mut text = String::new();
    for (index, line) in lines(sheet).iter().enumerate() {
        let entered = &line[..line.len().min(MOST_BYTES)];
        if let Err(refusal) = run.enter(entered) {
            let number = index + 1;
            writeln!(text, "no\t{number}\t{}\t{}", refusal.code, refusal.place)
                .expect("text grows");
        }
    }
    let pattern = long_reading(run.total(), Direction::Nearest);
    writeln!(text, "sum\t{pattern:016x}\t{}", run.count()).expect("text grows");
    text
}

#[cfg(test)]
mod tests {
    use super::*;
    use crate::run::CAPACITY;

    fn whole(sheet: &[u8]) -> String {
        report(sheet, CAPACITY)
    }

    #[test]
    fn the_worked_example() {
        let sheet =
            b"add\tp43b0000000000000\tc1\nadd\tc1\tc1\nadd\tc1\nsub\tp43b0000000000000\tc1\n";
        assert_eq!(whole(sheet), "no\t3\t5\t6\nsum\t3ff0000000000000\t3\n");
        // the last line feed may be missing
        assert_eq!(
            whole(&sheet[..sheet.len() - 1]),
            "no\t3\t5\t6\nsum\t3ff0000000000000\t3\n"
        );
    }

    #[test]
    fn empty_input_and_empty_lines() {
        assert_eq!(whole(b""), "sum\t0000000000000000\t0\n");
        assert_eq!(whole(b"\n"), "no\t1\t5\t0\nsum\t0000000000000000\t0\n");
        assert_eq!(
            whole(b"\n\nadd\tc0\tc1"),
            "no\t1\t5\t0\nno\t2\t5\t0\nsum\t0000000000000000\t1\n"
        );
    }

    #[test]
    fn long_lines_are_cut() {
        let mut sheet = b"add\tp3ff0000000000000\tp4000000000000000".to_vec();
        assert_eq!(sheet.len(), 39);
        assert_eq!(whole(&sheet), "sum\t4000000000000000\t1\n");
        sheet.push(b'0');
        assert_eq!(whole(&sheet), "no\t1\t5\t39\nsum\t0000000000000000\t0\n");
        sheet.resize(5000, b'0');
        assert_eq!(whole(&sheet), "no\t1\t5\t39\nsum\t0000000000000000\t0\n");
    }

    #[test]
    fn a_full_run_refuses_lines() {
        let sheet = b"add\tc1\tc1\nadd\tc1\tc1\nadd\tc1\tc1\nsub\tc1\tc1\nadd\tc1\n";
        assert_eq!(
            report(sheet, 2),
            "no\t3\t4\t0\nno\t4\t4\t0\nno\t5\t5\t6\nsum\t4000000000000000\t2\n"
        );
    }
}
