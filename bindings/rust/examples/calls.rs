//! Each call from Rust, with good and bad input: prints the same lines as the example in C.
use total::{dot_counts, dot_patterns, dot_patterns_counts, report, Direction, Refusal, Width};

fn show(name: &str, answer: Result<u64, Refusal>) {
    match answer {
        Ok(value) => println!("{name}: 0 0 0 {value:016x}"),
        Err(Refusal { code, place, side }) => println!("{name}: {code} {place} {side} {:016x}", 0),
    }
}

fn show_report(name: &str, sheet: &str, room: usize) {
    let mut out = [b'.'; 64];
    show(name, report(sheet.as_bytes(), &mut out[..room]).map(|length| length as u64));
    println!("{}", String::from_utf8_lossy(&out));
}

fn main() {
    use Direction::{Down, Nearest, TowardZero, Up};
    use Width::{Long, Short};

    let far = [0x43b0000000000000, 0x3ff0000000000000, 0xc3b0000000000000];
    let ones = [1f64.to_bits(); 3];
    let halfway = [0x4340000000000000, 0x3ff0000000000000];

    show("cancelled", dot_patterns(&far, &ones, Nearest, Long));
    show("halfway, nearest", dot_patterns(&halfway, &ones[..2], Nearest, Long));
    show("halfway, toward zero", dot_patterns(&halfway, &ones[..2], TowardZero, Long));
    show("halfway, up", dot_patterns(&halfway, &ones[..2], Up, Long));
    show("halfway, down", dot_patterns(&halfway, &ones[..2], Down, Long));
    show("counts", dot_counts(&[i32::MIN], &[i32::MIN], Nearest, Long));
    show("patterns and counts", dot_patterns_counts(&far[..2], &[1, 5], Up, Long));
    show("short", dot_patterns(&[1.5f64.to_bits()], &ones[..1], Nearest, Short));
    show("empty", dot_patterns(&[], &[], Down, Long));
    show("unequal lengths", dot_patterns(&far, &ones[..2], Nearest, Long));
    show("NaN", dot_patterns(&ones[..2], &[1f64.to_bits(), f64::NAN.to_bits()], Nearest, Long));
    show("27 significant bits", dot_patterns(&[0x3ff0000004000000], &ones[..1], Nearest, Long));
    show("too large for short", dot_patterns(&[0x5e2ffffff8000000], &ones[..1], Nearest, Short));

    let sheet = "add\tp43b0000000000000\tc1\nadd\tc1\tc1\nadd\tc1\nsub\tp43b0000000000000\tc1\n";
    show_report("report", sheet, 64);
    show_report("report that just fits", sheet, 32);
    show_report("report without room", sheet, 31);
    show_report("report of an empty sheet", "", 64);
    show_report("report of a line without a line feed", "add\tc2\tc3", 64);
}
