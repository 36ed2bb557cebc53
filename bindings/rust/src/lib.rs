//! Exact sums of products, rounded once: safe calls of the proved library. They keep nothing between them and allocate nothing.

/// Where a sum goes that is no number of the width.
#[derive(Clone, Copy, PartialEq, Eq, Debug)]
pub enum Direction {
    /// To the nearest number; a tie goes away from zero.
    Nearest = 0,
    TowardZero = 1,
    Up = 2,
    Down = 3,
}

/// The width of the pattern.
#[derive(Clone, Copy, PartialEq, Eq, Debug)]
pub enum Width {
    /// binary64
    Long = 0,
    /// binary32, in the low half
    Short = 1,
}

/// Why a call was refused, at which place and on which side.
#[derive(Clone, Copy, PartialEq, Eq, Debug)]
pub struct Refusal {
    pub code: u64,
    pub place: u64,
    pub side: u64,
}

/// The numbers of an answer as they cross the boundary.
#[repr(C)]
struct Answer {
    code: u64,
    place: u64,
    side: u64,
    value: u64,
}

impl Answer {
    fn result(self) -> Result<u64, Refusal> {
        match self {
            Answer { code: 0, value, .. } => Ok(value),
            Answer { code, place, side, .. } => Err(Refusal { code, place, side }),
        }
    }
}

extern "C" {
    fn total_dot_patterns(firsts: *const u64, first_count: usize, seconds: *const u64, second_count: usize, direction: u32, width: u32) -> Answer;
    fn total_dot_counts(firsts: *const i32, first_count: usize, seconds: *const i32, second_count: usize, direction: u32, width: u32) -> Answer;
    fn total_dot_patterns_counts(firsts: *const u64, first_count: usize, seconds: *const i32, second_count: usize, direction: u32, width: u32) -> Answer;
    fn total_report(sheet: *const u8, sheet_length: usize, out: *mut u8, out_length: usize) -> Answer;
}

// Each call below passes slices as they are lent: a pointer that is not null, and the number of elements behind it.

/// The sum of the products of two slices of binary64 patterns.
pub fn dot_patterns(firsts: &[u64], seconds: &[u64], direction: Direction, width: Width) -> Result<u64, Refusal> {
    unsafe { total_dot_patterns(firsts.as_ptr(), firsts.len(), seconds.as_ptr(), seconds.len(), direction as u32, width as u32) }.result()
}

/// The sum of the products of two slices of counts.
pub fn dot_counts(firsts: &[i32], seconds: &[i32], direction: Direction, width: Width) -> Result<u64, Refusal> {
    unsafe { total_dot_counts(firsts.as_ptr(), firsts.len(), seconds.as_ptr(), seconds.len(), direction as u32, width as u32) }.result()
}

/// The sum of the products of a slice of binary64 patterns and one of counts.
pub fn dot_patterns_counts(firsts: &[u64], seconds: &[i32], direction: Direction, width: Width) -> Result<u64, Refusal> {
    unsafe { total_dot_patterns_counts(firsts.as_ptr(), firsts.len(), seconds.as_ptr(), seconds.len(), direction as u32, width as u32) }.result()
}

/// Writes the report of a sheet and tells how many bytes it has. Where `out` is too short, nothing is written.
pub fn report(sheet: &[u8], out: &mut [u8]) -> Result<usize, Refusal> {
    let answer = unsafe { total_report(sheet.as_ptr(), sheet.len(), out.as_mut_ptr(), out.len()) };
    answer.result().map(|length| length as usize)
}
