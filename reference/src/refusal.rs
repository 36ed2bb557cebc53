//! What a refused call answers: a code, a place and a side.

use crate::factors::Unfit;

/// A refusal. Places count from 0; side 1 is the first slice or field, side 2
/// the second, side 0 neither.
#[derive(Clone, Copy, Debug, PartialEq, Eq)]
pub struct Refusal {
    pub code: u8,
    pub place: u64,
    pub side: u8,
}

impl Refusal {
    /// 1 or 2: an element without a factor.
    pub fn unfit(unfit: Unfit, place: usize, side: u8) -> Self {
        let code = match unfit {
            Unfit::NotFinite => 1,
            Unfit::OutsideWindow => 2,
        };
        Refusal {
            code,
            place: place as u64,
            side,
        }
    }

    /// 3: two slices of different lengths.
    pub fn lengths(first: usize, second: usize) -> Self {
        let side = if first < second { 1 } else { 2 };
        Refusal {
            code: 3,
            place: first.min(second) as u64,
            side,
        }
    }

    /// 4: more products than still fit.
    pub fn capacity(room: u64) -> Self {
        Refusal {
            code: 4,
            place: room,
            side: 0,
        }
    }

    /// 5: a line of another shape.
    pub fn shape(shared: usize) -> Self {
        Refusal {
            code: 5,
            place: shared as u64,
            side: 0,
        }
    }

    /// 6: a count outside 32 bits.
    pub fn count(place: usize, side: u8) -> Self {
        Refusal {
            code: 6,
            place: place as u64,
            side,
        }
    }

    /// 8: a long reading that is too large for a short form.
    pub fn too_large() -> Self {
        Refusal {
            code: 8,
            place: 0,
            side: 0,
        }
    }
}
