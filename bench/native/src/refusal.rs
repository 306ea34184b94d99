//! Why a pair of files is turned away.

/// A refusal: its number and up to three values, 0 where the number has none.
#[derive(Clone, Copy, Debug, PartialEq, Eq)]
pub struct Refusal {
    pub number: u8,
    pub a: u32,
    pub b: u32,
    pub c: u32,
}

impl Refusal {
    /// Table too short, or not as long as its counts give.
    pub const TABLE_LENGTH: Refusal = Refusal::at(1, 0);
    /// Set too short, or not as long as its counts give.
    pub const SET_LENGTH: Refusal = Refusal::at(4, 0);
    /// The start's record is absent.
    pub const NO_START: Refusal = Refusal::at(8, 0);

    const fn at(number: u8, a: usize) -> Refusal {
        Refusal { number, a: a as u32, b: 0, c: 0 }
    }

    pub(crate) const fn table_field(offset: usize) -> Refusal {
        Refusal::at(2, offset)
    }

    pub(crate) const fn table_line(offset: usize) -> Refusal {
        Refusal::at(3, offset)
    }

    pub(crate) const fn set_field(offset: usize) -> Refusal {
        Refusal::at(5, offset)
    }

    pub(crate) const fn record_entry(record: usize) -> Refusal {
        Refusal::at(6, record)
    }

    pub(crate) const fn record_order(record: usize) -> Refusal {
        Refusal::at(7, record)
    }

    pub(crate) const fn surprise(record: usize, machine: usize, event: u32) -> Refusal {
        Refusal { number: 9, a: record as u32, b: machine as u32, c: event }
    }

    pub(crate) const fn pattern(record: usize, pattern: usize) -> Refusal {
        Refusal { number: 10, a: record as u32, b: pattern as u32, c: 0 }
    }

    pub(crate) const fn outside(record: usize, rule: usize, removal: u32) -> Refusal {
        Refusal { number: 11, a: record as u32, b: rule as u32, c: removal }
    }

    /// number + 2^8 A + 2^32 B + 2^48 C.
    pub const fn packed(self) -> u64 {
        self.number as u64 | (self.a as u64) << 8 | (self.b as u64) << 32 | (self.c as u64) << 48
    }
}
