//! The records of a set file, read where they stand.

use crate::Refusal;
use crate::abstraction::Abstraction;
use crate::table::Table;
use std::cmp::Ordering;

/// Bytes of a record for one machine: the local state, then eight of the code.
pub const ENTRY: usize = 9;

/// A machine's part of a record, as one number that compares as its bytes do: the local state, then the code from its
/// low byte up. Good codes are far below 2^56, so the code's last byte is 0 and left out.
#[derive(Clone, Copy, PartialEq, Eq, PartialOrd, Ord)]
pub struct Entry(u64);

impl Entry {
    /// Local state 0 and an empty queue.
    pub const START: Entry = Entry(0);

    #[inline(always)]
    pub fn new(local: u8, code: u64) -> Entry {
        Entry(u64::from(local) << 56 | code.swap_bytes() >> 8)
    }

    #[inline(always)]
    pub fn local(self) -> u8 {
        (self.0 >> 56) as u8
    }

    #[inline(always)]
    pub fn code(self) -> u64 {
        (self.0 << 8).swap_bytes()
    }

    #[inline(always)]
    pub fn with_local(self, local: u8) -> Entry {
        Entry(u64::from(local) << 56 | self.0 << 8 >> 8)
    }
}

/// One record.
pub type Entries<const N: usize> = [Entry; N];

/// Good records for N machines, R = 9 N bytes each, that rise strictly.
pub struct Records<'a, const N: usize, const R: usize>(&'a [[u8; R]]);

#[inline(always)]
fn entries<const N: usize, const R: usize>(record: &[u8; R]) -> Entries<N> {
    std::array::from_fn(|machine| {
        let at = ENTRY * machine;
        Entry(u64::from_be_bytes(record[at..at + 8].try_into().expect("eight bytes")))
    })
}

impl<'a, const N: usize, const R: usize> Records<'a, N, R> {
    pub fn read<A: Abstraction>(table: &Table, bytes: &'a [u8]) -> Result<Self, Refusal> {
        let records = bytes.as_chunks::<R>().0;
        let mut before = None;
        for (index, record) in records.iter().enumerate() {
            let entries = entries::<N, R>(record);
            for (machine, &[local, ref code @ ..]) in record.as_chunks::<ENTRY>().0.iter().enumerate() {
                // An entry that stood in the record before is right.
                if code[7] == 0 && before.is_some_and(|last: Entries<N>| last[machine] == entries[machine]) {
                    continue;
                }
                if !table.has_local(machine as u8, local) || !A::is_good(table.events, u64::from_le_bytes(*code)) {
                    return Err(Refusal::record_entry(index));
                }
            }
            if before.is_some_and(|last| last >= entries) {
                return Err(Refusal::record_order(index));
            }
            before = Some(entries);
        }
        Ok(Records(records))
    }

    pub fn len(&self) -> usize {
        self.0.len()
    }

    pub fn iter(&self) -> impl Iterator<Item = Entries<N>> {
        self.0.iter().map(entries)
    }

    #[inline(always)]
    fn compare(&self, place: usize, sought: &Entries<N>) -> Ordering {
        entries::<N, R>(&self.0[place]).cmp(sought)
    }

    /// Finds a record: at `near`, a place where it may well be, or else outwards from there.
    #[inline(always)]
    pub fn find(&self, sought: &Entries<N>, near: usize) -> Option<usize> {
        if cfg!(feature = "plain-search") {
            return self.find_between(sought, 0, self.len());
        }
        if near >= self.len() {
            return self.find_between(sought, 0, self.len());
        }
        match self.compare(near, sought) {
            Ordering::Equal => Some(near),
            Ordering::Less => self.find_after(sought, near),
            Ordering::Greater => self.find_before(sought, near),
        }
    }

    /// Finds a record beyond `near`: twice as far at each try, then between the last two.
    fn find_after(&self, sought: &Entries<N>, near: usize) -> Option<usize> {
        let mut low = near + 1;
        let mut stride = 1;
        while low + stride < self.len() {
            let high = low + stride;
            match self.compare(high, sought) {
                Ordering::Equal => return Some(high),
                Ordering::Less => low = high + 1,
                Ordering::Greater => return self.find_between(sought, low, high),
            }
            stride *= 2;
        }
        self.find_between(sought, low, self.len())
    }

    /// Finds a record below `near`, in the same way.
    fn find_before(&self, sought: &Entries<N>, near: usize) -> Option<usize> {
        let mut high = near;
        let mut stride = 1;
        while stride < high {
            let low = high - stride;
            match self.compare(low, sought) {
                Ordering::Equal => return Some(low),
                Ordering::Less => return self.find_between(sought, low + 1, high),
                Ordering::Greater => high = low,
            }
            stride *= 2;
        }
        self.find_between(sought, 0, high)
    }

    /// Finds a record from `low` on and below `high`.
    fn find_between(&self, sought: &Entries<N>, mut low: usize, mut high: usize) -> Option<usize> {
        while low < high {
            let middle = low + (high - low) / 2;
            match self.compare(middle, sought) {
                Ordering::Equal => return Some(middle),
                Ordering::Less => low = middle + 1,
                Ordering::Greater => high = middle,
            }
        }
        None
    }
}
