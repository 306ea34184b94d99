//! A native implementation of the whole check, written from the rules alone.
//!
//! It is what the proved `queue_check` is compared with, in its answers and in its speed.
#![forbid(unsafe_code)]

pub mod abstraction;
mod check;
mod records;
mod refusal;
mod table;

pub use refusal::Refusal;

/// 0 for a pass, else the refusal packed into one number.
pub fn queue_check(table: &[u8], set: &[u8]) -> u64 {
    match check::check(table, set) {
        Ok(()) => 0,
        Err(refusal) => refusal.packed(),
    }
}
