//! The proved `queue_check`, from the static library named when this was built.

/// The library, or nothing: then the native implementation stands on both sides.
pub const LIBRARY: Option<&str> = option_env!("SUBJECT_LIBRARY");

#[cfg(subject)]
mod linked {
    unsafe extern "C" {
        fn queue_check(table: *const u8, table_len: usize, set: *const u8, set_len: usize) -> u64;
    }

    pub fn check(table: &[u8], set: &[u8]) -> u64 {
        // SAFETY: both pairs are a slice's pointer and length, and the callee only reads.
        unsafe { queue_check(table.as_ptr(), table.len(), set.as_ptr(), set.len()) }
    }
}

#[cfg(not(subject))]
mod linked {
    pub fn check(table: &[u8], set: &[u8]) -> u64 {
        native::queue_check(table, set)
    }
}

pub use linked::check;

/// One line that says what is compared with the native implementation.
pub fn announce() {
    match LIBRARY {
        Some(path) => println!("proved: {path}"),
        None => println!("proved: NOT LINKED, the native implementation stands on both sides"),
    }
}
