//! Queue abstractions: each gives every queue over `m` events (1 to 8) one code.
//!
//! The functions take good codes and existing events; `is_good` takes any code.

/// Front position of "the queue may be empty" in [`Abstraction::fronts`].
pub const EMPTY_FRONT: u32 = 8;

/// A queue abstraction. The empty queue has code 0 in all of them.
pub trait Abstraction {
    /// The code is that of some queue over `m` events.
    fn is_good(m: u32, code: u64) -> bool;

    /// What can be at the front: bit `e` for event `e`, bit 8 if the queue can be empty.
    fn fronts(m: u32, code: u64) -> u16;

    /// The events that queues with this code can hold. One queue, with any possible event in front, can hold them all.
    fn contents(m: u32, code: u64) -> u8;

    /// The code after `event` is added at the back.
    fn append(code: u64, event: u32) -> u64;

    /// Visits the removals in their order, as (event taken, code left), until one visit says false.
    fn removals(m: u32, code: u64, visit: impl FnMut(u32, u64) -> bool) -> bool;

    /// The removals that take `event`, as (place in the list of all removals, code left).
    #[inline(always)]
    fn takes(m: u32, code: u64, event: u32, mut visit: impl FnMut(u32, u64) -> bool) -> bool {
        let mut place = 0;
        Self::removals(m, code, |taken, left| {
            let go_on = taken != event || visit(place, left);
            place += 1;
            go_on
        })
    }
}

/// The first occurrence of each event, in order; four bits each, event + 1.
pub struct List;

impl Abstraction for List {
    #[inline(always)]
    fn is_good(m: u32, code: u64) -> bool {
        let mut rest = code;
        let mut seen = 0u32;
        while rest != 0 {
            let event = (rest as u32 & 15).wrapping_sub(1);
            if event >= m || seen >> event & 1 != 0 {
                return false;
            }
            seen |= 1 << event;
            rest >>= 4;
        }
        true
    }

    #[inline(always)]
    fn fronts(_: u32, code: u64) -> u16 {
        if code == 0 { 1 << EMPTY_FRONT } else { 1 << (code as u32 % 16 - 1) }
    }

    #[inline(always)]
    fn contents(_: u32, code: u64) -> u8 {
        let mut rest = code;
        let mut held = 0u32;
        while rest != 0 {
            held |= 1 << (rest & 15);
            rest >>= 4;
        }
        (held >> 1) as u8
    }

    #[inline(always)]
    fn append(code: u64, event: u32) -> u64 {
        if Self::contents(8, code) >> event & 1 != 0 { code } else { code | u64::from(event + 1) << length(code) }
    }

    #[inline(always)]
    fn removals(_: u32, code: u64, mut visit: impl FnMut(u32, u64) -> bool) -> bool {
        if code == 0 {
            return true;
        }
        let first = code & 15;
        let rest = code >> 4;
        let event = first as u32 - 1;
        if !visit(event, rest) {
            return false;
        }
        // The first event at each place among the others: those before it move down one place.
        let end = length(code);
        let mut place = 0;
        while place < end {
            let before = (1u64 << place) - 1;
            let left = rest & before | first << place | (rest & !before) << 4;
            if !visit(event, left) {
                return false;
            }
            place += 4;
        }
        true
    }
}

/// Bits that a list code takes up: four for each event.
#[inline(always)]
fn length(code: u64) -> u32 {
    (64 - code.leading_zeros() + 3) & !3
}

/// The mask of the events present.
pub struct Set;

impl Abstraction for Set {
    #[inline(always)]
    fn is_good(m: u32, code: u64) -> bool {
        code >> m == 0
    }

    #[inline(always)]
    fn fronts(_: u32, code: u64) -> u16 {
        if code == 0 { 1 << EMPTY_FRONT } else { code as u16 }
    }

    #[inline(always)]
    fn contents(_: u32, code: u64) -> u8 {
        code as u8
    }

    #[inline(always)]
    fn append(code: u64, event: u32) -> u64 {
        code | 1 << event
    }

    #[inline(always)]
    fn removals(_: u32, code: u64, mut visit: impl FnMut(u32, u64) -> bool) -> bool {
        let mut rest = code;
        while rest != 0 {
            let event = rest.trailing_zeros();
            if !visit(event, code & !(1 << event)) || !visit(event, code) {
                return false;
            }
            rest &= rest - 1;
        }
        true
    }

    #[inline(always)]
    fn takes(_: u32, code: u64, event: u32, mut visit: impl FnMut(u32, u64) -> bool) -> bool {
        let bit = 1 << event;
        if code & bit == 0 {
            return true;
        }
        let place = 2 * (code & (bit - 1)).count_ones();
        visit(place, code & !bit) && visit(place + 1, code)
    }
}

/// Nothing is known: code 0 for every queue.
pub struct Blank;

impl Abstraction for Blank {
    #[inline(always)]
    fn is_good(_: u32, code: u64) -> bool {
        code == 0
    }

    #[inline(always)]
    fn fronts(m: u32, _: u64) -> u16 {
        1 << EMPTY_FRONT | ((1 << m) - 1)
    }

    #[inline(always)]
    fn contents(m: u32, _: u64) -> u8 {
        ((1u32 << m) - 1) as u8
    }

    #[inline(always)]
    fn append(_: u64, _: u32) -> u64 {
        0
    }

    #[inline(always)]
    fn removals(m: u32, _: u64, mut visit: impl FnMut(u32, u64) -> bool) -> bool {
        (0..m).all(|event| visit(event, 0))
    }

    #[inline(always)]
    fn takes(_: u32, _: u64, event: u32, mut visit: impl FnMut(u32, u64) -> bool) -> bool {
        visit(event, 0)
    }
}

/// The front event is kept: code 0 for the empty queue, else 16 times the code below of the rest, plus event + 1.
pub struct KeepFirst<Below>(std::marker::PhantomData<Below>);

impl<Below: Abstraction> Abstraction for KeepFirst<Below> {
    #[inline(always)]
    fn is_good(m: u32, code: u64) -> bool {
        code == 0 || (1..=m).contains(&(code as u32 % 16)) && Below::is_good(m, code / 16)
    }

    #[inline(always)]
    fn fronts(_: u32, code: u64) -> u16 {
        if code == 0 { 1 << EMPTY_FRONT } else { 1 << (code as u32 % 16 - 1) }
    }

    #[inline(always)]
    fn contents(m: u32, code: u64) -> u8 {
        if code == 0 { 0 } else { 1 << (code as u32 % 16 - 1) | Below::contents(m, code / 16) }
    }

    #[inline(always)]
    fn append(code: u64, event: u32) -> u64 {
        if code == 0 { u64::from(event) + 1 } else { 16 * Below::append(code / 16, event) + code % 16 }
    }

    #[inline(always)]
    fn removals(m: u32, code: u64, mut visit: impl FnMut(u32, u64) -> bool) -> bool {
        if code == 0 {
            return true;
        }
        let event = code as u32 % 16 - 1;
        let below = code / 16;
        if Below::fronts(m, below) >> EMPTY_FRONT & 1 != 0 && !visit(event, 0) {
            return false;
        }
        Below::removals(m, below, |next, left| visit(event, 16 * left + u64::from(next) + 1))
    }

    #[inline(always)]
    fn takes(m: u32, code: u64, event: u32, mut visit: impl FnMut(u32, u64) -> bool) -> bool {
        if code as u32 % 16 != event + 1 {
            return true;
        }
        let mut place = 0;
        Self::removals(m, code, |_, left| {
            let go_on = visit(place, left);
            place += 1;
            go_on
        })
    }
}
