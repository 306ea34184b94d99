//! The abstractions against their meaning: every queue up to a length over few events, and its code by definition.

use native::abstraction::{Abstraction, Blank, EMPTY_FRONT, KeepFirst, List, Set};
use std::collections::{BTreeMap, BTreeSet};

const LONGEST: usize = 7;

type Queue = Vec<u32>;

/// The code of a queue, by the definition.
fn code_of(kind: u32, kept: u32, queue: &[u32]) -> u64 {
    match (kept, queue) {
        (0, _) if kind == 0 => {
            let firsts = (0..queue.len()).filter(|&i| !queue[..i].contains(&queue[i])).map(|i| queue[i]);
            firsts.enumerate().map(|(place, event)| u64::from(event + 1) << (4 * place)).sum()
        }
        (0, _) if kind == 1 => queue.iter().fold(0, |mask, event| mask | 1 << event),
        (0, _) => 0,
        (_, []) => 0,
        (_, [first, rest @ ..]) => 16 * code_of(kind, kept - 1, rest) + u64::from(*first) + 1,
    }
}

fn queues(m: u32) -> Vec<Queue> {
    let mut all: Vec<Queue> = vec![vec![]];
    let mut from = 0;
    for _ in 0..LONGEST {
        let to = all.len();
        for at in from..to {
            for event in 0..m {
                let longer = all[at].iter().copied().chain([event]).collect();
                all.push(longer);
            }
        }
        from = to;
    }
    all
}

fn mask_of(queue: &[u32]) -> u8 {
    queue.iter().fold(0, |mask, event| mask | 1 << event)
}

fn allows<A: Abstraction>(m: u32, code: u64, front: Option<u32>, mask: u8) -> bool {
    let holds = mask & !A::contents(m, code) == 0;
    match front {
        None => holds,
        Some(EMPTY_FRONT) => mask == 0 && A::fronts(m, code) >> EMPTY_FRONT & 1 != 0,
        Some(event) => holds && A::fronts(m, code) >> event & 1 != 0,
    }
}

fn agrees<A: Abstraction>(kind: u32, kept: u32) {
    for m in 1..=3 {
        let mut with_code: BTreeMap<u64, Vec<Queue>> = BTreeMap::new();
        for queue in queues(m) {
            with_code.entry(code_of(kind, kept, &queue)).or_default().push(queue);
        }
        for code in 0..1 << 20 {
            assert_eq!(A::is_good(m, code), with_code.contains_key(&code), "good {code:#x}");
        }
        for (&code, queues) in &with_code {
            appends::<A>(m, code, queues, |queue| code_of(kind, kept, queue));
            for mask in 0..1 << m {
                for front in (0..m).chain([EMPTY_FRONT]).map(Some).chain([None]) {
                    let found = queues.iter().any(|queue| {
                        let right = front.is_none_or(|front| queue.first().copied().unwrap_or(EMPTY_FRONT) == front);
                        right && mask & !mask_of(queue) == 0
                    });
                    assert_eq!(allows::<A>(m, code, front, mask), found, "{code:#x} {front:?} {mask:#x}");
                }
            }
            removes::<A>(m, code, queues, |queue| code_of(kind, kept, queue));
        }
    }
}

fn appends<A: Abstraction>(m: u32, code: u64, queues: &[Queue], code_of: impl Fn(&[u32]) -> u64) {
    for queue in queues {
        for event in 0..m {
            let longer: Queue = queue.iter().copied().chain([event]).collect();
            assert_eq!(A::append(code, event), code_of(&longer), "append {event} to {queue:?}");
        }
    }
}

fn removes<A: Abstraction>(m: u32, code: u64, queues: &[Queue], code_of: impl Fn(&[u32]) -> u64) {
    let right: BTreeSet<(u32, u64)> =
        queues.iter().filter_map(|queue| queue.split_first()).map(|(&first, rest)| (first, code_of(rest))).collect();
    let listed = removals::<A>(m, code);
    assert_eq!(listed.len(), right.len(), "removals of {code:#x} stand once");
    assert_eq!(BTreeSet::from_iter(listed.iter().copied()), right, "removals of {code:#x}");
    for event in 0..m {
        let mut taken = vec![];
        A::takes(m, code, event, |place, left| {
            taken.push((place as usize, left));
            true
        });
        let filtered = listed.iter().enumerate().filter(|(_, removal)| removal.0 == event);
        assert_eq!(taken, filtered.map(|(place, &(_, left))| (place, left)).collect::<Vec<_>>());
    }
}

fn removals<A: Abstraction>(m: u32, code: u64) -> Vec<(u32, u64)> {
    let mut listed = vec![];
    A::removals(m, code, |event, left| {
        listed.push((event, left));
        true
    });
    listed
}

#[test]
fn list() {
    agrees::<List>(0, 0);
    agrees::<KeepFirst<List>>(0, 1);
    agrees::<KeepFirst<KeepFirst<List>>>(0, 2);
}

#[test]
fn set() {
    agrees::<Set>(1, 0);
    agrees::<KeepFirst<Set>>(1, 1);
    agrees::<KeepFirst<KeepFirst<Set>>>(1, 2);
}

#[test]
fn blank() {
    agrees::<Blank>(2, 0);
    agrees::<KeepFirst<Blank>>(2, 1);
    agrees::<KeepFirst<KeepFirst<Blank>>>(2, 2);
}

#[test]
fn orders_of_removals() {
    assert_eq!(removals::<List>(3, 0x321), [(0, 0x32), (0, 0x321), (0, 0x312), (0, 0x132)]);
    assert_eq!(removals::<KeepFirst<List>>(3, 0x3211), [(0, 0x321), (0, 0x3211), (0, 0x3121), (0, 0x1321)]);
    assert_eq!(removals::<Set>(3, 5), [(0, 4), (0, 5), (2, 1), (2, 5)]);
    assert_eq!(removals::<KeepFirst<Blank>>(3, 1), [(0, 0), (0, 1), (0, 2), (0, 3)]);
}
