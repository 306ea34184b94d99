//! Systems of machines, their closed sets of abstract states, and both as files.

use native::abstraction::{Abstraction, Blank, KeepFirst, List, Set};
use std::collections::{BTreeSet, HashSet};
use std::hash::{BuildHasherDefault, Hasher};

pub const LOCAL: u8 = 0;
pub const TAKE: u8 = 1;
pub const SEND: u8 = 2;
pub const ANY: u8 = 255;
pub const EMPTY: u8 = 254;

/// The layers that a set's header names.
#[derive(Clone, Copy, Debug, PartialEq, Eq)]
pub struct Layers {
    pub kind: u8,
    pub kept: u8,
}

impl std::fmt::Display for Layers {
    fn fmt(&self, f: &mut std::fmt::Formatter) -> std::fmt::Result {
        write!(f, "{} kept {}", ["list", "set", "blank"][usize::from(self.kind)], self.kept)
    }
}

#[derive(Clone, Copy, Debug, PartialEq, Eq)]
pub struct Rule {
    pub kind: u8,
    pub machine: u8,
    pub from: u8,
    pub to: u8,
    pub event: u8,
    pub target: u8,
}

/// One condition of a forbidden pattern.
#[derive(Clone, Copy, Debug)]
pub struct Line {
    pub pattern: u8,
    pub machine: u8,
    pub local: u8,
    pub front: u8,
    pub mask: u8,
}

#[derive(Clone, Debug)]
pub struct System {
    pub events: u8,
    /// The number of local states of each machine.
    pub locals: Vec<u8>,
    pub rules: Vec<Rule>,
    pub lines: Vec<Line>,
}

/// For each machine its local state in the low byte and its code above.
type State = [u64; 6];

/// A machine, its local state, and an event in front that it does not take there.
pub type Surprise = (u8, u8, u8);

/// A quick hash of states; nobody chooses them to collide.
#[derive(Default)]
struct Mix(u64);

impl Hasher for Mix {
    fn write(&mut self, bytes: &[u8]) {
        for chunk in bytes.chunks(8) {
            let mut word = [0; 8];
            word[..chunk.len()].copy_from_slice(chunk);
            self.0 = (self.0.rotate_left(25) ^ u64::from_le_bytes(word)).wrapping_mul(0x9e37_79b9_7f4a_7c15);
        }
    }

    fn finish(&self) -> u64 {
        self.0 ^ self.0 >> 32
    }
}

impl System {
    /// The table file.
    pub fn bytes(&self) -> Vec<u8> {
        let machines = self.locals.len();
        let rules_at = 16 + 2 * machines;
        let lines_at = rules_at + 6 * self.rules.len();
        let header = [1, machines, self.events.into(), self.rules.len(), self.lines.len(), 16, rules_at, lines_at];
        let mut bytes: Vec<u8> = header.iter().flat_map(|&field| (field as u16).to_le_bytes()).collect();
        bytes.extend(self.locals.iter().flat_map(|&locals| [locals, 0]));
        bytes.extend(self.rules.iter().flat_map(|r| [r.kind, r.machine, r.from, r.to, r.event, r.target]));
        bytes.extend(self.lines.iter().flat_map(|l| [l.pattern, l.machine, l.local, l.front, l.mask, 0]));
        bytes
    }

    /// All abstract states that steps lead to from the start, or as many as `most`, as the records of a set.
    pub fn closure(&self, layers: Layers, most: usize) -> Closure {
        match (layers.kind, layers.kept) {
            (0, 0) => self.closure_under::<List>(layers, most),
            (0, 1) => self.closure_under::<KeepFirst<List>>(layers, most),
            (0, _) => self.closure_under::<KeepFirst<KeepFirst<List>>>(layers, most),
            (1, 0) => self.closure_under::<Set>(layers, most),
            (1, 1) => self.closure_under::<KeepFirst<Set>>(layers, most),
            (1, _) => self.closure_under::<KeepFirst<KeepFirst<Set>>>(layers, most),
            (_, 0) => self.closure_under::<Blank>(layers, most),
            (_, 1) => self.closure_under::<KeepFirst<Blank>>(layers, most),
            (_, _) => self.closure_under::<KeepFirst<KeepFirst<Blank>>>(layers, most),
        }
    }

    fn closure_under<A: Abstraction>(&self, layers: Layers, most: usize) -> Closure {
        let start: State = [0; 6];
        let mut seen: HashSet<State, BuildHasherDefault<Mix>> = HashSet::from_iter([start]);
        let mut waiting = vec![start];
        let mut surprises = BTreeSet::new();
        while let Some(state) = waiting.pop() {
            surprises.extend(self.surprises::<A>(&state));
            self.steps::<A>(&state, |next| {
                if seen.len() < most && seen.insert(next) {
                    waiting.push(next);
                }
            });
        }
        let machines = self.locals.len();
        let mut records: Vec<Vec<u8>> = seen.iter().map(|state| record(&state[..machines])).collect();
        records.sort_unstable();
        Closure { layers, machines, events: self.events, records, surprises }
    }

    fn surprises<A: Abstraction>(&self, state: &State) -> impl Iterator<Item = Surprise> {
        (0..self.locals.len()).flat_map(move |machine| {
            let (local, code) = (state[machine] as u8, state[machine] >> 8);
            let fronts = A::fronts(self.events.into(), code);
            (0..self.events)
                .filter(move |&event| fronts >> event & 1 != 0 && !self.takes(machine as u8, local, event))
                .map(move |event| (machine as u8, local, event))
        })
    }

    pub fn takes(&self, machine: u8, local: u8, event: u8) -> bool {
        self.rules.iter().any(|r| r.kind == TAKE && r.machine == machine && r.from == local && r.event == event)
    }

    fn steps<A: Abstraction>(&self, state: &State, mut visit: impl FnMut(State)) {
        for rule in &self.rules {
            let machine = usize::from(rule.machine);
            let (local, code) = (state[machine] as u8, state[machine] >> 8);
            if local != rule.from {
                continue;
            }
            let mut next = *state;
            match rule.kind {
                LOCAL => {
                    next[machine] = code << 8 | u64::from(rule.to);
                    visit(next);
                }
                TAKE => {
                    A::removals(self.events.into(), code, |event, left| {
                        if event == u32::from(rule.event) {
                            next[machine] = left << 8 | u64::from(rule.to);
                            visit(next);
                        }
                        true
                    });
                }
                _ => {
                    let target = usize::from(rule.target);
                    next[machine] = code << 8 | u64::from(rule.to);
                    let waiting = next[target] >> 8;
                    next[target] = A::append(waiting, rule.event.into()) << 8 | next[target] & 255;
                    visit(next);
                }
            }
        }
    }
}

fn record(state: &[u64]) -> Vec<u8> {
    state
        .iter()
        .flat_map(|entry| {
            let code = (entry >> 8).to_le_bytes();
            std::iter::once(*entry as u8).chain(code)
        })
        .collect()
}

/// Abstract states in the order of a set file.
pub struct Closure {
    pub layers: Layers,
    pub machines: usize,
    pub events: u8,
    pub records: Vec<Vec<u8>>,
    /// The surprises that these states allow.
    pub surprises: BTreeSet<Surprise>,
}

impl Closure {
    /// The set file.
    pub fn bytes(&self) -> Vec<u8> {
        self.with_records(&self.records)
    }

    /// A set file of the same header, but for the count, with other records.
    pub fn with_records(&self, records: &[Vec<u8>]) -> Vec<u8> {
        let Layers { kind, kept } = self.layers;
        let header = [1, kind.into(), kept.into(), self.machines, self.events.into(), records.len(), 16, 0];
        let mut bytes: Vec<u8> = header.iter().flat_map(|&field| (field as u16).to_le_bytes()).collect();
        bytes.extend(records.iter().flatten());
        bytes
    }
}
