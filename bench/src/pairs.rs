//! Random pairs of files: valid, damaged and hostile, of all lengths from 0 up.

use crate::random::Random;
use crate::system::{ANY, Closure, EMPTY, LOCAL, Layers, Line, Rule, SEND, System, TAKE};

/// A table file and a set file.
#[derive(Clone, Default)]
pub struct Pair {
    pub table: Vec<u8>,
    pub set: Vec<u8>,
}

/// The pairs begin with every length below this one, in turn for table and set.
const SWEPT_LENGTHS: usize = 1024;
const SWEEPS: usize = 6;
/// Pairs that are made from one system before the next is drawn.
const USES: usize = 24;
const MOST_RECORDS: usize = 200;

pub struct Pairs {
    random: Random,
    made: usize,
    uses: usize,
    system: System,
    closure: Closure,
}

impl Pairs {
    pub fn new(seed: u64) -> Pairs {
        let mut random = Random::new(seed);
        let (system, closure) = draw(&mut random);
        Pairs { random, made: 0, uses: 0, system, closure }
    }

    fn valid(&self) -> Pair {
        Pair { table: self.system.bytes(), set: self.closure.bytes() }
    }

    fn swept(&mut self, sweep: usize, length: usize) -> Pair {
        let mut pair = self.valid();
        match sweep {
            0 => pair.table = self.noise(length),
            1 => pair.set = self.noise(length),
            2 => pair.table.resize(length, 0),
            3 => pair.set.resize(length, 0),
            4 => pair = Pair { table: self.noise(length), set: self.noise(length) },
            _ => {
                let header = pair.set.get(..16.min(length)).unwrap_or_default().to_vec();
                pair.set = header.into_iter().chain(self.noise(length)).take(length).collect();
            }
        }
        pair
    }

    fn noise(&mut self, length: usize) -> Vec<u8> {
        (0..length).map(|_| self.random.byte()).collect()
    }

    fn changed(&mut self) -> Pair {
        match self.random.below(16) {
            0 => self.valid(),
            1 => self.with_rule_changed(),
            2..=4 => self.with_record_gone(),
            5 => self.with_record_added(),
            6 => self.with_records_disordered(),
            7 => self.with_layers_changed(),
            8 => {
                let pair = self.valid();
                Pair { table: pair.set, set: pair.table }
            }
            9 if self.random.once_in(200) => large(&mut self.random),
            _ => self.damaged(),
        }
    }

    /// One to three changes of bytes or of a length.
    fn damaged(&mut self) -> Pair {
        let mut pair = self.valid();
        for _ in 0..self.random.between(1, 3) {
            let file = if self.random.once_in(2) { &mut pair.table } else { &mut pair.set };
            damage(&mut self.random, file);
        }
        pair
    }

    fn with_rule_changed(&mut self) -> Pair {
        let mut system = self.system.clone();
        if !system.rules.is_empty() {
            let at = self.random.below(system.rules.len());
            if self.random.once_in(2) {
                system.rules.remove(at);
            } else {
                let random = &mut self.random;
                system.rules[at] = draw_rule(random, system.events, &system.locals);
            }
        }
        Pair { table: system.bytes(), set: self.closure.bytes() }
    }

    fn with_record_gone(&mut self) -> Pair {
        let mut pair = self.valid();
        let count = self.closure.records.len();
        let size = 9 * self.closure.machines;
        let at = 16 + size * self.random.below(count);
        pair.set.drain(at..at + size);
        pair.set[10..12].copy_from_slice(&(count as u16 - 1).to_le_bytes());
        pair
    }

    /// A record with one entry of another, in its place in the order.
    fn with_record_added(&mut self) -> Pair {
        let mut records = self.closure.records.clone();
        let mut added = records[self.random.below(records.len())].clone();
        let other = &records[self.random.below(records.len())];
        let at = 9 * self.random.below(self.closure.machines);
        added[at..at + 9].copy_from_slice(&other[at..at + 9]);
        if self.random.once_in(2) {
            added[at] = self.random.below(self.system.locals[at / 9].into()) as u8;
        }
        records.push(added);
        records.sort_unstable();
        records.dedup();
        let set = self.closure.with_records(&records);
        Pair { table: self.system.bytes(), set }
    }

    fn with_records_disordered(&mut self) -> Pair {
        let mut records = self.closure.records.clone();
        let (one, other) = (self.random.below(records.len()), self.random.below(records.len()));
        if self.random.once_in(2) {
            records.swap(one, other);
        } else {
            records.insert(one, records[other].clone());
        }
        let set = self.closure.with_records(&records);
        Pair { table: self.system.bytes(), set }
    }

    fn with_layers_changed(&mut self) -> Pair {
        let mut pair = self.valid();
        pair.set[2] = self.random.below(4) as u8;
        pair.set[4] = self.random.below(4) as u8;
        pair
    }
}

impl Iterator for Pairs {
    type Item = Pair;

    fn next(&mut self) -> Option<Pair> {
        if self.uses == USES {
            self.uses = 0;
            (self.system, self.closure) = draw(&mut self.random);
        }
        self.uses += 1;
        let made = self.made;
        self.made += 1;
        let pair =
            if made < SWEPT_LENGTHS * SWEEPS { self.swept(made % SWEEPS, made / SWEEPS) } else { self.changed() };
        Some(pair)
    }
}

fn draw(random: &mut Random) -> (System, Closure) {
    loop {
        let system = draw_system(random);
        let layers = Layers { kind: random.below(3) as u8, kept: random.below(3) as u8 };
        let most = if random.once_in(20) { 10 * MOST_RECORDS } else { MOST_RECORDS };
        let (system, closure) = if random.once_in(4) {
            let closure = system.closure(layers, most);
            (system, closure)
        } else {
            complete(random, system, layers, most)
        };
        // Sets that are cut short are refused soon; a few of them do.
        if closure.records.len() < most || random.once_in(8) {
            return (system, closure);
        }
    }
}

/// Adds a rule for most surprises, so that many of the sets pass.
fn complete(random: &mut Random, mut system: System, layers: Layers, most: usize) -> (System, Closure) {
    loop {
        let closure = system.closure(layers, most);
        if closure.surprises.is_empty() || system.rules.len() + closure.surprises.len() > 256 || random.once_in(40) {
            return (system, closure);
        }
        for &(machine, from, event) in &closure.surprises {
            let to = random.below(system.locals[usize::from(machine)].into()) as u8;
            system.rules.push(Rule { kind: TAKE, machine, from, to, event, target: 0 });
        }
    }
}

fn draw_system(random: &mut Random) -> System {
    let events = (1 + random.below(8).min(random.below(8))) as u8;
    let machines = 1 + random.below(6).min(random.below(6));
    let most_locals = if random.once_in(10) { 32 } else { 3 };
    let locals: Vec<u8> = (0..machines).map(|_| random.between(1, most_locals) as u8).collect();
    let most_rules = if random.once_in(30) { 120 } else { 10 };
    let rules = (0..random.below(most_rules + 1)).map(|_| draw_rule(random, events, &locals)).collect();
    let lines = if random.once_in(2) { vec![] } else { draw_lines(random, events, &locals) };
    System { events, locals, rules, lines }
}

fn draw_rule(random: &mut Random, events: u8, locals: &[u8]) -> Rule {
    let machine = random.below(locals.len());
    let kind = random.pick(&[LOCAL, TAKE, SEND, SEND]);
    // Half of the rules leave local state 0, so that something happens.
    let from = if random.once_in(2) { 0 } else { random.below(locals[machine].into()) as u8 };
    let to = random.below(locals[machine].into()) as u8;
    let event = if kind == LOCAL { 0 } else { random.below(events.into()) as u8 };
    let target = if kind == SEND { random.below(locals.len()) as u8 } else { 0 };
    Rule { kind, machine: machine as u8, from, to, event, target }
}

fn draw_lines(random: &mut Random, events: u8, locals: &[u8]) -> Vec<Line> {
    let most = if random.once_in(10) { 20 } else { 4 };
    let patterns = random.below(most);
    let mut lines = vec![];
    for pattern in 0..patterns as u8 {
        let before = lines.len();
        for (machine, &states) in locals.iter().enumerate() {
            if random.once_in(2) || machine + 1 == locals.len() && lines.len() == before {
                let local = if random.once_in(3) { ANY } else { random.below(states.into()) as u8 };
                let front = match random.below(4) {
                    0 => ANY,
                    1 => EMPTY,
                    _ => random.below(events.into()) as u8,
                };
                let mask = if random.once_in(2) { 0 } else { random.below(1 << events) as u8 };
                lines.push(Line { pattern, machine: machine as u8, local, front, mask });
            }
        }
    }
    lines.truncate(64);
    lines
}

/// Changes a byte, a bit, a field of the header or the length.
fn damage(random: &mut Random, file: &mut Vec<u8>) {
    let Some(last) = file.len().checked_sub(1) else {
        file.push(random.byte());
        return;
    };
    let at = random.below(last + 1);
    match random.below(9) {
        0 => file[at] = random.byte(),
        1 => file[at] ^= 1 << random.below(8),
        2 => file[at] = random.pick(&[0, 1, 2, 3, 6, 7, 8, 9, 31, 32, 33, 254, 255]),
        3 => file[at] = file[at].wrapping_add(1),
        4 => file[at] = file[at].wrapping_sub(1),
        5 => {
            let field = 2 * random.below(8);
            let value = random.pick(&[0u16, 1, 2, 3, 7, 8, 9, 16, 64, 65, 255, 256, 257, 32768, 65535]);
            if let Some(bytes) = file.get_mut(field..field + 2) {
                bytes.copy_from_slice(&value.to_le_bytes());
            }
        }
        6 => file.truncate(at),
        7 => {
            let more = random.between(1, 60);
            file.extend((0..more).map(|_| random.byte()));
        }
        _ => {
            let end = at + random.below(last - at + 1).min(9);
            file.drain(at..end);
        }
    }
}

/// A set of many records for one machine or two, with good codes for the most part.
fn large(random: &mut Random) -> Pair {
    let machines = random.between(1, 2);
    let locals = vec![32; machines];
    let rules = (0..8).map(|_| draw_rule(random, 8, &locals)).collect();
    let system = System { events: 8, locals, rules, lines: vec![] };
    let layers = Layers { kind: 1, kept: random.below(3) as u8 };
    let count = random.between(1000, 65_536);
    let mut records: Vec<Vec<u8>> = (0..count)
        .map(|_| {
            (0..machines)
                .flat_map(|_| {
                    let layer = |below: u64, random: &mut Random| 16 * below + random.between(1, 8) as u64;
                    let set = u64::from(random.byte());
                    let code = (0..layers.kept).fold(set, |code, _| layer(code, random));
                    std::iter::once(random.below(32) as u8).chain(code.to_le_bytes())
                })
                .collect()
        })
        .chain([vec![0; 9 * machines]])
        .collect();
    records.sort_unstable();
    records.dedup();
    records.truncate(65_535);
    let closure = Closure { layers, machines, events: 8, records, surprises: Default::default() };
    Pair { table: system.bytes(), set: closure.bytes() }
}
