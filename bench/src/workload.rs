//! Tables whose closed sets have a wanted number of records, and those sets.
//!
//! A base of machines that send, take and move is drawn at random and completed: wherever a machine could be surprised,
//! it gets a rule that takes the event. Two fittings then bring the number of states to the wanted one: stages that its
//! first machine goes through before anything else can happen (each adds one state), and meters, machines that only go
//! around (each multiplies). Meters come first, so that a set is a number of blocks, each sorted as the base's own set.

use crate::random::Random;
use crate::system::{ANY, EMPTY, LOCAL, Layers, Line, Rule, SEND, System, TAKE};

/// Rules that a base may have; stages and meters need some more.
const MOST_BASE_RULES: usize = 225;
/// Local states that a meter has, gone through or not.
const METER_LOCALS: u8 = 16;

/// How a workload is made. The seeds come from [`search`].
#[derive(Clone, Copy, Debug)]
pub struct Plan {
    pub layers: Layers,
    /// How many machines the base has, or the local states of each.
    pub base: Base,
    pub seed: u64,
    pub stages: u8,
    /// How many local states each meter goes through.
    pub meters: &'static [u8],
}

#[derive(Clone, Copy, Debug)]
pub enum Base {
    Machines(usize),
    Locals(&'static [u8]),
}

pub struct Workload {
    pub layers: Layers,
    pub machines: usize,
    pub rules: usize,
    pub records: usize,
    pub table: Vec<u8>,
    pub set: Vec<u8>,
}

fn rule(kind: u8, machine: usize, from: u8, to: u8, event: u8, target: usize) -> Rule {
    Rule { kind, machine: machine as u8, from, to, event, target: target as u8 }
}

/// Seeds tried upwards: the first whose base has from `wanted` - `stages` to `wanted` states, and the stages it lacks.
pub fn search(layers: Layers, base: Base, wanted: usize, stages: usize, tries: u64) -> Option<(u64, usize)> {
    (0..tries).find_map(|seed| {
        let (_, states) = draw(layers, base, &mut Random::new(seed), wanted)?;
        (states + stages >= wanted).then_some((seed, wanted - states))
    })
}

/// A base that no event surprises and the number of its states, unless it has more states than `most`.
fn draw(layers: Layers, base: Base, random: &mut Random, most: usize) -> Option<(System, usize)> {
    let events = random.between(2, 4) as u8;
    let locals: Vec<u8> = match base {
        Base::Machines(machines) => (0..machines).map(|_| random.between(2, 6) as u8).collect(),
        Base::Locals(locals) => locals.to_vec(),
    };
    let mut system = System { events, locals, rules: vec![], lines: vec![] };
    let density = random.between(1, 4);
    for machine in 0..system.locals.len() {
        for from in 0..system.locals[machine] {
            draw_rules(&mut system, random, machine, from, density);
        }
    }
    loop {
        let closure = system.closure(layers, most + 1);
        if closure.records.len() > most || system.rules.len() + closure.surprises.len() > MOST_BASE_RULES {
            return None;
        }
        if closure.surprises.is_empty() {
            return Some((system, closure.records.len()));
        }
        for (machine, local, event) in closure.surprises {
            let locals = system.locals[usize::from(machine)];
            let to = if random.once_in(2) { local } else { random.below(locals.into()) as u8 };
            system.rules.push(rule(TAKE, machine.into(), local, to, event, 0));
        }
    }
}

/// Rules of a machine in a local state, one of them to the next. At the start all machines but 0 only wait for an event.
fn draw_rules(system: &mut System, random: &mut Random, machine: usize, from: u8, density: usize) {
    let (events, machines, locals) = (usize::from(system.events), system.locals.len(), system.locals[machine]);
    let next = (from + 1) % locals;
    if machine > 0 && from == 0 {
        system.rules.push(rule(TAKE, machine, from, next, random.below(events) as u8, 0));
        return;
    }
    for further in 0..=random.below(density) {
        let to = if further == 0 { next } else { random.below(locals.into()) as u8 };
        system.rules.push(if random.once_in(3) {
            rule(LOCAL, machine, from, to, 0, 0)
        } else {
            rule(SEND, machine, from, to, random.below(events) as u8, random.below(machines))
        });
    }
}

/// The first machine goes through `stages` new local states first.
fn add_stages(system: &mut System, stages: u8) {
    system.locals[0] += stages;
    for rule in &mut system.rules {
        if rule.machine == 0 {
            rule.from += stages;
            rule.to += stages;
        }
    }
    system.rules.extend((0..stages).map(|stage| rule(LOCAL, 0, stage, stage + 1, 0, 0)));
}

/// A machine before all others that goes around in its first `locals` local states.
fn add_meter(system: &mut System, locals: u8) {
    system.locals.insert(0, METER_LOCALS);
    for rule in &mut system.rules {
        rule.machine += 1;
        rule.target += u8::from(rule.kind == SEND);
    }
    system.rules.extend((0..METER_LOCALS).map(|from| {
        let to = if from + 1 < locals { from + 1 } else { 0 };
        rule(LOCAL, 0, from, to, 0, 0)
    }));
}

/// Forbidden patterns of one to three conditions; the last machine gets a local state that is never reached.
fn add_patterns(system: &mut System, random: &mut Random) {
    let machines = system.locals.len();
    let alarm = system.locals[machines - 1];
    system.locals[machines - 1] += 1;
    for pattern in 0..12 {
        let conditions = random.between(1, machines.min(3));
        for at in 0..conditions {
            // The machines rise: condition `at` leaves room for those that follow.
            let machine = if at + 1 == conditions { machines - 1 } else { at };
            let local = if at + 1 == conditions { alarm } else { random.pick(&[ANY, 0, 1]) };
            let front = random.pick(&[ANY, ANY, EMPTY, 0, 1]);
            system.lines.push(Line { pattern, machine: machine as u8, local, front, mask: 0 });
        }
    }
}

impl Plan {
    /// The workload, each rule standing `repeats` times in the table.
    pub fn make(&self, repeats: usize) -> Workload {
        let mut random = Random::new(self.seed);
        let (mut system, _) = draw(self.layers, self.base, &mut random, 65_535).expect("a seed found by the search");
        add_stages(&mut system, self.stages);
        for &locals in self.meters {
            add_meter(&mut system, locals);
        }
        add_patterns(&mut system, &mut random);
        random.shuffle(&mut system.rules);
        let closure = system.closure(self.layers, 65_536);
        system.rules = system.rules.repeat(repeats);
        let (table, set) = (system.bytes(), closure.bytes());
        assert_eq!(native::queue_check(&table, &set), 0, "a closed set passes");
        Workload {
            layers: self.layers,
            machines: system.locals.len(),
            rules: system.rules.len(),
            records: closure.records.len(),
            table,
            set,
        }
    }
}
