//! The table file, decoded once into what the check asks for.

use crate::Refusal;
use crate::abstraction::EMPTY_FRONT;
use std::ops::Range;

pub const MOST_MACHINES: usize = 6;
const MOST_LOCALS: usize = 32;
pub const MOST_RULES: usize = 256;
const MOST_LINES: usize = 64;

const HEADER: usize = 16;
const MACHINE_LINE: usize = 2;
const LINE: usize = 6;

const ANY: u8 = 255;
const EMPTY: u8 = 254;

#[derive(Clone, Copy)]
pub enum Action {
    Local,
    Take { event: u8 },
    Send { event: u8, target: u8 },
}

/// A rule of one machine in one local state.
#[derive(Clone, Copy)]
pub struct Rule {
    /// Its place in the table.
    pub number: u16,
    pub machine: u8,
    pub from: u8,
    pub to: u8,
    pub action: Action,
}

const NO_RULE: Rule = Rule { number: 0, machine: 0, from: 0, to: 0, action: Action::Local };

/// A pattern line, as masks: its machine meets it when its local state, one possible front and all events of `held` are in.
#[derive(Clone, Copy)]
struct Condition {
    machine: u8,
    locals: u32,
    fronts: u16,
    held: u8,
}

const NO_CONDITION: Condition = Condition { machine: 0, locals: 0, fronts: 0, held: 0 };

pub struct Table {
    pub machines: usize,
    pub events: u32,
    locals: [u8; MOST_MACHINES],
    /// Rules by machine and local state, in the table's order within each.
    rules: [Rule; MOST_RULES],
    /// Where the rules of a machine in a local state begin; they end where the next ones begin.
    begins: [u16; MOST_MACHINES * MOST_LOCALS + 1],
    /// Events that a machine takes in a local state.
    taken: [[u8; MOST_LOCALS]; MOST_MACHINES],
    conditions: [Condition; MOST_LINES],
    lines: usize,
    /// Bit i: line i is the first of its pattern.
    firsts: u64,
    /// Bit i: line i is the last of its pattern.
    lasts: u64,
}

pub fn word(bytes: &[u8], offset: usize) -> usize {
    usize::from(u16::from_le_bytes([bytes[offset], bytes[offset + 1]]))
}

impl Table {
    pub fn read(bytes: &[u8]) -> Result<Table, Refusal> {
        if bytes.len() < HEADER {
            return Err(Refusal::TABLE_LENGTH);
        }
        let [machines, events, rules, lines] = [2, 4, 6, 8].map(|offset| word(bytes, offset));
        let rules_at = HEADER + MACHINE_LINE * machines;
        let lines_at = rules_at + LINE * rules;
        let fields = [
            word(bytes, 0) == 1,
            (1..=MOST_MACHINES).contains(&machines),
            (1..=8).contains(&events),
            rules <= MOST_RULES,
            lines <= MOST_LINES,
            word(bytes, 10) == HEADER,
            word(bytes, 12) == rules_at,
            word(bytes, 14) == lines_at,
        ];
        if let Some(wrong) = fields.iter().position(|right| !right) {
            return Err(Refusal::table_field(2 * wrong));
        }
        if bytes.len() != lines_at + LINE * lines {
            return Err(Refusal::TABLE_LENGTH);
        }
        let mut table = Table {
            machines,
            events: events as u32,
            locals: [0; MOST_MACHINES],
            rules: [NO_RULE; MOST_RULES],
            begins: [0; MOST_MACHINES * MOST_LOCALS + 1],
            taken: [[0; MOST_LOCALS]; MOST_MACHINES],
            conditions: [NO_CONDITION; MOST_LINES],
            lines,
            firsts: 0,
            lasts: 0,
        };
        table.read_machines(&bytes[HEADER..rules_at])?;
        table.read_rules(&bytes[rules_at..lines_at], rules_at)?;
        table.read_patterns(&bytes[lines_at..], lines_at)?;
        Ok(table)
    }

    fn read_machines(&mut self, part: &[u8]) -> Result<(), Refusal> {
        for (machine, line) in part.as_chunks::<MACHINE_LINE>().0.iter().enumerate() {
            let &[locals, zero] = line;
            if !(1..=MOST_LOCALS as u8).contains(&locals) || zero != 0 {
                return Err(Refusal::table_line(HEADER + MACHINE_LINE * machine));
            }
            self.locals[machine] = locals;
        }
        Ok(())
    }

    fn read_rules(&mut self, part: &[u8], offset: usize) -> Result<(), Refusal> {
        let lines = part.as_chunks::<LINE>().0;
        for (index, line) in lines.iter().enumerate() {
            let rule = self.rule(index, line).ok_or(Refusal::table_line(offset + LINE * index))?;
            if let Action::Take { event } = rule.action {
                self.taken[usize::from(rule.machine)][usize::from(rule.from)] |= 1 << event;
            }
            self.begins[group(rule.machine, rule.from) + 1] += 1;
        }
        for at in 1..self.begins.len() {
            self.begins[at] += self.begins[at - 1];
        }
        let mut next = self.begins;
        for (index, line) in lines.iter().enumerate() {
            let rule = self.rule(index, line).ok_or(Refusal::table_line(offset + LINE * index))?;
            let at = &mut next[group(rule.machine, rule.from)];
            self.rules[usize::from(*at)] = rule;
            *at += 1;
        }
        Ok(())
    }

    fn rule(&self, index: usize, line: &[u8; LINE]) -> Option<Rule> {
        let &[kind, machine, from, to, event, target] = line;
        let exists = u32::from(event) < self.events;
        let action = match kind {
            0 if event == 0 && target == 0 => Action::Local,
            1 if exists && target == 0 => Action::Take { event },
            2 if exists && usize::from(target) < self.machines => Action::Send { event, target },
            _ => return None,
        };
        (self.has_local(machine, from) && self.has_local(machine, to)).then_some(Rule {
            number: index as u16,
            machine,
            from,
            to,
            action,
        })
    }

    /// The machine exists and has this local state.
    pub fn has_local(&self, machine: u8, local: u8) -> bool {
        usize::from(machine) < self.machines && local < self.locals[usize::from(machine)]
    }

    fn read_patterns(&mut self, part: &[u8], offset: usize) -> Result<(), Refusal> {
        let mut before = None;
        for (index, line) in part.as_chunks::<LINE>().0.iter().enumerate() {
            let &[pattern, machine, ..] = line;
            let begins = match before {
                None => pattern == 0,
                Some((last, _)) => usize::from(pattern) == usize::from(last) + 1,
            };
            let goes_on = before.is_some_and(|(last, below)| pattern == last && below < machine);
            let condition = self.condition(line).filter(|_| begins || goes_on);
            self.conditions[index] = condition.ok_or(Refusal::table_line(offset + LINE * index))?;
            if begins {
                self.firsts |= 1 << index;
            }
            before = Some((pattern, machine));
        }
        if self.lines > 0 {
            self.lasts = self.firsts >> 1 | 1 << (self.lines - 1);
        }
        Ok(())
    }

    fn condition(&self, line: &[u8; LINE]) -> Option<Condition> {
        let &[_, machine, local, front, held, zero] = line;
        let locals = match local {
            ANY => u32::MAX,
            _ if self.has_local(machine, local) => 1 << local,
            _ => return None,
        };
        let fronts = match front {
            ANY => u16::MAX,
            // An empty queue holds nothing.
            EMPTY => u16::from(held == 0) << EMPTY_FRONT,
            _ if u32::from(front) < self.events => 1 << front,
            _ => return None,
        };
        let fits = usize::from(machine) < self.machines && u32::from(held) >> self.events == 0 && zero == 0;
        fits.then_some(Condition { machine, locals, fronts, held })
    }

    /// The places of the rules of a machine in a local state.
    #[inline(always)]
    pub fn rules_of(&self, machine: usize, local: u8) -> Range<usize> {
        let at = machine * MOST_LOCALS + usize::from(local);
        usize::from(self.begins[at])..usize::from(self.begins[at + 1])
    }

    #[inline(always)]
    pub fn rule_at(&self, place: usize) -> Rule {
        self.rules[place]
    }

    /// The lowest event that may be in front and that the machine does not take in this local state.
    #[inline(always)]
    pub fn surprise(&self, machine: usize, local: u8, fronts: u16) -> Option<u32> {
        let untaken = fronts as u8 & !self.taken[machine][usize::from(local)];
        (untaken != 0).then(|| untaken.trailing_zeros())
    }

    /// The pattern lines that a machine's part of a record lets be met, one bit each.
    #[inline(always)]
    pub fn lines_met(&self, machine: usize, local: u8, fronts: u16, contents: u8) -> u64 {
        let mut met = 0;
        for (index, line) in self.conditions[..self.lines].iter().enumerate() {
            let meets = usize::from(line.machine) == machine
                && line.locals >> local & 1 != 0
                && line.fronts & fronts != 0
                && line.held & !contents == 0;
            met |= u64::from(meets) << index;
        }
        met
    }

    /// The lowest pattern with all its lines in `met`.
    #[inline(always)]
    pub fn pattern_met(&self, met: u64) -> Option<usize> {
        // A one added at the first line of each pattern is carried to the last line exactly through lines that are all met.
        let carried = (met & !self.lasts).wrapping_add(self.firsts);
        let whole = carried & met & self.lasts;
        (whole != 0).then(|| (self.firsts & (whole ^ (whole - 1))).count_ones() as usize - 1)
    }
}

fn group(machine: u8, local: u8) -> usize {
    usize::from(machine) * MOST_LOCALS + usize::from(local)
}
