//! The check: table and set are read, then every record is judged.

use crate::Refusal;
use crate::abstraction::{Abstraction, Blank, KeepFirst, List, Set};
use crate::records::{ENTRY, Entries, Entry, Records};
use crate::table::{Action, MOST_RULES, Table, word};
use std::marker::PhantomData;

const HEADER: usize = 16;
/// More than one event has removals under any layers that a header names.
const MOST_REMOVALS: usize = 18;

pub fn check(table: &[u8], set: &[u8]) -> Result<(), Refusal> {
    let table = Table::read(table)?;
    if set.len() < HEADER {
        return Err(Refusal::SET_LENGTH);
    }
    let [kind, kept, count] = [2, 4, 10].map(|offset| word(set, offset));
    let fields = [
        word(set, 0) == 1,
        kind <= 2,
        kept <= 2,
        word(set, 6) == table.machines,
        word(set, 8) == table.events as usize,
        true,
        word(set, 12) == HEADER,
        word(set, 14) == 0,
    ];
    if let Some(wrong) = fields.iter().position(|right| !right) {
        return Err(Refusal::set_field(2 * wrong));
    }
    let records = &set[HEADER..];
    if records.len() != count * ENTRY * table.machines {
        return Err(Refusal::SET_LENGTH);
    }
    match (kind, kept) {
        (0, 0) => check_under::<List>(&table, records),
        (0, 1) => check_under::<KeepFirst<List>>(&table, records),
        (0, _) => check_under::<KeepFirst<KeepFirst<List>>>(&table, records),
        (1, 0) => check_under::<Set>(&table, records),
        (1, 1) => check_under::<KeepFirst<Set>>(&table, records),
        (1, _) => check_under::<KeepFirst<KeepFirst<Set>>>(&table, records),
        (_, 0) => check_under::<Blank>(&table, records),
        (_, 1) => check_under::<KeepFirst<Blank>>(&table, records),
        (_, _) => check_under::<KeepFirst<KeepFirst<Blank>>>(&table, records),
    }
}

fn check_under<A: Abstraction>(table: &Table, records: &[u8]) -> Result<(), Refusal> {
    match table.machines {
        1 => check_records::<A, 1, 9>(table, records),
        2 => check_records::<A, 2, 18>(table, records),
        3 => check_records::<A, 3, 27>(table, records),
        4 => check_records::<A, 4, 36>(table, records),
        5 => check_records::<A, 5, 45>(table, records),
        _ => check_records::<A, 6, 54>(table, records),
    }
}

fn check_records<A: Abstraction, const N: usize, const R: usize>(table: &Table, bytes: &[u8]) -> Result<(), Refusal> {
    let records = Records::<N, R>::read::<A>(table, bytes)?;
    if records.find(&[Entry::START; N], 0).is_none() {
        return Err(Refusal::NO_START);
    }
    let mut judge = Judge::<A, N, R> {
        table,
        records: &records,
        entries: [Entry::START; N],
        lines_met: [0; N],
        counts: [0; MOST_RULES],
        moves: [[Entry::START; MOST_REMOVALS]; MOST_RULES],
        shifts: [[0; MOST_REMOVALS]; MOST_RULES],
        abstraction: PhantomData,
    };
    records.iter().enumerate().try_for_each(|(index, entries)| judge.record(index, entries))
}

/// The record being judged (during a step, the state that it leads to), and what follows from each of its entries alone:
/// records that follow one another mostly have the same entries but for the last machines.
struct Judge<'a, A, const N: usize, const R: usize> {
    table: &'a Table,
    records: &'a Records<'a, N, R>,
    entries: Entries<N>,
    /// The pattern lines that each machine lets be met.
    lines_met: [u64; N],
    /// In how many ways each rule can be made: as many as there are removals for a take, else one.
    counts: [u8; MOST_RULES],
    /// The entry of the rule's own machine after each of these ways (a send to itself still to come).
    moves: [[Entry; MOST_REMOVALS]; MOST_RULES],
    /// How far from its record the last such step led. From the next record it mostly leads just as far.
    shifts: [[i32; MOST_REMOVALS]; MOST_RULES],
    abstraction: PhantomData<A>,
}

impl<A: Abstraction, const N: usize, const R: usize> Judge<'_, A, N, R> {
    fn record(&mut self, index: usize, entries: Entries<N>) -> Result<(), Refusal> {
        for (machine, entry) in entries.into_iter().enumerate() {
            if index == 0 || entry != self.entries[machine] {
                self.enter(index, machine, entry)?;
            }
        }
        let met = self.lines_met.iter().fold(0, |all, lines| all | lines);
        if let Some(pattern) = self.table.pattern_met(met) {
            return Err(Refusal::pattern(index, pattern));
        }
        // In any order: only when a step leads outside does it matter which is the first.
        for machine in 0..N {
            for place in self.table.rules_of(machine, self.entries[machine].local()) {
                for way in 0..usize::from(self.counts[place]) {
                    if !self.leads_inside(index, machine, place, way) {
                        return Err(self.first_outside(index));
                    }
                }
            }
        }
        Ok(())
    }

    /// Takes over a machine's entry. (An entry that stays is not surprised: it was not in the record before.)
    #[inline(always)]
    fn enter(&mut self, index: usize, machine: usize, entry: Entry) -> Result<(), Refusal> {
        let events = self.table.events;
        let (local, code) = (entry.local(), entry.code());
        let fronts = A::fronts(events, code);
        if let Some(event) = self.table.surprise(machine, local, fronts) {
            return Err(Refusal::surprise(index, machine, event));
        }
        self.entries[machine] = entry;
        self.lines_met[machine] = self.table.lines_met(machine, local, fronts, A::contents(events, code));
        for place in self.table.rules_of(machine, local) {
            let rule = self.table.rule_at(place);
            let moves = &mut self.moves[place];
            let mut count = 0;
            if let Action::Take { event } = rule.action {
                A::takes(events, code, event.into(), |_, left| {
                    moves[count] = Entry::new(rule.to, left);
                    count += 1;
                    true
                });
            } else {
                moves[0] = entry.with_local(rule.to);
                count = 1;
            }
            self.counts[place] = count as u8;
        }
        Ok(())
    }

    /// The set has the state to which a rule, in one of its ways, leads from the record.
    #[inline(always)]
    fn leads_inside(&mut self, index: usize, machine: usize, place: usize, way: usize) -> bool {
        let before = self.entries[machine];
        let after = self.moves[place][way];
        self.entries[machine] = after;
        let inside = if let Action::Send { event, target } = self.table.rule_at(place).action {
            let target = usize::from(target);
            let receiver = self.entries[target];
            let sent = Entry::new(receiver.local(), A::append(receiver.code(), event.into()));
            self.entries[target] = sent;
            let inside = after == before && sent == receiver || self.is_inside(index, place, way);
            self.entries[target] = receiver;
            inside
        } else {
            after == before || self.is_inside(index, place, way)
        };
        self.entries[machine] = before;
        inside
    }

    /// The set has the state that was made of the record.
    #[inline(always)]
    fn is_inside(&mut self, index: usize, place: usize, way: usize) -> bool {
        let shift = &mut self.shifts[place][way];
        let near = index.wrapping_add_signed(*shift as isize);
        let Some(found) = self.records.find(&self.entries, near) else { return false };
        *shift = found as i32 - index as i32;
        true
    }

    /// Some step leads outside: that of the first rule in the table, and of its first removal.
    #[cold]
    fn first_outside(&mut self, index: usize) -> Refusal {
        let mut first: Option<(u16, u32)> = None;
        for machine in 0..N {
            for place in self.table.rules_of(machine, self.entries[machine].local()) {
                let number = self.table.rule_at(place).number;
                let ways = usize::from(self.counts[place]);
                if first.is_none_or(|(lowest, _)| number < lowest)
                    && let Some(way) = (0..ways).find(|&way| !self.leads_inside(index, machine, place, way))
                {
                    first = Some((number, self.removal(machine, place, way)));
                }
            }
        }
        let (rule, removal) = first.expect("a step of this record leads outside");
        Refusal::outside(index, rule.into(), removal)
    }

    /// The place of a take's way in the list of all removals, 0 for other rules.
    fn removal(&self, machine: usize, place: usize, way: usize) -> u32 {
        let mut removals = [0; MOST_REMOVALS];
        if let Action::Take { event } = self.table.rule_at(place).action {
            let mut count = 0;
            A::takes(self.table.events, self.entries[machine].code(), event.into(), |removal, _| {
                removals[count] = removal;
                count += 1;
                true
            });
        }
        removals[way]
    }
}
