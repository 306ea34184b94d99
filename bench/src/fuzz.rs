//! Both implementations on random pairs of files.

use crate::guarded::{Guarded, Side};
use crate::pairs::{Pair, Pairs};
use crate::subject;
use std::io::{self, BufWriter, Write};

/// No file of a pair is longer.
const LONGEST: usize = 16 + 65_535 * 54;
/// Differing pairs that are shown.
const SHOWN: usize = 10;

/// True if both implementations agree on all pairs.
pub fn run(count: usize, seed: u64) -> bool {
    let mut tables = Guarded::new(LONGEST);
    let mut sets = Guarded::new(LONGEST);
    let mut verdicts = [0usize; 256];
    let mut different = 0;
    for (index, pair) in Pairs::new(seed).take(count).enumerate() {
        let side = if index % 2 == 0 { Side::High } else { Side::Low };
        let table = tables.hold(&pair.table, side);
        let set = sets.hold(&pair.set, side);
        let (proved, native) = (subject::check(table, set), native::queue_check(table, set));
        let untouched = table == pair.table && set == pair.set;
        verdicts[usize::from(native as u8)] += 1;
        if proved != native || !untouched {
            different += 1;
            if different <= SHOWN {
                show(index, &pair, proved, native, untouched);
            }
        }
    }
    for (number, times) in verdicts.iter().enumerate().filter(|(_, times)| **times > 0) {
        let name = if number == 0 { "pass".to_string() } else { format!("refused {number}") };
        println!("{name}: {times}");
    }
    println!("{count} pairs, {different} different");
    different == 0
}

fn show(index: usize, pair: &Pair, proved: u64, native: u64, untouched: bool) {
    println!("pair {index}: proved {proved:#x}, native {native:#x}, files untouched: {untouched}");
    if pair.table.len() + pair.set.len() < 4096 {
        println!("  {} {}", hex(&pair.table), hex(&pair.set));
    }
}

fn hex(bytes: &[u8]) -> String {
    if bytes.is_empty() { "-".into() } else { bytes.iter().map(|byte| format!("{byte:02x}")).collect() }
}

/// Writes pairs with the native answer, for a program in C: two lengths of four bytes, eight bytes of answer, the files.
pub fn write(count: usize, seed: u64) -> io::Result<()> {
    let mut out = BufWriter::new(io::stdout().lock());
    for pair in Pairs::new(seed).take(count) {
        out.write_all(&(pair.table.len() as u32).to_le_bytes())?;
        out.write_all(&(pair.set.len() as u32).to_le_bytes())?;
        out.write_all(&native::queue_check(&pair.table, &pair.set).to_le_bytes())?;
        out.write_all(&pair.table)?;
        out.write_all(&pair.set)?;
    }
    out.flush()
}
