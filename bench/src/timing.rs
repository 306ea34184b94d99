//! How long both implementations take, side by side on the same files in one process.

use crate::clock::thread_time;
use crate::subject;
use crate::system::Layers;
use crate::workload::{Base, Plan, Workload};
use std::hint::black_box;
use std::time::Duration;

const LIST: Layers = Layers { kind: 0, kept: 0 };
const LIST_KEPT_1: Layers = Layers { kind: 0, kept: 1 };
const LIST_KEPT_2: Layers = Layers { kind: 0, kept: 2 };
const SET: Layers = Layers { kind: 1, kept: 0 };
const BLANK: Layers = Layers { kind: 2, kept: 0 };

const fn plan(layers: Layers, base: Base, seed: u64, stages: u8, meters: &'static [u8]) -> Plan {
    Plan { layers, base, seed, stages, meters }
}

/// Set files of 65,536 bytes.
const FILES: [Plan; 5] = [
    plan(LIST, Base::Machines(4), 1, 20, &[]),
    plan(LIST_KEPT_1, Base::Machines(4), 327, 18, &[]),
    plan(LIST_KEPT_2, Base::Machines(4), 27965, 16, &[]),
    plan(SET, Base::Machines(4), 25118, 19, &[]),
    plan(BLANK, Base::Locals(&[4, 5, 7, 13]), 1, 0, &[]),
];

/// Sets of 65,535 records; under blank, where every machine goes its own way, a product near it.
const LARGEST: [Plan; 5] = [
    plan(LIST, Base::Machines(5), 10311, 9, &[15]),
    plan(LIST_KEPT_1, Base::Machines(5), 1461, 13, &[15]),
    plan(LIST_KEPT_2, Base::Machines(5), 4457, 0, &[15]),
    plan(SET, Base::Machines(4), 10116, 13, &[15]),
    plan(BLANK, Base::Locals(&[5, 6, 6, 7, 4, 13]), 6, 0, &[]),
];

/// Each doubles the states of the one before; machines and number of rules stay.
const METERS: [&[u8]; 9] = [&[1, 1], &[1, 2], &[1, 4], &[1, 8], &[1, 16], &[2, 16], &[4, 16], &[8, 16], &[16, 16]];

/// Times that each rule stands in the table.
const REPEATS: [usize; 3] = [1, 2, 4];

/// Each sample is long enough for the clock.
const SAMPLE: Duration = Duration::from_millis(2);
/// The time that all samples of a workload should take, and how many there are at least and at most.
const ALL_SAMPLES: Duration = Duration::from_secs(4);
const FEWEST_SAMPLES: u128 = 5;
const MOST_SAMPLES: u128 = 25;

fn time_of(runs: u32, check: fn(&[u8], &[u8]) -> u64, work: &Workload) -> Duration {
    let begin = thread_time();
    for _ in 0..runs {
        let verdict = check(black_box(&work.table), black_box(&work.set));
        assert_eq!(verdict, 0, "a workload passes");
    }
    (thread_time() - begin) / runs
}

fn median(mut times: Vec<Duration>) -> Duration {
    times.sort_unstable();
    times[times.len() / 2]
}

/// Medians of the proved and the native implementation, measured in turns.
fn measure(work: &Workload) -> (Duration, Duration) {
    let runs = |once: Duration| (SAMPLE.as_nanos() / once.as_nanos().max(1) + 1) as u32;
    let proved_runs = runs(time_of(1, subject::check, work));
    let native_runs = runs(time_of(1, native::queue_check, work));
    let turn = time_of(proved_runs, subject::check, work) * proved_runs
        + time_of(native_runs, native::queue_check, work) * native_runs;
    let samples = (ALL_SAMPLES.as_nanos() / turn.as_nanos().max(1)).clamp(FEWEST_SAMPLES, MOST_SAMPLES);
    let (mut proved, mut native) = (vec![], vec![]);
    for _ in 0..samples {
        proved.push(time_of(proved_runs, subject::check, work));
        native.push(time_of(native_runs, native::queue_check, work));
    }
    (median(proved), median(native))
}

fn heading(title: &str) {
    println!("\n{title}\n");
    println!(
        "| layers | machines | rules | records | bytes of set | proved, µs | native, µs | proved / native \
         | proved, ns / (records × rules × log₂ records) |"
    );
    println!("|---|--:|--:|--:|--:|--:|--:|--:|--:|");
}

fn row(work: &Workload) {
    let (proved, native) = measure(work);
    let [proved, native] = [proved, native].map(|time| time.as_nanos() as f64);
    let cost = work.records as f64 * work.rules as f64 * (work.records as f64).log2();
    println!(
        "| {} | {} | {} | {} | {} | {:.0} | {:.0} | {:.2} | {:.3} |",
        work.layers,
        work.machines,
        work.rules,
        work.records,
        work.set.len(),
        proved / 1000.0,
        native / 1000.0,
        proved / native,
        proved / cost,
    );
}

pub fn run() {
    heading("Set files of 65,536 bytes, and the largest sets:");
    for plan in FILES.iter().chain(&LARGEST) {
        row(&plan.make(1));
    }
    heading("Records double, the number of rules stays:");
    for meters in METERS {
        row(&plan(LIST_KEPT_1, Base::Machines(4), 1271, 15, meters).make(1));
    }
    heading("Rules double, the records stay:");
    for repeats in REPEATS {
        row(&FILES[1].make(repeats));
    }
}
