//! Compares the proved `queue_check` with the native implementation: its answers and its speed.

mod cases;
mod clock;
mod fuzz;
mod guarded;
mod pairs;
mod random;
mod subject;
mod system;
mod timing;
mod workload;

use std::error::Error;
use std::path::Path;
use std::process::ExitCode;
use system::Layers;
use workload::Base;

const USAGE: &str = "usage: bench cases FOLDER
       bench fuzz COUNT SEED
       bench pairs COUNT SEED
       bench time
       bench search KIND KEPT MACHINES STATES STAGES TRIES";

/// True if nothing differs from what is expected.
fn run(arguments: &[&str]) -> Result<bool, Box<dyn Error>> {
    match arguments {
        ["cases", folder] => {
            subject::announce();
            cases::run(Path::new(folder))
        }
        ["fuzz", count, seed] => {
            subject::announce();
            Ok(fuzz::run(count.parse()?, seed.parse()?))
        }
        ["pairs", count, seed] => {
            fuzz::write(count.parse()?, seed.parse()?)?;
            Ok(true)
        }
        ["time"] => {
            subject::announce();
            timing::run();
            Ok(true)
        }
        ["search", kind, kept, machines, states, stages, tries] => {
            let layers = Layers { kind: kind.parse()?, kept: kept.parse()? };
            let base = Base::Machines(machines.parse()?);
            match workload::search(layers, base, states.parse()?, stages.parse()?, tries.parse()?) {
                Some((seed, lacking)) => println!("seed {seed}, stages {lacking}"),
                None => println!("none"),
            }
            Ok(true)
        }
        _ => Err(USAGE.into()),
    }
}

fn main() -> ExitCode {
    let arguments: Vec<String> = std::env::args().skip(1).collect();
    let arguments: Vec<&str> = arguments.iter().map(String::as_str).collect();
    match run(&arguments) {
        Ok(true) => ExitCode::SUCCESS,
        Ok(false) => ExitCode::FAILURE,
        Err(error) => {
            eprintln!("{error}");
            ExitCode::from(2)
        }
    }
}
