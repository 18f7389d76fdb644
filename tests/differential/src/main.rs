//! `differential RUNS [SEED] [--tally] [--through=LAYER]`: the proved code against `second`, on
//! sweeps and random runs.
#![deny(unsafe_op_in_unsafe_fn)]

mod access;
mod alter;
mod arguments;
mod bios_layer;
mod boards;
mod calls;
mod chain_arguments;
mod chain_calls;
mod chain_met;
mod chain_model;
mod chain_proved;
mod chain_sweep;
mod config_sweep;
mod damage;
mod data_arguments;
mod data_case;
mod data_met;
mod data_model;
mod data_sweep;
mod draft_layer;
mod draft_met;
mod driver_layer;
mod edition_met;
mod edition_sweep;
mod editions;
mod guards;
mod history;
mod host_functions;
mod host_reached;
mod host_record;
mod layer;
mod met;
mod model;
mod pair;
mod parts;
mod proved;
mod random;
mod resource_arguments;
mod resource_case;
mod resource_met;
mod resource_model;
mod resource_proved;
mod resource_sweep;
mod runs;
mod script_compose;
mod script_damage;
mod script_decode;
mod script_encode;
mod script_left;
mod script_met;
mod script_proved;
mod script_runs;
mod script_sweep;
mod status_arguments;
mod status_met;
mod status_sweep;
mod sweep;
mod tally;
mod used_met;

use layer::Through;
use std::process::ExitCode;
use tally::Tally;

fn main() -> ExitCode {
    let (flags, numbers): (Vec<_>, Vec<_>) =
        std::env::args().skip(1).partition(|argument| argument.starts_with('-'));
    let numbers: Option<Vec<u64>> = numbers.iter().map(|number| number.parse().ok()).collect();
    let (runs, seed) = match numbers.as_deref() {
        Some([runs]) => (*runs, 1),
        Some([runs, seed]) => (*runs, *seed),
        _ => return usage(),
    };
    let (mut tally, mut prints) = (Tally::default(), false);
    for flag in &flags {
        match flag.strip_prefix("--through=").map(Through::named) {
            Some(Some(through)) => tally.through = through,
            None if flag == "--tally" => prints = true,
            _ => return usage(),
        }
    }
    let outcome = compared(runs, seed, &mut tally);
    if prints {
        tally.print();
    }
    match outcome {
        Ok(()) => {
            println!("differential: {runs} runs, {}, equal", tally.made());
            ExitCode::SUCCESS
        }
        Err(fault) => {
            println!("differential: {fault}");
            ExitCode::FAILURE
        }
    }
}

/// Performs the sweeps, then the runs of as many seeds from the first on. Of the sweeps
/// only calls and scripts are counted: the runs must meet everything by themselves. A C
/// layer has no scripts; of it every function must be reached.
fn compared(runs: u64, seed: u64, tally: &mut Tally) -> Result<(), String> {
    let exports = tally.through == Through::Exports;
    let mut swept = Tally::new(tally.through);
    if exports {
        sweep::sweep(&mut swept)?;
        tally.scripts.scripts = script_sweep::sweep()?;
    }
    config_sweep::sweep(&mut swept)?;
    status_sweep::sweep(&mut swept)?;
    data_sweep::sweep(&mut swept)?;
    edition_sweep::sweep(&mut swept)?;
    resource_sweep::sweep(&mut swept)?;
    chain_sweep::sweep(&mut swept)?;
    tally.calls = swept.calls;
    for run in 0..runs {
        let seed = seed.wrapping_add(run);
        runs::run(seed, tally)?;
        if exports {
            script_runs::run(seed, &mut tally.scripts)?;
        }
    }
    let missing = if exports { tally.missing() } else { tally.through.missing() };
    match missing.is_empty() {
        true => Ok(()),
        false => Err(format!("these never came up: {}", missing.join(", "))),
    }
}

fn usage() -> ExitCode {
    eprintln!("usage: differential RUNS [SEED] [--tally] [--through=exports|pci_bios|pci_driver]");
    ExitCode::from(2)
}
