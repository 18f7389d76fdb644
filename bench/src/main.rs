//! `bench [SWEEPS]`: time per call of the proved library against the second implementation.
#![deny(unsafe_op_in_unsafe_fn)]

mod arguments;
mod boards;
mod calls;
mod model;
mod pair;
mod proved;
mod rows;
mod timing;

use rows::{swept, Row};
use std::process::ExitCode;
use timing::{loop_alone, ROUNDS};

const SWEEPS: usize = 10;

fn main() -> ExitCode {
    let arguments: Vec<String> = std::env::args().skip(1).collect();
    let sweeps = match arguments.as_slice() {
        [] => Some(SWEEPS),
        [sweeps] => sweeps.parse().ok().filter(|&sweeps| sweeps > 0),
        _ => None,
    };
    let Some(sweeps) = sweeps else {
        eprintln!("usage: bench [SWEEPS]");
        return ExitCode::from(2);
    };
    match timed_rows(sweeps) {
        Ok(rows) => {
            print_conditions(sweeps);
            rows.iter().for_each(print_row);
            ExitCode::SUCCESS
        }
        Err(fault) => {
            println!("bench: {fault}");
            ExitCode::FAILURE
        }
    }
}

/// The best times of each row in so many sweeps through all rows. What slows the machine down
/// for a while then spoils some rounds of every row, and not every round of some row.
fn timed_rows(sweeps: usize) -> Result<Vec<Row>, String> {
    let boards = [boards::b1(), boards::full()];
    let sweep = || boards.iter().map(swept).collect::<Result<Vec<_>, _>>();
    let mut best: Vec<Row> = sweep()?.into_iter().flatten().collect();
    for _ in 1..sweeps {
        let again = sweep()?;
        for (row, other) in best.iter_mut().zip(again.iter().flatten()) {
            row.times = row.times.best(other.times);
        }
    }
    Ok(best)
}

fn print_conditions(sweeps: usize) {
    let rounds = sweeps * ROUNDS;
    let alone = loop_alone(&arguments::registers(&boards::b1(), &calls::WIDTHS));
    println!("Nanoseconds per call, best of {rounds} rounds, of the proved library and of the");
    println!("second implementation. The loop around the calls, {alone:.1}, is in every figure.");
    println!("Machine: {}; {}.", processor(), env!("RUSTC_VERSION"));
    println!();
    println!("| call | board | proved | second | ratio |");
    println!("|---|---|---:|---:|---:|");
}

fn print_row(row: &Row) {
    let Row { name, board, times } = row;
    let (proved, second) = (times.proved, times.second);
    let ratio = proved / second;
    println!("| {name} | {board} | {proved:.1} | {second:.1} | {ratio:.2} |");
}

/// The processor's name, family and model, and how many there are, as Linux tells them.
fn processor() -> String {
    let info = std::fs::read_to_string("/proc/cpuinfo").unwrap_or_default();
    let values = |wanted: &'static str| {
        let fields = info.lines().filter_map(|line| line.split_once(": "));
        fields.filter(move |(key, _)| key.trim() == wanted).map(|(_, value)| value)
    };
    let first = |wanted| values(wanted).next().unwrap_or("unknown");
    let (name, family, model) = (first("model name"), first("cpu family"), first("model"));
    format!("{name} (family {family}, model {model}), {} processors", values("processor").count())
}
