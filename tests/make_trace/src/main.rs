//! `make_trace < SOURCE > TRACE`: writes the trace that a source of tests/replay/ describes; paths
//! in it are from the working directory.
#![forbid(unsafe_code)]

mod call;
mod source;

use std::io::{stdin, stdout, Read, Write};
use std::process::ExitCode;

fn main() -> ExitCode {
    let mut text = String::new();
    let read = stdin().read_to_string(&mut text).map_err(|fault| fault.to_string());
    let made = read.and_then(|_| source::parsed(&text));
    let written =
        made.and_then(|trace| stdout().write_all(&trace).map_err(|fault| fault.to_string()));
    match written {
        Ok(()) => ExitCode::SUCCESS,
        Err(fault) => {
            eprintln!("make_trace: {fault}");
            ExitCode::FAILURE
        }
    }
}
