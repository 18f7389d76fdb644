//! `make_board SOURCE > IMAGE`: writes the board image that a source of boards/ describes.
#![forbid(unsafe_code)]

mod image;
mod record;
mod source;

use std::io::Write;
use std::process::ExitCode;

fn main() -> ExitCode {
    let mut arguments = std::env::args().skip(1);
    let (Some(path), None) = (arguments.next(), arguments.next()) else {
        eprintln!("usage: make_board SOURCE > IMAGE");
        return ExitCode::from(2);
    };
    match made(&path).and_then(|image| written(&image)) {
        Ok(()) => ExitCode::SUCCESS,
        Err(fault) => {
            eprintln!("make_board: {fault}");
            ExitCode::FAILURE
        }
    }
}

fn made(path: &str) -> Result<Vec<u8>, String> {
    let text = std::fs::read_to_string(path).map_err(|fault| format!("{path}: {fault}"))?;
    let image = source::parsed(&text).map_err(|fault| format!("{path}:{fault}"))?;
    Ok(image.bytes())
}

fn written(image: &[u8]) -> Result<(), String> {
    let mut out = std::io::stdout();
    let done = out.write_all(image).and_then(|()| out.flush());
    done.map_err(|fault| format!("standard output: {fault}"))
}
