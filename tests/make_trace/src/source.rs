//! The line format of the sources in tests/replay/, described in its README.md.

use crate::call::{self, number, size, Call};

const MAGIC: &[u8] = b"PCIT";

/// The trace that a source describes, or its first fault with the line's number.
pub fn parsed(text: &str) -> Result<Vec<u8>, String> {
    let mut maker = Maker { version: 1, ..Maker::default() };
    for (line, number) in text.lines().zip(1..) {
        let statement = line.split('#').next().unwrap_or(line).trim();
        if !statement.is_empty() {
            maker.line(statement).map_err(|fault| format!("{number}: {fault}"))?;
        }
    }
    Ok(maker.trace())
}

#[derive(Default)]
struct Maker {
    version: u32,
    cells: Vec<u8>,
    /// The length of the cells as the trace says it, where that is another.
    length: Option<u32>,
    script: Vec<u8>,
    /// What a load takes, and what the other buffers hold.
    image: Vec<u8>,
    fill: u8,
    /// Bytes that are left out at the trace's end.
    cut: usize,
}

impl Maker {
    fn line(&mut self, line: &str) -> Result<(), String> {
        if line.contains('(') {
            let call = line.split(" = ").next().unwrap_or(line);
            self.call(&call::parsed(call)?);
            return Ok(());
        }
        let words: Vec<&str> = line.split_whitespace().collect();
        match words[..] {
            ["cells", count, value] => self.cells = vec![byte(value)?; size(count)?],
            ["image", path] => {
                self.image = std::fs::read(path).map_err(|fault| format!("{path}: {fault}"))?
            }
            ["byte", place, value] => {
                let old = self.image.get_mut(size(place)?).ok_or("the image has no such byte")?;
                *old = byte(value)?;
            }
            ["fill", value] => self.fill = byte(value)?,
            ["version", version] => self.version = number(version, u32::MAX)?,
            ["length", length] => self.length = Some(number(length, u32::MAX)?),
            ["script", ref bytes @ ..] => {
                for word in bytes {
                    self.script.push(byte(word)?);
                }
            }
            ["cut", count] => self.cut = size(count)?,
            _ => return Err(format!("`{line}` is no statement")),
        }
        Ok(())
    }

    /// A header and its own buffer: of a load the image, with zeros where that is shorter.
    fn call(&mut self, call: &Call) {
        self.script.extend(call.header);
        let mut own = vec![self.fill; call.own];
        if call.is_load {
            own = self.image.clone();
            own.resize(call.own, 0);
        }
        self.script.extend(own);
    }

    fn trace(&self) -> Vec<u8> {
        let mut trace = MAGIC.to_vec();
        trace.extend(self.version.to_be_bytes());
        trace.extend(self.length.unwrap_or(self.cells.len() as u32).to_be_bytes());
        trace.extend(&self.cells);
        trace.extend(&self.script);
        trace.truncate(trace.len().saturating_sub(self.cut));
        trace
    }
}

fn byte(word: &str) -> Result<u8, String> {
    number(word, 0xFF).map(|number| number as u8)
}

#[cfg(test)]
mod tests {
    use super::parsed;

    #[test]
    fn parts_of_a_trace() {
        let trace = parsed(
            "cells 3 0xa5 # of them\n\nget_resource(1, 2 bytes) = -9\nscript 1 0xff\ncut 1\n",
        )
        .unwrap_or_default();
        assert_eq!(trace[..15], *b"PCIT\0\0\0\x01\0\0\0\x03\xA5\xA5\xA5");
        assert_eq!((trace[15], trace[78]), (15, 2));
        assert_eq!(trace[79..], [0, 0, 1]);
        assert_eq!(
            parsed("version 2\nlength 0x10001").unwrap_or_default(),
            b"PCIT\0\0\0\x02\0\x01\0\x01"
        );
        assert_eq!(parsed("fill 1\nload(2 bytes)").unwrap_or_default()[76..], [0, 0]);
        assert_eq!(parsed("cut 13"), Ok(Vec::new()));
    }

    #[test]
    fn faults_with_their_lines() {
        let fault = |source| parsed(source).unwrap_err();
        assert_eq!(fault("cells 1 256"), "1: `256` is no number up to 0xff");
        assert_eq!(fault("\nbytes 1"), "2: `bytes 1` is no statement");
        assert_eq!(fault("byte 0 1"), "1: the image has no such byte");
        assert_eq!(fault("script 256"), "1: `256` is no number up to 0xff");
        assert_eq!(fault("cells 0x100001 0"), "1: `0x100001` is no number up to 0x100000");
        assert_eq!(fault("cells 1 2 3"), "1: `cells 1 2 3` is no statement");
        assert_eq!(fault("fill 1 2"), "1: `fill 1 2` is no statement");
        assert!(fault("image none").starts_with("1: none: "));
        assert_eq!(fault("list_window()"), "1: `list_window` has 1 arguments");
    }
}
