//! The line format of the sources in boards/, described in boards/README.md.

use crate::image::Image;
use crate::record::*;
use std::str::SplitWhitespace;

/// The image that a source describes, or its first fault with the line's number.
pub fn parsed(text: &str) -> Result<Image, String> {
    let mut reader = Reader::default();
    for (line, number) in text.lines().zip(1..) {
        reader.line(line).map_err(|fault| format!("{number}: {fault}"))?;
    }
    Ok(reader.image)
}

#[derive(Default)]
struct Reader {
    image: Image,
    /// The base register that `k`, `order` and `widths` speak of.
    base: Option<usize>,
}

impl Reader {
    fn line(&mut self, line: &str) -> Result<(), String> {
        // The text of notes may hold anything, so it is no place for a comment.
        if let Some(text) = line.strip_prefix("notes ") {
            self.image.notes.extend(text.bytes());
            return Ok(());
        }
        let statements = line.split('#').next().unwrap_or(line);
        let mut words = Words(statements.split_whitespace());
        while let Some(word) = words.0.next() {
            match word {
                "function" => self.begin_function(),
                "base" => self.begin_base(&mut words)?,
                "notes-hex" => self.notes_hex(&mut words)?,
                "notes-fill" => self.notes_fill(&mut words)?,
                "k" | "order" | "widths" => self.entry(word, words.byte()?)?,
                "distance" | "count" | "edition" | "sum" | "length" => {
                    self.trailer(word, &mut words)?
                }
                _ => field(self.record()?, word, &mut words)?,
            }
        }
        Ok(())
    }

    fn begin_function(&mut self) {
        self.image.records.push([0; RECORD_LENGTH]);
        self.base = None;
    }

    fn record(&mut self) -> Result<&mut Record, String> {
        self.image.records.last_mut().ok_or("no `function` before".to_string())
    }

    fn begin_base(&mut self, words: &mut Words) -> Result<(), String> {
        let base = words.number(BASES as u64 - 1)? as usize;
        let space_bit = match words.word()? {
            "memory" => 0,
            "io" => 1,
            other => return Err(format!("`{other}` is neither memory nor io")),
        };
        let value = words.long()? | space_bit;
        put_little(self.record()?, FIRST_BASE + 4 * base, 4, value);
        self.base = Some(base);
        Ok(())
    }

    fn entry(&mut self, word: &str, byte: u8) -> Result<(), String> {
        let base = self.base.ok_or("no `base` before")?;
        let record = self.record()?;
        match word {
            "k" => put_exponent(record, base, byte),
            "order" => record[ENTRIES + 4 * base + 1] = byte,
            _ => record[ENTRIES + 4 * base + 2] = byte,
        }
        Ok(())
    }

    fn notes_hex(&mut self, words: &mut Words) -> Result<(), String> {
        for word in words.0.by_ref() {
            let byte = u8::from_str_radix(word, 16).map_err(|_| format!("`{word}` is no byte"))?;
            self.image.notes.push(byte);
        }
        Ok(())
    }

    fn notes_fill(&mut self, words: &mut Words) -> Result<(), String> {
        let filled = self.image.notes.len() + words.number(1 << 20)? as usize;
        self.image.notes.resize(filled, words.byte()?);
        Ok(())
    }

    fn trailer(&mut self, word: &str, words: &mut Words) -> Result<(), String> {
        match word {
            "distance" => self.image.distance = Some(words.long()?),
            "count" => self.image.count = Some(words.number(0xFFFF)? as u16),
            "edition" => self.image.edition = Some(words.number(0xFFFF)? as u16),
            "sum" => self.image.sum = Some(words.long()?),
            _ => self.image.length = Some(words.number(1 << 20)? as usize),
        }
        Ok(())
    }
}

/// A statement about one field of the record.
fn field(record: &mut Record, word: &str, words: &mut Words) -> Result<(), String> {
    match word {
        "vendor" => put_little(record, VENDOR, 2, words.number(0xFFFF)?),
        "device" => put_little(record, DEVICE, 2, words.number(0xFFFF)?),
        "class" => put_little(record, CLASS, 3, words.number(0xFF_FFFF)?),
        "command" => put_little(record, COMMAND, 2, words.number(0xFFFF)?),
        "command-mask" => put_little(record, MASKS + COMMAND, 2, words.number(0xFFFF)?),
        "pin" => record[PIN] = words.byte()?,
        "line" => record[LINE] = words.byte()?,
        "line-mask" => record[MASKS + LINE] = words.byte()?,
        "offset" => put_big(record, OFFSET, words.long()?),
        "dmaoffset" => put_big(record, DMAOFFSET, words.long()?),
        "value" => byte_at(record, 0, REGISTERS, words)?,
        "mask" => byte_at(record, MASKS, REGISTERS, words)?,
        "byte" => byte_at(record, 0, RECORD_LENGTH, words)?,
        _ => return Err(format!("`{word}` is no statement")),
    }
    Ok(())
}

/// Sets a byte by its place from `first` on, of so many places, and its value.
fn byte_at(
    record: &mut Record,
    first: usize,
    places: usize,
    words: &mut Words,
) -> Result<(), String> {
    let place = words.number(places as u64 - 1)? as usize;
    record[first + place] = words.byte()?;
    Ok(())
}

/// The words of a line that are still to be read.
struct Words<'a>(SplitWhitespace<'a>);

impl<'a> Words<'a> {
    fn word(&mut self) -> Result<&'a str, String> {
        self.0.next().ok_or("the line ends too early".to_string())
    }

    /// A number up to the given one: hexadecimal with an h at its end, else decimal.
    fn number(&mut self, most: u64) -> Result<u32, String> {
        let word = self.word()?;
        let number = match word.strip_suffix('h') {
            Some(digits) => u64::from_str_radix(digits, 16),
            None => word.parse(),
        };
        let fits = number.ok().filter(|&number| number <= most);
        fits.map(|number| number as u32).ok_or(format!("`{word}` is no number up to {most:X}h"))
    }

    fn long(&mut self) -> Result<u32, String> {
        self.number(u64::from(u32::MAX))
    }

    fn byte(&mut self) -> Result<u8, String> {
        self.number(0xFF).map(|number| number as u8)
    }
}

#[cfg(test)]
mod tests {
    use super::parsed;

    #[test]
    fn fields_and_overrides() {
        let source = "function\n base 1 io 100h k 4 order 2 widths 1\n offset 12 value 60 7\n\
                      mask 3Ch FFh byte 519 9 # the entry's last byte\nnotes a # b\nedition 2";
        let image = parsed(source).unwrap_or_default().bytes();
        assert_eq!(image.len(), 5 + 544 + 12);
        let (notes, rest) = image.split_at(5);
        assert_eq!(notes, b"a # b");
        assert_eq!(rest[0x14..0x18], [1, 1, 0, 0]);
        assert_eq!(rest[0x114..0x118], [0xF0, 0xFF, 0xFF, 0xFF]);
        assert_eq!((rest[0x3C], rest[0x13C]), (7, 0xFF));
        assert_eq!(rest[516..520], [4, 2, 1, 9]);
        assert_eq!(rest[536..540], [0, 0, 0, 12]);
        let sum = 1 + 1 + 0xF0 + 3 * 0xFF + 7 + 0xFF + 4 + 2 + 1 + 9 + 12;
        assert_eq!(rest[544..], [0, 0, 2, 0x2C, 0, 1, 0, 2, 0, 0, (sum >> 8) as u8, sum as u8]);
    }

    #[test]
    fn faults_with_their_lines() {
        let fault = |source| parsed(source).map(|_| ()).unwrap_err();
        assert_eq!(fault("function\n pin 256"), "2: `256` is no number up to FFh");
        assert_eq!(fault("pin 1"), "1: no `function` before");
        assert_eq!(fault("function k 4"), "1: no `base` before");
        assert_eq!(fault("function vendor"), "1: the line ends too early");
        assert_eq!(fault("function base 6 io 0"), "1: `6` is no number up to 5h");
        assert_eq!(fault("function\n\n pins 1"), "3: `pins` is no statement");
    }
}
