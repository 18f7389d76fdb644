//! A call as `replay` prints it, and its header as docs/SCRIPT.md has it.

pub const HEADER_LENGTH: usize = 64;

/// Where an argument stands in the header.
#[derive(Clone, Copy)]
enum Place {
    /// A register number or a bus.
    Register,
    Handle,
    A,
    B,
    /// The bytes of the own buffer.
    Own,
}
use Place::*;

/// Name, operation, space and arguments of each call. A name that ends in `_` goes on with its
/// width.
const CALLS: &[(&str, u8, u8, &[Place])] = &[
    ("load", 1, 0, &[Own]),
    ("reset", 2, 0, &[]),
    ("write_image", 3, 0, &[Own]),
    ("find_pci_device", 4, 0, &[A, B]),
    ("find_pci_classcode", 5, 0, &[A, B]),
    ("read_config_", 6, 0, &[Handle, Register]),
    ("fast_read_config_", 7, 0, &[Handle, Register]),
    ("write_config_", 8, 0, &[Handle, Register, A]),
    ("read_mem_", 9, 0, &[Handle, A]),
    ("read_io_", 9, 1, &[Handle, A]),
    ("fast_read_mem_", 10, 0, &[Handle, A]),
    ("fast_read_io_", 10, 1, &[Handle, A]),
    ("write_mem_", 11, 0, &[Handle, A, B]),
    ("write_io_", 11, 1, &[Handle, A, B]),
    ("bus_to_cpu", 12, 0, &[Handle, A]),
    ("cpu_to_bus", 13, 0, &[Handle, A]),
    ("list_window", 14, 0, &[A]),
    ("get_resource", 15, 0, &[Handle, Own]),
    ("hook_interrupt", 16, 0, &[Handle, A, B]),
    ("unhook_interrupt", 17, 0, &[Handle]),
    ("list_chain", 18, 0, &[A, B]),
    ("get_card_used", 19, 0, &[Handle]),
    ("set_card_used", 20, 0, &[Handle, A, B]),
    ("special_cycle", 21, 0, &[Register, A]),
    ("get_routing", 22, 0, &[Handle]),
    ("set_interrupt", 23, 0, &[Handle, A]),
];

/// The operations of searches and data calls, which may name an edition after their arguments.
const NAMING_EDITIONS: [u8; 5] = [4, 5, 9, 10, 11];

pub struct Call {
    pub header: [u8; HEADER_LENGTH],
    pub own: usize,
    pub is_load: bool,
}

/// The call of a line `name(argument, ..)` or `name(argument, .., edition N)`.
pub fn parsed(line: &str) -> Result<Call, String> {
    let (name, rest) = line.split_once('(').ok_or(format!("`{line}` is no call"))?;
    let arguments = rest.strip_suffix(')').ok_or(format!("`{line}` has no `)` at its end"))?;
    let found = CALLS.iter().find_map(|call| Some((call, width_of(name, call.0)?)));
    let (&(_, operation, space, places), width) = found.ok_or(format!("no call `{name}`"))?;
    let mut call = Call { header: [0; HEADER_LENGTH], own: 0, is_load: operation == 1 };
    call.header[..3].copy_from_slice(&[operation, width, space]);
    let mut words: Vec<&str> = match arguments {
        "" => Vec::new(),
        _ => arguments.split(", ").collect(),
    };
    if let Some(edition) = words.pop_if(|word| word.starts_with("edition")) {
        if !NAMING_EDITIONS.contains(&operation) {
            return Err(format!("`{name}` names no edition"));
        }
        let digits = edition.strip_prefix("edition ").ok_or(format!("`{edition}`: which one?"))?;
        call.put(16, exchanged(number(digits, u32::MAX)?));
    }
    if words.len() != places.len() {
        return Err(format!("`{name}` has {} arguments", places.len()));
    }
    for (word, place) in words.iter().zip(places) {
        call.set(*place, word)?;
    }
    Ok(call)
}

/// An edition as a header has it: with 0 and 2 exchanged, so that one that is not named is 2.
fn exchanged(edition: u32) -> u32 {
    match edition {
        0 => 2,
        2 => 0,
        edition => edition,
    }
}

/// The width that a name says, 0 for none, if it is the name of this call.
fn width_of(name: &str, call: &str) -> Option<u8> {
    match name.strip_prefix(call)? {
        "" if !call.ends_with('_') => Some(0),
        "byte" if call.ends_with('_') => Some(1),
        "word" if call.ends_with('_') => Some(2),
        "longword" if call.ends_with('_') => Some(4),
        _ => None,
    }
}

impl Call {
    fn set(&mut self, place: Place, word: &str) -> Result<(), String> {
        match place {
            Register => self.header[3] = number(word, 0xFF)? as u8,
            Handle => self.put(4, number(word, u32::MAX)?),
            A => self.put(8, number(word, u32::MAX)?),
            B => self.put(12, number(word, u32::MAX)?),
            Own => {
                let bytes =
                    word.strip_suffix(" bytes").ok_or(format!("`{word}`: how many bytes?"))?;
                self.own = size(bytes)?;
                self.put(60, self.own as u32);
            }
        }
        Ok(())
    }

    fn put(&mut self, at: usize, number: u32) {
        self.header[at..at + 4].copy_from_slice(&number.to_be_bytes());
    }
}

/// A number up to the given one: hexadecimal after `0x`, else decimal.
pub fn number(word: &str, most: u32) -> Result<u32, String> {
    let (digits, radix) = match word.strip_prefix("0x") {
        Some(digits) => (digits, 16),
        None => (word, 10),
    };
    let number = u32::from_str_radix(digits, radix).ok();
    let fits = number.filter(|&number| number <= most && !digits.starts_with('+'));
    fits.ok_or(format!("`{word}` is no number up to {most:#x}"))
}

/// A number of bytes, or a place among them; no trace needs more than 2^20.
pub fn size(word: &str) -> Result<usize, String> {
    number(word, 1 << 20).map(|number| number as usize)
}

#[cfg(test)]
mod tests {
    use super::parsed;

    #[test]
    fn headers() {
        let header = |line| parsed(line).map(|call| call.header).unwrap_or([0; 64]);
        let write = header("write_io_word(258, 0x80000004, 0x0001)");
        assert_eq!(write[..16], [11, 2, 1, 0, 0, 0, 1, 2, 0x80, 0, 0, 4, 0, 0, 0, 1]);
        assert_eq!(write[16..], [0; 48]);
        let descriptors = header("get_resource(2, 40 bytes)");
        assert_eq!(descriptors[..8], [15, 0, 0, 0, 0, 0, 0, 2]);
        assert_eq!(descriptors[56..], [0, 0, 0, 0, 0, 0, 0, 40]);
        assert_eq!(
            header("special_cycle(0xff, 7)")[..12],
            [21, 0, 0, 0xFF, 0, 0, 0, 0, 0, 0, 0, 7]
        );
        assert_eq!(header("reset()")[..4], [2, 0, 0, 0]);
    }

    /// Of every call that names one: in bytes 16 to 19, with 0 and 2 exchanged.
    #[test]
    fn editions() {
        let calls = [
            "find_pci_device(0x00010f0f, 1",
            "find_pci_classcode(0x01118055, 0",
            "read_mem_longword(1, 0x700003fc",
            "read_io_byte(2, 0x100",
            "fast_read_mem_byte(1, 0",
            "fast_read_io_word(1, 0",
            "write_mem_word(1, 0, 0x1234",
            "write_io_longword(1, 4, 5",
        ];
        for call in calls {
            let header = |end: &str| parsed(&format!("{call}{end}")).map(|call| call.header);
            let plain = header(")").unwrap_or([0; 64]);
            let of = |end: &str, bytes: [u8; 4]| {
                let mut expected = plain;
                expected[16..20].copy_from_slice(&bytes);
                assert_eq!(header(end), Ok(expected), "{call}{end}");
            };
            of(", edition 0)", [0, 0, 0, 2]);
            of(", edition 1)", [0, 0, 0, 1]);
            of(", edition 2)", [0, 0, 0, 0]);
            of(", edition 3)", [0, 0, 0, 3]);
            of(", edition 0x102)", [0, 0, 1, 2]);
            of(", edition 4294967295)", [0xFF; 4]);
        }
    }

    #[test]
    fn faults_of_editions() {
        let fault = |line: &str| parsed(line).map(|_| ()).unwrap_err();
        assert_eq!(fault("load(12 bytes, edition 1)"), "`load` names no edition");
        assert_eq!(fault("bus_to_cpu(1, 0, edition 2)"), "`bus_to_cpu` names no edition");
        assert_eq!(fault("reset(edition 1)"), "`reset` names no edition");
        let search = |end: &str| fault(&format!("find_pci_device(1, 0{end}"));
        assert_eq!(search(", edition)"), "`edition`: which one?");
        assert_eq!(search(", edition1)"), "`edition1`: which one?");
        assert_eq!(search(", edition )"), "`` is no number up to 0xffffffff");
        assert_eq!(search(", edition two)"), "`two` is no number up to 0xffffffff");
        assert_eq!(search(", edition -1)"), "`-1` is no number up to 0xffffffff");
        assert_eq!(search(", edition 4294967296)"), "`4294967296` is no number up to 0xffffffff");
        assert_eq!(search(", edition 1, edition 1)"), "`find_pci_device` has 2 arguments");
        assert_eq!(search(", 1)"), "`find_pci_device` has 2 arguments");
        assert_eq!(fault("find_pci_device(1, edition 1)"), "`find_pci_device` has 2 arguments");
        assert_eq!(
            fault("find_pci_device(edition 1, 1)"),
            "`edition 1` is no number up to 0xffffffff"
        );
    }

    #[test]
    fn faults() {
        let fault = |line| parsed(line).map(|_| ()).unwrap_err();
        assert_eq!(fault("reset"), "`reset` is no call");
        assert_eq!(fault("reset("), "`reset(` has no `)` at its end");
        assert_eq!(fault("reset(1)"), "`reset` has 0 arguments");
        assert_eq!(fault("read_config(1, 0x10)"), "no call `read_config`");
        assert_eq!(fault("list_window(1, )"), "`list_window` has 1 arguments");
        assert_eq!(fault("list_window()"), "`list_window` has 1 arguments");
        assert_eq!(fault("list_window(+1)"), "`+1` is no number up to 0xffffffff");
        assert_eq!(fault("list_window(0x+1)"), "`0x+1` is no number up to 0xffffffff");
        assert_eq!(fault("read_config_(1, 0x10)"), "no call `read_config_`");
        assert_eq!(fault("resetbyte()"), "no call `resetbyte`");
        assert_eq!(fault("read_config_byte(1, 0x100)"), "`0x100` is no number up to 0xff");
        assert_eq!(fault("load(12)"), "`12`: how many bytes?");
        assert_eq!(fault("load(0x100001 bytes)"), "`0x100001` is no number up to 0x100000");
    }
}
