//! Which functions of the C layers the runs reached, accepted and refused, against the
//! prototypes of their headers.

use std::cell::{Cell, RefCell};
use std::collections::BTreeSet;

pub const BIOS_HEADER: &str = include_str!("../../../host/pci_bios.h");
pub const DRIVER_HEADER: &str = include_str!("../../../host/pci_driver.h");
pub const COOKIE_HEADER: &str = include_str!("../../../host/pci_cookie.h");

const NEVER_REFUSED: [&str; 1] = ["pci_use_board"];
const NEVER_ACCEPTED: [&str; 6] = [
    "pci_special_cycle",
    "pci_get_routing",
    "pci_set_interrupt",
    "special_cycle",
    "get_routing",
    "set_interrupt",
];

/// Names, each with whether it was an entry of the table and whether the call was refused.
type Reached = BTreeSet<(&'static str, bool, bool)>;

thread_local! {
    static LAST: Cell<(&'static str, bool)> = const { Cell::new(("", false)) };
    static REACHED: RefCell<Reached> = const { RefCell::new(Reached::new()) };
}

/// Calls a function of the C layers and notes its name. The pointers that it is given are to
/// memory of their types and lengths, alive and not otherwise used during the call.
macro_rules! reach {
    ($name:ident($($argument:expr),* $(,)?)) => {{
        $crate::host_reached::note(stringify!($name));
        // SAFETY: as above; board and cells of the driver's layer live as long as they are
        // the current ones.
        unsafe { $name($($argument),*) }
    }};
}
pub(crate) use reach;

pub fn note(name: &'static str) {
    LAST.set((name, false));
}

/// Notes a call by an entry of the table.
pub fn note_entry(name: &'static str) {
    LAST.set((name, true));
}

/// The function that was noted last gave its answer.
pub fn settle(refused: bool) {
    let (name, by_entry) = LAST.get();
    REACHED.with_borrow_mut(|reached| reached.insert((name, by_entry, refused)));
}

/// The functions of a header that were not reached as they can be.
pub fn missing(header: &str) -> Vec<String> {
    let mut missing = Vec::new();
    for name in functions(header) {
        if !reached(&name, false, false) && !NEVER_ACCEPTED.contains(&name.as_str()) {
            missing.push(format!("{name} accepted"));
        }
        if !reached(&name, false, true) && !NEVER_REFUSED.contains(&name.as_str()) {
            missing.push(format!("{name} refused"));
        }
    }
    missing
}

/// The entries of the table by which no function was reached as it can be, of those that the
/// driver's header has in draft 1.9 too.
pub fn missing_entries(driver: &str, cookie: &str) -> Vec<String> {
    let functions = functions(driver);
    let mut missing = Vec::new();
    for name in entries(cookie) {
        let of_draft = functions.contains(&format!("draft_{name}"));
        for (refused, how) in [(false, "accepted"), (true, "refused")] {
            if of_draft && !reached(&name, true, refused) {
                missing.push(format!("the entry {name} {how}"));
            }
        }
    }
    missing
}

fn reached(name: &str, by_entry: bool, refused: bool) -> bool {
    REACHED.with_borrow(|all| all.contains(&(name, by_entry, refused)))
}

/// The names of a header's pointers to functions.
fn entries(header: &str) -> Vec<String> {
    let text = without_comments(header);
    let names = text.split("(*").skip(1).filter_map(|text| text.split_once(')'));
    names.map(|(name, _)| name.to_string()).collect()
}

/// The names of a header's prototypes: what stands before the first parenthesis of each
/// declaration that has one and is no type.
fn functions(header: &str) -> Vec<String> {
    let text = without_comments(header);
    let code: Vec<_> = text.lines().filter(|line| !line.starts_with('#')).collect();
    let code = code.join(" ");
    let declarations = code.split(';').map(str::trim).filter(|text| !text.starts_with("typedef"));
    let before = declarations.filter_map(|text| text.split_once('(')).map(|(before, _)| before);
    let names = before.map(|text| text.rsplit([' ', '*']).next().unwrap_or(text).to_string());
    names.collect()
}

fn without_comments(text: &str) -> String {
    let mut parts = text.split("/*");
    let first = parts.next().unwrap_or("").to_string();
    parts.fold(first, |kept, part| kept + part.split_once("*/").map_or("", |(_, after)| after))
}

#[cfg(test)]
mod tests {
    use super::*;

    #[test]
    fn names() {
        let header = "#define F(x) (x)\n/* a(b); */ int first(void);\ntypedef int t(int a);\n\
                      struct s {\n    int a[4];\n};\nuint8_t *second(int a,\n    int b);\n";
        assert_eq!(functions(header), ["first", "second"]);
        assert_eq!(functions(BIOS_HEADER)[0], "pci_check_image");
        assert!(functions(BIOS_HEADER).len() >= 25);
        assert_eq!(functions(DRIVER_HEADER)[0], "pci_use_board");
        assert!(functions(DRIVER_HEADER).len() >= 59);
        assert_eq!(
            entries("/* (*no)(a) */ int (*one)(int a); long *(*two)(void);"),
            ["one", "two"]
        );
        let entries = entries(COOKIE_HEADER);
        assert_eq!((entries[0].as_str(), entries.len()), ("find_pci_device", 34));
    }

    #[test]
    fn reached_as_they_can_be() {
        let header = "int one(int a);\nint special_cycle(int a);\nvoid pci_use_board(int a);\n";
        assert_eq!(missing(header).len(), 4);
        for (name, refused) in [("one", true), ("pci_use_board", false), ("special_cycle", true)] {
            note(name);
            settle(refused);
        }
        assert_eq!(missing(header), ["one accepted"]);
    }

    /// By its entry and not by its name; an entry that is alike in both texts is not asked for.
    #[test]
    fn reached_by_entries() {
        let driver = "int seek(int a);\nint draft_seek(int a);\nint turn(int a);\n";
        let cookie = "struct s {\n    int (*seek)(int a);\n    int (*turn)(int a);\n};\n";
        note("seek");
        settle(false);
        note_entry("seek");
        settle(true);
        assert_eq!(missing_entries(driver, cookie), ["the entry seek accepted"]);
        note_entry("seek");
        settle(false);
        assert!(missing_entries(driver, cookie).is_empty());
    }
}
