//! What the runs of scripts met.

use crate::parts::Parts;
use crate::script_decode::{NO_OPERATION, NO_ROOM, NO_SPACE, NO_WIDTH, SHORT, ZEROS};
use crate::script_left::{Left, Performed};
use second::{Board, DRAFT_1_9, LATER_TEXT};
use std::collections::BTreeMap;

/// What a call says of its edition: nothing where it names none. Edition 0 is the one whose
/// argument c is another's number.
const NONE: &str = "";
const DRAFT: &str = " of draft 1.9";
const LATER: &str = " of the later text";
const ZERO: &str = " of edition 0";
const OTHER: &str = " of another edition";

/// Whether a call can be accepted in a script, and refused, by its edition.
type Outcomes = &'static [(&'static str, bool)];

const BOTH: Outcomes = &[(NONE, false), (NONE, true)];
const ACCEPTED: Outcomes = &[(NONE, true)];
const REFUSED: Outcomes = &[(NONE, false)];
const IN_EDITIONS: Outcomes =
    &[(DRAFT, false), (DRAFT, true), (LATER, false), (LATER, true), (ZERO, false), (OTHER, false)];

/// The operations by number. One cell buffer is lent to a whole script, so that no reset
/// can find it too short.
const OPERATIONS: [(&str, Outcomes); 23] = [
    ("load", BOTH),
    ("reset", ACCEPTED),
    ("write_image", BOTH),
    ("find_pci_device", IN_EDITIONS),
    ("find_pci_classcode", IN_EDITIONS),
    ("read_config", BOTH),
    ("fast_read_config", BOTH),
    ("write_config", BOTH),
    ("read_data", IN_EDITIONS),
    ("fast_read_data", IN_EDITIONS),
    ("write_data", IN_EDITIONS),
    ("bus_to_cpu", BOTH),
    ("cpu_to_bus", BOTH),
    ("list_window", BOTH),
    ("get_resource", BOTH),
    ("hook_interrupt", BOTH),
    ("unhook_interrupt", BOTH),
    ("list_chain", BOTH),
    ("get_card_used", BOTH),
    ("set_card_used", BOTH),
    ("special_cycle", REFUSED),
    ("get_routing", REFUSED),
    ("set_interrupt", REFUSED),
];

const CAUSES: [&str; 5] = [SHORT, NO_OPERATION, NO_WIDTH, NO_SPACE, NO_ROOM];
const AT_0: &str = "a script stopped at place 0";
const AFTER_SEVERAL: &str = "a script stopped after several calls";
const WHOLE: &str = "a whole script of several calls";
const EMPTY: &str = "an empty script";
const OTHER_CALLS: &str = "a changed header that says another call";
const UNUSED: &str = "an own buffer that its call does not use";
const OLD_PARTS: &str = "a script over parts that are not zero";
const CUT_IN_HEADER: &str = "a script cut in a header after others";
const CUT_IN_OWN: &str = "a script cut in an own buffer";
const LENGTHENED: &str = "a script stopped where the sound one ends";
const MIXED: &str = "a script with accepted data calls of both editions";

const ALL: [&str; 11] = [
    AT_0,
    AFTER_SEVERAL,
    WHOLE,
    EMPTY,
    OTHER_CALLS,
    UNUSED,
    OLD_PARTS,
    CUT_IN_HEADER,
    CUT_IN_OWN,
    LENGTHENED,
    MIXED,
];

#[derive(Default)]
pub struct ScriptMet {
    pub scripts: u64,
    /// By name and edition, and whether they were accepted.
    calls: BTreeMap<(&'static str, &'static str, bool), u64>,
    met: BTreeMap<&'static str, u64>,
}

impl ScriptMet {
    /// Counts the run of a script, what it left, the sound script that it was made of, and
    /// the parts before it.
    pub fn count(&mut self, script: &[u8], left: &Left, sound: &[u8], before: &Parts) {
        self.scripts += 1;
        for call in &left.calls {
            let edition = edition_of(call);
            *self.calls.entry((call.name, edition, !call.refused)).or_default() += 1;
        }
        // A cause counts where there is no other.
        if let [cause] = left.wrong[..] {
            self.note(cause, true);
        }
        let (stopped, several) = (left.place < script.len(), left.calls.len() > 2);
        self.note(AT_0, stopped && left.place == 0);
        self.note(AFTER_SEVERAL, stopped && several);
        self.note(WHOLE, !stopped && several);
        self.note(EMPTY, script.is_empty());
        self.note(OTHER_CALLS, says_another(script, left, sound));
        self.note(UNUSED, has_unused(left));
        let fresh = Parts::of(&Board::new());
        self.note(OLD_PARTS, before.first_difference(&fresh).is_some());
        let cut = sound.starts_with(script);
        self.note(CUT_IN_HEADER, cut && left.wrong == [SHORT] && left.place > 0);
        self.note(CUT_IN_OWN, cut && left.wrong == [NO_ROOM]);
        self.note(LENGTHENED, stopped && left.place == sound.len() && script.starts_with(sound));
        let accepted = |edition| {
            let data = |call: &&Performed| call.name.ends_with("_data") && !call.refused;
            left.calls.iter().filter(data).any(|call| edition_of(call) == edition)
        };
        self.note(MIXED, accepted(DRAFT) && accepted(LATER));
    }

    fn note(&mut self, what: &'static str, met: bool) {
        *self.met.entry(what).or_default() += u64::from(met);
    }

    /// What can occur and never did.
    pub fn missing(&self) -> Vec<String> {
        let mut missing = Vec::new();
        for (name, outcomes) in OPERATIONS {
            for &(edition, accepted) in outcomes {
                if !self.calls.contains_key(&(name, edition, accepted)) {
                    missing.push(in_script(name, edition, accepted));
                }
            }
        }
        let zeros = ZEROS.map(|(_, _, cause)| cause);
        for what in CAUSES.into_iter().chain(zeros).chain(ALL) {
            if self.met.get(what).is_none_or(|&times| times == 0) {
                missing.push(what.to_string());
            }
        }
        missing
    }

    pub fn print(&self) {
        for ((name, edition, accepted), times) in &self.calls {
            println!("{}: {times}", in_script(name, edition, *accepted));
        }
        for (what, times) in &self.met {
            println!("{what}: {times}");
        }
    }
}

fn in_script(name: &str, edition: &str, accepted: bool) -> String {
    format!("{name}{edition} {} in a script", if accepted { "accepted" } else { "refused" })
}

fn edition_of(call: &Performed) -> &'static str {
    match call.call_edition {
        None => NONE,
        Some(DRAFT_1_9) => DRAFT,
        Some(LATER_TEXT) => LATER,
        Some(0) => ZERO,
        Some(_) => OTHER,
    }
}

/// Whether the first byte that differs from the sound script's is one of a performed call's
/// first 20, so that it is another call.
fn says_another(script: &[u8], left: &Left, sound: &[u8]) -> bool {
    let changed = script.iter().zip(sound).position(|(now, before)| now != before);
    changed
        .is_some_and(|at| left.calls.iter().any(|call| (call.place..call.place + 20).contains(&at)))
}

/// Whether some performed call that uses no buffer has one.
fn has_unused(left: &Left) -> bool {
    let places = left.calls.iter().map(|call| call.place).skip(1).chain([left.place]);
    left.calls.iter().zip(places).any(|(call, next)| {
        !["load", "write_image", "get_resource"].contains(&call.name) && next > call.place + 64
    })
}

#[cfg(test)]
mod tests {
    use super::*;
    use crate::script_encode::encoded;
    use crate::script_sweep::samples;

    /// What the run of a script met that was made of a sound one.
    fn met_by(script: &[u8], sound: &[u8], before: &Parts) -> Vec<&'static str> {
        let mut met = ScriptMet::default();
        met.count(script, &Left::of(script, vec![0; 4096]), sound, before);
        met.met.into_iter().filter(|(_, times)| *times > 0).map(|(what, _)| what).collect()
    }

    #[test]
    fn scripts() {
        let zero = Parts::of(&Board::new());
        let load = encoded(&samples()[0]);
        let sound: Vec<_> = samples()[..3].iter().flat_map(encoded).collect();
        assert_eq!(met_by(&sound, &sound, &zero), [WHOLE, UNUSED]);
        assert_eq!(met_by(&[], &sound, &zero), [EMPTY]);
        assert_eq!(met_by(&sound[..63], &sound, &zero), [AT_0, SHORT]);
        let longer = [&sound[..], &[0; 64]].concat();
        let met = [AFTER_SEVERAL, LENGTHENED, NO_OPERATION, UNUSED];
        assert_eq!(met_by(&longer, &sound, &zero), met);
        assert_eq!(met_by(&load[..load.len() - 1], &load, &zero), [CUT_IN_OWN, AT_0, NO_ROOM]);
        let cut = &sound[..load.len() + 63];
        assert_eq!(met_by(cut, &sound, &zero), [CUT_IN_HEADER, SHORT]);
        let mut other = load.clone();
        other[0] = 3;
        assert_eq!(met_by(&other, &load, &zero), [OTHER_CALLS]);
        // Two causes: neither counts.
        (other[0], other[1], other[3]) = (6, 3, 0);
        other[59] = 1;
        assert_eq!(met_by(&other, &load, &zero), [AT_0]);
        let mut used = zero.clone();
        used.used[31] = 1;
        assert_eq!(met_by(&load, &load, &used), [OLD_PARTS]);
    }

    #[test]
    fn operations() {
        let mut met = ScriptMet::default();
        assert_eq!(met.missing().len(), 32 + 30 + 13 + 11);
        let sound: Vec<_> = samples().iter().flat_map(encoded).collect();
        met.count(&sound, &Left::of(&sound, vec![0; 4096]), &sound, &Parts::of(&Board::new()));
        let missing = met.missing();
        assert!(!missing.contains(&in_script("special_cycle", NONE, false)));
        for (name, outcomes) in OPERATIONS {
            let met = |&(edition, accepted): &(_, _)| {
                !missing.contains(&in_script(name, edition, accepted))
            };
            assert!(outcomes.iter().any(met), "{name}");
        }
    }

    /// Both editions in one script, one of them refused, and an edition by its argument c.
    #[test]
    fn editions() {
        let [load, write] = [0, 10].map(|sample| encoded(&samples()[sample]));
        let with_c = |c| {
            let mut call = write.clone();
            call[19] = c;
            call
        };
        let met = |calls: &[Vec<u8>]| {
            let script = [&load, &calls.concat()].map(Vec::as_slice).concat();
            let left = Left::of(&script, vec![0; 4096]);
            let mut met = ScriptMet::default();
            met.count(&script, &left, &script, &Parts::of(&Board::new()));
            (left.calls.iter().map(edition_of).collect::<Vec<_>>(), met.met[MIXED] == 1)
        };
        assert_eq!(met(&[with_c(0), with_c(1)]), (vec![NONE, LATER, DRAFT], true));
        assert_eq!(met(&[with_c(0), with_c(2)]), (vec![NONE, LATER, ZERO], false));
        assert_eq!(met(&[with_c(1), with_c(3)]), (vec![NONE, DRAFT, OTHER], false));
    }
}
