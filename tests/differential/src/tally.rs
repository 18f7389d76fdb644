//! How often each answer came up, and which that can occur never did.

use crate::calls::{Answer, Call};
use crate::history::History;
use crate::layer::Through;
use crate::model::Second;
use crate::parts::Parts;
use crate::script_met::ScriptMet;
use crate::{chain_met, data_met, edition_met, met, resource_met, status_met};
use std::collections::BTreeMap;
use std::ops::RangeInclusive;

/// Every answer that can occur, by call; of a fast read, the fault flag; of a descriptor
/// step, whether it found one.
const ANSWERS: [(&str, &[RangeInclusive<i64>]); 25] = [
    ("load", &[0..=8]),
    ("check_image", &[0..=8]),
    ("write_image", &[0..=1, 3..=3]),
    ("reset", &[-7..=-7, 0..=0]),
    ("list_window", &[-4..=-4, 0..=0]),
    ("find_pci_device", &[-4..=-2, 1..=16]),
    ("find_pci_classcode", &[-4..=-4, -2..=-2, 1..=16]),
    ("read_config", &[-9..=-8, -5..=-5, 0..=0]),
    ("fast_read_config", &[0..=1]),
    ("write_config", &[-9..=-8, -5..=-5, 0..=0]),
    ("read_data", &[-9..=-7, -2..=-2, 0..=0]),
    ("fast_read_data", &[0..=1]),
    ("write_data", &[-9..=-7, -2..=-2, 0..=0]),
    ("bus_to_cpu", &[-9..=-9, 0..=0]),
    ("cpu_to_bus", &[-9..=-9, 0..=0]),
    ("get_resource", &[-9..=-7, 0..=0]),
    ("descriptor_step", &[0..=1]),
    ("hook_interrupt", &[-9..=-8, -6..=-6, 0..=0]),
    ("unhook_interrupt", &[-9..=-8, 0..=0]),
    ("list_chain", &[-8..=-8, -4..=-4, 0..=0]),
    ("get_card_used", &[-9..=-9, 0..=0]),
    ("set_card_used", &[-9..=-8, 0..=0]),
    ("special_cycle", &[-2..=-2]),
    ("get_routing", &[-2..=-2]),
    ("set_interrupt", &[-2..=-2]),
];

#[derive(Default)]
pub struct Tally {
    pub through: Through,
    pub calls: u64,
    pub scripts: ScriptMet,
    answers: BTreeMap<(&'static str, i64), u64>,
    met: BTreeMap<&'static str, u64>,
}

impl Tally {
    pub fn new(through: Through) -> Self {
        Tally { through, ..Tally::default() }
    }

    /// Counts a call with its answer, with the parts and the history before it and what it
    /// left.
    pub fn count(
        &mut self,
        call: &Call,
        answer: &Answer,
        before: &Parts,
        after: &Second,
        history: &History,
    ) {
        self.calls += 1;
        *self.answers.entry((call.name(), answer.number)).or_default() += 1;
        let met = met::met(call, answer, before, &after.parts);
        let data_met = data_met::met(call, answer, before, &after.cells);
        let resource_met = resource_met::met(call, answer, before);
        let chain_met = match call {
            Call::Chain(call) => chain_met::met(*call, answer, before, &after.parts, history),
            _ => Vec::new(),
        };
        let edition_met = edition_met::met(call, answer, before, &after.cells, history);
        let status_met = status_met::met(call, answer, before, &after.parts, history);
        let all = [met, data_met, resource_met, chain_met, edition_met, status_met];
        for (what, met) in all.into_iter().flatten() {
            *self.met.entry(what).or_default() += u64::from(met);
        }
    }

    /// What was performed, and through which functions.
    pub fn made(&self) -> String {
        let Tally { calls, scripts, .. } = self;
        match self.through {
            Through::Exports => format!("{calls} calls, {} scripts", scripts.scripts),
            Through::Bios => format!("{calls} calls through pci_bios.h"),
            Through::Driver => format!("{calls} calls through pci_driver.h"),
        }
    }

    /// What can occur and never did.
    pub fn missing(&self) -> Vec<String> {
        let mut missing = Vec::new();
        for (name, ranges) in ANSWERS {
            for number in ranges.iter().cloned().flatten() {
                if !self.answers.contains_key(&(name, number)) {
                    missing.push(format!("{name} {number}"));
                }
            }
        }
        let all = met::ALL.into_iter().chain(data_met::all()).chain(edition_met::all());
        let all = all.chain(resource_met::ALL).chain(chain_met::all()).chain(status_met::all());
        for what in all {
            if self.met.get(what).is_none_or(|&times| times == 0) {
                missing.push(what.to_string());
            }
        }
        missing.extend(self.scripts.missing());
        missing
    }

    pub fn print(&self) {
        for ((name, number), times) in &self.answers {
            println!("{name} {number}: {times}");
        }
        for (what, times) in &self.met {
            println!("{what}: {times}");
        }
        self.scripts.print();
    }
}
