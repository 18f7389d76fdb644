//! Through which functions the proved code is called: the library's own, or one of the C
//! layers over them.

use crate::bios_layer::{self, BiosLayer};
use crate::calls::{Answer, Call};
use crate::driver_layer::{self, DriverLayer};
use crate::host_reached;
use crate::host_record;
use crate::parts::Parts;
use crate::proved::Proved;
use crate::script_encode::is_refused;
use std::borrow::Cow;

#[derive(Clone, Copy, Default, PartialEq)]
pub enum Through {
    #[default]
    Exports,
    /// host/pci_bios.h.
    Bios,
    /// host/pci_driver.h.
    Driver,
}

impl Through {
    pub fn named(name: &str) -> Option<Self> {
        match name {
            "exports" => Some(Through::Exports),
            "pci_bios" => Some(Through::Bios),
            "pci_driver" => Some(Through::Driver),
            _ => None,
        }
    }

    /// The functions of the layer's header, and the entries of the driver's table, that no run
    /// reached as they can be.
    pub fn missing(self) -> Vec<String> {
        match self {
            Through::Exports => Vec::new(),
            Through::Bios => host_reached::missing(host_reached::BIOS_HEADER),
            Through::Driver => {
                let (driver, cookie) = (host_reached::DRIVER_HEADER, host_reached::COOKIE_HEADER);
                let mut missing = host_reached::missing(driver);
                missing.extend(host_reached::missing_entries(driver, cookie));
                missing
            }
        }
    }
}

/// The proved code behind one of them, with its parts and cells.
pub enum Layer {
    Exports(Box<Proved>),
    Bios(BiosLayer),
    Driver(DriverLayer),
}

/// What a call gave.
pub struct Performed {
    pub answer: Answer,
    /// The answer that `second` gave, as it is shown here.
    pub second: Answer,
    /// How a recorder was told of another call or answer.
    pub recorded: Option<String>,
}

impl Layer {
    pub fn new(through: Through, parts: &Parts, cells: &[u8]) -> Self {
        if through != Through::Exports {
            host_record::start();
        }
        match through {
            Through::Exports => Layer::Exports(Box::new(Proved::new(parts, cells))),
            Through::Bios => Layer::Bios(BiosLayer::new(parts, cells)),
            Through::Driver => Layer::Driver(DriverLayer::new(parts, cells)),
        }
    }

    /// The call as it can be made here.
    pub fn said<'a>(&self, call: &'a Call) -> Cow<'a, Call> {
        let said = match self {
            Layer::Exports(_) => None,
            Layer::Bios(_) => bios_layer::said(call),
            Layer::Driver(layer) => driver_layer::said(call, layer.cells().len()),
        };
        said.map_or(Cow::Borrowed(call), Cow::Owned)
    }

    /// Performs a call that can be made here and that `second` gave this answer to.
    pub fn perform(&mut self, call: &Call, second: Answer) -> Result<Performed, String> {
        let (answer, by_driver) = match self {
            Layer::Exports(proved) => {
                let answer = proved.perform(call)?;
                return Ok(Performed { answer, second, recorded: None });
            }
            Layer::Bios(layer) => (layer.perform(call)?, false),
            Layer::Driver(layer) => (layer.perform(call)?, true),
        };
        host_reached::settle(refused(call, &second));
        let recorded = host_record::difference(call, &second, by_driver);
        let second = if by_driver { driver_layer::seen(call, second) } else { second };
        Ok(Performed { answer, second, recorded })
    }

    /// The first place where the lent parts differ from `second`'s.
    pub fn first_difference(&self, second: &Parts) -> Option<String> {
        match self {
            Layer::Exports(proved) => proved.parts().first_difference(second),
            Layer::Bios(layer) => layer.parts().first_difference(second),
            Layer::Driver(layer) => {
                let shown = driver_layer::without_tokens;
                shown(layer.parts()).first_difference(&shown(second))
            }
        }
    }

    pub fn cells(&self) -> &[u8] {
        match self {
            Layer::Exports(proved) => proved.cells(),
            Layer::Bios(layer) => layer.cells(),
            Layer::Driver(layer) => layer.cells(),
        }
    }

    /// Gives the parts other contents, as a caller may; `parts` are then as they are shown.
    pub fn lend(&mut self, parts: &mut Parts) {
        match self {
            Layer::Exports(proved) => proved.lend(parts),
            Layer::Bios(layer) => layer.lend(parts),
            Layer::Driver(layer) => layer.lend(parts),
        }
    }

    pub fn lend_cells(&mut self, cells: &[u8]) {
        match self {
            Layer::Exports(proved) => proved.lend_cells(cells),
            Layer::Bios(layer) => layer.lend_cells(cells),
            Layer::Driver(layer) => layer.lend_cells(cells),
        }
    }
}

fn refused(call: &Call, answer: &Answer) -> bool {
    match call {
        Call::CheckImage { .. } => answer.number != 0,
        Call::DescriptorStep { .. } => answer.number == 0,
        _ => is_refused(call, answer),
    }
}
