//! The run of a script by the proved code.

use crate::guards::GuardedBytes;
use crate::proved::{kept, Proved};
use exports::bios_run_script;

impl Proved {
    /// Runs a script: the place handed back, and what the run leaves of the script.
    pub fn run_script(&mut self, script: &[u8]) -> Result<(usize, Vec<u8>), String> {
        let mut lent_script = GuardedBytes::new(script);
        let cells = self.cells.inside_mut();
        // SAFETY: as in `load`.
        let place = unsafe {
            bios_run_script(
                lent_script.inside_mut().as_mut_ptr(),
                script.len(),
                &raw mut self.header.value,
                &raw mut self.records.value,
                &raw mut self.registers.value,
                &raw mut self.windows.value,
                &raw mut self.cell_offsets.value,
                &raw mut self.hooks.value,
                &raw mut self.used.value,
                cells.as_mut_ptr(),
                cells.len(),
            )
        };
        kept(lent_script.intact(), "script")?;
        kept(self.intact(), "lent parts or cells")?;
        Ok((place, lent_script.inside().to_vec()))
    }
}
