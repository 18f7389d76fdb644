//! Descriptors by the proved code: writing them, and a step through them.

use crate::calls::Answer;
use crate::guards::{Guarded, GuardedBytes};
use crate::proved::{kept, Proved, UNSET};
use exports::{bios_descriptor_step, bios_get_resource};

impl Proved {
    pub fn get_resource(&mut self, handle: u32, out: &[u8]) -> Result<Answer, String> {
        let mut lent_out = GuardedBytes::new(out);
        // SAFETY: as in `load`.
        let number = unsafe {
            bios_get_resource(
                &raw mut self.header.value,
                &raw mut self.records.value,
                &raw mut self.registers.value,
                &raw mut self.windows.value,
                handle,
                lent_out.inside_mut().as_mut_ptr(),
                out.len(),
            )
        };
        kept(lent_out.intact(), "output buffer")?;
        Ok(Answer { out: lent_out.inside().to_vec(), ..Answer::number(number.into()) })
    }
}

pub fn descriptor_step(bytes: &[u8], at: usize) -> Result<Answer, String> {
    let mut lent_bytes = GuardedBytes::new(bytes);
    let mut fields = Guarded::new([UNSET; 6]);
    let mut following = Guarded::new(UNSET as usize);
    // SAFETY: as in `load`.
    let found = unsafe {
        bios_descriptor_step(
            lent_bytes.inside_mut().as_mut_ptr(),
            bytes.len(),
            at,
            &raw mut fields.value,
            &raw mut following.value,
        )
    };
    kept(lent_bytes.intact() && lent_bytes.inside() == bytes, "descriptor bytes")?;
    kept(fields.intact() && following.intact(), "fields or position")?;
    Ok(Answer::step(found, fields.value, following.value))
}
