//! A board image: notes, records, and a trailer whose fields a source may override.

use crate::record::{Record, RECORD_LENGTH};

const TRAILER_LENGTH: usize = 12;

#[derive(Default)]
pub struct Image {
    pub notes: Vec<u8>,
    pub records: Vec<Record>,
    pub distance: Option<u32>,
    pub count: Option<u16>,
    pub edition: Option<u16>,
    pub sum: Option<u32>,
    /// The bytes of the whole image.
    pub length: Option<usize>,
}

impl Image {
    pub fn bytes(&self) -> Vec<u8> {
        let mut image = self.notes.clone();
        for record in &self.records {
            image.extend(record);
        }
        image.extend(self.trailer());
        match self.length {
            Some(length) => with_length(&image, length),
            None => image,
        }
    }

    fn trailer(&self) -> Vec<u8> {
        let distance = RECORD_LENGTH * self.records.len() + TRAILER_LENGTH;
        let sum = self.records.iter().flatten().map(|&byte| u32::from(byte)).sum();
        let mut trailer = Vec::new();
        trailer.extend(self.distance.unwrap_or(distance as u32).to_be_bytes());
        trailer.extend(self.count.unwrap_or(self.records.len() as u16).to_be_bytes());
        trailer.extend(self.edition.unwrap_or(1).to_be_bytes());
        trailer.extend(self.sum.unwrap_or(sum).to_be_bytes());
        trailer
    }
}

/// The last bytes of an image, or the image after as many zeros as it lacks.
fn with_length(image: &[u8], length: usize) -> Vec<u8> {
    let mut bytes = vec![0; length.saturating_sub(image.len())];
    bytes.extend(&image[image.len().saturating_sub(length)..]);
    bytes
}
