//! Random pages, good ones and damaged ones.
use super::Gen;
use crate::heads::MAGICS;
use crate::images::{chunk, header};

/// A page's bytes up to some point, the rest being erased, and how it is to be opened.
pub struct Image {
    pub bytes: Vec<u8>,
    pub magic: u32,
    pub page: usize,
    pub h: usize,
    /// Where each chunk's header lies.
    pub chunks: Vec<usize>,
}

impl Gen<'_> {
    /// Every allowed length in turn.
    pub fn some_h(&mut self) -> usize {
        4 * ((self.turn * 5 + self.rng.below(2)) % 17)
    }

    pub fn some_magic(&mut self) -> u32 {
        MAGICS[usize::from(self.rng.once_in(6))]
    }

    pub fn image(&mut self, page: usize) -> Image {
        let (magic, h) = (self.some_magic(), self.some_h());
        let mut bytes = header(magic, page, &self.rng.bytes(h));
        let mut chunks = Vec::new();
        for _ in 0..*self.rng.pick(&[0, 1, 2, 2, 3, 4, 8, 40, 600]) {
            if 4096 < bytes.len() + 8 {
                break;
            }
            chunks.push(bytes.len());
            let length = self.chunk_length(4096 - bytes.len() - 8);
            let payload = self.rng.bytes(length);
            bytes.extend(chunk(&payload, self.rng.next() as u8));
        }
        self.behind(&mut bytes);
        Image {
            bytes,
            magic,
            page,
            h,
            chunks,
        }
    }

    /// What lies behind the last chunk: nothing, anything, a last byte that is not erased, or a mark in the last word.
    fn behind(&mut self, bytes: &mut Vec<u8>) {
        let room = 4096 - bytes.len();
        match self.rng.below(12) {
            0..=2 => {
                let length = *self.rng.pick(&[1, 2, 4, 8, 200, 4096]);
                bytes.extend(self.rng.bytes(length.min(room)));
            }
            3 if room >= 4 => {
                bytes.resize(4095, 0xFF);
                bytes.push(0xFE);
            }
            _ if room == 4 => bytes.extend([0xC5, 0x59, 0x00, 0x00]),
            _ => {}
        }
    }

    /// Small, or at an edge of the room that is left.
    fn chunk_length(&mut self, room: usize) -> usize {
        let length = match self.rng.below(10) {
            0..=5 => self.rng.below(30),
            6 => 0,
            7 => self.length(),
            _ => room.saturating_sub(*self.rng.pick(&[0, 1, 3, 4, 4, 4, 5, 7, 8, 9, 12, 13, 16, 20])),
        };
        length.min(room)
    }

    /// Changes one field or byte.
    pub fn damage(&mut self, image: &mut Image) {
        let last = image.bytes.len() - 1;
        let Image { bytes, chunks, .. } = image;
        let at = match self.rng.below(8) {
            0 => self.rng.below(12),
            1 => self.rng.below(bytes.len()),
            2 if !chunks.is_empty() => {
                let at = *self.rng.pick(chunks);
                let length = *self.rng.pick(&[0u16, 1, 3, 4, 4072, 4075, 4076, 4077, 65535]);
                bytes[at + 2..at + 4].copy_from_slice(&length.to_le_bytes());
                return;
            }
            3 if !chunks.is_empty() => *self.rng.pick(chunks) + self.rng.below(4),
            _ if !chunks.is_empty() => *self.rng.pick(chunks) + self.rng.below(16),
            _ => self.rng.below(bytes.len()),
        };
        bytes[at.min(last)] ^= 1 << self.rng.below(8);
    }
}
