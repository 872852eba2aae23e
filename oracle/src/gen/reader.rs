//! Episodes on the reader: some pages, good and damaged, and one reader that goes from page to page.
use super::pages::Image;
use super::Gen;
use crate::script::hex;

/// Flash lengths that are not 1 to 256 whole pages.
const BAD_FLASH: [usize; 6] = [0, 1, 4095, 4097, 12292, 1_052_672];

impl Gen<'_> {
    pub fn reader(&mut self) {
        if self.rng.once_in(20) {
            self.on_bad_flash();
        }
        let images = self.pages();
        if self.rng.once_in(4) {
            self.say("reader new");
        }
        if self.rng.once_in(10) {
            self.say("reader read 5");
        }
        for _ in 0..3 {
            let image = self.rng.below(images.len());
            self.open_page(&images[image]);
            for _ in 0..self.rng.below(10) {
                self.reader_call(&images);
            }
            if self.rng.once_in(2) {
                self.read_to_end();
            }
        }
    }

    /// A flash with an image on each page, or, now and then, as large as there can be with an image on its first and last page.
    fn pages(&mut self) -> Vec<Image> {
        let count = *self.rng.pick(&[1, 1, 2, 3, 4, 5]);
        let pages: Vec<usize> = if self.rng.once_in(24) {
            self.say("flash pages 256");
            vec![0, 255]
        } else {
            self.say(&format!("flash pages {count}"));
            (0..count).collect()
        };
        let mut images = Vec::new();
        for page in pages {
            let mut image = self.image(page);
            for _ in 0..*self.rng.pick(&[0, 0, 0, 1, 1, 2]) {
                self.damage(&mut image);
            }
            self.say(&format!("flash poke {page} 0 {}", hex(&image.bytes)));
            images.push(image);
        }
        images
    }

    fn open_page(&mut self, image: &Image) {
        let Image { magic, page, h, .. } = image;
        let call = if self.rng.once_in(6) { "read_header" } else { "open" };
        match self.rng.below(12) {
            0 => {
                let page = page + 1 + self.rng.below(3);
                self.say(&format!("reader {call} {magic:08x} {page} {h}"))
            }
            1 => {
                let magic = self.some_magic();
                self.say(&format!("reader {call} {magic:08x} {page} {h}"))
            }
            2 => {
                let h = *self.rng.pick(&[0, 4, 8, 64, 65, 68, 3, h + 4, h + 2]);
                self.say(&format!("reader {call} {magic:08x} {page} {h}"))
            }
            3 => {
                let h = *self.rng.pick(&[*h, 3, 68]);
                self.say(&format!("reader {call} {magic:08x} 65535 {h}"))
            }
            _ => self.say(&format!("reader {call} {magic:08x} {page} {h}")),
        };
    }

    fn reader_call(&mut self, images: &[Image]) {
        let room = self.reader_length();
        let slot = self.rng.below(4);
        match self.rng.below(24) {
            0..=8 => self.say(&format!("reader read {room}")),
            9..=12 => self.say(&format!("reader skip {room}")),
            13..=14 => self.say("reader is_at_eof"),
            15..=16 => self.say(&format!("reader dehydrate {slot}")),
            17..=18 => self.say(&format!("reader rehydrate_from {slot}")),
            19 => self.say("reader page_id"),
            20..=21 => self.say("reader state"),
            22 => self.forge_reader(slot),
            _ => self.change_page(images),
        };
    }

    /// A length at an edge, or one about what is left of the chunk.
    fn reader_length(&mut self) -> usize {
        let f = self.world.reader.fields;
        let left = f.len.saturating_sub(f.position).min(5000) as usize;
        match self.rng.below(3) {
            0 => self.length(),
            1 => (left + self.rng.below(5)).saturating_sub(2),
            _ => self.rng.below(12),
        }
    }

    fn read_to_end(&mut self) {
        let room = *self.rng.pick(&[1, 3, 7, 64, 4076, 4096]);
        for _ in 0..60 {
            let answer = self.say(&format!("reader read {room}"));
            if !Self::goes_on(&answer) {
                break;
            }
        }
        self.say("reader read 9");
        self.say("reader state");
    }

    /// A reader or a dehydrated one set by hand, most of them in range or at its edge.
    fn forge_reader(&mut self, slot: usize) -> String {
        let page = *self.rng.pick(&[0, 0, 0, 1, 2, 255, 256, 65535]);
        let ended = u8::from(self.rng.once_in(4));
        let offset = *self.rng.pick(&[12, 16, 20, 76, 4080, 4084, 4088, 4092, 4096, 8, 13, 0]);
        let room = 4088usize.saturating_sub(offset);
        let len = match self.rng.below(4) {
            0 => room,
            1 => room + 1,
            _ => self.rng.below(room.min(40) + 1),
        };
        let crc = self.sum_there(page, offset, len);
        let position = match self.rng.below(5) {
            0 => len + 1,
            1 => len,
            _ => self.rng.below(len + 1),
        };
        let fields = format!("{page} {ended} {offset} {len} {crc:08x} {position}");
        if self.rng.once_in(2) {
            return self.say(&format!("slot forge {slot} {fields}"));
        }
        self.say(&format!("reader forge {fields}"))
    }

    /// The sum of the bytes that a chunk of this length would have there, as often as not.
    fn sum_there(&mut self, page: usize, offset: usize, len: usize) -> u32 {
        let from = page * 4096 + offset + 8;
        match self.world.flash.bytes.get(from..from + len) {
            Some(bytes) if self.rng.once_in(2) => crate::page::peek::crc32(bytes),
            _ => self.rng.next(),
        }
    }

    /// Changes a byte under the reader: the rules keep no copy.
    fn change_page(&mut self, images: &[Image]) -> String {
        let at = self.rng.below(images.len());
        let image = &images[at];
        let offset = self.rng.below(image.bytes.len());
        let byte = self.rng.next() as u8;
        self.say(&format!("flash poke {} {offset} {byte:02x}", image.page))
    }

    fn on_bad_flash(&mut self) {
        let length = *self.rng.pick(&BAD_FLASH);
        self.say(&format!("flash bytes {length}"));
        let calls = [
            "reader open 000000a1 0 0",
            "reader read 4",
            "reader skip 0",
            "reader is_at_eof",
        ];
        for call in calls {
            self.say(call);
        }
        let calls = [
            "writer open 0 5",
            "writer open_append 0 0",
            "writer write 01",
            "writer commit",
        ];
        for call in calls {
            self.say(call);
        }
    }
}
