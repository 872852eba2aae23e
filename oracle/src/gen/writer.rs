//! Episodes on the writer: a page written by many calls, cut at times, opened again and read back.
use super::Gen;
use crate::script::hex;

impl Gen<'_> {
    pub fn writer(&mut self) {
        let count = if self.rng.once_in(24) {
            256
        } else {
            *self.rng.pick(&[1, 1, 2, 3])
        };
        self.say(&format!("flash pages {count}"));
        let page = if count == 256 { 255 } else { self.rng.below(count) };
        let h = self.some_h();
        self.start_page(page);
        self.say("writer left 1000");
        if self.rng.once_in(12) {
            self.odd_writer();
        }
        for _ in 0..1 + self.rng.below(3) {
            self.open_writer(page, h);
            for _ in 0..self.rng.below(14) {
                self.writer_call(page, h);
            }
            self.say("writer left 1000");
        }
        self.read_back(page, h);
    }

    /// Erased, as written by an earlier writer, or anything.
    fn start_page(&mut self, page: usize) {
        match self.rng.below(4) {
            0 => {
                let mut image = self.image(page);
                if self.rng.once_in(2) {
                    self.damage(&mut image);
                }
                self.say(&format!("flash poke {page} 0 {}", hex(&image.bytes)));
            }
            1 => {
                let length = *self.rng.pick(&[4, 100, 4096]);
                let bytes = self.rng.bytes(length);
                self.say(&format!("flash poke {page} 0 {}", hex(&bytes)));
            }
            _ => {}
        }
    }

    fn open_writer(&mut self, page: usize, h: usize) {
        if self.rng.once_in(3) {
            self.say(&format!("writer open_append {page} {h}"));
            return;
        }
        self.say(&format!("writer open {page} {h}"));
        if self.rng.once_in(6) {
            let left = self.rng.below(3);
            self.say(&format!("writer left {left}"));
        }
        if !self.rng.once_in(5) {
            self.write_header(h);
        }
    }

    fn write_header(&mut self, h: usize) -> String {
        let magic = self.some_magic();
        let header = self.rng.bytes(h);
        self.say(&format!("writer write_header {magic:08x} {}", hex(&header)))
    }

    fn writer_call(&mut self, page: usize, h: usize) {
        match self.rng.below(24) {
            0..=11 => self.write_some(),
            12..=15 => self.say("writer commit"),
            16 => self.say("writer len"),
            17 => self.say("writer page_id"),
            18 => self.say("writer state"),
            19 => self.say(&format!("flash sum {page}")),
            20 => {
                let left = self.rng.below(5);
                self.say(&format!("writer left {left}"))
            }
            21 => self.write_header(h),
            22 => self.say(&format!("writer open_append {page} {h}")),
            _ => self.forge_writer(page, h),
        };
    }

    /// A length at an edge, or one about what the page or the chunk has room for.
    fn write_some(&mut self) -> String {
        let w = self.world.writer;
        let room = 4096u64.saturating_sub(w.offset.saturating_add(8).saturating_add(w.pending)) as usize;
        let length = match self.rng.below(8) {
            0 => self.length(),
            1 => (room + self.rng.below(9)).saturating_sub(5),
            2 => room / 2,
            _ => self.rng.below(14),
        };
        let data = self.rng.bytes(length);
        self.say(&format!("writer write {}", hex(&data)))
    }

    /// A writer set by hand, most of them in range or at its edge.
    fn forge_writer(&mut self, page: usize, h: usize) -> String {
        let page = *self.rng.pick(&[page, page, page, page, 200, 256, 65535]);
        // only with h 0 can a chunk be as long as 4076
        let h = if self.rng.once_in(6) { 0 } else { h };
        let start = 12 + h;
        let offset = *self
            .rng
            .pick(&[start, start + 4, 4080, 4084, 4088, 4092, 4096, 4100, start - 4, 4082]);
        let most = 4088usize.saturating_sub(offset).min(4076);
        let pending = match self.rng.below(5) {
            0 => most,
            1 => most + 1,
            2 => 0,
            _ => self.rng.below(most + 1),
        };
        let len = match self.rng.below(4) {
            0 => offset.saturating_sub(start) + pending + usize::from(self.rng.once_in(2)),
            _ => pending,
        };
        let armed = u8::from(self.rng.once_in(4));
        let sum = self.rng.next();
        let group = hex(&self.rng.bytes(4));
        let h = if self.rng.once_in(12) { h + 2 } else { h };
        self.say(&format!(
            "writer forge {page} {h} {armed} {sum:08x} {group} {len} {offset} {pending}"
        ))
    }

    /// Calls that are refused whatever the page is.
    fn odd_writer(&mut self) {
        let bytes = self.rng.bytes(6);
        let calls = [
            "writer new".into(),
            "writer state".into(),
            "writer open 300 0".into(),
            "writer open 65535 4".into(),
            "writer open_append 0 68".into(),
            "writer open 0 18446744073709551615".into(),
            format!("writer write_header 000000a1 {}", hex(&bytes)),
            format!("writer write_header 000000a1 {}", hex(&bytes[..4])),
        ];
        for call in calls {
            self.say(&call);
        }
    }

    fn read_back(&mut self, page: usize, h: usize) {
        self.say(&format!("reader open 000000a1 {page} {h}"));
        for _ in 0..8 {
            let answer = self.say("reader read 4096");
            if !Self::goes_on(&answer) {
                break;
            }
        }
        self.say(&format!("flash sum {page}"));
    }
}
