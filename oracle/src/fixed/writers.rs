//! The writer: every short payload in random parts, the long ones, every h, and cuts after every store.
use super::any;
use crate::rng::Rng;
use crate::script::hex;

pub fn writers() -> Vec<String> {
    let mut calls = Calls {
        rng: Rng::new(3),
        list: Vec::new(),
    };
    for length in 0..=40 {
        calls.short(length, 4 * (length % 17));
    }
    for (length, h) in [(4075, 0), (4076, 0), (4077, 0), (4072, 4), (4073, 4)] {
        calls.long(length, h);
    }
    for length in [1, 4, 5, 11] {
        for left in 0..=3 {
            calls.cut(length, left);
        }
    }
    for left in 0..=4 {
        calls.cut_from_the_erase(left);
    }
    for h in [0, 4, 64] {
        for left in 0..=4 {
            calls.cut_in_a_write(h, left);
            calls.cut_in_the_last_write(h, left);
        }
    }
    calls.on_another_page();
    calls.limits();
    calls.lengths();
    calls.group_kept();
    calls.most_pages();
    calls.list
}

struct Calls {
    rng: Rng,
    list: Vec<String>,
}

impl Calls {
    fn say(&mut self, lines: &str) {
        self.list.extend(lines.split('|').map(String::from));
    }

    /// A new page with its header.
    fn page(&mut self, h: usize) {
        let header = hex(&any(&mut self.rng, h));
        self.say(&format!(
            "flash pages 1|writer left 1000|writer open 0 {h}|writer write_header 000000a1 {header}"
        ));
    }

    /// So many bytes in parts of up to so many, then the commit.
    fn payload(&mut self, length: usize, part: usize) {
        let data = any(&mut self.rng, length);
        let mut rest = &data[..];
        while !rest.is_empty() {
            let (now, later) = rest.split_at((1 + self.rng.below(part)).min(rest.len()));
            self.say(&format!("writer write {}", hex(now)));
            rest = later;
        }
        self.say("writer state|writer commit");
    }

    fn read_back(&mut self, h: usize) {
        self.say(&format!("flash sum 0|reader open 000000a1 0 {h}"));
        self.say("reader read 8192|reader read 8192|reader read 8192|reader read 8192");
    }

    /// A chunk of this length, another one, and one more after reopening.
    fn short(&mut self, length: usize, h: usize) {
        self.page(h);
        self.payload(length, 9);
        let second = 1 + self.rng.below(9);
        self.payload(second, 4);
        self.say(&format!("writer len|writer open_append 0 {h}|writer state"));
        self.payload(3, 3);
        self.say("writer page_id|writer len");
        self.read_back(h);
    }

    fn long(&mut self, length: usize, h: usize) {
        self.page(h);
        self.payload(length, length);
        self.say("writer write 00|writer state");
        self.read_back(h);
    }

    /// A chunk behind another one, with so many stores, and what is found and added afterwards.
    fn cut(&mut self, length: usize, left: usize) {
        self.page(0);
        self.payload(2, 2);
        self.say(&format!("writer open_append 0 0|writer left {left}"));
        self.payload(length, length);
        self.say("writer state|writer left 1000|writer open_append 0 0|writer state|writer write 0708|writer commit");
        self.read_back(0);
    }

    /// The same from a writer whose erase is still armed.
    fn cut_from_the_erase(&mut self, left: usize) {
        self.say(&format!("flash fill 0 0 4096 5a|writer open 0 0|writer left {left}"));
        self.say("writer write_header 000000a1 -|writer state|writer write 0102030405|writer state|writer commit");
        self.say("writer state|flash sum 0|writer left 9|writer commit|flash sum 0");
    }

    /// A write that owes the erase, the group that it completes and the whole groups behind it, with so many stores.
    fn cut_in_a_write(&mut self, h: usize, left: usize) {
        self.say(&format!(
            "flash fill 0 0 4096 5a|writer open 0 {h}|writer left 1000|writer write 010203"
        ));
        self.say(&format!("flash fill 0 0 4096 a5|writer open 0 {h}|writer left {left}"));
        self.say("writer write 0102030405060708090a|writer state|flash sum 0");
        self.page(h);
        self.say(&format!(
            "writer write 010203|writer left {left}|writer write 0405060708090a0b0c0d"
        ));
        self.say("writer state|flash sum 0|writer left 1000|writer commit|writer state");
        self.read_back(h);
    }

    /// The write that fills a chunk, which commits it.
    fn cut_in_the_last_write(&mut self, h: usize, left: usize) {
        let most = 4076 - h;
        self.page(h);
        let (first, last) = (hex(&any(&mut self.rng, most - 6)), hex(&any(&mut self.rng, 9)));
        self.say(&format!(
            "writer write {first}|writer left {left}|writer write {last}|writer state|flash sum 0"
        ));
        self.say("writer left 1000|writer commit|writer state");
        self.read_back(h);
        self.say(&format!("writer open_append 0 {h}|writer state"));
    }

    /// Stores on a page that is not the first, beside others, and a page whose chunks are damaged.
    fn on_another_page(&mut self) {
        self.say("flash pages 3|writer left 1000|writer open 2 8|writer write_header 000000a1 0102030405060708");
        self.say("writer write 0a0b0c0d0e|writer commit|writer page_id|flash sum 0|flash sum 1|flash sum 2");
        self.say(
            "writer open_append 2 8|writer write 0f|writer commit|reader open 000000a1 2 8|reader read 9|reader read 9",
        );
        self.say(
            "flash poke 2 22 ffff|writer open_append 2 8|writer state|flash poke 2 22 ed0f|writer open_append 2 8",
        );
    }

    /// The last offsets, no room, nothing pending, and what is refused.
    fn limits(&mut self) {
        for offset in [4080, 4084, 4088, 4092, 4096] {
            self.say(&format!("writer forge 0 0 0 ffffffff 00000000 0 {offset} 0"));
            self.say("writer write 0102030405060708090a|writer state|writer commit|writer state");
        }
        self.say("writer forge 0 0 0 ffffffff 01020304 4076 12 4076|writer write 01|writer commit|writer state");
        self.say(
            "writer forge 0 0 1 ffffffff 01020304 3 12 3|writer commit|writer open 0 0|writer commit|writer write -",
        );
        self.say("writer open 1 0|writer open_append 65535 0|writer open 0 68|writer open_append 0 2|writer state");
        self.say("writer write_header 000000a1 00|writer write_header 000000a1 00000000");
        self.say("writer forge 0 0 0 ffffffff 00000000 0 10 0|writer write 01|writer commit|writer len|writer page_id");
        self.say(
            "writer write_header 000000a1 -|writer write_header 000000a1 00000000|flash bytes 4095|writer open 1 3",
        );
        self.say("writer write_header 000000a1 00|writer commit|flash pages 1");
    }

    /// What len() answers: up to the bytes before the offset and those pending, and a state with more is out of range.
    fn lengths(&mut self) {
        for fields in [
            "0 12 0",
            "1 12 0",
            "1 12 1",
            "2 12 1",
            "4 16 0",
            "5 16 0",
            "4084 4096 0",
            "4085 4096 0",
        ] {
            self.say(&format!(
                "writer forge 0 0 0 ffffffff 00000000 {fields}|writer len|writer page_id"
            ));
        }
        self.say("writer forge 0 8 0 ffffffff 00000000 4 20 0|writer len|writer forge 0 8 0 ffffffff 00000000 4 24 0|writer len");
    }

    /// A chunk's last group is filled up with the bytes that were there before, those of the former chunk too.
    fn group_kept(&mut self) {
        self.page(0);
        self.say(
            "writer write 010203|writer write 04|writer commit|writer state|writer write ff|writer state|writer commit",
        );
        self.say("writer state|writer write aabb|writer commit|writer write 05060708|writer write 99|writer commit");
        self.say("writer open_append 0 0|writer state|writer write 77|writer commit");
        self.read_back(0);
    }

    /// The last page of as many as there can be, and a flash of one page more.
    fn most_pages(&mut self) {
        self.say("flash pages 256|writer left 1000|writer open 256 0|writer open 255 0|writer write_header 000000a1 -");
        self.say(
            "writer write 0102030405|writer commit|writer page_id|flash sum 254|flash sum 255|writer open_append 255 0",
        );
        self.say("writer write 06|writer commit|writer state|reader open 000000a1 255 0|reader read 9|reader read 9");
        self.say("flash bytes 1052672|writer open 0 0|writer open_append 255 0|writer write 01|writer commit");
        self.say("writer write_header 000000a1 -|writer state|flash sum 255|flash pages 1");
    }
}
