//! The reader: every h, the edges of a page, every field damaged, and a reader that goes from page to page.
use super::any;
use crate::images::{chunk, chunk_header, header};
use crate::rng::Rng;
use crate::script::hex;

pub fn readers() -> Vec<String> {
    let mut rng = Rng::new(4);
    let mut list = split("reader state|reader read 1|reader page_id|reader dehydrate 0|flash pages 1");
    for h in (0..=64).step_by(4) {
        list.extend(whole(&mut rng, h));
    }
    for end in [4080, 4084, 4088, 4092, 4096] {
        list.extend(up_to(end));
    }
    for at in [0, 4, 8, 12, 16, 18, 19, 20, 24, 27, 28, 30, 31, 32, 36] {
        list.extend(damaged(at));
    }
    list.extend(lengths());
    list.extend(from_page_to_page());
    list.extend(refused());
    list.extend(flash_before_state());
    list.extend(most_pages());
    list
}

fn split(lines: &str) -> Vec<String> {
    lines.split('|').map(String::from).collect()
}

fn image(page: usize, higher: &[u8], payloads: &[&[u8]]) -> Vec<u8> {
    let mut bytes = header(0xA1, page, higher);
    for payload in payloads {
        bytes.extend(chunk(payload, 0x5A));
    }
    bytes
}

/// Five chunks, one of them empty, read in parts, passed over, and read again from a dehydrated reader.
fn whole(rng: &mut Rng, h: usize) -> Vec<String> {
    let lengths = [1 + rng.below(9), 0, 1 + rng.below(30), 4, 1 + rng.below(9)];
    let payloads = lengths.map(|length| any(rng, length));
    let page = image(0, &any(rng, h), &payloads.each_ref().map(|payload| &payload[..]));
    let (room, other, passed) = (1 + rng.below(5), 1 + rng.below(20), rng.below(50));
    split(&format!(
        "flash fill 0 0 4096 ff|flash poke 0 0 {}|reader read_header 000000a1 0 {h}|reader open 000000a1 0 {h}\
         |reader state|reader read {room}|reader read 0|reader dehydrate 0|reader read {other}|reader read {other}\
         |reader skip {passed}|reader state|reader is_at_eof|reader state|reader dehydrate 1|reader read 64\
         |reader rehydrate_from 0|reader read 64|reader read 64|reader read 64|reader read 64|reader read 64\
         |reader read 64|reader is_at_eof|reader state|reader rehydrate_from 1|reader skip 0|reader skip 1000\
         |reader page_id",
        hex(&page)
    ))
}

/// One chunk that ends at this offset, with an empty one behind it where there is room for its header.
fn up_to(end: usize) -> Vec<String> {
    let payload = vec![0xB7; end - 20];
    let start = [header(0xA1, 0, &[]), chunk_header(&payload)].concat();
    let next = &chunk(&[], 0)[..(4096 - end).min(8)];
    split(&format!(
        "flash fill 0 0 4096 ff|flash fill 0 20 {} b7|flash poke 0 0 {}|flash poke 0 {end} {}|reader open 000000a1 0 0\
         |reader state|reader skip {}|reader read 3|reader read 3|reader state|reader is_at_eof|reader state",
        payload.len(),
        hex(&start),
        hex(next),
        payload.len() - 1
    ))
}

/// A page with h 4 and two chunks, one byte of it changed; what is refused is refused again.
fn damaged(at: usize) -> Vec<String> {
    let mut page = image(0, &[1, 2, 3, 4], &[&[5, 6, 7], &[8, 9, 10, 11]]);
    page[at] ^= 0x40;
    split(&format!(
        "flash fill 0 0 4096 ff|flash poke 0 0 {}|reader new|reader open 000000a1 0 4|reader read 9|reader read 9\
         |reader read 9|reader is_at_eof|reader skip 9|reader state",
        hex(&page)
    ))
}

/// The longest payload, one too long, and one that would pass the page.
fn lengths() -> Vec<String> {
    let mut list = split("flash fill 0 0 4096 00|reader new");
    let longest = vec![0; 4076];
    for (h, length) in [(0, 4076u16), (0, 4077), (4, 4076), (4, 4072), (0, 65535)] {
        let mut start = [header(0xA1, 0, &[0; 4][..h]), chunk_header(&longest[h..])].concat();
        start[14 + h..16 + h].copy_from_slice(&length.to_le_bytes());
        list.extend(split(&format!(
            "flash poke 0 0 {}|reader open 000000a1 0 {h}|reader state",
            hex(&start)
        )));
        list.extend(split("reader skip 5000|reader state"));
    }
    list
}

/// A reader used before on a page without chunks, rehydrated at its end, and over a page that was refused.
fn from_page_to_page() -> Vec<String> {
    let good = hex(&image(0, &[], &[&[1, 2, 3, 4], &[5]]));
    let empty = hex(&image(1, &[], &[]));
    let bad = hex(&[image(2, &[], &[]), vec![0xC5, 0x59, 1, 0, 0, 0, 0, 0, 9, 9, 9, 9]].concat());
    split(&format!(
        "flash pages 3|flash poke 0 0 {good}|flash poke 1 0 {empty}|flash poke 2 0 {bad}|reader open 000000a1 0 0\
         |reader read 2|reader dehydrate 0|reader open 000000a1 2 0|reader state|reader read 9|reader open 000000a1 1 0\
         |reader state|reader read 9|reader skip 9|reader dehydrate 1|reader rehydrate_from 0|reader read 1\
         |reader skip 9|reader state|reader dehydrate 2|reader rehydrate_from 1|reader page_id|reader rehydrate_from 2\
         |reader state|reader read 9|reader open 000000a1 0 0|flash poke 0 20 ff|reader rehydrate_from 0|reader read 9"
    ))
}

/// Other magics, pages, lengths and flashes, and states that are out of range.
fn refused() -> Vec<String> {
    split(
        "flash poke 0 20 01|reader open ffffffff 0 0|reader open 000000a1 1 4|reader open 000000a1 3 0\
         |reader open 000000a1 65535 3|reader read_header 000000a1 0 68|reader read_header ffffffff 0 0|reader state\
         |reader forge 0 0 12 4 b63cfbcd 5|reader read 1|reader skip 0|reader is_at_eof|reader page_id|reader dehydrate 3\
         |reader forge 0 0 14 4 b63cfbcd 0|reader read 1|reader forge 0 0 8 4 b63cfbcd 0|reader read 1\
         |reader forge 0 0 12 4077 b63cfbcd 0|reader read 1|reader forge 0 0 12 4 00000000 1|reader read 9\
         |reader forge 3 0 12 4 b63cfbcd 1|reader read 9|reader forge 256 1 0 0 00000000 0|reader read 9\
         |reader forge 255 1 7 9 00000000 10|reader page_id|reader read 9|slot forge 3 0 0 12 4 b63cfbcd 1\
         |reader rehydrate_from 3|reader state|slot forge 3 0 0 12 4 b63cfbce 1|reader rehydrate_from 3\
         |slot forge 3 0 0 13 4 b63cfbcd 1|reader rehydrate_from 3|slot forge 3 9 1 0 0 00000000 0\
         |reader rehydrate_from 3|reader state|flash bytes 4097|reader open 000000a1 9 3|reader read 1|reader skip 0\
         |reader rehydrate_from 0|reader page_id|flash pages 1",
    )
}

/// A flash that is no whole pages, under a reader that was never opened: the flash is looked at first.
fn flash_before_state() -> Vec<String> {
    split(
        "flash bytes 4095|reader new|reader read 1|reader skip 1|reader is_at_eof|reader dehydrate 0|reader page_id\
         |slot forge 0 0 0 8 4 b63cfbcd 0|reader rehydrate_from 0|flash pages 1|reader read 1|reader skip 1\
         |reader is_at_eof|reader rehydrate_from 0",
    )
}

/// The last page of as many as there can be, and a flash of one page more.
fn most_pages() -> Vec<String> {
    let last = hex(&image(255, &[], &[&[1, 2, 3, 4], &[5]]));
    split(&format!(
        "flash pages 256|flash poke 255 0 {last}|reader open 000000a1 255 0|reader read 9|reader read 9|reader dehydrate 0\
         |reader is_at_eof|reader open 000000a1 256 0|reader read_header 000000a1 255 0|reader page_id|reader state\
         |flash bytes 1052672|flash poke 255 0 {last}|reader open 000000a1 255 0|reader read_header 000000a1 255 0\
         |reader read 9|reader rehydrate_from 0|reader page_id|flash pages 256|flash poke 255 0 {last}\
         |reader rehydrate_from 0|reader read 9|flash pages 1"
    ))
}
