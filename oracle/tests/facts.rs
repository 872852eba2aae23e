//! The reference cases (docs/RULES.md, Reference cases) and published numbers, asked of the original through scripts.
use oracle::world::{answers, Mode};

/// A script with the answers to it, each after its call and ` = `.
fn holds(script: &str) {
    let lines: Vec<(&str, &str)> = script
        .lines()
        .filter_map(|line| line.trim().split_once(" = "))
        .collect();
    let calls: Vec<&str> = lines.iter().map(|(call, _)| *call).collect();
    let answered = answers(Mode::Run, &calls.join("\n")).unwrap();
    for ((call, wanted), answer) in lines.iter().zip(answered) {
        assert_eq!(answer, *wanted, "{call}");
    }
}

#[test]
fn the_published_check_value() {
    holds(
        "crc 313233343536373839 = ok cbf43926
         crc - = ok 00000000
         crc 00 = ok d202ef8d
         crc ffffffff = ok ffffffff",
    );
}

#[test]
fn a_page_header_and_the_chunk_of_four_ff() {
    holds(
        "writer open 0 0 = ok 1000 0
         writer write_header 000000a1 - = ok 998 2 e s 0 a10000000000000000000000
         writer write ffffffff = ok 4 997 1 s 20 ffffffff
         writer commit = ok 996 1 s 12 c5590400ffffffff
         flash dump 0 12 12 = ok c5590400ffffffffffffffff
         writer state = ok 0 0 0 ffffffff 00000000 4 24 0
         reader open 000000a1 0 0 = ok -
         reader read 9 = ok ffffffff
         reader read 9 = ok -",
    );
}

#[test]
fn four_ff_cut_after_one_store_leave_the_offset() {
    holds(
        "writer open 0 0 = ok 1000 0
         writer write_header 000000a1 - = ok 998 2 e s 0 a10000000000000000000000
         writer left 1 = ok
         writer write ffffffff = ok 4 0 1 s 20 ffffffff
         writer commit = no 9 0 0
         writer open_append 0 0 = ok 0 0
         writer state = ok 0 0 0 ffffffff 00000000 0 12 0",
    );
}

#[test]
fn a_zero_cut_after_one_store_shuts_the_page() {
    holds(
        "writer open 0 0 = ok 1000 0
         writer write_header 000000a1 - = ok 998 2 e s 0 a10000000000000000000000
         writer left 1 = ok
         writer write 00 = ok 1 1 0
         writer commit = no 9 0 1 s 20 00000000
         writer open_append 0 0 = ok 0 0
         writer state = ok 0 0 0 ffffffff 00000000 0 4096 0
         writer write 01 = ok 0 0 0",
    );
}

/// The start of the answer to a write of so many zeros on an erased page, and the writer's offset and pending after it.
fn write_of(length: usize, h: usize) -> (String, String) {
    let script = format!("writer open 0 {h}\nwriter write {}\nwriter state", "00".repeat(length));
    let told = answers(Mode::Run, &script).unwrap();
    let words = |text: &str, from: usize, to: usize| text.split(' ').collect::<Vec<_>>()[from..to].join(" ");
    (words(&told[1], 0, 4), words(&told[2], 7, 9))
}

#[test]
fn the_longest_payload() {
    // taken, left, operations; then offset and pending
    assert_eq!(write_of(4077, 0), ("ok 4076 997 3".into(), "4096 0".into()));
    assert_eq!(write_of(4076, 0), ("ok 4076 997 3".into(), "4096 0".into()));
    assert_eq!(write_of(4075, 0), ("ok 4075 998 2".into(), "12 4075".into()));
    assert_eq!(write_of(4073, 4), ("ok 4072 998 2".into(), "16 4072".into()));
}

#[test]
fn the_end_of_the_page() {
    holds(
        "writer forge 0 0 0 ffffffff 00000000 0 4088 0 = ok
         writer write 0102030405 = ok 0 1000 0
         writer forge 0 0 0 ffffffff 00000000 0 4084 0 = ok
         writer write 0102030405 = ok 4 999 1 s 4092 01020304
         reader forge 0 0 4076 4 00000000 4 = ok
         flash poke 0 4088 c559000000000000 = ok
         reader is_at_eof = ok 0
         reader state = ok 0 0 4088 0 00000000 0
         reader forge 0 0 4080 4 00000000 4 = ok
         reader is_at_eof = ok 1
         reader state = ok 0 1 4092 4 00000000 4",
    );
}

#[test]
fn the_longest_chunk_length() {
    holds(
        "flash poke 0 12 c559ec0f = ok
         writer open_append 0 0 = ok 1000 0
         writer state = ok 0 0 0 ffffffff 00000000 0 4096 0
         flash poke 0 16 c559ec0f = ok
         writer open_append 0 4 = no 1 1000 0
         flash poke 0 12 c559ed0f = ok
         writer open_append 0 0 = no 1 1000 0",
    );
}

#[test]
fn four_pages_from_seed_seven() {
    holds(
        "alloc reset 4 7 = ok
         alloc try_allocate = ok 3
         alloc try_allocate = ok 0
         alloc try_allocate = ok 1
         alloc try_allocate = ok 2
         alloc try_allocate = none
         alloc free 1 = ok
         alloc try_allocate = ok 1
         alloc free 2 = ok
         alloc free 2 = no 1
         alloc mark_used 3 = no 1
         alloc reset 100 5 = ok
         alloc margin 101 = ok -1",
    );
}

#[test]
fn two_runs_merged() {
    holds(
        "runs bytes 48560001010061314856000101006333 = ok
         runs bytes 485601010000614856000101006232 = ok
         runs end 16 = ok
         runs end 31 = ok
         cursor new none - = ok
         cursor next none - 64 64 = ok 62 32
         cursor next none - 64 64 = ok 63 33
         cursor next none - 64 64 = end
         cursor new none - = ok
         cursor next none - 0 64 = no 2
         cursor state = ok 8 7 gone gone gone gone gone gone gone gone gone gone gone gone gone gone gone
         cursor next none - 1 0 = no 3
         cursor next none - 1 1 = ok 62 32
         cursor new excluded 61 = ok
         cursor state = ok 8 7 gone gone gone gone gone gone gone gone gone gone gone gone gone gone gone
         cursor next excluded 63 1 1 = ok 62 32
         cursor next excluded 63 1 1 = end
         cursor new included 64 = ok
         cursor next none - 64 64 = end",
    );
}

#[test]
fn every_header_length() {
    for h in (0..=64).step_by(4) {
        let header = if h == 0 { "-".into() } else { "5a".repeat(h) };
        let script = format!(
            "writer open 0 {h}\nwriter write_header 000000a1 {header}\nwriter write 0102\nwriter commit\n\
             reader open 000000a1 0 {h}\nreader read 9\nreader state"
        );
        let told = answers(Mode::Run, &script).unwrap();
        assert_eq!(told[4..6], [format!("ok {header}"), "ok 0102".into()]);
        assert!(told[6].starts_with(&format!("ok 0 0 {} 2 ", 12 + h)));
    }
}
