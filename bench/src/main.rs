//! bench [ROUNDS]: each job by the proved library and by the original, in turn, on the same input. The best time of each counts.
mod inputs;
mod ours;
mod theirs;

use oracle::cursor::peek::Runs;
use oracle::heads::MAGICS;
use oracle::page::PageReader;
use std::hint::black_box;
use std::time::Duration;

const PAGE: u16 = 1;
const PIECE: usize = 64;
const STORES: usize = 1_000_000;

/// The time that this thread was on a processor, so that other processes do not count.
fn clock() -> Duration {
    #[repr(C)]
    struct Time {
        seconds: i64,
        nanoseconds: i64,
    }
    extern "C" {
        fn clock_gettime(clock: i32, time: *mut Time) -> i32;
    }
    const THREAD_CPU_TIME: i32 = 3;
    let mut time = Time {
        seconds: 0,
        nanoseconds: 0,
    };
    // SAFETY: Linux on a machine of 64 bits fills a time of this layout.
    let answer = unsafe { clock_gettime(THREAD_CPU_TIME, &mut time) };
    assert_eq!(answer, 0, "no such clock");
    Duration::new(time.seconds as u64, time.nanoseconds as u32)
}

#[cfg(zlib)]
fn zlib_crc32(bytes: &[u8]) -> u64 {
    extern "C" {
        fn crc32(crc: std::ffi::c_ulong, bytes: *const u8, count: std::ffi::c_uint) -> std::ffi::c_ulong;
    }
    // SAFETY: zlib reads that many bytes from there on.
    #[allow(clippy::useless_conversion)]
    unsafe { crc32(0, bytes.as_ptr(), bytes.len() as std::ffi::c_uint) }.into()
}

/// A job by one side, and how to run it once.
struct Side<'a> {
    name: &'static str,
    run: Box<dyn FnMut() -> u64 + 'a>,
    best: Duration,
}

fn side<'a>(name: &'static str, run: impl FnMut() -> u64 + 'a) -> Side<'a> {
    Side {
        name,
        run: Box::new(run),
        best: Duration::MAX,
    }
}

/// Stops where two sides do not come to the same.
fn agree(job: &str, sides: &mut [Side]) {
    let first = (sides[0].run)();
    for other in &mut sides[1..] {
        let got = (other.run)();
        if got != first {
            eprintln!(
                "bench: {job}: the library comes to {first:#x}, {} to {got:#x}",
                other.name
            );
            std::process::exit(1);
        }
    }
}

fn measure(job: &str, times: u32, rounds: u32, mut sides: Vec<Side>) {
    agree(job, &mut sides);
    let count = sides.len();
    for round in 0..rounds as usize {
        // Another side is the first in each round.
        for turn in 0..count {
            let side = &mut sides[(round + turn) % count];
            let start = clock();
            for _ in 0..times {
                black_box((side.run)());
            }
            side.best = side.best.min(clock() - start);
        }
    }
    agree(job, &mut sides);
    let each = |side: &Side| side.best.as_nanos() as f64 / f64::from(times);
    let ours = each(&sides[0]);
    for other in &sides[1..] {
        let theirs = each(other);
        println!(
            "| {job} | {} | {ours:.0} | {theirs:.0} | {:.2} |",
            other.name,
            ours / theirs
        );
    }
}

/// All engines at every length from no byte to a full payload.
fn compare_sums(payload: &[u8]) {
    for count in 0..=payload.len() {
        let bytes = &payload[..count];
        let mut sums = vec![
            side("the library", || ours::crc32(bytes).into()),
            side("four bits at a time", || ours::crc32_nibble(bytes).into()),
            side("the original", || theirs::crc32(bytes).into()),
        ];
        #[cfg(zlib)]
        sums.push(side("zlib", || zlib_crc32(bytes)));
        agree(&format!("the sum of {count} bytes"), &mut sums);
    }
}

/// Both merges side by side at some of their entries, key and value in full.
fn compare_entries(bytes: &[u8], ends: &[usize], runs: &Runs<theirs::Files>) {
    let mut numbers = inputs::Numbers(1);
    for i in 0..400 {
        let most = if i < 200 { i } else { numbers.below(10_500) as usize };
        let (mut key, mut value) = ([0; 64], [0; 1024]);
        let (mut key2, mut value2) = ([0; 64], [0; 1024]);
        let a = ours::merge(bytes, ends, most, &mut key, &mut value);
        let b = theirs::merge(runs, most, &mut key2, &mut value2);
        if (a, key, value) != (b, key2, value2) {
            eprintln!("bench: the merges differ within their first {most} entries");
            std::process::exit(1);
        }
    }
}

fn main() {
    let rounds: u32 = match std::env::args().nth(1).map(|word| word.parse()) {
        None => 300,
        Some(Ok(n)) => n,
        Some(Err(_)) => {
            eprintln!("usage: bench [ROUNDS]");
            std::process::exit(2);
        }
    };
    println!("best of {rounds} rounds, {}", std::env::consts::ARCH);
    println!();
    println!("| job | beside | library, ns | other, ns | ratio |");
    println!("|---|---|---|---|---|");

    let payload = inputs::payload();
    compare_sums(&payload);
    for (count, named, times) in [(8, "8", 10_000), (64, "64", 2_000), (inputs::PAYLOAD, "4,076", 100)] {
        let bytes = &payload[..count];
        let job = format!("the sum of {named} bytes");
        let mut sums = vec![
            side("the library", || ours::crc32(black_box(bytes)).into()),
            side("the original", || theirs::crc32(black_box(bytes)).into()),
            side("four bits at a time", || ours::crc32_nibble(black_box(bytes)).into()),
        ];
        #[cfg(zlib)]
        sums.push(side("zlib", || zlib_crc32(black_box(bytes))));
        measure(&job, times, rounds, sums);
        #[cfg(not(zlib))]
        println!("| {job} | zlib | left out: no libz.so here | | |");
    }

    let mut flash = vec![0; 4 * 4096];
    let mut memory = theirs::Memory(flash.clone());
    let sides = vec![
        side("the library", || {
            let told = ours::write_page(black_box(&mut flash), MAGICS[0], PAGE, &[], &payload, PIECE, STORES);
            told + u64::from(ours::crc32(&flash[4096..4096 + 64]))
        }),
        side("the original", || {
            let told = theirs::write_page(black_box(&mut memory), PAGE, &payload, PIECE);
            told + u64::from(ours::crc32(&memory.0[4096..4096 + 64]))
        }),
    ];
    measure(
        "a full page written in pieces of 64 bytes and committed",
        20,
        rounds,
        sides,
    );
    if flash != memory.0 || flash[4096 + 20..8192] != payload {
        eprintln!("bench: the pages differ that were written");
        std::process::exit(1);
    }

    let mut reader = PageReader::new();
    let (mut out, mut out2) = ([0; 5000], [0; 5000]);
    let sides = vec![
        side("the library", || {
            ours::read_page(black_box(&flash), MAGICS[0], PAGE, &mut [], &mut out)
        }),
        side("the original", || {
            theirs::read_page(&mut reader, black_box(&mut memory), PAGE, &mut out2)
        }),
    ];
    measure("a full page opened and read", 100, rounds, sides);
    if out != out2 || out[..payload.len()] != payload {
        eprintln!("bench: the pages differ that were read");
        std::process::exit(1);
    }

    let (mut places, mut places2) = ([0; 256], [0; 256]);
    let sides = vec![
        side("the library", || {
            ours::alloc_each(black_box(256), black_box(77), &mut places)
        }),
        side("the original", || {
            theirs::alloc_each(black_box(256), black_box(77), &mut places2)
        }),
    ];
    measure("256 pages allocated and freed", 100, rounds, sides);
    if places != places2 || places[0] != 77 {
        eprintln!("bench: the pages differ that were handed out");
        std::process::exit(1);
    }

    let sides = vec![
        side("the library", || ours::alloc_cycle(black_box(256), black_box(77))),
        side("the original", || theirs::alloc_cycle(black_box(256), black_box(77))),
    ];
    measure("the same, a call for each page", 100, rounds, sides);

    let runs = inputs::runs();
    let bytes = runs.concat();
    let ends: Vec<usize> = runs
        .iter()
        .scan(0, |end, run| {
            *end += run.len();
            Some(*end)
        })
        .collect();
    let runs = Runs::new(theirs::Files(runs));
    compare_entries(&bytes, &ends, &runs);
    let (mut key, mut value) = ([0; 64], [0; 1024]);
    let (mut key2, mut value2) = ([0; 64], [0; 1024]);
    let sides = vec![
        side("the library", || {
            ours::merge(black_box(&bytes), &ends, usize::MAX, &mut key, &mut value)
        }),
        side("the original", || {
            theirs::merge(black_box(&runs), usize::MAX, &mut key2, &mut value2)
        }),
    ];
    measure("17 runs of 1,000 records merged", 1, rounds, sides);
    if (key, value) != (key2, value2) {
        eprintln!("bench: the last entries differ");
        std::process::exit(1);
    }
}
