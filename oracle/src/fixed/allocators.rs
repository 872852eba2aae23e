//! The allocator: every count from 1 to 256, seeds below, at and over it, some allocators filled up and emptied.
use crate::rng::Rng;
use crate::script::spaced;

pub fn allocators() -> Vec<String> {
    let mut rng = Rng::new(2);
    let mut calls = document_01();
    for count in 1..=256 {
        let seed = seed(&mut rng, count);
        calls.push(format!("reset {count} {seed}"));
        if [1, 2, 3, 4, 5, 7, 8, 9, 15, 16, 17, 31, 32, 33, 64, 100, 127, 128, 256].contains(&count) {
            filled(&mut rng, &mut calls, count);
        } else {
            mixed(&mut rng, &mut calls, count);
        }
    }
    calls.iter().map(|call| format!("alloc {call}")).collect()
}

/// A new one, and the reference cases.
fn document_01() -> Vec<String> {
    let row = "new|page_count|try_allocate|free_pages|margin 0|margin 256|state|reset 4 7|try_allocate|try_allocate\
        |try_allocate|try_allocate|try_allocate|state|free 1|try_allocate|try_allocate|reset 100 0|margin 101\
        |reset 4 7|try_allocate_each 6|free_each 1 3|free_each 1|state|try_allocate_each 1\
        |free_each|try_allocate_each 0|state";
    row.split('|').map(String::from).collect()
}

/// Below the count, at it, over it, and any.
fn seed(rng: &mut Rng, count: usize) -> usize {
    match count % 5 {
        0 => rng.below(count),
        1 => count - 1,
        2 => count,
        3 => count + 1 + rng.below(1000),
        _ => rng.next() as usize,
    }
}

/// Up to none and once more, then empty in any order, then one page again.
fn filled(rng: &mut Rng, calls: &mut Vec<String>, count: usize) {
    calls.extend((0..count + 2).map(|_| "try_allocate".into()));
    calls.push("used_pages".into());
    calls.extend(rng.shuffled(count).iter().map(|page| format!("free {page}")));
    calls.extend(["free 0", "free_pages", "try_allocate", "state"].map(String::from));
    let pages = spaced(&rng.shuffled(count));
    calls.extend([
        format!("try_allocate_each {}", count.min(255) + 1),
        format!("free_each{pages}"),
        "state".into(),
    ]);
}

/// A few of each call, pages used and free, also those that are refused.
fn mixed(rng: &mut Rng, calls: &mut Vec<String>, count: usize) {
    let page = rng.below(count);
    calls.extend([
        "try_allocate".into(),
        format!("mark_used {page}"),
        format!("is_used {page}"),
    ]);
    calls.extend(["try_allocate".into(), format!("free {page}"), format!("free {page}")]);
    let wanted = rng.below(257);
    calls.push(match count % 4 {
        0 => "used_pages".into(),
        1 => "free_pages".into(),
        2 => "page_count".into(),
        _ => format!("margin {wanted}"),
    });
    calls.push("try_allocate".into());
    if count % 8 == 3 {
        calls.push("state".into());
    }
}
