//! The scripts whose answers are recorded: always the same.
mod allocators;
mod cursors;
mod readers;
mod writers;

use crate::rng::Rng;
use crate::script::hex;

/// The script of this name.
pub fn script(name: &str) -> Option<Vec<String>> {
    match name {
        "crc" => Some(sums()),
        "alloc" => Some(allocators::allocators()),
        "reader" => Some(readers::readers()),
        "writer" => Some(writers::writers()),
        "cursor" => Some(cursors::cursors()),
        _ => None,
    }
}

/// The published check value, small ones, five whole payloads, and 200 random lengths.
fn sums() -> Vec<String> {
    let mut rng = Rng::new(1);
    let mut inputs = vec![vec![], vec![0x00], vec![0xFF; 4], b"123456789".to_vec()];
    inputs.push(vec![0x00; 4076]);
    inputs.push(vec![0xFF; 4076]);
    inputs.push((0..4076).map(|i| i as u8).collect());
    inputs.extend((0..2).map(|_| any(&mut rng, 4076)));
    for _ in 0..200 {
        let length = rng.below(300);
        inputs.push(any(&mut rng, length));
    }
    inputs.iter().map(|bytes| format!("crc {}", hex(bytes))).collect()
}

fn any(rng: &mut Rng, length: usize) -> Vec<u8> {
    (0..length).map(|_| rng.next() as u8).collect()
}
