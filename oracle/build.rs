//! Finds the original's sources and tells the compiler where they are. They are read from there, unchanged: none of their text is kept here.
use std::path::{Path, PathBuf};
use std::{env, fs};

/// The files that are built, with the length of each and its sum by the rule of `sum`: those that the recorded answers come from.
const FILES: [(&str, usize, u64); 4] = [
    ("types/mod.rs", 2765, 0x9c37_87a7_668c_5391),
    ("alloc.rs", 3202, 0x2f44_ae6a_d201_3656),
    ("page.rs", 17713, 0xe27d_b0fd_17e0_1d08),
    ("cursor.rs", 10233, 0xd2a1_00a4_0001_73a9),
];

fn main() {
    println!("cargo::rerun-if-env-changed=EKV_SRC");
    println!("cargo::rerun-if-changed=build.rs");
    let at = sources();
    for (name, length, known) in FILES {
        let file = at.join(name);
        println!("cargo::rerun-if-changed={}", file.display());
        let Ok(text) = fs::read(&file) else {
            println!(
                "cargo::error=no {name} in {}: set EKV_SRC to the directory of the original's sources",
                at.display()
            );
            return;
        };
        compare(name, &text, length, known);
    }
    println!("cargo::rustc-env=EKV_SRC_AT={}", at.display());
    println!("cargo::rustc-cfg=feature=\"crc\"");
}

/// EKV_SRC, or the directory beside the repository. Either counts from the repository's root.
fn sources() -> PathBuf {
    let package = env::var("CARGO_MANIFEST_DIR").unwrap();
    let named = env::var("EKV_SRC").unwrap_or("../shared/docs/src".into());
    let at = Path::new(&package).join("..").join(named);
    at.canonicalize().unwrap_or(at)
}

fn compare(name: &str, text: &[u8], length: usize, known: u64) {
    if text.len() != length || sum(text) != known {
        println!(
            "cargo::warning={name} is not the file that the recorded answers come from: {} bytes, sum {:#x}",
            text.len(),
            sum(text)
        );
    }
}

/// FNV-1a of 64 bits.
fn sum(text: &[u8]) -> u64 {
    let mut sum = 0xcbf2_9ce4_8422_2325;
    for byte in text {
        sum = (sum ^ u64::from(*byte)).wrapping_mul(0x100_0000_01b3);
    }
    sum
}
